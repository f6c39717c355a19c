//! A counted reference, as std's `Arc`, except that making one returns an error when memory runs out: `Arc::new` ends the process.

use crate::Error;
use std::ops::Deref;
use std::ptr::{NonNull, slice_from_raw_parts_mut};
use std::sync::atomic::{AtomicUsize, Ordering, fence};

struct Counted<T> {
    references: AtomicUsize,
    value: T,
}

/// A reference to a value that is dropped with its last reference.
pub(crate) struct Shared<T> {
    // From a leaked box of one element, which stands until the count is 0.
    counted: NonNull<Counted<T>>,
}

// SAFETY: as for `Arc`: any of the threads may read the value through its reference, and the one with the last reference drops it.
unsafe impl<T: Send + Sync> Send for Shared<T> {}

// SAFETY: as above, since a thread that borrows a reference may clone it.
unsafe impl<T: Send + Sync> Sync for Shared<T> {}

impl<T> Shared<T> {
    pub(crate) fn new(value: T) -> Result<Shared<T>, Error> {
        let mut room = Vec::new();
        room.try_reserve_exact(1).map_err(|_| Error::Memory)?;
        room.push(Counted { references: AtomicUsize::new(1), value });
        Ok(Shared { counted: NonNull::from(Box::leak(room.into_boxed_slice())).cast() })
    }
}

impl<T> Deref for Shared<T> {
    type Target = T;

    fn deref(&self) -> &T {
        // SAFETY: this reference is counted, so the box stands, and nobody has it by `&mut`.
        unsafe { &self.counted.as_ref().value }
    }
}

impl<T> Clone for Shared<T> {
    fn clone(&self) -> Shared<T> {
        // SAFETY: this reference is counted, so the box stands.
        unsafe { self.counted.as_ref() }.references.fetch_add(1, Ordering::Relaxed);
        Shared { counted: self.counted }
    }
}

impl<T> Drop for Shared<T> {
    fn drop(&mut self) {
        // SAFETY: this reference is still counted, so the box stands.
        if unsafe { self.counted.as_ref() }.references.fetch_sub(1, Ordering::Release) == 1 {
            // what other threads did by their references comes before the drop
            fence(Ordering::Acquire);
            // SAFETY: the last reference is gone, and the pointer is that of a leaked box of one element.
            drop(unsafe { Box::from_raw(slice_from_raw_parts_mut(self.counted.as_ptr(), 1)) });
        }
    }
}

#[cfg(test)]
mod tests {
    use super::Shared;
    use std::sync::atomic::{AtomicUsize, Ordering};
    use std::thread::scope;

    struct Dropped<'c>(&'c AtomicUsize);

    impl Drop for Dropped<'_> {
        fn drop(&mut self) {
            self.0.fetch_add(1, Ordering::SeqCst);
        }
    }

    #[test]
    fn a_value_is_dropped_once_and_with_its_last_reference() {
        let drops = AtomicUsize::new(0);
        let one = Shared::new(Dropped(&drops)).unwrap();
        scope(|scope| {
            for _ in 0..4 {
                let mine = one.clone();
                scope.spawn(move || (0..1000).for_each(|_| drop(mine.clone())));
            }
        });
        assert_eq!(drops.load(Ordering::SeqCst), 0);
        drop(one);
        assert_eq!(drops.load(Ordering::SeqCst), 1);
    }
}
