//! Small numbers for the parts of a map, so that a slot finds what it has of a part without a search.

use super::locked;
use crate::Error;
use crate::shared::Shared;
use std::sync::Mutex;

/// The numbers that no part has.
pub(super) struct Numbers {
    free: Mutex<Free>,
}

#[derive(Default)]
struct Free {
    // The least number that no part had.
    next: u32,
    back: Vec<u32>,
}

impl Numbers {
    pub(super) fn new() -> Result<Shared<Numbers>, Error> {
        Shared::new(Numbers { free: Mutex::default() })
    }
}

/// A number that no other part of the map has as long as this isn't dropped.
pub(super) struct Number {
    at: u32,
    of: Shared<Numbers>,
}

impl Number {
    pub(super) fn of(numbers: &Shared<Numbers>) -> Result<Number, Error> {
        let mut free = locked(&numbers.free);
        let at = match free.back.pop() {
            Some(at) => at,
            None => {
                // so that giving numbers back takes no memory
                let room = free.next as usize + 1;
                free.back.try_reserve(room).map_err(|_| Error::Memory)?;
                free.next = free.next.checked_add(1).ok_or(Error::Memory)?;
                free.next - 1
            }
        };
        Ok(Number { at, of: numbers.clone() })
    }

    pub(super) fn at(&self) -> usize {
        self.at as usize
    }
}

impl Drop for Number {
    fn drop(&mut self) {
        locked(&self.of.free).back.push(self.at);
    }
}

#[cfg(test)]
mod tests {
    use super::{Number, Numbers};

    #[test]
    fn numbers_are_small_and_differ() {
        let numbers = Numbers::new().unwrap();
        let mut all: Vec<Number> = (0..5).map(|_| Number::of(&numbers).unwrap()).collect();
        all.swap_remove(1);
        all.push(Number::of(&numbers).unwrap());
        all.push(Number::of(&numbers).unwrap());
        let mut at: Vec<usize> = all.iter().map(Number::at).collect();
        at.sort();
        assert_eq!(at, [0, 1, 2, 3, 4, 5]);
    }
}
