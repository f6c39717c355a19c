//! The calls of the static library, as `crates/ist_c/include/ist.h` declares them, behind types of Rust. Each `unsafe`
//! call has its reason here, and what this module gives to others is safe to use in any way.
//!
//! The library finds out by itself whether two handles are of one tree. The number of a tree here is for the maps over it.

use crate::{Error, Full};
use std::ffi::c_void;
use std::ptr::null_mut;
use std::sync::atomic::{AtomicU64, Ordering};

const DONE: u32 = 0;
const MEMORY: u32 = 1;
const SMALL: u32 = 2;
const BUSY: u32 = 3;
const MISUSE: u32 = 4;
const FULL: u32 = 5;
const NO_KEY: u32 = 6;

/// The most words that a tree has.
pub(crate) const MOST_WORDS: u32 = 1 << 28;

/// A key with its value.
#[repr(C)]
#[derive(Clone, Copy, Debug, Default, PartialEq, Eq, Hash)]
pub struct Pair {
    /// The key.
    pub key: u64,
    /// Its value.
    pub value: u64,
}

#[repr(C)]
struct CallResult {
    status: u32,
    some: bool,
    value: u64,
}

#[repr(C)]
#[derive(Default)]
struct Shortage {
    next: u64,
    asked: u64,
    words: u64,
}

// How many pairs of a range were written, and the key to go on from if keys are left.
#[repr(C)]
#[derive(Default)]
struct Piece {
    count: u64,
    more: bool,
    next: u64,
}

/// How far a closed tree was filled.
#[repr(C)]
#[derive(Clone, Copy, Debug, Default, PartialEq, Eq, Hash)]
pub struct Stats {
    /// How many keys have values.
    pub keys: u64,
    /// How many words the tree had.
    pub words: u64,
    /// How many of these its pairs and updates used.
    pub used: u64,
}

// What the library holds for a caller. It is never copied, and each call has it by `&mut`.
#[repr(C)]
struct Handle {
    full: bool,
    at: *mut c_void,
}

impl Handle {
    const fn new() -> Handle {
        Handle { full: false, at: null_mut() }
    }
}

// SAFETY: that the handle's type can be sent to another thread is proved in `ist_handles` (`Opaque`). A handle is moved and never
// shared: each call takes it by `&mut`, so it needn't be `Sync`. What it points to is plain memory that only its holder reads and
// writes, which any move of safe Rust orders, be it by a channel or by an atomic with release and acquire. What threads share
// besides are words and counts that the library reads and writes by sequentially consistent atomics alone. Their one order has the
// steps that a thread made before such a move before those made after it (in C++20, on which Rust's atomics rest, they strongly
// happen before them), as it would have if the move were one of these steps.
unsafe impl Send for Handle {}

impl Drop for Handle {
    fn drop(&mut self) {
        // SAFETY: a handle of any kind may be freed, also an empty one, and this one is the call's alone.
        unsafe { ist_free(self) }
    }
}

unsafe extern "C" {
    fn ist_words_for(pairs: u64) -> u64;
    fn ist_open(words: u32, entries: *const Pair, count: usize, out: *mut Handle) -> u32;
    fn ist_new_pass(owner: *mut Handle, out: *mut Handle) -> u32;
    fn ist_find(pass: *mut Handle, key: u64) -> CallResult;
    fn ist_put(pass: *mut Handle, key: u64, value: u64, why: *mut Shortage) -> CallResult;
    fn ist_remove(pass: *mut Handle, key: u64, why: *mut Shortage) -> CallResult;
    fn ist_put_new(pass: *mut Handle, key: u64, value: u64, why: *mut Shortage) -> CallResult;
    fn ist_put_if(pass: *mut Handle, key: u64, expected: u64, value: u64, why: *mut Shortage) -> CallResult;
    fn ist_remove_if(pass: *mut Handle, key: u64, expected: u64, why: *mut Shortage) -> CallResult;
    fn ist_at_least(pass: *mut Handle, key: u64, found: *mut Pair) -> u32;
    fn ist_at_most(pass: *mut Handle, key: u64, found: *mut Pair) -> u32;
    fn ist_list_range(pass: *mut Handle, first: u64, last: u64, room: *mut Pair, rooms: usize, piece: *mut Piece) -> u32;
    fn ist_list_live(pass: *mut Handle, first: u64, last: u64, room: *mut Pair, rooms: usize, count: *mut u64) -> u32;
    fn ist_room(pass: *mut Handle, words: *mut u64) -> u32;
    fn ist_shot_words(pairs: u64) -> u64;
    fn ist_take_shot(pass: *mut Handle, words: u64, why: *mut Shortage) -> u32;
    fn ist_count_shot(shot: *mut Handle, count: *mut u64) -> u32;
    fn ist_list_shot(shot: *mut Handle, first: u64, last: u64, room: *mut Pair, rooms: usize, piece: *mut Piece) -> u32;
    fn ist_drop_shot(shot: *mut Handle) -> u32;
    fn ist_write_note(pass: *mut Handle, out: *mut Handle) -> u32;
    fn ist_meet(pass: *mut Handle, note: *mut Handle) -> u32;
    fn ist_give_back(owner: *mut Handle, pass: *mut Handle) -> u32;
    fn ist_reopen(owner: *mut Handle, words: u32) -> u32;
    fn ist_close(owner: *mut Handle) -> u32;
    fn ist_list(closed: *mut Handle, from: u64, room: *mut Pair, rooms: usize, count: *mut u64) -> u32;
    fn ist_count(closed: *mut Handle, stats: *mut Stats) -> u32;
    fn ist_free(handle: *mut Handle);
}

fn checked(status: u32) -> Result<(), Error> {
    match status {
        DONE => Ok(()),
        MEMORY => Err(Error::Memory),
        SMALL => Err(Error::Words),
        BUSY => Err(Error::Leaked),
        MISUSE => Err(Error::Words),
        other => unreachable!("the status {other}"),
    }
}

// The reply of an update, or why it was refused.
fn replied(called: CallResult, why: Shortage) -> Result<Option<u64>, Full> {
    if called.status == FULL {
        return Err(Full { next: why.next, asked: why.asked, words: why.words });
    }
    assert_eq!(called.status, DONE, "the status of an update");
    Ok(called.some.then_some(called.value))
}

/// How many words of 8 bytes a tree of this many pairs takes at least; 0 if there are 2^32 or more.
pub(crate) fn words_for(pairs: u64) -> u64 {
    // SAFETY: it asks for nothing.
    unsafe { ist_words_for(pairs) }
}

/// How many words a shot of this many pairs takes at most, if its pass alone takes words; 0 if there are 2^32 or more.
pub(crate) fn shot_words(pairs: u64) -> u64 {
    // SAFETY: it asks for nothing.
    unsafe { ist_shot_words(pairs) }
}

/// The number of a tree, which no other tree of the process has.
pub(crate) type TreeNumber = u64;

fn next_number() -> TreeNumber {
    static NEXT: AtomicU64 = AtomicU64::new(0);
    NEXT.fetch_add(1, Ordering::Relaxed)
}

/// A tree with its maker, or a closed tree.
pub(crate) struct Owner {
    handle: Handle,
    tree: TreeNumber,
    is_open: bool,
    // The handle holds the pairs that are left.
    is_listed: bool,
    // How many passes of this tree were made, and those of them that were given back, which serve again.
    made: u32,
    spare: Vec<Handle>,
}

impl Owner {
    /// Opens a tree of these pairs, of two with one key the later, with this many words.
    pub(crate) fn open(words: u32, pairs: &[Pair]) -> Result<Owner, Error> {
        let mut handle = Handle::new();
        // SAFETY: pointer and length are those of one slice, and `handle` is the call's alone.
        checked(unsafe { ist_open(words, pairs.as_ptr(), pairs.len(), &mut handle) })?;
        Ok(Owner { handle, tree: next_number(), is_open: true, is_listed: false, made: 0, spare: Vec::new() })
    }

    /// The number of its tree.
    pub(crate) fn tree(&self) -> TreeNumber {
        self.tree
    }

    /// Returns a pass: one that was given back if there is one, and else a new one.
    pub(crate) fn pass(&mut self) -> Result<PassHandle, Error> {
        if !self.is_open {
            return Err(Error::Closed);
        }
        let handle = match self.spare.pop() {
            Some(handle) => handle,
            None => self.make()?,
        };
        Ok(PassHandle { handle, tree: self.tree })
    }

    fn make(&mut self) -> Result<Handle, Error> {
        let made = self.made.checked_add(1).ok_or(Error::Passes)?;
        // so that giving passes back takes no memory
        self.spare.try_reserve(made as usize - self.spare.len()).map_err(|_| Error::Memory)?;
        let mut handle = Handle::new();
        // SAFETY: both handles are the call's alone.
        checked(unsafe { ist_new_pass(&mut self.handle, &mut handle) })?;
        self.made = made;
        Ok(handle)
    }

    /// Gives a pass back, which serves again.
    ///
    /// # Panics
    ///
    /// If the pass is of another tree.
    pub(crate) fn give_back(&mut self, pass: PassHandle) {
        assert_eq!(self.tree, pass.tree, "the pass is of another tree");
        self.spare.push(pass.handle);
    }

    // Gives the library back what was given back, as it wants before it closes the tree.
    fn give_back_all(&mut self) {
        for mut pass in self.spare.drain(..) {
            // SAFETY: both handles are the call's alone.
            let status = unsafe { ist_give_back(&mut self.handle, &mut pass) };
            assert_eq!(status, DONE);
        }
    }

    /// Closes the tree, and opens one of its pairs with this many words. If that fails for want of words or of memory the
    /// owner holds the closed tree, and the call may be made again. If a pass or a note is out, all is as before.
    pub(crate) fn reopen(&mut self, words: u32) -> Result<(), Error> {
        if words > MOST_WORDS {
            return Err(Error::Words);
        }
        self.give_back_all();
        // SAFETY: the handle is the call's alone.
        let status = unsafe { ist_reopen(&mut self.handle, words) };
        match status {
            DONE => {
                self.tree = next_number();
                self.made = 0;
                self.is_open = true;
            }
            MEMORY | SMALL => self.is_open = false,
            _ => {}
        }
        checked(status)
    }

    /// Closes the tree, and returns its pairs in increasing order of keys, and how far it was filled. If that fails, nothing is lost, and
    /// the call may be made again.
    pub(crate) fn close(&mut self) -> Result<(Vec<Pair>, Stats), Error> {
        self.give_back_all();
        let mut stats = Stats::default();
        if !self.is_listed {
            // SAFETY: the handle is the call's alone, here and in the calls below, and so is `stats`.
            let status = unsafe { ist_close(&mut self.handle) };
            self.is_open &= status == BUSY;
            checked(status)?;
            self.is_listed = true;
        }
        let owner = &mut self.handle;
        // SAFETY: as above.
        checked(unsafe { ist_count(owner, &mut stats) })?;
        let mut pairs = Vec::new();
        pairs.try_reserve_exact(stats.keys as usize).map_err(|_| Error::Memory)?;
        pairs.resize(stats.keys as usize, Pair::default());
        let mut count = 0;
        // SAFETY: pointer and length are those of one slice, and `count` is the call's alone.
        checked(unsafe { ist_list(owner, 0, pairs.as_mut_ptr(), pairs.len(), &mut count) })?;
        assert_eq!(count, stats.keys);
        Ok((pairs, stats))
    }
}

/// What one call at a time calls a tree by.
pub(crate) struct PassHandle {
    handle: Handle,
    tree: TreeNumber,
}

impl PassHandle {
    /// The number of its tree.
    pub(crate) fn tree(&self) -> TreeNumber {
        self.tree
    }

    pub(crate) fn find(&mut self, key: u64) -> Option<u64> {
        // SAFETY: the handle is the call's alone.
        let called = unsafe { ist_find(&mut self.handle, key) };
        assert_eq!(called.status, DONE);
        called.some.then_some(called.value)
    }

    /// Puts the value at the key, or removes the key if there is none.
    pub(crate) fn update(&mut self, key: u64, value: Option<u64>) -> Result<Option<u64>, Full> {
        let mut why = Shortage::default();
        let pass = &mut self.handle;
        // SAFETY: the handle is the call's alone, and so is `why`.
        let called = unsafe {
            match value {
                Some(value) => ist_put(pass, key, value, &mut why),
                None => ist_remove(pass, key, &mut why),
            }
        };
        replied(called, why)
    }

    /// The same if the key has what is expected, and else a find.
    pub(crate) fn update_if(&mut self, key: u64, expected: Option<u64>, new: Option<u64>) -> Result<Option<u64>, Full> {
        let mut why = Shortage::default();
        let pass = &mut self.handle;
        // SAFETY: the handle is the call's alone, and so is `why`.
        let called = unsafe {
            match (expected, new) {
                (None, None) => ist_find(pass, key),
                (None, Some(new)) => ist_put_new(pass, key, new, &mut why),
                (Some(expected), Some(new)) => ist_put_if(pass, key, expected, new, &mut why),
                (Some(expected), None) => ist_remove_if(pass, key, expected, &mut why),
            }
        };
        replied(called, why)
    }

    /// The pair with the least key that is at least this one.
    pub(crate) fn at_least(&mut self, key: u64) -> Option<Pair> {
        let mut found = Pair::default();
        // SAFETY: the handle is the call's alone, and so is `found`.
        let status = unsafe { ist_at_least(&mut self.handle, key, &mut found) };
        assert!(status == DONE || status == NO_KEY);
        (status == DONE).then_some(found)
    }

    /// The pair with the greatest key that is at most this one.
    pub(crate) fn at_most(&mut self, key: u64) -> Option<Pair> {
        let mut found = Pair::default();
        // SAFETY: the handle is the call's alone, and so is `found`.
        let status = unsafe { ist_at_most(&mut self.handle, key, &mut found) };
        assert!(status == DONE || status == NO_KEY);
        (status == DONE).then_some(found)
    }

    /// Writes the pairs from `first` to `last`, as many as there is room for. Returns how many these are, and the key to go
    /// on from if keys are left.
    pub(crate) fn list(&mut self, first: u64, last: u64, room: &mut [Pair]) -> (usize, Option<u64>) {
        if room.is_empty() {
            return (0, (first <= last).then_some(first));
        }
        let mut piece = Piece::default();
        let (at, rooms) = (room.as_mut_ptr(), room.len());
        // SAFETY: pointer and length are those of one slice, and the handle and `piece` are the call's alone.
        let status = unsafe { ist_list_range(&mut self.handle, first, last, at, rooms, &mut piece) };
        assert_eq!(status, DONE);
        (piece.count as usize, piece.more.then_some(piece.next))
    }

    /// Appends the pairs from `first` to `last`, found in one walk; in two if they are more than there is room for, or than twice as
    /// many as are expected.
    pub(crate) fn append(&mut self, first: u64, last: u64, expected: usize, pairs: &mut Vec<Pair>) -> Result<(), Error> {
        let begun = pairs.len();
        let mut rooms = (pairs.capacity() - begun).min(2 * expected + 64);
        loop {
            pairs.resize(begun + rooms, Pair::default());
            let (at, mut count) = (pairs[begun..].as_mut_ptr(), 0);
            // SAFETY: pointer and length are those of one slice, and the handle and `count` are the call's alone.
            let status = unsafe { ist_list_live(&mut self.handle, first, last, at, rooms, &mut count) };
            let count = count as usize;
            if status == DONE && count <= rooms {
                pairs.truncate(begun + count);
                return Ok(());
            }
            pairs.truncate(begun);
            if status == MEMORY {
                return Err(Error::Memory);
            }
            assert_eq!(status, DONE);
            // others may put some more meanwhile
            rooms = count + count / 8;
            pairs.try_reserve(rooms).map_err(|_| Error::Memory)?;
        }
    }

    /// How many words of the tree are left, at a moment of the call.
    pub(crate) fn room(&mut self) -> u64 {
        let mut words = 0;
        // SAFETY: the handle is the call's alone, and so is `words`.
        let status = unsafe { ist_room(&mut self.handle, &mut words) };
        assert_eq!(status, DONE);
        words
    }

    /// Takes a shot of the map, if at least this many words are left at a moment of the call. Else the pass is returned, with the
    /// numbers of the refusal.
    pub(crate) fn into_shot(mut self, words: u64) -> Result<ShotHandle, (PassHandle, Full)> {
        let mut why = Shortage::default();
        // SAFETY: the handle is the call's alone, and so is `why`.
        let status = unsafe { ist_take_shot(&mut self.handle, words, &mut why) };
        if status == FULL {
            return Err((self, Full { next: why.next, asked: why.asked, words: why.words }));
        }
        assert_eq!(status, DONE);
        Ok(ShotHandle { handle: self.handle, tree: self.tree })
    }

    /// Makes a note of what the pass has seen.
    pub(crate) fn note(&mut self) -> Result<NoteHandle, Error> {
        let mut handle = Handle::new();
        // SAFETY: both handles are the call's alone.
        checked(unsafe { ist_write_note(&mut self.handle, &mut handle) })?;
        Ok(NoteHandle { handle })
    }

    /// Lets the pass learn what the note holds.
    ///
    /// # Panics
    ///
    /// If the note is of another tree.
    pub(crate) fn meet(&mut self, mut note: NoteHandle) {
        // SAFETY: both handles are the call's alone.
        let status = unsafe { ist_meet(&mut self.handle, &mut note.handle) };
        assert_ne!(status, MISUSE, "the note is of another tree");
        assert_eq!(status, DONE);
    }
}

/// A pass with the shot that it took.
pub(crate) struct ShotHandle {
    handle: Handle,
    tree: TreeNumber,
}

impl ShotHandle {
    /// How many pairs the shot has.
    pub(crate) fn count(&mut self) -> u64 {
        let mut count = 0;
        // SAFETY: the handle is the call's alone, and so is `count`.
        let status = unsafe { ist_count_shot(&mut self.handle, &mut count) };
        assert_eq!(status, DONE);
        count
    }

    /// As [`PassHandle::list`], of the shot.
    pub(crate) fn list(&mut self, first: u64, last: u64, room: &mut [Pair]) -> (usize, Option<u64>) {
        if room.is_empty() {
            return (0, (first <= last).then_some(first));
        }
        let mut piece = Piece::default();
        let (at, rooms) = (room.as_mut_ptr(), room.len());
        // SAFETY: pointer and length are those of one slice, and the handle and `piece` are the call's alone.
        let status = unsafe { ist_list_shot(&mut self.handle, first, last, at, rooms, &mut piece) };
        assert_eq!(status, DONE);
        (piece.count as usize, piece.more.then_some(piece.next))
    }

    /// Drops the shot, and returns its pass.
    pub(crate) fn into_pass(mut self) -> PassHandle {
        // SAFETY: the handle is the call's alone.
        let status = unsafe { ist_drop_shot(&mut self.handle) };
        assert_eq!(status, DONE);
        PassHandle { handle: self.handle, tree: self.tree }
    }
}

/// What a pass had seen.
pub(crate) struct NoteHandle {
    handle: Handle,
}

#[cfg(test)]
mod tests {
    use super::Owner;
    use crate::Error;

    #[test]
    fn passes_that_are_given_back_serve_again() {
        let mut owner = Owner::open(1000, &[]).unwrap();
        let out: Vec<_> = (0..3).map(|_| owner.pass().unwrap()).collect();
        out.into_iter().for_each(|pass| owner.give_back(pass));
        for _ in 0..100 {
            let (one, two) = (owner.pass().unwrap(), owner.pass().unwrap());
            owner.give_back(two);
            owner.give_back(one);
        }
        assert_eq!((owner.made, owner.spare.len()), (3, 3));
        owner.reopen(2000).unwrap();
        assert_eq!((owner.made, owner.spare.len()), (0, 0));
        let pass = owner.pass().unwrap();
        owner.give_back(pass);
        assert_eq!(owner.close().map(|(pairs, _)| pairs), Ok(vec![]));
    }

    #[test]
    fn passes_run_out_with_an_error_of_its_own() {
        let mut owner = Owner::open(1000, &[]).unwrap();
        let pass = owner.pass().unwrap();
        owner.made = u32::MAX;
        assert_eq!(owner.pass().err(), Some(Error::Passes));
        owner.give_back(pass);
        let again = owner.pass().unwrap();
        owner.give_back(again);
        assert_eq!(owner.reopen(1000), Ok(()));
        assert!(owner.pass().is_ok());
    }

    #[test]
    fn a_pass_that_is_leaked_keeps_the_tree_open() {
        let mut owner = Owner::open(1000, &[]).unwrap();
        let (kept, leaked) = (owner.pass().unwrap(), owner.pass().unwrap());
        std::mem::forget(leaked);
        owner.give_back(kept);
        assert_eq!(owner.reopen(1000), Err(Error::Leaked));
        let mut pass = owner.pass().unwrap();
        assert_eq!(pass.update(7, Some(70)), Ok(None));
        owner.give_back(pass);
        assert_eq!(owner.close().err(), Some(Error::Leaked));
    }
}
