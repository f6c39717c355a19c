//! A map that grows while others call it, and whose calls take `&self`.
//!
//! The map has parts, each with the keys from its first to its last one in a tree of the library, which has a fixed number of words. The
//! directory says which part has a key. It is never changed: another one replaces it, and the version says so.
//!
//! The library's tree has passes, each for one call at a time. The map keeps them in slots, and a call locks a slot: its thread's own, or
//! the next one that is free. So threads share no lock, as long as no more have called maps than there are slots.
//!
//! A part keeps the pairs with which its tree was opened, and each update that changes a key records the key in its slot. When few words
//! of a part are left, the update that finds so gives its slot up, claims the part, and makes the parts that follow:
//!
//! - `Calm`: the records are taken over. The next trees are opened with the pairs of the old one: those with which it was opened, but each
//!   recorded key as it is found in the tree.
//! - `Mirror`: each update also copies its key from the old tree to the next one. What was recorded since is taken over and copied too.
//! - `Stopped`: updates of the part wait. The directory is replaced, and then the version is stored.
//! - `Replaced`: the slots give up their passes of the old tree.
//!
//! In each phase all slots are locked once, one after another: a *sweep*. A growth that runs out of words or memory on its way is given
//! up, and the part is `Calm` again. Merging is growing of several neighbours (`merging.rs`). `watch.rs` has the way of a snapshot.
//!
//! Locks are taken in one order: a snapshot's, the holder's, a slot's, a stripe's, and then the directory's, one of a part or that of the
//! numbers. Who waits for a slot has no other slot.
//!
//! # Why the calls are linearizable
//!
//! The calls on one tree are linearizable, as is proved. What follows is why those of the map are. `S` is the moment at which a version is
//! stored.
//!
//! 1. *A sweep parts all calls in two.* An update reads the phase after it has locked its slot. If it locks it before the sweep does, the
//!    sweep waits for its end. If it locks it later, it reads the phase that was stored before the sweep. (A slot that no call had isn't
//!    locked: its first call says that it is used before it reads a phase, a mode or a version, and the sweep looks after these were stored.)
//!    So after the sweep no update goes by an earlier phase, and its records hold all that was changed by one.
//! 2. *A key that nobody copies is taken over right.* All updates that changed it had ended and had their records taken over before it was
//!    found for the next tree: the records of the others are copied, or they copy the key themselves. So it is found as it is at the end. If no
//!    update changed it, it is as the old tree was opened.
//! 3. *A key that is copied ends right.* Who copies puts a value into the next tree, then finds the key in the old one, and does so again
//!    until both are the same. Let `v` be the last value that is put at the key in the next tree. Its copier found `v` in the old tree after
//!    that put. If the key had another value at the end, some update would have changed it after that find. That update would have copied the
//!    key later; or it went by `Calm`, and then its record is copied after the sweep of `Mirror`, which is after its end. Either is a later
//!    put.
//! 4. *So the next trees begin with what the old one ends with*: at the end of the sweep of `Stopped` each update has ended with its copy,
//!    and no other begins. If a copy failed, the part is lost: that is stored before the slot is given up, and read after the sweep. Records
//!    can't fail, since an update makes room for its record first. They stay with the part if a growth is given up. The keys that are
//!    copied are records of the next parts.
//! 5. *Updates.* Each has its place in the history of one tree. Those of the old tree have ended before `S`, by 4. Those of the next trees
//!    have the next directory, which nobody gets before `S`: directory and version change under the lock under which it is cloned. So all
//!    of the former come before all of the latter, as they do by the clock.
//! 6. *Reads of one key.* A read takes the version once, after it has locked its slot. If it goes by the next directory, it began its find
//!    after `S`. If it goes by the old one, it took the version before `S`. What it finds before updates stopped is the map's at that moment.
//!    What it finds later is what the old tree ends with: the map's from the stop until `S`. The later one of the stop and the moment
//!    at which it took the version is a moment of the call, between these. So a read never waits and never goes back.
//! 7. *Ordered reads* go from part to part by one directory, and find each key by 6, at a moment of its own.
//! 8. *`clear`* stops all updates (`hold`): it stores that they are held, sweeps, replaces the directory, and takes the hold back. `S` is
//!    its moment. An update locks its slot, reads the mode, and then takes the version.
//!    - If it locks the slot before the sweep does, the sweep waits for its end. So it comes before `S`.
//!    - If it locks it later and finds that updates are held, it changes nothing, and begins again.
//!    - If it locks it later and finds that they aren't, the hold was taken back before, which is after `S`. The version that it takes then is
//!      the next one or a later one. (A version that it took before it read the mode could be from before `S`.)
//!
//!    So no update changes a part of the old directory from the end of the sweep on. Reads go by 6, with that end as the stop. A growth
//!    under way copies to parts that nobody gets: it finds that the directory doesn't have its parts, and is given up.
//! 9. *A snapshot* has its moment `M` while all updates are stopped, as in 8. It lists the parts of the directory of `M`, and puts back what
//!    updates recorded. From `M` on updates find that they must record, until a `clear` comes or the records were taken:
//!    - Until then all updates of a key in the range are made under the lock of the key's stripe, one after another. Each finds what the one
//!      before left. The first one that changes the key finds what it had at `M`, and records that; what later ones find isn't recorded.
//!    - After a `clear` no update changes the parts that are listed, by 8. The `clear` waits for those that record: none of them finds what
//!      one without a record left.
//!    - The records are taken before the mode is. Beside an update that goes by the next mode and records nothing, another may still record
//!      what that one left: nobody takes this record. The next snapshot drops it while no update is under way.
//!    - If there is no memory for a record, the next updates of the key record nothing either: they look under the lock of the stripe. An
//!      update that changed a key before it was listed has ended before the records are taken, as follows; so the snapshot finds
//!      that a record is lost, and fails.
//!
//!    So a record that is taken is what its key had at `M`. It remains that a key without one was listed as it was at `M`. An update that
//!    changed it before it was listed had locked its slot before the last sweep came to that. The sweep waits for its end, so its record
//!    was taken. There is none, so nothing changed the key from `M` until it was listed: by 6 it was found as it was at `M`, whether or not
//!    its part was replaced meanwhile.

mod directory;
mod growing;
mod hooks;
mod inner;
mod keys;
mod merging;
mod numbers;
mod ordered;
mod parts;
mod plans;
mod reads;
mod sizes;
mod slots;
mod starts;
mod traits;
mod update;
mod watch;
mod whole;

#[cfg(test)]
mod phase_tests;
#[cfg(test)]
mod size_tests;

pub use ordered::Range;

use crate::shared::Shared;
use crate::tree::ends;
use crate::{Error, Kept, Pair};
use inner::Inner;
use numbers::Numbers;
use parts::Part;
use sizes::{FIRST_WORDS, STRAINED, Sizes, USUAL};
use std::ops::RangeBounds;
use std::slice::from_ref;
use std::sync::{Mutex, MutexGuard, PoisonError};

fn locked<T>(mutex: &Mutex<T>) -> MutexGuard<'_, T> {
    mutex.lock().unwrap_or_else(PoisonError::into_inner)
}

fn unreadable<T>(error: Error) -> T {
    panic!("the map can't be read: {error}")
}

/// An ordered map from `u64` keys to `u64` values that threads share by reference. It grows when it is full.
///
/// Calls have the names and the meaning that they have in `crossbeam_skiplist::SkipMap` and in `BTreeMap`, except that keys and
/// values are passed and returned by value. [Calls on one key](Map::insert) are linearizable. Reads of several keys
/// ([`range`](Map::range), [`first`](Map::first), [`len`](Map::len)) aren't: others may change the map between two keys. A
/// [`snapshot`](Map::snapshot) is.
///
/// The map has parts of up to two thousand keys, or sixteen thousand while seven of eight calls are reads, each a tree of its own. An update that
/// finds few words of its part left makes the trees that follow while others go on. Parts that are changed much are split, and small ones that aren't are merged.
///
/// # What waits for what
///
/// | call | waits | how long |
/// |---|---|---|
/// | each call | for another call that has its slot, if 64 calls or more are under way | one call |
/// | | if it is its slot's first one of a part, for others that take a pass of the part or give one back | until a pass is made |
/// | | if the directory was replaced, for a call that replaces it or learns of that | until a pointer is exchanged |
/// | reads ([`get`](Map::get), [`range`](Map::range), [`first`](Map::first), ..) | for nothing else: not for growing, `clear` or a snapshot | |
/// | updates ([`insert`](Map::insert), [`remove`](Map::remove), ..) | for the end of a growth of their part | while the slots are locked once and a directory is made |
/// | | for a growth of their part, if its words run out first, or if it was tried four times and lost | the rest of the growth |
/// | | for the beginning of a snapshot or a `clear` | while the slots are locked once, and for a `clear` a directory is made |
/// | | while a snapshot is taken, for an update of a key with the same last 6 bits | one update |
/// | an update that finds few words left | does the growth, and perhaps one or two merges | finds the keys that were changed and opens a part of up to two thousand keys (or sixteen thousand, see above) |
/// | | if the map was made [with many words](Map::with_words), does its first growth | the same, of all its keys |
/// | | in each of a growth's four steps, for each call that has a slot | one call each |
/// | [`snapshot`](Map::snapshot) | for other snapshots, for a `clear`, and twice for each call that has a slot | their time, and one call each |
/// | [`clear`](Map::clear) | for another `clear` or the beginning of a snapshot, and twice for each call that has a slot | their time, and one call each |
/// | [`shrink_to_fit`](Map::shrink_to_fit) | as a growth, for each part that it moves or merges; for no other growth | one call each |
/// | [`len`](Map::len) | for nothing | |
///
/// Who waits for a call also waits while the system doesn't run its thread.
///
/// That the calls on each tree are linearizable is proved of the library. The locks and the growing here are tested, not proved; the
/// sources of this module say step by step why the calls stay linearizable.
///
/// ```
/// use luskadorv::Map;
///
/// let map = Map::new();
/// std::thread::scope(|scope| {
///     for number in 0..4 {
///         let map = &map;
///         scope.spawn(move || {
///             for key in 0..1000 {
///                 map.insert(4 * key + number, key);
///             }
///         });
///     }
/// });
/// assert_eq!(map.len(), 4000);
/// assert_eq!(map.range(10..12).collect::<Vec<_>>(), [(10, 2), (11, 2)]);
/// ```
pub struct Map {
    inner: Shared<Inner>,
}

impl Map {
    /// Returns an empty map.
    ///
    /// # Panics
    ///
    /// If memory runs out, as all calls that may grow the map; [`try_insert`](Map::try_insert) returns an error instead.
    ///
    /// ```
    /// assert!(luskadorv::Map::new().is_empty());
    /// ```
    pub fn new() -> Map {
        Map::with_words(FIRST_WORDS).expect("there is memory for an empty map")
    }

    /// Returns an empty map whose first tree has this many words of 8 bytes, at least 4 and at most 2^28. An update takes some 60
    /// words, and a key about 9 when the map grows. A map that has enough words at first grows less often. Until it grows for the first time,
    /// all its keys are in one part, and that growth moves them all in one call.
    ///
    /// ```
    /// use luskadorv::{Error, Map};
    ///
    /// assert!(Map::with_words(1 << 20).is_ok());
    /// assert_eq!(Map::with_words(1).err(), Some(Error::Words));
    /// ```
    pub fn with_words(words: u32) -> Result<Map, Error> {
        Map::of(words, USUAL)
    }

    /// For tests: an empty map that grows, splits and merges all the time.
    #[doc(hidden)]
    pub fn strained(words: u32) -> Result<Map, Error> {
        Map::of(words, STRAINED)
    }

    fn of(words: u32, sizes: Sizes) -> Result<Map, Error> {
        let numbers = Numbers::new()?;
        let part = Part::open(&numbers, (0, u64::MAX), words, Vec::new())?;
        Ok(Map { inner: Inner::of(numbers, words, from_ref(&part), sizes)? })
    }

    /// Returns the pairs with keys in the range as they all were at one moment of the call, in increasing order of keys. Reads go on
    /// meanwhile. Updates wait while each slot is locked once, and then record what their keys had before, until all pairs are listed.
    ///
    /// It fails only if memory runs out. One snapshot is taken at a time.
    ///
    /// ```
    /// let map = luskadorv::Map::from([(5, 50), (6, 60), (7, 70)]);
    /// assert_eq!(map.snapshot(6..)?, [(6, 60), (7, 70)]);
    /// # Ok::<(), luskadorv::Error>(())
    /// ```
    pub fn snapshot<R: RangeBounds<u64>>(&self, range: R) -> Result<Vec<(u64, u64)>, Error> {
        let Some((first, last)) = ends(range) else { return Ok(Vec::new()) };
        let pairs = self.inner.snapshot(first, last)?;
        Ok(pairs.into_iter().map(|pair| (pair.key, pair.value)).collect())
    }

    /// Returns how many keys have a value. While others update the map, the number counts each update that ended before the call,
    /// none that begins after it, and of the others some. Beside a [`clear`](Map::clear) it counts some of the updates before that. It takes
    /// 64 loads.
    ///
    /// ```
    /// assert_eq!(luskadorv::Map::from([(7, 70), (5, 50)]).len(), 2);
    /// ```
    pub fn len(&self) -> usize {
        self.inner.keys() as usize
    }

    /// Returns whether [`len`](Map::len) is 0.
    pub fn is_empty(&self) -> bool {
        self.len() == 0
    }

    /// Removes all pairs, at one moment: updates wait meanwhile for some microseconds. (`SkipMap::clear` removes one pair after another.)
    /// The memory is given back to the allocator, except for that of an empty map.
    ///
    /// # Panics
    ///
    /// If there is no memory for an empty map. The pairs are kept then.
    ///
    /// ```
    /// let map = luskadorv::Map::from([(7, 70), (5, 50)]);
    /// map.clear();
    /// assert_eq!(map.first(), None);
    /// ```
    pub fn clear(&self) {
        self.inner.clear().expect("there is memory for an empty map");
    }

    /// Gives memory back to the allocator that the pairs don't ask for: merges small parts, and moves parts to trees with as few words as
    /// they may have. It waits as a growing update does, and other calls go on as while the map grows. If memory runs out, or another call
    /// grows a part, some parts stay as they are.
    ///
    /// ```
    /// let map: luskadorv::Map = (0..10_000).map(|key| (key, key)).collect();
    /// (1..10_000).for_each(|key| _ = map.remove(key));
    /// map.shrink_to_fit();
    /// assert_eq!(map.first(), Some((0, 0)));
    /// ```
    pub fn shrink_to_fit(&self) {
        self.inner.shrink();
    }

    /// Ends the map, and returns its pairs in increasing order of keys. If there is no memory for them, the map is returned with the error.
    ///
    /// ```
    /// let pairs = luskadorv::Map::from([(7, 70)]).into_pairs()?;
    /// assert_eq!(pairs, [luskadorv::Pair { key: 7, value: 70 }]);
    /// # Ok::<(), luskadorv::Error>(())
    /// ```
    pub fn into_pairs(self) -> Result<Vec<Pair>, Kept<Map>> {
        self.inner.pairs().map_err(|error| Kept { kept: self, error })
    }
}
