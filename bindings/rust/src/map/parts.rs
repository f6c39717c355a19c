//! Parts of the map: each has the keys from its first to its last one in a tree of its own.

use super::locked;
use super::numbers::{Number, Numbers};
use super::plans::{Plan, Served};
use super::sizes::words_of;
use super::starts::Starts;
use crate::ffi::{self, Owner, PassHandle, TreeNumber};
use crate::shared::Shared;
use crate::{Error, Pair};
use std::ops::{Deref, DerefMut};
use std::sync::Mutex;
use std::sync::atomic::Ordering::{Relaxed, SeqCst};
use std::sync::atomic::{AtomicBool, AtomicU8, AtomicUsize};
use std::time::Instant;

/// What updates of a part do besides changing its tree.
#[derive(Clone, Copy, Debug, PartialEq, Eq)]
pub(super) enum Phase {
    /// Nothing.
    Calm,
    /// They copy their keys to the next trees.
    Mirror,
    /// They wait until the directory was replaced, or the growth was given up.
    Stopped,
    /// The part isn't the map's any more. They wait until they have the directory.
    Replaced,
}

/// Where slots have their seats at a tree.
#[derive(Clone, Copy)]
pub(super) struct Place {
    /// The number that no other part of the map has. A part that is gone may have had it.
    pub(super) number: usize,
    pub(super) tree: TreeNumber,
}

pub(super) struct Part {
    pub(super) first: u64,
    pub(super) last: u64,
    pub(super) place: Place,
    // Kept for as long as the place is taken.
    _number: Number,
    pub(super) words: u32,
    /// What it was opened with.
    pub(super) pairs: Vec<Pair>,
    /// When no more words than this are left it grows.
    pub(super) few: u64,
    /// After this many updates of a slot it is asked how many words are left.
    pub(super) look: u64,
    pub(super) opened: Instant,
    /// How many slots have called it.
    pub(super) users: AtomicUsize,
    phase: AtomicU8,
    // One call makes the trees that follow.
    is_claimed: AtomicBool,
    // The trees that are being made lack an update.
    is_lost: AtomicBool,
    /// A growth failed: from then on only updates that are refused try again.
    pub(super) has_failed: AtomicBool,
    // The keys that were changed since it was opened, as far as they were taken out of the slots. Held while some are added or read.
    changed: Mutex<Vec<Vec<u64>>>,
    // Held while a pass is made.
    owner: Mutex<Owner>,
    // Held while it is read or written. It is there while the phase is `Mirror`.
    next: Mutex<Option<Shared<Parts>>>,
}

impl Part {
    pub(super) fn open(numbers: &Shared<Numbers>, (first, last): (u64, u64), words: u32, pairs: Vec<Pair>) -> Result<Shared<Part>, Error> {
        let owner = Owner::open(words, &pairs)?;
        let number = Number::of(numbers)?;
        let free = u64::from(words) - ffi::words_for(pairs.len() as u64);
        Shared::new(Part {
            first,
            last,
            place: Place { number: number.at(), tree: owner.tree() },
            _number: number,
            words,
            few: free / 4,
            look: (free / (60 * 64)).clamp(1, 16),
            pairs,
            opened: Instant::now(),
            users: AtomicUsize::new(0),
            phase: AtomicU8::new(Phase::Calm as u8),
            is_claimed: AtomicBool::new(false),
            is_lost: AtomicBool::new(false),
            has_failed: AtomicBool::new(false),
            changed: Mutex::new(Vec::new()),
            owner: Mutex::new(owner),
            next: Mutex::new(None),
        })
    }

    /// A pass for a slot, for as long as it has a seat.
    pub(super) fn pass(&self) -> Result<PassHandle, Error> {
        locked(&self.owner).pass()
    }

    /// A pass for one call.
    pub(super) fn lend(&self) -> Result<Lent<'_>, Error> {
        Ok(Lent { part: self, pass: Some(self.pass()?) })
    }

    /// Takes over these keys, which were changed. Without memory for that they stay.
    pub(super) fn add_changed(&self, keys: &mut Vec<u64>) -> Result<(), Error> {
        if keys.is_empty() {
            return Ok(());
        }
        let mut changed = locked(&self.changed);
        changed.try_reserve(1).map_err(|_| Error::Memory)?;
        changed.push(std::mem::take(keys));
        Ok(())
    }

    /// The changed keys in order, without the first lists of them, and how many lists there are.
    pub(super) fn changed(&self, without: usize) -> Result<(Vec<u64>, usize), Error> {
        let changed = locked(&self.changed);
        let mut keys = room_for(changed[without..].iter().map(Vec::len).sum())?;
        changed[without..].iter().for_each(|list| keys.extend_from_slice(list));
        keys.sort_unstable();
        keys.dedup();
        Ok((keys, changed.len()))
    }

    pub(super) fn phase(&self) -> Phase {
        match self.phase.load(SeqCst) {
            0 => Phase::Calm,
            1 => Phase::Mirror,
            2 => Phase::Stopped,
            _ => Phase::Replaced,
        }
    }

    pub(super) fn set_phase(&self, phase: Phase) {
        self.phase.store(phase as u8, SeqCst);
    }

    /// Claims the part for this call to grow, if no other call has.
    pub(super) fn claim(&self) -> bool {
        !self.is_claimed.swap(true, SeqCst)
    }

    pub(super) fn unclaim(&self) {
        self.is_claimed.store(false, SeqCst);
    }

    pub(super) fn is_claimed(&self) -> bool {
        self.is_claimed.load(SeqCst)
    }

    pub(super) fn lose(&self) {
        self.is_lost.store(true, SeqCst);
    }

    /// Begins a growth anew.
    pub(super) fn lose_nothing(&self) {
        self.is_lost.store(false, SeqCst);
    }

    pub(super) fn is_lost(&self) -> bool {
        self.is_lost.load(SeqCst)
    }

    pub(super) fn next(&self) -> Option<Shared<Parts>> {
        locked(&self.next).clone()
    }

    pub(super) fn set_next(&self, next: Option<Shared<Parts>>) {
        // dropped after the lock is given back: the parts may be the last references to their trees
        let old = std::mem::replace(&mut *locked(&self.next), next);
        drop(old);
    }

    /// How it has served, where most calls are reads or not.
    pub(super) fn served(&self, is_read: bool) -> Served {
        Served { words: self.words, time: self.opened.elapsed(), is_shared: self.users.load(Relaxed) > 1, is_read }
    }
}

/// A pass that is given back, to serve again: a tree makes no more than 2^32 - 1, and has room for all of them.
pub(super) struct Lent<'p> {
    part: &'p Part,
    // None only while it is dropped.
    pass: Option<PassHandle>,
}

impl Deref for Lent<'_> {
    type Target = PassHandle;

    fn deref(&self) -> &PassHandle {
        self.pass.as_ref().expect("the pass is given back when this is dropped")
    }
}

impl DerefMut for Lent<'_> {
    fn deref_mut(&mut self) -> &mut PassHandle {
        self.pass.as_mut().expect("the pass is given back when this is dropped")
    }
}

impl Drop for Lent<'_> {
    fn drop(&mut self) {
        if let Some(pass) = self.pass.take() {
            locked(&self.part.owner).give_back(pass);
        }
    }
}

/// An empty list with room for this many elements.
pub(super) fn room_for<T>(elements: usize) -> Result<Vec<T>, Error> {
    let mut room = Vec::new();
    room.try_reserve_exact(elements).map_err(|_| Error::Memory)?;
    Ok(room)
}

/// Parts side by side, at least one.
pub(super) struct Parts {
    // A read that has a seat doesn't touch its part.
    places: Starts<Place>,
    all: Vec<Shared<Part>>,
}

impl Parts {
    pub(super) fn of(all: Vec<Shared<Part>>) -> Result<Shared<Parts>, Error> {
        let mut places = room_for(all.len())?;
        places.extend(all.iter().map(|part| (part.first, part.place)));
        Shared::new(Parts { places: Starts::of(places), all })
    }

    pub(super) fn all(&self) -> &[Shared<Part>] {
        &self.all
    }

    /// Which of them has this key.
    #[inline]
    pub(super) fn at(&self, key: u64) -> usize {
        self.places.at(key)
    }

    /// The place of the part that has this key.
    pub(super) fn place(&self, key: u64) -> Place {
        self.places.all()[self.at(key)].1
    }

    /// The part that has this key.
    pub(super) fn part(&self, key: u64) -> &Shared<Part> {
        &self.all[self.at(key)]
    }

    /// The places of all, with their first keys.
    pub(super) fn places(&self) -> &[(u64, Place)] {
        self.places.all()
    }
}

/// Opens parts of these pairs side by side, with the keys from the first to the last one.
pub(super) fn opened(
    numbers: &Shared<Numbers>,
    (first, last): (u64, u64),
    pairs: Vec<Pair>,
    Plan { count, words }: Plan,
) -> Result<Vec<Shared<Part>>, Error> {
    let mut parts = room_for(count)?;
    let open = |first, last, pairs: Vec<Pair>| {
        let words = words_of(pairs.len() as u64).max(u64::from(words)).min(u64::from(ffi::MOST_WORDS));
        Part::open(numbers, (first, last), words as u32, pairs)
    };
    if count == 1 {
        parts.push(open(first, last, pairs)?);
        return Ok(parts);
    }
    let begin = |number: usize| number * pairs.len() / count;
    for number in 0..count {
        let some = &pairs[begin(number)..begin(number + 1)];
        let mut own = room_for(some.len())?;
        own.extend_from_slice(some);
        let first = if number == 0 { first } else { some[0].key };
        let last = if number + 1 == count { last } else { pairs[begin(number + 1)].key - 1 };
        parts.push(open(first, last, own)?);
    }
    Ok(parts)
}
