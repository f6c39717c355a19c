//! What all calls share: slots, the directory, and the mode of updates.

use super::directory::Directory;
use super::locked;
use super::numbers::Numbers;
use super::parts::{Part, room_for};
use super::sizes::Sizes;
use super::slots::{Passes, Slot};
use super::watch::Watch;
use crate::Error;
use crate::shared::Shared;
use std::sync::atomic::Ordering::{Relaxed, SeqCst};
use std::sync::atomic::{AtomicBool, AtomicU8, AtomicU64, AtomicUsize};
use std::sync::{Mutex, MutexGuard};
use std::thread;
use std::time::Duration;

/// How many calls go on at a time.
const SLOTS: usize = 64;

/// How often a call tries its thread's own slot before it looks for another.
const OWN_TRIES: usize = 20;

const HELD: u8 = 1;
const WATCHED: u8 = 2;

/// What updates do of all parts.
#[derive(Clone, Copy, PartialEq, Eq)]
pub(super) enum Mode {
    Free,
    /// They record what keys had before, for a snapshot.
    Watched,
    /// They wait.
    Held,
}

// What all calls read, and what is written only when the map grows or is looked at as a whole.
#[repr(align(128))]
struct State {
    version: AtomicU64,
    mode: AtomicU8,
}

pub(super) struct Inner {
    state: State,
    slots: Vec<Slot>,
    // Held while a reference to it is cloned, and while it is replaced and the version is stored: both change at one moment.
    directory: Mutex<Shared<Directory>>,
    // Held by the one call that makes all updates wait.
    holder: Mutex<()>,
    pub(super) watch: Watch,
    pub(super) numbers: Shared<Numbers>,
    /// From this key on two parts are looked at next, whether they can be merged.
    pub(super) hand: AtomicU64,
    // Whether most calls are reads, as the slot found that was asked last.
    is_read: AtomicBool,
    pub(super) first_words: u32,
    pub(super) sizes: Sizes,
    #[cfg(test)]
    pub(super) hook: Mutex<Option<super::hooks::Hook>>,
}

// The number of this thread, by which it chooses its slot.
fn thread_number() -> usize {
    static NEXT: AtomicUsize = AtomicUsize::new(0);
    thread_local! {
        static NUMBER: usize = NEXT.fetch_add(1, Relaxed);
    }
    NUMBER.try_with(|number| *number).unwrap_or(0)
}

/// Waits for others that need some microseconds, or longer if they don't run.
#[derive(Default)]
pub(super) struct Wait {
    turns: u32,
}

impl Wait {
    /// Whether it hasn't waited.
    pub(super) fn is_first(&self) -> bool {
        self.turns == 0
    }

    pub(super) fn a_while(&mut self) {
        self.turns += 1;
        match self.turns {
            0..500 => std::hint::spin_loop(),
            500..520 => thread::yield_now(),
            _ => thread::sleep(Duration::from_micros(20)),
        }
    }
}

impl Inner {
    /// The map of these parts, which have all keys.
    pub(super) fn of(numbers: Shared<Numbers>, first_words: u32, parts: &[Shared<Part>], sizes: Sizes) -> Result<Shared<Inner>, Error> {
        let directory = Directory::of(0, parts)?;
        let mut slots: Vec<Slot> = room_for(SLOTS)?;
        slots.resize_with(SLOTS, Slot::default);
        let keys: usize = parts.iter().map(|part| part.pairs.len()).sum();
        slots[0].set_added(keys as i64);
        Shared::new(Inner {
            state: State { version: AtomicU64::new(0), mode: AtomicU8::new(0) },
            slots,
            directory: Mutex::new(directory),
            holder: Mutex::new(()),
            watch: Watch::new()?,
            numbers,
            hand: AtomicU64::new(0),
            is_read: AtomicBool::new(true),
            first_words,
            sizes,
            #[cfg(test)]
            hook: Mutex::new(None),
        })
    }

    // ---- slots

    /// A slot that no other call has, with the directory as it was at a moment since the slot was locked.
    pub(super) fn slot(&self) -> (&Slot, MutexGuard<'_, Passes>) {
        let own = thread_number() % SLOTS;
        // a sweep may have it for a moment
        let (at, mut passes) = match (0..OWN_TRIES).find_map(|_| self.slots[own].try_lock()) {
            Some(passes) => (own, passes),
            None => self.other_slot(own),
        };
        self.turn(&mut passes);
        (&self.slots[at], passes)
    }

    // The next slot that no call has, or the own one after waiting for it.
    #[cold]
    fn other_slot(&self, own: usize) -> (usize, MutexGuard<'_, Passes>) {
        let free = (own + 1..SLOTS).chain(0..own).find_map(|at| Some((at, self.slots[at].try_lock()?)));
        free.unwrap_or_else(|| (own, self.slots[own].lock()))
    }

    /// Lets the slot go by the map's directory.
    pub(super) fn turn(&self, passes: &mut Passes) {
        let version = self.state.version.load(SeqCst);
        if passes.directory.as_ref().is_none_or(|directory| directory.version != version) {
            passes.directory = Some(self.directory());
        }
    }

    /// Locks each slot once that was used, one after another, and lets it go by the map's directory.
    ///
    /// So what was stored before the sweep parts all calls in two: those that had a slot before have ended, and those that lock
    /// it later read what was stored.
    pub(super) fn sweep(&self, mut each: impl FnMut(&mut Passes)) {
        let mut visit = |mut passes: MutexGuard<'_, Passes>| {
            self.turn(&mut passes);
            each(&mut passes);
        };
        // without sleeping if calls end soon: to wake a thread takes longer than most calls
        let mut wait = Wait::default();
        let mut left: [bool; SLOTS] = std::array::from_fn(|at| self.slots[at].is_used());
        while left.contains(&true) {
            for (slot, is_left) in self.slots.iter().zip(&mut left).filter(|(_, is_left)| **is_left) {
                if let Some(passes) = slot.try_sweep(wait.is_first()) {
                    visit(passes);
                    *is_left = false;
                }
            }
            wait.a_while();
        }
    }

    /// How many keys all calls that ended have left.
    pub(super) fn keys(&self) -> u64 {
        let sum: i64 = self.slots.iter().map(Slot::added).sum();
        sum.max(0) as u64
    }

    pub(super) fn count_no_keys(&self) {
        self.slots.iter().for_each(|slot| slot.set_added(0));
    }

    /// Whether most calls are reads. Only the sizes of parts depend on it.
    pub(super) fn is_read(&self) -> bool {
        self.is_read.load(Relaxed)
    }

    pub(super) fn set_read(&self, is_read: bool) {
        // it is seldom another, and then no other call's line of memory is written
        if self.is_read() != is_read {
            self.is_read.store(is_read, Relaxed);
        }
    }

    // ---- the directory

    pub(super) fn directory(&self) -> Shared<Directory> {
        locked(&self.directory).clone()
    }

    /// Replaces the directory, if `next` makes another of it. Returns the one that was replaced.
    pub(super) fn replace(&self, next: impl Fn(&Directory) -> Result<Option<Shared<Directory>>, Error>) -> Result<Option<Shared<Directory>>, Error> {
        loop {
            // made without the lock, so that nobody waits for that
            let old = self.directory();
            let Some(next) = next(&old)? else { return Ok(None) };
            let mut directory = locked(&self.directory);
            if directory.version == old.version {
                // nobody gets the next directory before its version is stored, since this call has the lock
                self.state.version.store(next.version, SeqCst);
                *directory = next;
                return Ok(Some(old));
            }
        }
    }

    // ---- the mode

    pub(super) fn mode(&self) -> Mode {
        match self.state.mode.load(SeqCst) {
            0 => Mode::Free,
            WATCHED => Mode::Watched,
            _ => Mode::Held,
        }
    }

    /// Makes a call while no update is under way.
    pub(super) fn hold<T>(&self, call: impl FnOnce() -> T) -> T {
        let holder = locked(&self.holder);
        self.state.mode.fetch_or(HELD, SeqCst);
        self.sweep(|_| {});
        self.reached(super::hooks::Step::Held);
        let reply = call();
        self.state.mode.fetch_and(!HELD, SeqCst);
        drop(holder);
        reply
    }

    pub(super) fn set_watched(&self, is_watched: bool) {
        match is_watched {
            true => self.state.mode.fetch_or(WATCHED, SeqCst),
            false => self.state.mode.fetch_and(!WATCHED, SeqCst),
        };
    }
}
