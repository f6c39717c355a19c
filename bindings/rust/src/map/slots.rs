//! Slots: what a call has while it holds its slot's lock.

use super::directory::Directory;
use super::parts::{Part, Place};
use super::update::Update;
use crate::ffi::PassHandle;
use crate::shared::Shared;
use crate::{Error, Full};
use std::sync::atomic::Ordering::{Relaxed, SeqCst};
use std::sync::atomic::{AtomicBool, AtomicI64, AtomicUsize};
use std::sync::{Mutex, MutexGuard, PoisonError, TryLockError};

/// A slot, on lines of memory of its own.
#[derive(Default)]
#[repr(align(128))]
pub(super) struct Slot {
    // Held for each call on keys, by the one call that has the slot.
    passes: Mutex<Passes>,
    // How many sweeps wait for it.
    sweeps: AtomicUsize,
    // Some call had the slot. Set under the lock, before the call reads a version or a phase.
    is_used: AtomicBool,
    // How many keys the calls by this slot added, less those that they removed. Written under its lock, or while no update is under way.
    added: AtomicI64,
}

impl Slot {
    /// Locks the slot for a call.
    pub(super) fn lock(&self) -> MutexGuard<'_, Passes> {
        self.used(super::locked(&self.passes))
    }

    /// Locks the slot for a call, if no other has it and no sweep waits for it.
    pub(super) fn try_lock(&self) -> Option<MutexGuard<'_, Passes>> {
        if self.sweeps.load(Relaxed) > 0 {
            return None;
        }
        self.free().map(|passes| self.used(passes))
    }

    /// Locks the slot for a sweep, if no call has it. A sweep that comes back for it says so, so that calls leave it the slot.
    pub(super) fn try_sweep(&self, is_first: bool) -> Option<MutexGuard<'_, Passes>> {
        let free = self.free();
        match (free.is_some(), is_first) {
            (true, true) | (false, false) => {}
            (true, false) => _ = self.sweeps.fetch_sub(1, Relaxed),
            (false, true) => _ = self.sweeps.fetch_add(1, Relaxed),
        }
        free
    }

    // The slot's lock, if nobody has it.
    fn free(&self) -> Option<MutexGuard<'_, Passes>> {
        match self.passes.try_lock() {
            Ok(passes) => Some(passes),
            Err(TryLockError::Poisoned(poisoned)) => Some(PoisonError::into_inner(poisoned)),
            Err(TryLockError::WouldBlock) => None,
        }
    }

    fn used<'s>(&self, passes: MutexGuard<'s, Passes>) -> MutexGuard<'s, Passes> {
        if !self.is_used.load(Relaxed) {
            self.is_used.store(true, SeqCst);
        }
        passes
    }

    /// Whether a call had the slot. If it isn't so, the first call will read what was stored before this.
    pub(super) fn is_used(&self) -> bool {
        self.is_used.load(SeqCst)
    }

    /// Counts keys. The caller has the lock, so no other call writes meanwhile.
    pub(super) fn count(&self, more: i64) {
        if more != 0 {
            self.set_added(self.added() + more);
        }
    }

    pub(super) fn added(&self) -> i64 {
        self.added.load(Relaxed)
    }

    pub(super) fn set_added(&self, added: i64) {
        self.added.store(added, Relaxed);
    }
}

/// What a slot has for the call that locks it.
#[derive(Default)]
pub(super) struct Passes {
    /// There is one once the slot is used.
    pub(super) directory: Option<Shared<Directory>>,
    pub(super) seats: Seats,
    pub(super) calls: Calls,
}

// A slot halves its counts at this many updates, and counts no more reads than this.
const MOST_UPDATES: u32 = 1 << 12;
const MOST_READS: u32 = 1 << 16;

/// The last calls of a slot.
#[derive(Default)]
pub(super) struct Calls {
    /// How many updates were made since the last look at the words that are left.
    pub(super) unseen: u64,
    reads: u32,
    updates: u32,
}

impl Calls {
    pub(super) fn count_read(&mut self) {
        self.reads = MOST_READS.min(self.reads + 1);
    }

    pub(super) fn count_update(&mut self) {
        self.unseen += 1;
        self.updates += 1;
        if self.updates == MOST_UPDATES {
            (self.reads, self.updates) = (self.reads / 2, self.updates / 2);
        }
    }

    /// Whether at least seven of eight are reads.
    pub(super) fn are_reads(&self) -> bool {
        self.reads >= 7 * self.updates
    }
}

/// What a slot has of one tree.
pub(super) struct Seat<'s> {
    pub(super) pass: &'s mut PassHandle,
    // The keys that the calls of this slot changed.
    changed: &'s mut Vec<u64>,
}

impl Seat<'_> {
    /// Makes room for one more changed key, before the key is changed.
    pub(super) fn reserve(&mut self) -> Result<(), Error> {
        self.changed.try_reserve(1).map_err(|_| Error::Memory)
    }

    /// Records a changed key, for which there is room.
    pub(super) fn record(&mut self, key: u64) {
        self.changed.push(key);
    }
}

impl Passes {
    /// The directory by which the call goes, and the rest of the slot.
    pub(super) fn parts(&mut self) -> (&Directory, &mut Seats, &mut Calls) {
        let directory = self.directory.as_ref().expect("a slot that is used has a directory");
        (directory, &mut self.seats, &mut self.calls)
    }

    /// The same for a read, which is counted.
    #[inline]
    pub(super) fn parts_to_read(&mut self) -> (&Directory, &mut Seats) {
        let (directory, seats, calls) = self.parts();
        calls.count_read();
        (directory, seats)
    }
}

// How many seats lie together: their passes fill whole lines of memory.
const ROW: usize = 8;

// Seats at neighbouring numbers, on lines that no other slot writes. The passes are close together, since a read needs nothing else.
#[derive(Default)]
#[repr(C, align(64))]
struct Row {
    passes: [Option<PassHandle>; ROW],
    changed: [Vec<u64>; ROW],
}

/// A seat at each tree that the slot has called, at the number of the tree's part.
#[derive(Default)]
pub(super) struct Seats {
    rows: Vec<Row>,
}

impl Seats {
    /// The pass that the slot has at this place, if it has one. What another part with its number left isn't one.
    #[inline]
    pub(super) fn pass_at(&mut self, place: Place) -> Option<&mut PassHandle> {
        let pass = self.rows.get_mut(place.number / ROW)?.passes[place.number % ROW].as_mut();
        pass.filter(|pass| pass.tree() == place.tree)
    }

    // The seat that the slot has at this part's tree.
    fn seat_at(&mut self, part: &Part) -> Option<Seat<'_>> {
        let Place { number, tree } = part.place;
        let row = self.rows.get_mut(number / ROW)?;
        let pass = row.passes[number % ROW].as_mut().filter(|pass| pass.tree() == tree)?;
        Some(Seat { pass, changed: &mut row.changed[number % ROW] })
    }

    /// The pass of the seat at this part's tree.
    pub(super) fn pass(&mut self, part: &Part) -> Result<&mut PassHandle, Error> {
        self.seat(part).map(|seat| seat.pass)
    }

    /// The seat at this part's tree.
    #[inline]
    pub(super) fn seat(&mut self, part: &Part) -> Result<Seat<'_>, Error> {
        if self.pass_at(part.place).is_none() {
            self.sit(part)?;
        }
        Ok(self.seat_at(part).expect("the slot has a seat"))
    }

    #[cold]
    fn sit(&mut self, part: &Part) -> Result<(), Error> {
        let (at, rows) = (part.place.number / ROW, self.rows.len());
        if at >= rows {
            self.rows.try_reserve(at + 1 - rows).map_err(|_| Error::Memory)?;
            self.rows.resize_with(at + 1, Row::default);
        }
        self.put(part, Some(part.pass()?), Vec::new());
        part.users.fetch_add(1, Relaxed);
        Ok(())
    }

    // Puts a seat at the part's place, for which there is a row, or none.
    fn put(&mut self, part: &Part, pass: Option<PassHandle>, changed: Vec<u64>) {
        let row = &mut self.rows[part.place.number / ROW];
        row.passes[part.place.number % ROW] = pass;
        row.changed[part.place.number % ROW] = changed;
    }

    /// Takes out which keys the calls of this slot changed, and appends them to those of the part. Without memory for that they stay.
    pub(super) fn take_changed(&mut self, part: &Part) -> Result<(), Error> {
        self.seat_at(part).map_or(Ok(()), |seat| part.add_changed(seat.changed))
    }

    /// Copies the key of an update, which was just made, to the parts that follow. If there is no room or memory for that, the growth is
    /// lost.
    pub(super) fn mirror(&mut self, part: &Part, update: &Update) {
        if !part.is_lost() && self.try_mirror(part, update).is_none() {
            part.lose();
        }
    }

    fn try_mirror(&mut self, part: &Part, update: &Update) -> Option<()> {
        let next = part.next()?;
        let to = &next.all()[next.at(update.key)];
        let mut seat = self.seat(to).ok()?;
        seat.reserve().ok()?;
        seat.record(update.key);
        // taken out, since the other pass is used beside it
        let (row, at) = (to.place.number / ROW, to.place.number % ROW);
        let mut pass = self.rows[row].passes[at].take()?;
        let copied = self.seat(part).map(|now| copy(now.pass, &mut pass, update.key, update.new));
        self.rows[row].passes[at] = Some(pass);
        copied.ok()?.ok()
    }

    /// Gives the pass up of a part that isn't the map's any more, or won't be.
    pub(super) fn leave(&mut self, part: &Part) {
        if self.pass_at(part.place).is_some() {
            self.put(part, None, Vec::new());
        }
    }
}

/// Copies a key from one tree to the next: puts the value that it had, finds it in the old one, and does so again until both are the same.
pub(super) fn copy(now: &mut PassHandle, next: &mut PassHandle, key: u64, mut value: Option<u64>) -> Result<(), Full> {
    loop {
        next.update(key, value)?;
        let found = now.find(key);
        if found == value {
            return Ok(());
        }
        value = found;
    }
}
