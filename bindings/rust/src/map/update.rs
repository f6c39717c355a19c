//! Updates: how one is made, and what it does in each phase of its part.

use super::hooks::Step;
use super::inner::{Inner, Mode, Wait};
use super::parts::{Part, Phase};
use super::slots::{Passes, Slot};
use crate::ffi::PassHandle;
use crate::shared::Shared;
use crate::{Error, Full};

/// An update of one key.
pub(super) struct Update {
    pub(super) key: u64,
    /// What the key must have for the update to be made, if that is asked for.
    pub(super) expected: Option<Option<u64>>,
    /// What the key has then.
    pub(super) new: Option<u64>,
}

impl Update {
    pub(super) fn call(&self, pass: &mut PassHandle) -> Result<Option<u64>, Full> {
        match self.expected {
            None => pass.update(self.key, self.new),
            Some(expected) => pass.update_if(self.key, expected, self.new),
        }
    }

    /// Whether it changed the key, which had this before.
    pub(super) fn changes(&self, had: Option<u64>) -> bool {
        had != self.new && self.expected.is_none_or(|expected| expected == had)
    }

    // How many keys it added.
    fn added(&self, had: Option<u64>) -> i64 {
        if self.changes(had) { i64::from(self.new.is_some()) - i64::from(had.is_some()) } else { 0 }
    }
}

// What came of one try to make an update.
enum Tried {
    /// It was made. The key had this before, and the part must grow if it is named.
    Made(Option<u64>, Option<Shared<Part>>),
    /// Updates are stopped: try again.
    Stopped,
    /// The part has too few words left.
    Full(Shared<Part>),
}

impl Inner {
    /// Makes the update, and returns what the key had before.
    pub(super) fn update(&self, update: &Update) -> Result<Option<u64>, Error> {
        let mut wait = Wait::default();
        loop {
            let (slot, mut passes) = self.slot();
            let tried = self.try_update(slot, &mut passes, update)?;
            // from here on the call has no lock
            drop(passes);
            match tried {
                Tried::Made(had, None) => return Ok(had),
                Tried::Made(had, Some(part)) => {
                    self.grow_early(&part);
                    return Ok(had);
                }
                Tried::Stopped => wait.a_while(),
                Tried::Full(part) => self.grow_or_wait(&part)?,
            }
        }
    }

    // The phase and the mode are read under the slot's lock: see `sweep`. The version is read after the mode, so that an update which finds
    // that a `clear` is over goes by the directory that it left.
    fn try_update(&self, slot: &Slot, passes: &mut Passes, update: &Update) -> Result<Tried, Error> {
        self.reached(Step::Slotted);
        let mode = self.mode();
        self.reached(Step::Asked);
        self.turn(passes);
        let (directory, seats, calls) = passes.parts();
        let part = directory.part(update.key);
        let phase = part.phase();
        if matches!(phase, Phase::Stopped | Phase::Replaced) || mode == Mode::Held {
            return Ok(Tried::Stopped);
        }
        let mut seat = seats.seat(part)?;
        seat.reserve()?;
        let called = match mode {
            Mode::Watched => self.watch.update(seat.pass, update),
            _ => update.call(seat.pass),
        };
        calls.count_update();
        let Ok(had) = called else {
            self.set_read(calls.are_reads());
            return Ok(Tried::Full(part.clone()));
        };
        slot.count(update.added(had));
        let is_low = phase == Phase::Calm && calls.unseen >= part.look && {
            calls.unseen = 0;
            self.set_read(calls.are_reads());
            seat.pass.room() <= part.few
        };
        if update.changes(had) {
            seat.record(update.key);
            if phase == Phase::Mirror {
                seats.mirror(part, update);
            }
        }
        Ok(Tried::Made(had, is_low.then(|| part.clone())))
    }
}
