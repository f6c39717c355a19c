//! What is done with the map as a whole.

use super::directory::Directory;
use super::inner::Inner;
use super::numbers::Numbers;
use super::parts::{Part, opened, room_for};
use super::plans::Plan;
use super::sizes::{FIRST_WORDS, USUAL};
use crate::shared::Shared;
use crate::{Error, Pair};
use std::slice::from_ref;

impl Inner {
    /// The map of these pairs, whose keys are strictly increasing.
    pub(super) fn with_pairs(pairs: Vec<Pair>) -> Result<Shared<Inner>, Error> {
        let count = pairs.len().div_ceil(USUAL.most_read_keys / 2).max(1);
        let words = if count == 1 { FIRST_WORDS } else { USUAL.least_words };
        let numbers = Numbers::new()?;
        let parts = opened(&numbers, (0, u64::MAX), pairs, Plan { count, words })?;
        Inner::of(numbers, FIRST_WORDS, &parts, USUAL)
    }

    /// Removes all pairs at one moment, while no update is under way. A growth under way finds at its end that its parts are gone.
    pub(super) fn clear(&self) -> Result<(), Error> {
        let part = Part::open(&self.numbers, (0, u64::MAX), self.first_words, Vec::new())?;
        let old = self.hold(|| {
            let next = |directory: &Directory| Directory::of(directory.version + 1, from_ref(&part)).map(Some);
            let old = self.replace(next)?;
            self.count_no_keys();
            // the parts of a snapshot that is taken don't change any more, so what follows needs no record
            self.set_watched(false);
            Ok::<_, Error>(old)
        })?;
        let left = || old.iter().flat_map(|old| old.parts(0, u64::MAX));
        self.sweep(|passes| left().for_each(|part| passes.seats.leave(part)));
        Ok(())
    }

    /// The pairs of all parts, for a caller who alone has the map.
    pub(super) fn pairs(&self) -> Result<Vec<Pair>, Error> {
        let mut pairs = room_for(self.keys() as usize)?;
        for part in self.directory().parts(0, u64::MAX) {
            let mut pass = part.lend()?;
            pass.append(part.first, part.last, part.pairs.len(), &mut pairs)?;
        }
        Ok(pairs)
    }
}
