//! Reads. None waits for an update, a growth or a snapshot: each goes by the directory that its slot has, which is the map's at a moment
//! of the call.

use super::inner::Inner;
use crate::{Error, Pair};

impl Inner {
    pub(super) fn find(&self, key: u64) -> Result<Option<u64>, Error> {
        let (_, mut passes) = self.slot();
        let (directory, seats) = passes.parts_to_read();
        let place = directory.place(key);
        if let Some(pass) = seats.pass_at(place) {
            return Ok(pass.find(key));
        }
        Ok(seats.pass(directory.part(key))?.find(key))
    }

    /// The pair with the least key that is at least this one: by one directory from part to part.
    pub(super) fn at_least(&self, key: u64) -> Result<Option<Pair>, Error> {
        let (_, mut passes) = self.slot();
        let (directory, seats) = passes.parts_to_read();
        for part in directory.parts(key, u64::MAX) {
            let found = seats.pass(part)?.at_least(key);
            if found.is_some() {
                return Ok(found);
            }
        }
        Ok(None)
    }

    /// The pair with the greatest key that is at most this one.
    pub(super) fn at_most(&self, key: u64) -> Result<Option<Pair>, Error> {
        let (_, mut passes) = self.slot();
        let (directory, seats) = passes.parts_to_read();
        let mut next = Some(key);
        while let Some(part) = next.map(|key| directory.part(key)) {
            let found = seats.pass(part)?.at_most(key);
            if found.is_some() {
                return Ok(found);
            }
            next = part.first.checked_sub(1);
        }
        Ok(None)
    }
}
