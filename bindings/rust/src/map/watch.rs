//! Snapshots: the pairs of a range at one moment.
//!
//! 1. All updates are stopped, as long as the 64 slots are locked once. That is the snapshot's moment.
//! 2. From then on each update records what its key had before, if no earlier one has. So that there is an earlier one of two updates
//!    of a key, each is made under a lock, one of 64 by the key.
//! 3. The parts of the moment's directory are listed while all calls go on. A key that wasn't changed since is found as it was then. A
//!    part that is replaced meanwhile doesn't change any more, and stays as it is for the snapshot.
//! 4. Each slot is locked once: all updates that may have been made before their keys were listed have recorded them.
//! 5. The records are taken, and then the recording ends. (Not before: beside an update that records nothing, another could take what that one
//!    left for what the key had first.)
//! 6. Each recorded key gets what it had before the first update of it.

use super::directory::Directory;
use super::hooks::Step;
use super::inner::Inner;
use super::locked;
use super::parts::room_for;
use super::update::Update;
use crate::ffi::PassHandle;
use crate::{Error, Full, Pair};
use std::collections::HashMap;
use std::sync::Mutex;
use std::sync::atomic::Ordering::SeqCst;
use std::sync::atomic::{AtomicBool, AtomicU64};

const STRIPES: usize = 64;

// What keys had before, on lines of memory of its own.
#[repr(align(128))]
#[derive(Default)]
struct Stripe {
    // Held by an update of one of its keys while a snapshot is taken.
    before: Mutex<HashMap<u64, Option<u64>>>,
}

/// What updates record while a snapshot is taken.
pub(super) struct Watch {
    // Held by the one snapshot that is taken.
    taker: Mutex<()>,
    // The snapshot's range, which is written only while updates are stopped.
    first: AtomicU64,
    last: AtomicU64,
    // There was no memory for a record.
    is_lost: AtomicBool,
    stripes: Vec<Stripe>,
}

impl Watch {
    pub(super) fn new() -> Result<Watch, Error> {
        let mut stripes = room_for(STRIPES)?;
        stripes.resize_with(STRIPES, Stripe::default);
        Ok(Watch {
            taker: Mutex::new(()),
            first: AtomicU64::new(0),
            last: AtomicU64::new(0),
            is_lost: AtomicBool::new(false),
            stripes,
        })
    }

    /// Makes an update, and records what its key had before.
    pub(super) fn update(&self, pass: &mut PassHandle, update: &Update) -> Result<Option<u64>, Full> {
        let key = update.key;
        if key < self.first.load(SeqCst) || key > self.last.load(SeqCst) {
            return update.call(pass);
        }
        let mut before = locked(&self.stripes[key as usize % STRIPES].before);
        // read under the lock: an update of this key that comes after one without a record makes none either
        if self.is_lost.load(SeqCst) {
            return update.call(pass);
        }
        let has_room = before.try_reserve(1).is_ok();
        let had = update.call(pass)?;
        if update.changes(had) {
            match has_room {
                true => _ = before.entry(key).or_insert(had),
                false => self.lose(),
            }
        }
        Ok(had)
    }

    // There was no memory for a record: the snapshot fails.
    pub(super) fn lose(&self) {
        self.is_lost.store(true, SeqCst);
    }

    // Begins anew, while no update is under way.
    fn begin(&self, first: u64, last: u64) {
        // what was recorded after the last snapshot took its records
        self.stripes.iter().for_each(|stripe| locked(&stripe.before).clear());
        self.first.store(first, SeqCst);
        self.last.store(last, SeqCst);
        self.is_lost.store(false, SeqCst);
    }

    // What keys had before, in order, after all updates that recorded it.
    fn take(&self) -> Result<Vec<(u64, Option<u64>)>, Error> {
        let mut all = Vec::new();
        let mut has_room = !self.is_lost.load(SeqCst);
        for stripe in &self.stripes {
            let before = std::mem::take(&mut *locked(&stripe.before));
            has_room = has_room && all.try_reserve(before.len()).is_ok();
            if has_room {
                all.extend(before);
            }
        }
        all.sort_unstable();
        if has_room { Ok(all) } else { Err(Error::Memory) }
    }
}

// The pairs, with what some keys had before in place of what was found.
fn put_back(pairs: Vec<Pair>, before: &[(u64, Option<u64>)]) -> Result<Vec<Pair>, Error> {
    if before.is_empty() {
        return Ok(pairs);
    }
    let mut all = room_for(pairs.len() + before.len())?;
    let mut found = pairs.into_iter().peekable();
    for (key, value) in before {
        while let Some(pair) = found.next_if(|pair| pair.key < *key) {
            all.push(pair);
        }
        found.next_if(|pair| pair.key == *key);
        all.extend(value.map(|value| Pair { key: *key, value }));
    }
    all.extend(found);
    Ok(all)
}

impl Inner {
    /// The pairs from the first to the last key at one moment of the call.
    pub(super) fn snapshot(&self, first: u64, last: u64) -> Result<Vec<Pair>, Error> {
        let taker = locked(&self.watch.taker);
        let directory = self.hold(|| {
            self.watch.begin(first, last);
            self.set_watched(true);
            self.directory()
        });
        self.reached(Step::Watched);
        let listed = self.list(&directory, first, last);
        self.sweep(|_| {});
        self.reached(Step::Listed);
        let before = self.watch.take();
        self.reached(Step::Taken);
        self.set_watched(false);
        drop(taker);
        put_back(listed?, &before?)
    }

    // The pairs of the directory's parts from the first to the last key, each as it is at a moment of its own.
    fn list(&self, directory: &Directory, first: u64, last: u64) -> Result<Vec<Pair>, Error> {
        // at once, since other threads may wait for the system while a long list is moved
        let mut pairs = room_for(directory.parts(first, last).map(|part| part.pairs.len() + part.pairs.len() / 8).sum())?;
        for part in directory.parts(first, last) {
            let mut pass = part.lend()?;
            pass.append(first, last, part.pairs.len(), &mut pairs)?;
            self.reached(Step::Listing);
        }
        Ok(pairs)
    }
}

#[cfg(test)]
mod tests {
    use super::{STRIPES, Watch, put_back};
    use crate::Pair;
    use crate::ffi::Owner;
    use crate::map::locked;
    use crate::map::update::Update;
    use std::thread::{scope, sleep};
    use std::time::Duration;

    #[test]
    fn no_update_records_what_one_without_a_record_left() {
        let watch = Watch::new().unwrap();
        watch.begin(0, 100);
        let mut owner = Owner::open(1000, &[]).unwrap();
        let (mut one, mut other) = (owner.pass().unwrap(), owner.pass().unwrap());
        let update = Update { key: 7, expected: None, new: Some(70) };
        scope(|scope| {
            let stripe = locked(&watch.stripes[7 % STRIPES].before);
            let updating = scope.spawn(|| watch.update(&mut one, &update).unwrap());
            // long enough for the update to wait for the stripe
            sleep(Duration::from_millis(50));
            watch.lose();
            assert_eq!(other.update(7, Some(71)), Ok(None));
            drop(stripe);
            assert_eq!(updating.join().unwrap(), Some(71));
        });
        assert!(locked(&watch.stripes[7 % STRIPES].before).is_empty());
    }

    #[test]
    fn first_values_are_put_back() {
        let pairs = |keys: &[u64]| keys.iter().map(|key| Pair { key: *key, value: 1 }).collect::<Vec<_>>();
        // the keys found with value 1, what keys had before, and the keys that then have value 1
        let cases: [(&[u64], &[(u64, Option<u64>)], &[u64]); 6] = [
            (&[2, 4], &[], &[2, 4]),
            (&[2, 4], &[(3, None)], &[2, 4]),
            (&[2, 4], &[(2, None), (4, None)], &[]),
            (&[2, 4], &[(1, Some(1)), (5, Some(1))], &[1, 2, 4, 5]),
            (&[], &[(1, Some(1)), (2, None)], &[1]),
            (&[2, 4], &[(2, Some(1)), (3, Some(1))], &[2, 3, 4]),
        ];
        for (found, before, expected) in cases {
            assert_eq!(put_back(pairs(found), before).unwrap(), pairs(expected), "{found:?} {before:?}");
        }
        assert_eq!(put_back(pairs(&[2]), &[(2, Some(7))]).unwrap(), [Pair { key: 2, value: 7 }]);
    }
}
