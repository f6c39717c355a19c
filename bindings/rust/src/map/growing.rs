//! Growing: other parts follow some neighbours, while calls go on. `mod.rs` has the phases, and why each reply is right.

use super::directory::Directory;
use super::hooks::Step;
use super::inner::{Inner, Wait};
use super::parts::{Lent, Part, Parts, Phase, opened, room_for};
use super::plans::{Aim, Plan};
use super::slots::copy;
use crate::shared::Shared;
use crate::{Error, Pair};
use std::slice::from_ref;
use std::sync::atomic::Ordering::Relaxed;

/// How often a growth is tried, each time with twice the words. In the last one updates wait from its beginning, so that it isn't lost.
const ATTEMPTS: u32 = 5;

/// Claims neighbours for this call to grow, all or none.
pub(super) fn claim(run: &[Shared<Part>]) -> bool {
    let claimed = run.iter().take_while(|part| part.claim()).count();
    if claimed < run.len() {
        run[..claimed].iter().for_each(|part| part.unclaim());
    }
    claimed == run.len()
}

// A part that is left, while its pairs are taken over.
struct Leaving<'p> {
    part: &'p Part,
    pass: Lent<'p>,
    // How many lists of changed keys were taken over.
    lists: usize,
}

fn leaving(run: &[Shared<Part>]) -> Result<Vec<Leaving<'_>>, Error> {
    let mut all = room_for(run.len())?;
    for part in run {
        all.push(Leaving { part, pass: part.lend()?, lists: 0 });
    }
    Ok(all)
}

impl Leaving<'_> {
    // Appends the pairs that the part was opened with, with what the changed keys have in place of what they had.
    fn append_pairs(&mut self, pairs: &mut Vec<Pair>) -> Result<(), Error> {
        let (changed, lists) = self.part.changed(0)?;
        self.lists = lists;
        pairs.try_reserve(self.part.pairs.len() + changed.len()).map_err(|_| Error::Memory)?;
        let mut old = self.part.pairs.iter().copied().peekable();
        for key in changed {
            while let Some(pair) = old.next_if(|pair| pair.key < key) {
                pairs.push(pair);
            }
            old.next_if(|pair| pair.key == key);
            pairs.extend(self.pass.find(key).map(|value| Pair { key, value }));
        }
        pairs.extend(old);
        Ok(())
    }

    // Copies the keys that were changed since the pairs were taken over. Returns whether the next parts had room for that.
    fn copy_changed(&mut self, next: &Parts) -> Result<bool, Error> {
        let (changed, _) = self.part.changed(self.lists)?;
        for keys in changed.chunk_by(|one, other| next.at(*one) == next.at(*other)) {
            let to = &next.all()[next.at(keys[0])];
            let mut own = room_for(keys.len())?;
            own.extend_from_slice(keys);
            to.add_changed(&mut own)?;
            let mut pass = to.lend()?;
            for key in keys {
                let value = self.pass.find(*key);
                if self.part.is_lost() || copy(&mut self.pass, &mut pass, *key, value).is_err() {
                    return Ok(false);
                }
            }
        }
        Ok(true)
    }
}

impl Inner {
    /// Grows a part that has few words left, unless another call does.
    pub(super) fn grow_early(&self, part: &Shared<Part>) {
        if !part.has_failed.load(Relaxed) && part.claim() {
            // if it fails, updates go on until one is refused, which tries again and returns its error
            _ = self.grow(from_ref(part), Aim::Room);
        }
    }

    /// Grows a part that has refused an update, or waits until another call has done so or failed.
    pub(super) fn grow_or_wait(&self, part: &Shared<Part>) -> Result<(), Error> {
        if part.claim() {
            return self.grow(from_ref(part), Aim::Room);
        }
        let mut wait = Wait::default();
        while part.is_claimed() && part.phase() != Phase::Replaced {
            wait.a_while();
        }
        Ok(())
    }

    /// Makes other parts follow these, which this call has claimed. Parts that are replaced stay claimed.
    pub(super) fn grow(&self, run: &[Shared<Part>], aim: Aim) -> Result<(), Error> {
        let mut grown = Ok(None);
        for attempt in 0..ATTEMPTS {
            let directory = self.directory();
            if grown.is_err() || !run.iter().all(|part| directory.has(part)) {
                break;
            }
            run.iter().for_each(|part| part.lose_nothing());
            grown = self.try_grow(run, aim, attempt);
            if let Ok(Some(next)) = &grown {
                self.merge_after(run, next);
                return Ok(());
            }
            self.give_up(run);
        }
        for part in run {
            part.has_failed.store(grown.is_err(), Relaxed);
            part.unclaim();
        }
        grown.map(|_| ())
    }

    // Returns the parts that follow these, or none if what was made is of no use.
    fn try_grow(&self, run: &[Shared<Part>], aim: Aim, attempt: u32) -> Result<Option<Shared<Parts>>, Error> {
        let is_last = attempt + 1 == ATTEMPTS;
        let mut left = leaving(run)?;
        self.enter(run, if is_last { Phase::Stopped } else { Phase::Calm })?;
        self.reached(if is_last { Step::Stopped } else { Step::Begun });
        let mut pairs = Vec::new();
        left.iter_mut().try_for_each(|one| one.append_pairs(&mut pairs))?;
        let plan = Plan::after(&run[0].served(self.is_read()), aim, pairs.len(), self.directory().count, &self.sizes);
        let keys = (run[0].first, run[run.len() - 1].last);
        let next = Parts::of(opened(&self.numbers, keys, pairs, Plan { count: plan.count, words: plan.words << attempt })?)?;
        self.reached(Step::Opened);
        let is_made = is_last || self.catch_up(run, &mut left, &next)?;
        Ok(if is_made && self.switch(run, &next)? { Some(next) } else { None })
    }

    // Sets the phase, and takes over the keys that were changed before. From its return on no update goes by an earlier phase.
    fn enter(&self, run: &[Shared<Part>], phase: Phase) -> Result<(), Error> {
        run.iter().for_each(|part| part.set_phase(phase));
        let mut taken = Ok(());
        self.sweep(|passes| {
            let all = run.iter().try_for_each(|part| passes.seats.take_changed(part));
            taken = taken.and(all);
        });
        taken
    }

    // Lets updates copy their keys, copies those that were changed before, and stops updates. Returns whether the next parts lack nothing.
    fn catch_up(&self, run: &[Shared<Part>], left: &mut [Leaving<'_>], next: &Shared<Parts>) -> Result<bool, Error> {
        run.iter().for_each(|part| part.set_next(Some(next.clone())));
        self.enter(run, Phase::Mirror)?;
        self.reached(Step::Mirroring);
        for one in left {
            if !one.copy_changed(next)? {
                return Ok(false);
            }
        }
        self.enter(run, Phase::Stopped)?;
        self.reached(Step::Stopped);
        Ok(!run.iter().any(|part| part.is_lost()))
    }

    // Makes the next parts the map's, if these are. No update of these is under way.
    fn switch(&self, run: &[Shared<Part>], next: &Shared<Parts>) -> Result<bool, Error> {
        let replaced = self.replace(|directory: &Directory| match run.iter().all(|part| directory.has(part)) {
            true => directory.with(next, run).map(Some),
            false => Ok(None),
        })?;
        let is_replaced = replaced.is_some();
        if is_replaced {
            run.iter().for_each(|part| part.set_phase(Phase::Replaced));
            self.reached(Step::Replaced);
            // the last passes of the trees that are left, but for those of a snapshot
            self.sweep(|passes| run.iter().for_each(|part| passes.seats.leave(part)));
            run.iter().for_each(|part| part.set_next(None));
        }
        Ok(is_replaced)
    }

    // Lets updates go on as before. What they copied is of no use.
    fn give_up(&self, run: &[Shared<Part>]) {
        run.iter().for_each(|part| part.set_phase(Phase::Calm));
        if let Some(next) = run[0].next() {
            self.sweep(|passes| next.all().iter().for_each(|part| passes.seats.leave(part)));
            run.iter().for_each(|part| part.set_next(None));
        }
    }
}
