//! Merging: one part follows several neighbours that have few keys. It is growing with several parts.

use super::growing::claim;
use super::inner::Inner;
use super::parts::{Part, Parts};
use super::plans::Aim;
use super::sizes::words_of;
use crate::Pair;
use crate::shared::Shared;
use std::sync::atomic::Ordering::Relaxed;
use std::time::Duration;

// How many keys the part has, if they are at most this many and there is memory to count them. One that began with many more isn't looked at.
fn keys_of(part: &Part, most: usize) -> Option<usize> {
    if part.pairs.len() > 4 * most {
        return None;
    }
    let mut pass = part.lend().ok()?;
    let mut room = [Pair::default(); 64];
    let (mut keys, mut next) = (0, Some(part.first));
    while let Some(first) = next.filter(|_| keys <= most) {
        let (count, more) = pass.list(first, part.last, &mut room);
        (keys, next) = (keys + count, more);
    }
    (keys <= most).then_some(keys)
}

// Whether the part has at most this many keys. Many aren't counted: it began with as many.
fn has_few(part: &Part, most: usize) -> bool {
    if most > 1024 { part.pairs.len() <= most } else { keys_of(part, most).is_some() }
}

impl Inner {
    // How many keys a part has at most that is merged.
    fn few(&self) -> usize {
        if self.is_read() { self.sizes.few_read_keys } else { self.sizes.few_keys }
    }

    /// Merges parts after a growth: what grew with a neighbour of it, or two others. So an update does some work of merging for each
    /// growth that it does.
    pub(super) fn merge_after(&self, run: &[Shared<Part>], next: &Parts) {
        let [old] = run else { return };
        if let [part] = next.all() {
            if part.pairs.len() <= self.few() && old.opened.elapsed() >= self.sizes.short_life {
                self.merge_with_neighbour(part);
            }
        }
        let directory = self.directory();
        let mut two = directory.parts(self.hand.load(Relaxed), u64::MAX);
        if let (Some(one), Some(other)) = (two.next(), two.next()) {
            self.hand.store(other.first, Relaxed);
            self.merge([one.clone(), other.clone()], self.sizes.few_keys, self.sizes.long_life);
        } else {
            self.hand.store(0, Relaxed);
        }
    }

    fn merge_with_neighbour(&self, part: &Shared<Part>) {
        let directory = self.directory();
        let before = part.first.checked_sub(1).map(|key| directory.part(key).clone());
        let after = part.last.checked_add(1).map(|key| directory.part(key).clone());
        let is_merged = before.is_some_and(|before| self.merge([before, part.clone()], self.few(), self.sizes.short_life));
        if let Some(after) = after.filter(|_| !is_merged) {
            self.merge([part.clone(), after], self.few(), self.sizes.short_life);
        }
    }

    // Merges two neighbours that have few keys each and of which one at least is this old. Returns whether it did.
    fn merge(&self, run: [Shared<Part>; 2], few: usize, age: Duration) -> bool {
        run.iter().any(|part| part.opened.elapsed() >= age)
            && run.iter().all(|part| has_few(part, few))
            && claim(&run)
            && self.grow(&run, Aim::Fit).is_ok()
    }

    /// Merges neighbours as far as that saves parts, and gives each tree as few words as it may have. What isn't done for want of memory
    /// stays as it is.
    pub(super) fn shrink(&self) {
        let mut next = Some(0);
        while let Some(first) = next {
            let Some((run, keys)) = self.run_from(first) else { return };
            let words = words_of(keys as u64).max(u64::from(self.sizes.least_words));
            let (one, last) = (&run[0], &run[run.len() - 1]);
            next = last.last.checked_add(1);
            if (run.len() > 1 || u64::from(one.words) > words) && claim(&run) {
                _ = self.grow(&run, Aim::Fit);
            }
        }
    }

    // The part that has this key and those that follow it, as many as make one part together; and the keys of them.
    fn run_from(&self, first: u64) -> Option<(Vec<Shared<Part>>, usize)> {
        let directory = self.directory();
        let most = self.sizes.most(self.is_read());
        let (mut run, mut keys) = (Vec::new(), 0);
        for part in directory.parts(first, u64::MAX) {
            let more = keys_of(part, most).unwrap_or(most);
            if !run.is_empty() && keys + more > most / 2 {
                break;
            }
            keys += more;
            run.try_reserve(1).ok()?;
            run.push(part.clone());
        }
        Some((run, keys))
    }
}
