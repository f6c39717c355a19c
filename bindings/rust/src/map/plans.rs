//! What follows a part: how many parts, and how many words their trees have.

use super::sizes::Sizes;
use std::time::Duration;

/// What parts that follow others are made for.
#[derive(Clone, Copy, PartialEq, Eq)]
pub(super) enum Aim {
    /// There are more words for updates.
    Room,
    /// The pairs lie in as few parts and words as there may be.
    Fit,
}

/// How a part has served that is followed by others.
pub(super) struct Served {
    pub(super) words: u32,
    pub(super) time: Duration,
    /// Several slots have called it.
    pub(super) is_shared: bool,
    /// Most calls are reads.
    pub(super) is_read: bool,
}

/// What follows some parts.
#[derive(Debug, PartialEq, Eq)]
pub(super) struct Plan {
    /// How many parts.
    pub(super) count: usize,
    /// The words that each has at least.
    pub(super) words: u32,
}

impl Plan {
    /// What follows a part that has served so and has this many keys, in a map of this many parts.
    pub(super) fn after(old: &Served, aim: Aim, keys: usize, parts: usize, sizes: &Sizes) -> Plan {
        let plan = |count, words: u32| Plan { count, words: words.max(sizes.least_words) };
        let most = sizes.most(old.is_read);
        if keys > most {
            return plan(keys.div_ceil(most / 2), 0);
        }
        match aim {
            Aim::Fit => plan(1, 0),
            Aim::Room if old.time > sizes.long_life => plan(1, (old.words / 2).min(sizes.hot_words)),
            Aim::Room if old.time >= sizes.short_life => plan(1, old.words.min(sizes.hot_words)),
            // it is changed much: several threads are served by two parts better than by one, and one thread isn't
            Aim::Room if old.is_shared && keys >= sizes.hot_keys => match parts < sizes.hot_parts {
                true => plan(2, old.words.min(sizes.hot_words)),
                false => plan(1, old.words.saturating_mul(2).min(sizes.hot_words)),
            },
            // no split helps
            Aim::Room => plan(1, old.words.saturating_mul(2).min(sizes.lone_words)),
        }
    }
}
