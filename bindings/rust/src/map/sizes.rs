//! How many words trees have, and when parts are split and merged.

use crate::ffi::words_for;
use std::time::Duration;

/// How many words the first tree of a map has, if no number is named: 512 KiB.
pub(super) const FIRST_WORDS: u32 = 1 << 16;

/// How many words a tree of this many pairs has at least: those that its pairs take, and three quarters more for updates. If there were many more,
/// updates would use them to rebuild the whole tree, shortly before others follow it.
pub(super) fn words_of(pairs: u64) -> u64 {
    7 * words_for(pairs) / 4
}

/// What a test changes to strain a map.
pub(super) struct Sizes {
    /// How many words a tree has at least that follows another.
    pub(super) least_words: u32,
    /// A tree has no more words than this, unless its pairs ask for more.
    pub(super) hot_words: u32,
    /// The same for a tree that is changed much, if no split helps: it has few keys, or one thread calls it.
    pub(super) lone_words: u32,
    /// A part with more keys than this is split.
    pub(super) most_keys: usize,
    /// The same while most calls are reads: they find their part sooner if there are few, and a growth comes once in many calls.
    pub(super) most_read_keys: usize,
    /// A part that is changed much by several threads is split if it has at least this many keys ..
    pub(super) hot_keys: usize,
    /// .. while the map has fewer parts than this.
    pub(super) hot_parts: usize,
    /// Two neighbours are merged if each has at most this many keys, and neither is changed much.
    pub(super) few_keys: usize,
    /// The same while most calls are reads, if one of them grew.
    pub(super) few_read_keys: usize,
    /// A tree that served for a shorter time than this is changed much: two follow it, or a larger one.
    pub(super) short_life: Duration,
    /// A tree that served for a longer time than this is followed by a smaller one, if it is larger than its pairs ask for.
    pub(super) long_life: Duration,
}

pub(super) const USUAL: Sizes = Sizes {
    least_words: 1 << 12,
    hot_words: 1 << 13,
    lone_words: 1 << 15,
    most_keys: 1 << 11,
    most_read_keys: 1 << 14,
    hot_keys: 16,
    hot_parts: 64,
    few_keys: 128,
    few_read_keys: 1 << 12,
    short_life: Duration::from_millis(50),
    long_life: Duration::from_secs(2),
};

impl Sizes {
    /// How many keys a part has at most.
    pub(super) fn most(&self, is_read: bool) -> usize {
        if is_read { self.most_read_keys } else { self.most_keys }
    }
}

/// A map of these sizes grows, splits and merges all the time.
pub(super) const STRAINED: Sizes = Sizes {
    least_words: 1 << 10,
    hot_words: 1 << 10,
    lone_words: 1 << 11,
    most_keys: 8,
    most_read_keys: 16,
    hot_keys: 4,
    hot_parts: 64,
    few_keys: 4,
    few_read_keys: 6,
    short_life: Duration::from_micros(100),
    long_life: Duration::ZERO,
};
