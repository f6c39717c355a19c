//! Calls in order of keys.

use super::{Map, unreadable};
use crate::tree::ends;
use std::fmt::{Debug, Formatter};
use std::iter::FusedIterator;
use std::ops::{Bound, RangeBounds};

impl Map {
    /// Returns the pair with the least key, if there is one: it was in the map at some moment of the call, and each lesser key was
    /// absent at a moment of its own. `SkipMap` calls it `front`, `BTreeMap` `first_key_value`.
    ///
    /// ```
    /// assert_eq!(luskadorv::Map::from([(8, 80), (7, 70)]).first(), Some((7, 70)));
    /// ```
    pub fn first(&self) -> Option<(u64, u64)> {
        self.lower_bound(Bound::Unbounded)
    }

    /// Returns the pair with the greatest key, if there is one, as [`first`](Map::first).
    ///
    /// ```
    /// assert_eq!(luskadorv::Map::from([(8, 80), (7, 70)]).last(), Some((8, 80)));
    /// ```
    pub fn last(&self) -> Option<(u64, u64)> {
        self.upper_bound(Bound::Unbounded)
    }

    /// Returns the pair with the least key within the bound, as [`first`](Map::first).
    ///
    /// ```
    /// use std::ops::Bound::{Excluded, Included};
    ///
    /// let map = luskadorv::Map::from([(7, 70), (8, 80)]);
    /// assert_eq!(map.lower_bound(Included(7)), Some((7, 70)));
    /// assert_eq!(map.lower_bound(Excluded(7)), Some((8, 80)));
    /// ```
    pub fn lower_bound(&self, bound: Bound<u64>) -> Option<(u64, u64)> {
        let (first, _) = ends((bound, Bound::Unbounded))?;
        self.inner.at_least(first).unwrap_or_else(unreadable).map(|pair| (pair.key, pair.value))
    }

    /// Returns the pair with the greatest key within the bound, as [`first`](Map::first).
    ///
    /// ```
    /// use std::ops::Bound::{Excluded, Included};
    ///
    /// let map = luskadorv::Map::from([(7, 70), (8, 80)]);
    /// assert_eq!(map.upper_bound(Included(8)), Some((8, 80)));
    /// assert_eq!(map.upper_bound(Excluded(8)), Some((7, 70)));
    /// ```
    pub fn upper_bound(&self, bound: Bound<u64>) -> Option<(u64, u64)> {
        let (_, last) = ends((Bound::Unbounded, bound))?;
        self.inner.at_most(last).unwrap_or_else(unreadable).map(|pair| (pair.key, pair.value))
    }

    /// Removes the pair that [`first`](Map::first) finds, and returns it. Two calls never return one pair.
    ///
    /// ```
    /// let map = luskadorv::Map::from([(7, 70), (8, 80)]);
    /// assert_eq!(map.pop_front(), Some((7, 70)));
    /// ```
    pub fn pop_front(&self) -> Option<(u64, u64)> {
        loop {
            let (key, _) = self.first()?;
            if let Some(value) = self.remove(key) {
                return Some((key, value));
            }
        }
    }

    /// Removes the pair that [`last`](Map::last) finds, and returns it.
    ///
    /// ```
    /// let map = luskadorv::Map::from([(7, 70), (8, 80)]);
    /// assert_eq!(map.pop_back(), Some((8, 80)));
    /// ```
    pub fn pop_back(&self) -> Option<(u64, u64)> {
        loop {
            let (key, _) = self.last()?;
            if let Some(value) = self.remove(key) {
                return Some((key, value));
            }
        }
    }

    /// Returns an iterator over the pairs with keys in the range, from either end. (A range that begins above its end has no
    /// pairs; `BTreeMap::range` panics.)
    ///
    /// It holds no lock and no memory of the map. Each step finds the next pair of the map as it is then, so pairs that others
    /// put or remove ahead of it are seen or not seen as they are when it comes there. Keys are strictly increasing.
    ///
    /// ```
    /// let map = luskadorv::Map::from([(5, 50), (6, 60), (7, 70)]);
    /// assert_eq!(map.range(6..).collect::<Vec<_>>(), [(6, 60), (7, 70)]);
    /// assert_eq!(map.range(..=6).rev().next(), Some((6, 60)));
    /// ```
    pub fn range<R: RangeBounds<u64>>(&self, range: R) -> Range<'_> {
        Range { map: self, left: ends(range) }
    }

    /// Returns an iterator over all pairs, as [`range`](Map::range).
    ///
    /// ```
    /// assert_eq!(luskadorv::Map::from([(7, 70), (5, 50)]).iter().map(|pair| pair.0).collect::<Vec<_>>(), [5, 7]);
    /// ```
    pub fn iter(&self) -> Range<'_> {
        self.range(..)
    }
}

/// The pairs of a range of keys, from either end. See [`Map::range`].
#[derive(Clone)]
pub struct Range<'m> {
    map: &'m Map,
    // The first and the last key that are left.
    left: Option<(u64, u64)>,
}

impl Iterator for Range<'_> {
    type Item = (u64, u64);

    fn next(&mut self) -> Option<(u64, u64)> {
        let (first, last) = self.left?;
        let pair = self.map.lower_bound(Bound::Included(first)).filter(|(key, _)| *key <= last);
        self.left = pair.filter(|(key, _)| *key < last).map(|(key, _)| (key + 1, last));
        pair
    }
}

impl DoubleEndedIterator for Range<'_> {
    fn next_back(&mut self) -> Option<(u64, u64)> {
        let (first, last) = self.left?;
        let pair = self.map.upper_bound(Bound::Included(last)).filter(|(key, _)| first <= *key);
        self.left = pair.filter(|(key, _)| first < *key).map(|(key, _)| (first, key - 1));
        pair
    }
}

impl FusedIterator for Range<'_> {}

impl Debug for Range<'_> {
    fn fmt(&self, out: &mut Formatter<'_>) -> std::fmt::Result {
        out.debug_struct("Range").field("left", &self.left).finish_non_exhaustive()
    }
}
