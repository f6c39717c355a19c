//! The traits of std that a map has.

use super::inner::Inner;
use super::{Map, Range};
use crate::Pair;
use std::collections::BTreeMap;
use std::fmt::{Debug, Formatter};

impl Default for Map {
    fn default() -> Map {
        Map::new()
    }
}

impl Debug for Map {
    fn fmt(&self, out: &mut Formatter<'_>) -> std::fmt::Result {
        out.debug_map().entries(self).finish()
    }
}

impl FromIterator<(u64, u64)> for Map {
    fn from_iter<I: IntoIterator<Item = (u64, u64)>>(pairs: I) -> Map {
        let pairs: BTreeMap<u64, u64> = pairs.into_iter().collect();
        let pairs: Vec<Pair> = pairs.into_iter().map(|(key, value)| Pair { key, value }).collect();
        let map = Inner::with_pairs(pairs).map(|inner| Map { inner });
        map.unwrap_or_else(|error| panic!("the map can't be made: {error}"))
    }
}

impl<const N: usize> From<[(u64, u64); N]> for Map {
    fn from(pairs: [(u64, u64); N]) -> Map {
        pairs.into_iter().collect()
    }
}

impl Extend<(u64, u64)> for Map {
    fn extend<I: IntoIterator<Item = (u64, u64)>>(&mut self, pairs: I) {
        for (key, value) in pairs {
            self.insert(key, value);
        }
    }
}

impl<'m> IntoIterator for &'m Map {
    type Item = (u64, u64);
    type IntoIter = Range<'m>;

    fn into_iter(self) -> Range<'m> {
        self.iter()
    }
}
