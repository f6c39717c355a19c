//! Calls on one key.

use super::update::Update;
use super::{Map, unreadable};
use crate::{Error, Exchanged};

fn full<T>(error: Error) -> T {
    panic!("the map can't grow: {error}")
}

impl Map {
    /// As [`get`](Map::get), but returns an error where that panics.
    ///
    /// ```
    /// assert_eq!(luskadorv::Map::from([(7, 70)]).try_get(7), Ok(Some(70)));
    /// ```
    pub fn try_get(&self, key: u64) -> Result<Option<u64>, Error> {
        self.inner.find(key)
    }

    /// Returns the value of the key, if it has one.
    ///
    /// # Panics
    ///
    /// If memory runs out for what a thread needs once to read a part of the map, like all calls that read except
    /// [`try_get`](Map::try_get). A growth that fails makes no read fail.
    ///
    /// ```
    /// let map = luskadorv::Map::from([(7, 70)]);
    /// assert_eq!(map.get(7), Some(70));
    /// assert_eq!(map.get(8), None);
    /// ```
    pub fn get(&self, key: u64) -> Option<u64> {
        self.inner.find(key).unwrap_or_else(unreadable)
    }

    /// Returns whether the key has a value.
    ///
    /// ```
    /// assert!(luskadorv::Map::from([(7, 70)]).contains_key(7));
    /// ```
    pub fn contains_key(&self, key: u64) -> bool {
        self.get(key).is_some()
    }

    /// Puts the value at the key, and returns the value that the key had before, as `BTreeMap::insert`. (`SkipMap::insert`
    /// returns the new entry.)
    ///
    /// # Panics
    ///
    /// If the map can't grow, like all calls that update it except [`try_insert`](Map::try_insert).
    ///
    /// ```
    /// let map = luskadorv::Map::new();
    /// assert_eq!(map.insert(7, 70), None);
    /// assert_eq!(map.insert(7, 71), Some(70));
    /// ```
    pub fn insert(&self, key: u64, value: u64) -> Option<u64> {
        self.try_insert(key, value).unwrap_or_else(full)
    }

    /// As [`insert`](Map::insert). If memory runs out it returns [`Error::Memory`], and the put didn't happen.
    ///
    /// ```
    /// assert_eq!(luskadorv::Map::new().try_insert(7, 70), Ok(None));
    /// ```
    pub fn try_insert(&self, key: u64, value: u64) -> Result<Option<u64>, Error> {
        self.inner.update(&Update { key, expected: None, new: Some(value) })
    }

    /// Removes the key, and returns the value that it had.
    ///
    /// ```
    /// let map = luskadorv::Map::from([(7, 70)]);
    /// assert_eq!(map.remove(7), Some(70));
    /// assert_eq!(map.remove(7), None);
    /// ```
    pub fn remove(&self, key: u64) -> Option<u64> {
        self.inner.update(&Update { key, expected: None, new: None }).unwrap_or_else(full)
    }

    /// Makes the key's value `new` if it is `expected`, where `None` is no value, and returns what it was: `Ok` if the value was
    /// exchanged, and else `Err`. The name and the meaning are those of the atomics of std.
    ///
    /// ```
    /// let map = luskadorv::Map::new();
    /// assert_eq!(map.compare_exchange(7, None, Some(70)), Ok(None));
    /// assert_eq!(map.compare_exchange(7, Some(71), Some(72)), Err(Some(70)));
    /// assert_eq!(map.compare_exchange(7, Some(70), None), Ok(Some(70)));
    /// assert_eq!(map.len(), 0);
    /// ```
    pub fn compare_exchange(&self, key: u64, expected: Option<u64>, new: Option<u64>) -> Exchanged {
        let had = self.inner.update(&Update { key, expected: Some(expected), new }).unwrap_or_else(full);
        if had == expected { Ok(had) } else { Err(had) }
    }

    /// Puts the value at the key if the key has none, or if `is_replaced` returns `true` for the value that it has. Returns the
    /// value that the key then has: the new one, or the one that was kept.
    ///
    /// `is_replaced` may be called several times, if others change the key meanwhile.
    ///
    /// ```
    /// let map = luskadorv::Map::from([(7, 70)]);
    /// assert_eq!(map.compare_insert(7, 60, |old| old < 60), 70);
    /// assert_eq!(map.compare_insert(7, 80, |old| old < 80), 80);
    /// assert_eq!(map.compare_insert(8, 90, |_| false), 90);
    /// ```
    pub fn compare_insert(&self, key: u64, value: u64, is_replaced: impl Fn(u64) -> bool) -> u64 {
        let mut had = self.get(key);
        loop {
            match had {
                Some(old) if !is_replaced(old) => return old,
                _ => match self.compare_exchange(key, had, Some(value)) {
                    Ok(_) => return value,
                    Err(other) => had = other,
                },
            }
        }
    }

    /// Returns the value of the key. If it has none, puts this one.
    ///
    /// ```
    /// let map = luskadorv::Map::new();
    /// assert_eq!(map.get_or_insert(7, 70), 70);
    /// assert_eq!(map.get_or_insert(7, 71), 70);
    /// ```
    pub fn get_or_insert(&self, key: u64, value: u64) -> u64 {
        self.compare_insert(key, value, |_| false)
    }

    /// As [`get_or_insert`](Map::get_or_insert), with a value that is made only if the key had none. No lock is held meanwhile.
    ///
    /// ```
    /// let map = luskadorv::Map::from([(7, 70)]);
    /// assert_eq!(map.get_or_insert_with(7, || unreachable!()), 70);
    /// assert_eq!(map.get_or_insert_with(8, || 80), 80);
    /// ```
    pub fn get_or_insert_with(&self, key: u64, value: impl FnOnce() -> u64) -> u64 {
        match self.get(key) {
            Some(had) => had,
            None => self.get_or_insert(key, value()),
        }
    }
}
