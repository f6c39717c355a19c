//! A map with keys and values of types that fit 64 bits.

use crate::keys::{Key, Value};
use crate::{Error, Kept, Map, Range};
use std::fmt::{Debug, Formatter};
use std::iter::FusedIterator;
use std::marker::PhantomData;
use std::ops::{Bound, RangeBounds};

/// A [`Map`] whose keys and values have other types than `u64`: see [`Key`] and [`Value`]. Its calls are those of [`Map`], where they
/// are described; each also panics as [`Key::encode`] does.
///
/// Values are compared by their bits.
///
/// ```
/// use luskadorv::TypedMap;
/// use std::time::{Duration, SystemTime};
///
/// let readings = TypedMap::new();
/// let start = SystemTime::UNIX_EPOCH + Duration::from_secs(1_700_000_000);
/// for second in 0..60 {
///     readings.insert(start + Duration::from_secs(second), 20.0 - 0.5 * second as f64);
/// }
/// let window = start + Duration::from_secs(41)..start + Duration::from_secs(43);
/// let values: Vec<f64> = readings.range(window).map(|(_, value)| value).collect();
/// assert_eq!(values, [-0.5, -1.0]);
/// ```
pub struct TypedMap<K, V> {
    map: Map,
    kind: Kinds<K, V>,
}

// A function, so that the map goes between threads whatever these types are: it has none of their values.
type Kinds<K, V> = PhantomData<fn(K, V) -> (K, V)>;

fn typed<K: Key, V: Value>((key, value): (u64, u64)) -> (K, V) {
    (K::decode(key), V::from_bits(value))
}

fn bits<V: Value>(value: Option<V>) -> Option<u64> {
    value.map(V::into_bits)
}

fn value<V: Value>(bits: Option<u64>) -> Option<V> {
    bits.map(V::from_bits)
}

fn numbers<K: Key>(range: impl RangeBounds<K>) -> (Bound<u64>, Bound<u64>) {
    let number = |bound: Bound<&K>| bound.map(|key| key.encode());
    (number(range.start_bound()), number(range.end_bound()))
}

impl<K: Key, V: Value> TypedMap<K, V> {
    /// As [`Map::new`].
    pub fn new() -> TypedMap<K, V> {
        TypedMap { map: Map::new(), kind: PhantomData }
    }

    /// As [`Map::with_words`].
    pub fn with_words(words: u32) -> Result<TypedMap<K, V>, Error> {
        Ok(TypedMap { map: Map::with_words(words)?, kind: PhantomData })
    }

    /// Returns the map of the numbers and bits.
    pub fn into_inner(self) -> Map {
        self.map
    }

    /// As [`Map::get`].
    pub fn get(&self, key: K) -> Option<V> {
        value(self.map.get(key.encode()))
    }

    /// As [`Map::try_get`].
    pub fn try_get(&self, key: K) -> Result<Option<V>, Error> {
        Ok(value(self.map.try_get(key.encode())?))
    }

    /// As [`Map::contains_key`].
    pub fn contains_key(&self, key: K) -> bool {
        self.map.contains_key(key.encode())
    }

    /// As [`Map::insert`].
    pub fn insert(&self, key: K, new: V) -> Option<V> {
        value(self.map.insert(key.encode(), new.into_bits()))
    }

    /// As [`Map::try_insert`].
    pub fn try_insert(&self, key: K, new: V) -> Result<Option<V>, Error> {
        Ok(value(self.map.try_insert(key.encode(), new.into_bits())?))
    }

    /// As [`Map::remove`].
    pub fn remove(&self, key: K) -> Option<V> {
        value(self.map.remove(key.encode()))
    }

    /// As [`Map::compare_exchange`].
    pub fn compare_exchange(&self, key: K, expected: Option<V>, new: Option<V>) -> Result<Option<V>, Option<V>> {
        self.map.compare_exchange(key.encode(), bits(expected), bits(new)).map(value).map_err(value)
    }

    /// As [`Map::compare_insert`].
    pub fn compare_insert(&self, key: K, new: V, is_replaced: impl Fn(V) -> bool) -> V {
        V::from_bits(self.map.compare_insert(key.encode(), new.into_bits(), |old| is_replaced(V::from_bits(old))))
    }

    /// As [`Map::get_or_insert`].
    pub fn get_or_insert(&self, key: K, new: V) -> V {
        V::from_bits(self.map.get_or_insert(key.encode(), new.into_bits()))
    }

    /// As [`Map::get_or_insert_with`].
    pub fn get_or_insert_with(&self, key: K, new: impl FnOnce() -> V) -> V {
        V::from_bits(self.map.get_or_insert_with(key.encode(), || new().into_bits()))
    }

    /// As [`Map::first`].
    pub fn first(&self) -> Option<(K, V)> {
        self.map.first().map(typed)
    }

    /// As [`Map::last`].
    pub fn last(&self) -> Option<(K, V)> {
        self.map.last().map(typed)
    }

    /// As [`Map::lower_bound`].
    pub fn lower_bound(&self, bound: Bound<K>) -> Option<(K, V)> {
        self.map.lower_bound(bound.map(K::encode)).map(typed)
    }

    /// As [`Map::upper_bound`].
    pub fn upper_bound(&self, bound: Bound<K>) -> Option<(K, V)> {
        self.map.upper_bound(bound.map(K::encode)).map(typed)
    }

    /// As [`Map::pop_front`].
    pub fn pop_front(&self) -> Option<(K, V)> {
        self.map.pop_front().map(typed)
    }

    /// As [`Map::pop_back`].
    pub fn pop_back(&self) -> Option<(K, V)> {
        self.map.pop_back().map(typed)
    }

    /// As [`Map::range`].
    pub fn range<R: RangeBounds<K>>(&self, range: R) -> TypedRange<'_, K, V> {
        TypedRange { range: self.map.range(numbers(range)), kind: PhantomData }
    }

    /// As [`Map::iter`].
    pub fn iter(&self) -> TypedRange<'_, K, V> {
        self.range(..)
    }

    /// As [`Map::snapshot`].
    pub fn snapshot<R: RangeBounds<K>>(&self, range: R) -> Result<Vec<(K, V)>, Error> {
        Ok(self.map.snapshot(numbers(range))?.into_iter().map(typed).collect())
    }

    /// As [`Map::len`].
    pub fn len(&self) -> usize {
        self.map.len()
    }

    /// As [`Map::is_empty`].
    pub fn is_empty(&self) -> bool {
        self.map.is_empty()
    }

    /// As [`Map::clear`].
    pub fn clear(&self) {
        self.map.clear();
    }

    /// As [`Map::shrink_to_fit`].
    pub fn shrink_to_fit(&self) {
        self.map.shrink_to_fit();
    }

    /// As [`Map::into_pairs`].
    pub fn into_pairs(self) -> Result<Vec<(K, V)>, Kept<TypedMap<K, V>>> {
        match self.map.into_pairs() {
            Ok(pairs) => Ok(pairs.into_iter().map(|pair| typed((pair.key, pair.value))).collect()),
            Err(Kept { kept, error }) => Err(Kept { kept: TypedMap { map: kept, kind: PhantomData }, error }),
        }
    }
}

impl<K: Key, V: Value> Default for TypedMap<K, V> {
    fn default() -> TypedMap<K, V> {
        TypedMap::new()
    }
}

impl<K: Key + Debug, V: Value + Debug> Debug for TypedMap<K, V> {
    fn fmt(&self, out: &mut Formatter<'_>) -> std::fmt::Result {
        out.debug_map().entries(self).finish()
    }
}

impl<K: Key, V: Value> FromIterator<(K, V)> for TypedMap<K, V> {
    fn from_iter<I: IntoIterator<Item = (K, V)>>(pairs: I) -> TypedMap<K, V> {
        let map = pairs.into_iter().map(|(key, value)| (key.encode(), value.into_bits())).collect();
        TypedMap { map, kind: PhantomData }
    }
}

impl<K: Key, V: Value, const N: usize> From<[(K, V); N]> for TypedMap<K, V> {
    fn from(pairs: [(K, V); N]) -> TypedMap<K, V> {
        pairs.into_iter().collect()
    }
}

impl<K: Key, V: Value> Extend<(K, V)> for TypedMap<K, V> {
    fn extend<I: IntoIterator<Item = (K, V)>>(&mut self, pairs: I) {
        self.map.extend(pairs.into_iter().map(|(key, value)| (key.encode(), value.into_bits())));
    }
}

impl<'m, K: Key, V: Value> IntoIterator for &'m TypedMap<K, V> {
    type Item = (K, V);
    type IntoIter = TypedRange<'m, K, V>;

    fn into_iter(self) -> TypedRange<'m, K, V> {
        self.iter()
    }
}

/// The pairs of a range of keys, from either end. See [`Map::range`].
pub struct TypedRange<'m, K, V> {
    range: Range<'m>,
    kind: Kinds<K, V>,
}

impl<K, V> Clone for TypedRange<'_, K, V> {
    fn clone(&self) -> Self {
        TypedRange { range: self.range.clone(), kind: PhantomData }
    }
}

impl<K: Key, V: Value> Iterator for TypedRange<'_, K, V> {
    type Item = (K, V);

    fn next(&mut self) -> Option<(K, V)> {
        self.range.next().map(typed)
    }
}

impl<K: Key, V: Value> DoubleEndedIterator for TypedRange<'_, K, V> {
    fn next_back(&mut self) -> Option<(K, V)> {
        self.range.next_back().map(typed)
    }
}

impl<K: Key, V: Value> FusedIterator for TypedRange<'_, K, V> {}

impl<K, V> Debug for TypedRange<'_, K, V> {
    fn fmt(&self, out: &mut Formatter<'_>) -> std::fmt::Result {
        self.range.fmt(out)
    }
}
