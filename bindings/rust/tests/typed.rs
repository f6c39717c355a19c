//! Keys of each type have the order of their numbers, over all edge values and drawn pairs; and a map of such keys beside a
//! `BTreeMap`.
//!
//! `LUSKADORV_PAIRS` says how many pairs are drawn for each type.

mod common;

use common::{Draws, number};
use luskadorv::{Key, TypedMap};
use std::cmp::{Ordering, Reverse};
use std::collections::BTreeMap;
use std::fmt::Debug;
use std::net::Ipv4Addr;
use std::ops::Bound::{Excluded, Included, Unbounded};
use std::time::{Duration, SystemTime};

const CENTURIES: Duration = Duration::from_nanos(u64::MAX);

// A number of any size, mostly at an end of what so many bits have.
fn any(draws: &mut Draws) -> u64 {
    let (bits, size) = (draws.next(), draws.below(64));
    match draws.below(4) {
        0 => bits,
        1 => bits >> size,
        2 => !(bits >> size),
        _ => 1 << size,
    }
}

// These two keys and their numbers have one order, and each comes back from its number.
fn same_order<K: Key + Debug>(a: K, b: K, order: impl Fn(&K, &K) -> Ordering) {
    assert_eq!(a.encode().cmp(&b.encode()), order(&a, &b), "{a:?} and {b:?}");
    for it in [a, b] {
        assert!(order(&K::decode(it.encode()), &it).is_eq(), "{it:?}");
        assert!(K::BITS == 64 || it.encode() >> K::BITS == 0, "{it:?} takes more than {} bits", K::BITS);
    }
}

fn ordered_by<K: Key + Debug>(edges: &[K], draw: impl Fn(&mut Draws) -> K, order: impl Fn(&K, &K) -> Ordering) {
    for a in edges {
        for b in edges {
            same_order(*a, *b, &order);
        }
    }
    let mut draws = Draws::new(7);
    let mut last = draw(&mut draws);
    for _ in 0..number("LUSKADORV_PAIRS", 1_000_000) {
        let next = draw(&mut draws);
        same_order(last, next, &order);
        same_order(next, edges[draws.below(edges.len() as u64) as usize], &order);
        last = next;
    }
}

fn ordered<K: Key + Ord + Debug>(edges: &[K], draw: impl Fn(&mut Draws) -> K) {
    ordered_by(edges, draw, K::cmp);
}

macro_rules! integers {
    ($($kind:ident)*) => {$(
        #[test]
        fn $kind() {
            let (least, most, zero) = ($kind::MIN, $kind::MAX, 0 as $kind);
            let around = zero.wrapping_sub(1);
            ordered(&[least, least + 1, most / 2, most / 2 + 1, most - 1, most, zero, 1, around], |draws| any(draws) as $kind);
        }
    )*};
}

integers!(u8 u16 u32 u64 usize i8 i16 i32 i64 isize);

macro_rules! floats {
    ($($kind:ident as $bits:ident)*) => {$(
        #[test]
        fn $kind() {
            let edges = [0.0, $kind::MIN_POSITIVE, $kind::from_bits(1), 1.0, 1.5, $kind::MAX, $kind::INFINITY, $kind::NAN];
            let negative = edges.map(|it| -it);
            let edges: Vec<$kind> = edges.into_iter().chain(negative).collect();
            ordered_by(&edges, |draws| $kind::from_bits(any(draws) as $bits), $kind::total_cmp);
            assert!((-0.0 as $kind).encode() < (0.0 as $kind).encode());
        }
    )*};
}

floats!(f32 as u32 f64 as u64);

#[test]
fn chars_and_bools() {
    let edges = ['\0', 'a', '\u{7f}', '\u{d7ff}', '\u{e000}', '\u{ffff}', '\u{10000}', char::MAX];
    ordered(&edges, |draws| char::from_u32(draws.below(0xd800) as u32).unwrap());
    ordered(&[false, true], |draws| draws.below(2) == 1);
    ordered(&[()], |_| ());
}

#[test]
fn bytes_and_addresses() {
    ordered(&[[0; 8], [255; 8], *b"\0\0\0\0\0\0\0\x01", *b"\x01\0\0\0\0\0\0\0", *b"abcdefgh"], |draws| any(draws).to_le_bytes());
    ordered(&[[0; 3], [255; 3], *b"abc", *b"abd", *b"b\0\0"], |draws| [any(draws) as u8, any(draws) as u8, any(draws) as u8]);
    ordered(&[[]], |_| []);
    ordered(&[Ipv4Addr::UNSPECIFIED, Ipv4Addr::LOCALHOST, Ipv4Addr::BROADCAST], |draws| Ipv4Addr::from(any(draws) as u32));
}

#[test]
fn times() {
    let edges = [Duration::ZERO, Duration::from_nanos(1), Duration::from_secs(1), Duration::from_nanos(999_999_999), CENTURIES];
    ordered(&edges, |draws| Duration::from_nanos(any(draws)));
    ordered(&edges.map(|it| SystemTime::UNIX_EPOCH + it), |draws| SystemTime::UNIX_EPOCH + Duration::from_nanos(any(draws)));
}

#[test]
fn pairs_and_triples() {
    let ends = [0, 1, u32::MAX / 2, u32::MAX - 1, u32::MAX];
    let both: Vec<(u32, u32)> = ends.iter().flat_map(|a| ends.map(|b| (*a, b))).collect();
    ordered(&both, |draws| (any(draws) as u32, any(draws) as u32));
    let signed = [(i32::MIN, i32::MAX), (-1, -1), (-1, 0), (0, i32::MIN), (0, 0), (i32::MAX, i32::MIN)];
    ordered(&signed, |draws| (any(draws) as i32, any(draws) as i32));
    ordered(&[('a', true), ('a', false), ('b', false), (char::MAX, true)], |draws| (draws.below(0xd800) as u8 as char, draws.below(2) == 1));
    ordered(&[(0u16, -1i8, 7u32), (0, 1, 0), (1, -128, 0), (u16::MAX, 127, u32::MAX)], |draws| {
        (any(draws) as u16, any(draws) as i8, any(draws) as u32)
    });
    ordered(&[((), u64::MAX), ((), 0)], |draws| ((), any(draws)));
    ordered(&[(u64::MAX, ()), (0, ())], |draws| (any(draws), ()));
    ordered(&[Reverse(u64::MAX), Reverse(0)], |draws| Reverse(any(draws)));
    ordered(&[(Reverse(3u8), 4u8), (Reverse(4), 3), (Reverse(3), 3)], |draws| (Reverse(any(draws) as u8), any(draws) as u8));
}

// What has no number is refused, and nothing is lost by it.
#[test]
fn times_out_of_reach_are_refused() {
    let map = TypedMap::from([(SystemTime::UNIX_EPOCH, 1u64)]);
    let early = SystemTime::UNIX_EPOCH - Duration::from_nanos(1);
    let late = SystemTime::UNIX_EPOCH + CENTURIES + Duration::from_nanos(1);
    for (time, text) in [(early, "not before 1970"), (late, "less than 2^64 nanoseconds")] {
        let why = std::panic::catch_unwind(|| map.insert(time, 2)).unwrap_err();
        assert!(why.downcast_ref::<String>().unwrap().contains(text), "{why:?}");
    }
    assert_eq!(map.iter().collect::<Vec<_>>(), [(SystemTime::UNIX_EPOCH, 1)]);
}

// Makes one call on both.
fn call(draws: &mut Draws, map: &TypedMap<i16, f64>, model: &mut BTreeMap<i16, f64>) {
    let (key, new) = (draws.below(60) as i16 - 30, draws.below(5) as f64 - 2.5);
    let had = model.get(&key).copied();
    let first = |range: (std::ops::Bound<i16>, std::ops::Bound<i16>)| model.range(range).next().map(|(key, value)| (*key, *value));
    match draws.below(12) {
        0 => assert_eq!(map.insert(key, new), model.insert(key, new)),
        1 => assert_eq!(map.try_insert(key, new), Ok(model.insert(key, new))),
        2 | 3 => assert_eq!(map.remove(key), model.remove(&key)),
        4 => {
            assert_eq!((map.get(key), map.try_get(key)), (had, Ok(had)));
            assert_eq!((map.contains_key(key), map.len()), (had.is_some(), model.len()));
        }
        5 => {
            assert_eq!(map.compare_exchange(key, Some(9.5), None), Err(had));
            assert_eq!(map.compare_exchange(key, had, Some(new)), Ok(had));
            model.insert(key, new);
        }
        6 => assert_eq!(map.get_or_insert(key, new), *model.entry(key).or_insert(new)),
        7 => assert_eq!(map.get_or_insert_with(key, || new), *model.entry(key).or_insert(new)),
        8 => {
            let larger = had.map_or(new, |had| had.max(new));
            assert_eq!(map.compare_insert(key, new, |had| had < new), larger);
            model.insert(key, larger);
        }
        9 => {
            assert_eq!(map.lower_bound(Excluded(key)), first((Excluded(key), Unbounded)));
            let last = model.range(..=key).next_back().map(|(key, value)| (*key, *value));
            assert_eq!(map.upper_bound(Included(key)), last);
        }
        10 => {
            let wanted: Vec<(i16, f64)> = model.range(key..).map(|(key, value)| (*key, *value)).collect();
            assert_eq!(map.range(key..).collect::<Vec<_>>(), wanted);
            assert_eq!(map.range(key..).rev().collect::<Vec<_>>(), wanted.iter().rev().copied().collect::<Vec<_>>());
            assert_eq!(map.snapshot(key..), Ok(wanted));
        }
        _ => {
            assert_eq!((map.first(), map.last()), (first((Unbounded, Unbounded)), model.iter().next_back().map(|(key, value)| (*key, *value))));
            assert_eq!(map.pop_front(), model.pop_first());
            assert_eq!(map.pop_back(), model.pop_last());
        }
    }
}

#[test]
fn a_typed_map_replies_as_a_btreemap() {
    for seed in 0..20 {
        let (mut draws, mut model) = (Draws::new(seed), BTreeMap::new());
        let mut map = TypedMap::with_words(100).unwrap();
        for _ in 0..2000 {
            call(&mut draws, &map, &mut model);
        }
        assert_eq!(format!("{map:?}"), format!("{model:?}"));
        map.shrink_to_fit();
        map.extend([(-7, 0.5), (7, 1.5)]);
        model.extend([(-7, 0.5), (7, 1.5)]);
        assert_eq!(map.iter().collect::<TypedMap<_, _>>().into_pairs().unwrap(), model.into_iter().collect::<Vec<_>>());
        map.clear();
        assert!(map.is_empty() && map.into_inner().is_empty());
    }
}

#[test]
fn a_typed_map_goes_between_threads() {
    // (a type that doesn't)
    #[derive(Clone, Copy)]
    struct Local(*const u8);
    impl luskadorv::Value for Local {
        fn into_bits(self) -> u64 {
            self.0 as u64
        }
        fn from_bits(bits: u64) -> Local {
            Local(bits as *const u8)
        }
    }
    fn shared<T: Send + Sync>(_: &T) {}
    let map = TypedMap::from([(1u8, Local(std::ptr::null()))]);
    shared(&map);
    assert!(map.get(1).unwrap().0.is_null());
}
