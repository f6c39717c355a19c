//! `Map` beside a `BTreeMap`: the same calls, drawn from a seed, and the same replies.
//!
//! `LUSKADORV_SEED` names the first seed, `LUSKADORV_ROUNDS` how many seeds are tried.

mod common;

use common::{Draws, number};
use luskadorv::Map;
use std::collections::BTreeMap;
use std::ops::Bound::{Excluded, Included, Unbounded};

// A key: mostly one of few, and now and then any.
fn key(draws: &mut Draws, keys: u64) -> u64 {
    match draws.below(50) {
        0 => draws.next(),
        1 => u64::MAX - draws.below(3),
        _ => draws.below(keys) * (u64::MAX / keys),
    }
}

fn first_of(model: &BTreeMap<u64, u64>) -> Option<(u64, u64)> {
    model.first_key_value().map(|(key, value)| (*key, *value))
}

fn last_of(model: &BTreeMap<u64, u64>) -> Option<(u64, u64)> {
    model.last_key_value().map(|(key, value)| (*key, *value))
}

// Makes one call on both.
fn call(draws: &mut Draws, keys: u64, map: &Map, model: &mut BTreeMap<u64, u64>) {
    let (at, value) = (key(draws, keys), draws.below(5));
    match draws.below(100) {
        0..30 => assert_eq!(map.insert(at, value), model.insert(at, value)),
        30..50 => assert_eq!(map.remove(at), model.remove(&at)),
        50..65 => assert_eq!((map.get(at), map.contains_key(at)), (model.get(&at).copied(), model.contains_key(&at))),
        65..75 => {
            let (expected, new) = (Some(draws.below(5)).filter(|it| *it > 0), Some(value).filter(|it| *it > 1));
            let had = model.get(&at).copied();
            if had == expected {
                assert_eq!(map.compare_exchange(at, expected, new), Ok(had));
                match new {
                    Some(new) => _ = model.insert(at, new),
                    None => _ = model.remove(&at),
                }
            } else {
                assert_eq!(map.compare_exchange(at, expected, new), Err(had));
            }
        }
        75..80 => {
            let left = model.entry(at).and_modify(|old| *old = value.max(*old)).or_insert(value);
            assert_eq!(map.compare_insert(at, value, |old| old < value), *left);
        }
        80..85 => {
            assert_eq!(map.first(), first_of(model));
            assert_eq!(map.last(), last_of(model));
        }
        85..90 => {
            let above = |bound| model.range((bound, Unbounded)).next().map(|(key, value)| (*key, *value));
            assert_eq!(map.lower_bound(Included(at)), above(Included(at)));
            assert_eq!(map.lower_bound(Excluded(at)), above(Excluded(at)));
            let below = |bound| model.range((Unbounded, bound)).next_back().map(|(key, value)| (*key, *value));
            assert_eq!(map.upper_bound(Included(at)), below(Included(at)));
            assert_eq!(map.upper_bound(Excluded(at)), below(Excluded(at)));
        }
        90..94 => {
            let other = key(draws, keys);
            let (first, last) = (at.min(other), at.max(other));
            assert!(map.range(first..last).eq(model.range(first..last).map(|(key, value)| (*key, *value))));
            assert!(map.range(first..=last).rev().eq(model.range(first..=last).rev().map(|(key, value)| (*key, *value))));
        }
        94 => assert_eq!(map.pop_front(), model.pop_first()),
        95 => assert_eq!(map.pop_back(), model.pop_last()),
        96 => assert_eq!(map.get_or_insert(at, value), *model.entry(at).or_insert(value)),
        97 => assert_eq!((map.len(), map.is_empty()), (model.len(), model.is_empty())),
        98 => assert_eq!(format!("{map:?}"), format!("{model:?}")),
        _ => {
            if draws.below(20) == 0 {
                map.clear();
                model.clear();
            }
        }
    }
}

#[test]
fn a_map_replies_as_a_btree_map() {
    let first = number("LUSKADORV_SEED", 1);
    for seed in first..first + number("LUSKADORV_ROUNDS", 20) {
        // A test that fails shows this line.
        println!("seed {seed}");
        let mut draws = Draws::new(seed);
        let keys = [3, 20, 200, 2000][draws.below(4) as usize];
        let map = Map::with_words(4 + draws.below(2000) as u32).unwrap();
        let mut model = BTreeMap::new();
        for _ in 0..4000 {
            call(&mut draws, keys, &map, &mut model);
        }
        let pairs = map.into_pairs().unwrap();
        assert!(pairs.iter().map(|pair| (pair.key, pair.value)).eq(model), "seed {seed}");
    }
}
