//! How many parts a map has, and how many words their trees.

use super::Map;
use super::plans::{Aim, Plan, Served};
use super::sizes::{FIRST_WORDS, Sizes, USUAL};
use crate::ffi::words_for;
use std::thread::scope;
use std::time::Duration;

// How many words each part has.
fn words(map: &Map) -> Vec<u32> {
    map.inner.directory().parts(0, u64::MAX).map(|part| part.words).collect()
}

#[test]
fn what_follows_a_part_is_as_large_as_its_keys_and_updates_ask_for() {
    let (least, hot, lone) = (USUAL.least_words, USUAL.hot_words, USUAL.lone_words);
    // words, milliseconds that they served, whether several slots called, keys, the map's parts; how many parts follow, and their words
    let cases = [
        (FIRST_WORDS, 1, false, 10, 1, (1, lone)),
        (hot, 1, true, 10, 1, (1, 2 * hot)),
        // several threads are served by two parts, as long as the map has few
        (FIRST_WORDS, 1, true, 100, 1, (2, hot)),
        (least, 1, true, 100, 64, (1, 2 * least)),
        (hot, 1, true, 100, 64, (1, hot)),
        // one that isn't changed much keeps its words, and then has fewer
        (least, 60, true, 100, 1, (1, least)),
        (FIRST_WORDS, 60, true, 100, 1, (1, hot)),
        (hot, 3_000, true, 100, 1, (1, least)),
        // many keys are split
        (least, 1, false, 5_000, 1, (5, least)),
        // words that can't be doubled
        ((1 << 27) + 1, 1, true, 10, 1, (1, lone)),
        (1 << 28, 60, true, 10, 1, (1, hot)),
        (1 << 28, 3_000, true, 1 << 20, 1, (1 << 10, least)),
    ];
    for (words, time, is_shared, keys, parts, (count, next)) in cases {
        let old = Served { words, time: Duration::from_millis(time), is_shared, is_read: false };
        let plan = Plan::after(&old, Aim::Room, keys, parts, &USUAL);
        assert_eq!(plan, Plan { count, words: next }, "{words} words, {time} ms, {is_shared}, {keys} keys, {parts} parts");
        let plan = Plan::after(&old, Aim::Fit, keys, parts, &USUAL);
        assert_eq!(plan, Plan { count: if keys > USUAL.most_keys { count } else { 1 }, words: least });
    }
}

#[test]
fn a_part_has_more_keys_while_most_calls_are_reads() {
    // its keys, whether most calls are reads; how many parts follow
    let cases = [(2_048, false, 1), (2_049, false, 3), (2_049, true, 1), (16_384, true, 1), (16_385, true, 3), (16_384, false, 16)];
    for (keys, is_read, count) in cases {
        let old = Served { words: 1 << 18, time: Duration::from_millis(200), is_shared: true, is_read };
        for aim in [Aim::Room, Aim::Fit] {
            assert_eq!(Plan::after(&old, aim, keys, 10, &USUAL).count, count, "{keys} keys, {is_read}");
        }
    }
}

#[test]
fn trees_have_three_quarters_more_words_than_their_pairs_take() {
    let map: Map = (0..50_000).map(|key| (key, 0)).collect();
    for part in map.inner.directory().parts(0, u64::MAX) {
        let share = f64::from(part.words) / words_for(part.pairs.len() as u64) as f64;
        assert!((1.74..=1.75).contains(&share), "{share} of {} pairs", part.pairs.len());
    }
}

#[test]
fn parts_are_split_when_most_calls_are_updates_and_merged_when_most_are_reads() {
    const KEYS: u64 = 6_000;
    let made: Map = (0..KEYS).map(|key| (key, 0)).collect();
    assert_eq!(words(&made).len(), 1);
    // however fast it is changed
    let sizes = Sizes { short_life: Duration::ZERO, long_life: Duration::ZERO, ..USUAL };
    let map = Map::of(FIRST_WORDS, sizes).unwrap();
    (0..4 * KEYS).for_each(|number| _ = map.insert(number % KEYS, number));
    assert!(words(&map).len() >= 3, "{} parts", words(&map).len());
    for number in 0..20 * KEYS {
        map.insert(number * 7 % KEYS, number);
        (0..10).for_each(|more| assert!(map.get((number + more) % KEYS).is_some()));
    }
    assert!(words(&map).len() <= 2, "{} parts are left", words(&map).len());
}

#[test]
fn many_threads_that_change_few_keys_have_one_small_tree() {
    let map = Map::new();
    scope(|scope| {
        for thread in 0..512 {
            let map = &map;
            scope.spawn(move || (0..40).for_each(|number| _ = map.insert(number % 10, thread)));
        }
    });
    let words = words(&map);
    assert!(words.len() == 1 && words[0] <= USUAL.lone_words, "{words:?}");
}

#[test]
fn an_emptied_map_has_fewer_parts_and_after_shrinking_one() {
    // however fast it is changed
    let sizes = Sizes { short_life: Duration::ZERO, long_life: Duration::ZERO, ..USUAL };
    let map = Map::of(FIRST_WORDS, sizes).unwrap();
    (0..50_000).for_each(|key| _ = map.insert(key, key));
    let full = words(&map).len();
    assert!(full >= 50_000 / USUAL.most_keys, "{full} parts");
    (0..50_000).for_each(|key| _ = map.remove(key));
    let emptied = words(&map).len();
    assert!(emptied < full / 4, "{emptied} of {full} parts");
    map.shrink_to_fit();
    assert_eq!(words(&map), [USUAL.least_words]);
    assert_eq!(map.first(), None);
}

#[test]
fn a_map_of_many_words_shrinks_to_what_its_pairs_ask_for() {
    let map = Map::with_words(1 << 22).unwrap();
    (0..10_000).for_each(|key| _ = map.insert(key, key));
    assert_eq!(words(&map), [1 << 22]);
    map.shrink_to_fit();
    let words = words(&map);
    assert!(words.len() == 10 && words.iter().all(|words| *words < 20_000), "{words:?}");
    assert!(map.iter().eq((0..10_000).map(|key| (key, key))));
}
