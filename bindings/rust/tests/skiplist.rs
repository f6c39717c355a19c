//! What the tests of `crossbeam-skiplist` ask of a `SkipMap`, asked of `Map`, in this package's own words.

use luskadorv::{Map, Pair};
use std::ops::Bound::{Excluded, Included, Unbounded};
use std::sync::Barrier;
use std::sync::atomic::{AtomicU64, AtomicUsize, Ordering};
use std::thread::scope;

fn keys(map: &Map) -> Vec<u64> {
    map.iter().map(|(key, _)| key).collect()
}

fn shared<T: Send + Sync>() {}

#[test]
fn a_map_is_shared_and_sent() {
    shared::<Map>();
    shared::<luskadorv::Range<'static>>();
}

#[test]
fn a_new_map_is_empty() {
    let map = Map::new();
    assert!(map.is_empty());
    assert_eq!((map.len(), map.first(), map.last(), map.get(0)), (0, None, None, None));
    map.insert(1, 10);
    assert!(!map.is_empty());
}

#[test]
fn what_was_inserted_is_found_in_order() {
    let map = Map::new();
    for key in [5, 1, u64::MAX, 7, 0, 3] {
        assert_eq!(map.insert(key, key / 2), None);
    }
    assert_eq!(keys(&map), [0, 1, 3, 5, 7, u64::MAX]);
    assert_eq!(map.get(u64::MAX), Some(u64::MAX / 2));
    assert_eq!(map.get(2), None);
    assert_eq!(map.len(), 6);
    assert_eq!((map.first(), map.last()), (Some((0, 0)), Some((u64::MAX, u64::MAX / 2))));
}

#[test]
fn an_insert_replaces_the_value_and_keeps_the_number_of_keys() {
    let map = Map::from([(4, 40)]);
    assert_eq!(map.insert(4, 41), Some(40));
    assert_eq!(map.get(4), Some(41));
    assert_eq!(map.len(), 1);
}

#[test]
fn a_removed_key_is_gone_and_may_be_inserted_again() {
    let map: Map = (0..20).map(|key| (key, key + 100)).collect();
    for key in [0, 19, 7, 8] {
        assert_eq!(map.remove(key), Some(key + 100));
        assert_eq!(map.remove(key), None);
        assert!(!map.contains_key(key));
    }
    assert_eq!(map.len(), 16);
    assert_eq!(map.insert(7, 1), None);
    assert_eq!(map.lower_bound(Included(7)), Some((7, 1)));
    assert_eq!(map.lower_bound(Included(8)), Some((9, 109)));
}

#[test]
fn bounds_find_the_nearest_key() {
    let map: Map = [10, 20, 30].into_iter().map(|key| (key, key)).collect();
    // the bound, the pair above it, the pair below it
    let cases = [
        (Unbounded, Some(10), Some(30)),
        (Included(10), Some(10), Some(10)),
        (Excluded(10), Some(20), None),
        (Included(15), Some(20), Some(10)),
        (Excluded(15), Some(20), Some(10)),
        (Included(30), Some(30), Some(30)),
        (Excluded(30), None, Some(20)),
        (Included(31), None, Some(30)),
        (Excluded(0), Some(10), None),
        (Excluded(u64::MAX), None, Some(30)),
    ];
    for (bound, above, below) in cases {
        assert_eq!(map.lower_bound(bound).map(|pair| pair.0), above, "{bound:?}");
        assert_eq!(map.upper_bound(bound).map(|pair| pair.0), below, "{bound:?}");
    }
}

#[test]
fn ranges_have_the_keys_between_their_bounds() {
    let map: Map = (0..10).map(|i| (10 * i, i)).collect();
    let of = |range: luskadorv::Range<'_>| range.map(|(key, _)| key).collect::<Vec<_>>();
    assert_eq!(of(map.range(..)), (0..10).map(|i| 10 * i).collect::<Vec<_>>());
    assert_eq!(of(map.range(20..50)), [20, 30, 40]);
    assert_eq!(of(map.range(20..=50)), [20, 30, 40, 50]);
    assert_eq!(of(map.range((Excluded(20), Excluded(50)))), [30, 40]);
    assert_eq!(of(map.range(85..)), [90]);
    assert_eq!(of(map.range(91..)), []);
    assert_eq!(of(map.range(..1)), [0]);
    assert_eq!(of(map.range(..0)), []);
    assert_eq!(of(map.range(5..5)), []);
    assert_eq!(of(map.range((Excluded(u64::MAX), Unbounded))), []);
    assert_eq!(map.range(20..50).rev().map(|pair| pair.0).collect::<Vec<_>>(), [40, 30, 20]);
}

#[test]
fn a_range_read_from_both_ends_gives_each_pair_once() {
    let map: Map = (0..9).map(|key| (key, key)).collect();
    let mut range = map.iter();
    let mut found = Vec::new();
    while let Some((key, _)) = range.next() {
        found.push(key);
        found.extend(range.next_back().map(|pair| pair.0));
    }
    assert_eq!(found, [0, 8, 1, 7, 2, 6, 3, 5, 4]);
    assert_eq!((range.next(), range.next_back()), (None, None));
    let mut ends = map.range(u64::MAX..);
    map.insert(u64::MAX, 1);
    assert_eq!((ends.next(), ends.next()), (Some((u64::MAX, 1)), None));
}

#[test]
fn an_iterator_sees_what_changes_ahead_of_it() {
    let map: Map = [10, 20, 30, 40].into_iter().map(|key| (key, key)).collect();
    let mut pairs = map.iter();
    assert_eq!(pairs.next(), Some((10, 10)));
    map.remove(20);
    map.insert(25, 25);
    map.insert(5, 5);
    map.insert(30, 31);
    assert_eq!(pairs.next(), Some((25, 25)));
    assert_eq!(pairs.next(), Some((30, 31)));
    map.clear();
    assert_eq!(pairs.next(), None);
    map.insert(50, 50);
    assert_eq!(pairs.next(), None);
}

#[test]
fn compare_insert_replaces_only_what_it_is_told_to() {
    let map = Map::new();
    assert_eq!(map.compare_insert(1, 10, |_| panic!("there is no value")), 10);
    assert_eq!(map.compare_insert(1, 5, |old| old < 5), 10);
    assert_eq!(map.get(1), Some(10));
    assert_eq!(map.compare_insert(1, 15, |old| old < 15), 15);
    assert_eq!(map.get(1), Some(15));
    assert_eq!(map.compare_insert(1, 1, |_| true), 1);
    assert_eq!(map.len(), 1);
}

#[test]
fn get_or_insert_keeps_the_first_value() {
    let map = Map::new();
    assert_eq!(map.get_or_insert(1, 10), 10);
    assert_eq!(map.get_or_insert(1, 11), 10);
    assert_eq!(map.get_or_insert_with(1, || panic!("there is a value")), 10);
    assert_eq!(map.get_or_insert_with(2, || 20), 20);
}

#[test]
fn a_closure_that_panics_leaves_the_map_as_it_was() {
    let map = Map::from([(1, 10)]);
    let failed = std::panic::catch_unwind(std::panic::AssertUnwindSafe(|| map.get_or_insert_with(2, || panic!("no value"))));
    assert!(failed.is_err());
    let failed = std::panic::catch_unwind(std::panic::AssertUnwindSafe(|| map.compare_insert(1, 2, |_| panic!("no choice"))));
    assert!(failed.is_err());
    assert_eq!(map.iter().collect::<Vec<_>>(), [(1, 10)]);
    assert_eq!(map.insert(2, 20), None);
}

#[test]
fn pairs_are_popped_in_order() {
    let map: Map = (0..10).map(|key| (key, key)).collect();
    assert_eq!(map.pop_front(), Some((0, 0)));
    assert_eq!(map.pop_back(), Some((9, 9)));
    let rest: Vec<_> = std::iter::from_fn(|| map.pop_front()).map(|pair| pair.0).collect();
    assert_eq!(rest, (1..9).collect::<Vec<_>>());
    assert_eq!((map.pop_front(), map.pop_back(), map.len()), (None, None, 0));
}

#[test]
fn clear_removes_all_pairs_and_the_map_goes_on() {
    let map: Map = (0..5000).map(|key| (key, key)).collect();
    map.clear();
    assert_eq!((map.len(), map.first(), map.get(7)), (0, None, None));
    map.insert(7, 70);
    assert_eq!(map.iter().collect::<Vec<_>>(), [(7, 70)]);
    map.clear();
    map.clear();
    assert!(map.is_empty());
}

#[test]
fn a_map_is_made_of_pairs_and_gives_them_back() {
    let mut map: Map = [(3, 30), (1, 10), (3, 31)].into_iter().collect();
    map.extend([(2, 20), (1, 11)]);
    assert_eq!(format!("{map:?}"), "{1: 11, 2: 20, 3: 31}");
    let mut sum = 0;
    for (key, value) in &map {
        sum += key + value;
    }
    assert_eq!(sum, 68);
    let pairs = map.into_pairs().unwrap();
    assert_eq!(pairs, [(1, 11), (2, 20), (3, 31)].map(|(key, value)| Pair { key, value }));
}

#[test]
fn a_map_grows_from_the_fewest_words() {
    let map = Map::with_words(4).unwrap();
    for key in 0..3000 {
        assert_eq!(map.insert(key * 7919 % 3001, key), None, "key {key}");
    }
    assert_eq!(map.len(), 3000);
    for _ in 0..10 {
        for key in 0..3000 {
            assert_eq!(map.insert(key * 7919 % 3001, key), Some(key));
        }
    }
    assert_eq!(keys(&map), (0..3001).filter(|key| map.contains_key(*key)).collect::<Vec<_>>());
    assert_eq!(map.into_pairs().unwrap().len(), 3000);
}

#[test]
fn threads_insert_keys_of_their_own() {
    let map = Map::with_words(1000).unwrap();
    scope(|scope| {
        for number in 0..8 {
            let map = &map;
            scope.spawn(move || {
                for i in 0..1000 {
                    assert_eq!(map.insert(8 * i + number, i), None);
                    assert_eq!(map.get(8 * i + number), Some(i));
                }
            });
        }
    });
    assert_eq!(map.len(), 8000);
    assert!(map.iter().eq((0..8000).map(|key| (key, key / 8))));
}

#[test]
fn of_threads_that_remove_a_key_one_gets_its_value() {
    let map: Map = (0..2000).map(|key| (key, key)).collect();
    let (removed, barrier) = (AtomicUsize::new(0), Barrier::new(4));
    scope(|scope| {
        for _ in 0..4 {
            scope.spawn(|| {
                barrier.wait();
                let mine = (0..2000).filter(|key| map.remove(*key).is_some()).count();
                removed.fetch_add(mine, Ordering::Relaxed);
            });
        }
    });
    assert_eq!((removed.into_inner(), map.len(), map.first()), (2000, 0, None));
}

#[test]
fn of_threads_that_insert_a_key_one_finds_it_absent() {
    let (map, firsts, barrier) = (Map::with_words(100).unwrap(), AtomicUsize::new(0), Barrier::new(4));
    scope(|scope| {
        for number in 0..4 {
            let (map, firsts, barrier) = (&map, &firsts, &barrier);
            scope.spawn(move || {
                barrier.wait();
                let mine = (0..2000).filter(|key| map.insert(*key, number).is_none()).count();
                firsts.fetch_add(mine, Ordering::Relaxed);
            });
        }
    });
    assert_eq!((firsts.into_inner(), map.len()), (2000, 2000));
}

#[test]
fn threads_that_compare_insert_leave_the_greatest_value() {
    let map = Map::with_words(500).unwrap();
    scope(|scope| {
        for number in 0..4 {
            let map = &map;
            scope.spawn(move || {
                for i in 0..4000 {
                    let value = 4 * i + number;
                    let left = map.compare_insert(value % 10, value, |old| old < value);
                    assert!(left >= value);
                }
            });
        }
    });
    for key in 0..10 {
        assert_eq!(map.get(key), (0..16_000).filter(|value| value % 10 == key).max());
    }
}

#[test]
fn threads_get_the_value_that_was_inserted_first() {
    let (map, made) = (Map::new(), AtomicU64::new(0));
    scope(|scope| {
        let threads: Vec<_> = (0..4)
            .map(|_| {
                scope.spawn(|| {
                    let get = |key| map.get_or_insert_with(key, || made.fetch_add(1, Ordering::Relaxed));
                    (0..500).map(get).collect::<Vec<_>>()
                })
            })
            .collect();
        let found: Vec<_> = threads.into_iter().map(|thread| thread.join().unwrap()).collect();
        assert!(found.windows(2).all(|two| two[0] == two[1]));
    });
}

#[test]
fn threads_that_pop_share_the_pairs_among_them() {
    let map: Map = (0..3000).map(|key| (key, key)).collect();
    let mut popped: Vec<u64> = scope(|scope| {
        let threads: Vec<_> = (0..4)
            .map(|number| {
                let map = &map;
                scope.spawn(move || {
                    let pop = || if number % 2 == 0 { map.pop_front() } else { map.pop_back() };
                    std::iter::from_fn(pop).map(|pair| pair.0).collect::<Vec<_>>()
                })
            })
            .collect();
        threads.into_iter().flat_map(|thread| thread.join().unwrap()).collect()
    });
    popped.sort_unstable();
    assert_eq!(popped, (0..3000).collect::<Vec<_>>());
}

#[test]
fn iterators_see_all_keys_that_stay_while_others_change() {
    let map = Map::with_words(1 << 12).unwrap();
    for key in 0..1000 {
        map.insert(2 * key, key);
    }
    let left = AtomicUsize::new(3);
    scope(|scope| {
        for number in 0..3 {
            let (map, left) = (&map, &left);
            scope.spawn(move || {
                for i in 0..6000 {
                    let key = 2 * ((i * 31 + number * 333) % 1000) + 1;
                    map.insert(key, key);
                    map.remove(key);
                }
                left.fetch_sub(1, Ordering::SeqCst);
            });
        }
        while left.load(Ordering::SeqCst) > 0 {
            for pairs in [map.iter().collect::<Vec<_>>(), map.iter().rev().collect::<Vec<_>>().into_iter().rev().collect()] {
                assert!(pairs.windows(2).all(|two| two[0].0 < two[1].0), "keys rise");
                assert!(pairs.iter().filter(|(key, _)| key % 2 == 0).copied().eq((0..1000).map(|key| (2 * key, key))));
            }
        }
    });
    assert_eq!(map.len(), 1000);
}

#[test]
fn a_cleared_map_never_shows_what_was_before() {
    let map = Map::with_words(1 << 12).unwrap();
    let stopped = AtomicUsize::new(0);
    scope(|scope| {
        // a round puts 0, 1 and 2 in this order, so whoever finds the last one finds the others, unless the map was cleared
        scope.spawn(|| {
            for round in 1..400 {
                for key in 0..3 {
                    map.insert(key, round);
                }
                map.clear();
                assert_eq!(map.first(), None);
            }
            stopped.store(1, Ordering::SeqCst);
        });
        scope.spawn(|| {
            let mut newest = 0;
            while stopped.load(Ordering::SeqCst) == 0 {
                if let Some(round) = map.get(2) {
                    assert!(round >= newest, "{round} after {newest}");
                    newest = round;
                }
            }
        });
    });
    assert!(map.is_empty());
}

#[test]
fn more_threads_than_slots_share_a_map() {
    let map = Map::with_words(1000).unwrap();
    scope(|scope| {
        for number in 0..100 {
            let map = &map;
            scope.spawn(move || {
                for i in 0..100 {
                    assert_eq!(map.insert(100 * i + number, number), None);
                }
            });
        }
    });
    assert_eq!(map.len(), 10_000);
}

#[test]
fn maps_are_dropped_while_iterators_and_threads_are_done() {
    for round in 0..50 {
        let map = Map::with_words(300).unwrap();
        scope(|scope| {
            for number in 0..3 {
                let map = &map;
                scope.spawn(move || (0..50).for_each(|i| assert_eq!(map.insert(3 * i + number, round), None)));
            }
        });
        assert_eq!(map.iter().count(), 150);
    }
}
