//! Threads strain one map for as many minutes as `LUSKADORV_SOAK` names, by hand; without it, for a second. They put, remove and
//! exchange keys of their own, which only they change, and keys that all share; they read ranges, take snapshots and shrink the map, which
//! grows, is cleared of shared keys, and grows again. Each thread compares its own keys with a `BTreeMap`. Half of the time the map is one
//! that grows, splits and merges all the time.

mod common;

use common::{Draws, number};
use luskadorv::Map;
use std::collections::BTreeMap;
use std::ops::Bound::Included;
use std::sync::atomic::{AtomicBool, AtomicU64, Ordering};
use std::thread::{scope, sleep};
use std::time::Duration;

const THREADS: u64 = 6;
const OWN_KEYS: u64 = 20_000;

// Calls on keys of this thread's own, beside its model, and on keys that all threads share.
fn strain(map: &Map, thread: u64, seed: u64, is_over: &AtomicBool, calls: &AtomicU64) -> BTreeMap<u64, u64> {
    let (low, high) = ((thread + 1) << 32, ((thread + 1) << 32) + OWN_KEYS);
    let mut draws = Draws::new(seed + thread);
    let mut model = BTreeMap::new();
    while !is_over.load(Ordering::Relaxed) {
        for _ in 0..1000 {
            let (key, value) = (low + draws.below(OWN_KEYS), draws.next());
            match draws.below(20) {
                0..8 => assert_eq!(map.insert(key, value), model.insert(key, value), "seed {seed}"),
                8..11 => assert_eq!(map.remove(key), model.remove(&key), "seed {seed}"),
                11..15 => assert_eq!(map.get(key), model.get(&key).copied(), "seed {seed}"),
                15 => {
                    let next = model.range(key..).next().map(|(key, value)| (*key, *value));
                    assert_eq!(map.lower_bound(Included(key)).filter(|pair| pair.0 < high), next, "seed {seed}");
                }
                16 => _ = map.insert(draws.below(50), value),
                17 => _ = map.remove(draws.below(50)),
                18 => _ = map.compare_insert(draws.below(50), value, |old| old < value),
                _ => _ = map.get(draws.below(50)),
            }
        }
        let own = || model.iter().map(|(key, value)| (*key, *value));
        match draws.below(100) {
            0 => map.shrink_to_fit(),
            1..10 => assert!(map.snapshot(low..high).unwrap().into_iter().eq(own()), "seed {seed}"),
            _ => assert!(map.range(low..high).eq(own()), "seed {seed}"),
        }
        calls.fetch_add(1000, Ordering::Relaxed);
    }
    model
}

#[test]
fn threads_strain_maps() {
    let minutes = number("LUSKADORV_SOAK", 0);
    let time = if minutes == 0 { Duration::from_secs(1) } else { Duration::from_secs(60 * minutes) };
    let seed = number("LUSKADORV_SEED", 1);
    strain_by_threads(Map::with_words(1000).unwrap(), time / 2, seed);
    strain_by_threads(Map::strained(1000).unwrap(), time / 2, seed);
}

fn strain_by_threads(map: Map, time: Duration, seed: u64) {
    let (is_over, calls) = (AtomicBool::new(false), AtomicU64::new(0));
    let models: Vec<_> = scope(|scope| {
        let (map, is_over, calls) = (&map, &is_over, &calls);
        let threads: Vec<_> = (0..THREADS).map(|thread| scope.spawn(move || strain(map, thread, seed, is_over, calls))).collect();
        sleep(time);
        is_over.store(true, Ordering::Relaxed);
        threads.into_iter().map(|thread| thread.join().unwrap()).collect()
    });
    println!("seed {seed}: {} calls", calls.load(Ordering::Relaxed));
    assert!(calls.load(Ordering::Relaxed) > 0);
    for key in 0..50 {
        map.remove(key);
    }
    let all: BTreeMap<u64, u64> = models.into_iter().flatten().collect();
    assert_eq!(map.len(), all.len(), "seed {seed}");
    assert!(map.into_pairs().unwrap().iter().map(|pair| (pair.key, pair.value)).eq(all), "seed {seed}");
}
