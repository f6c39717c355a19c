//! Calls a second of `Map` and of `Pass`, beside a `BTreeMap` under an `RwLock`, in one program.
//!
//!     cargo bench --offline [-- CALLS [REPEATS]]
//!
//! CALLS is how many calls each thread makes (400000), REPEATS how often each measurement is made (5). Each line has the median of the
//! repeats, and the least and the greatest, in millions of calls a second by all threads. Half of the keys are in the map at first.
//! One tree serves all calls of `Pass`, with the words that they may need; `Map` grows from its first tree of the pairs.

#[path = "../tests/common/mod.rs"]
mod common;

use common::Draws;
use luskadorv::{Map, Pair, Tree, words_for};
use std::collections::BTreeMap;
use std::hint::black_box;
use std::sync::{Barrier, RwLock};
use std::thread::scope;
use std::time::Instant;

// How many of 100 calls are puts, and how many are removes; the others are gets.
#[derive(Clone, Copy)]
struct Mix {
    puts: u64,
    removes: u64,
}

enum Call {
    Get(u64),
    Put(u64),
    Remove(u64),
}

fn call(draws: &mut Draws, keys: u64, mix: Mix) -> Call {
    let (key, kind) = (draws.next() % keys, draws.next() % 100);
    match kind {
        _ if kind < mix.puts => Call::Put(key),
        _ if kind < mix.puts + mix.removes => Call::Remove(key),
        _ => Call::Get(key),
    }
}

// Every other key, so that half of the keys are there.
fn pairs(keys: u64) -> Vec<Pair> {
    (0..keys).step_by(2).map(|key| Pair { key, value: key }).collect()
}

// The seconds that this many threads take for the calls, each by a caller of its own: from when the first begins to when the last ends.
fn time<C: FnMut(Call) -> Option<u64> + Send>(callers: Vec<C>, calls: u64, keys: u64, mix: Mix) -> f64 {
    let barrier = Barrier::new(callers.len());
    let spans: Vec<(Instant, Instant)> = scope(|scope| {
        let threads: Vec<_> = callers
            .into_iter()
            .enumerate()
            .map(|(number, mut caller)| {
                let barrier = &barrier;
                scope.spawn(move || {
                    let mut draws = Draws::new(number as u64);
                    barrier.wait();
                    let begun = Instant::now();
                    for _ in 0..calls {
                        black_box(caller(call(&mut draws, keys, mix)));
                    }
                    (begun, Instant::now())
                })
            })
            .collect();
        threads.into_iter().map(|thread| thread.join().unwrap()).collect()
    });
    let begun = spans.iter().map(|span| span.0).min().unwrap();
    let ended = spans.iter().map(|span| span.1).max().unwrap();
    (ended - begun).as_secs_f64()
}

fn by_map(threads: u64, calls: u64, keys: u64, mix: Mix) -> f64 {
    let map: Map = pairs(keys).into_iter().map(|pair| (pair.key, pair.value)).collect();
    let caller = |_| {
        |call| match call {
            Call::Get(key) => map.get(key),
            Call::Put(key) => map.insert(key, key),
            Call::Remove(key) => map.remove(key),
        }
    };
    time((0..threads).map(caller).collect(), calls, keys, mix)
}

fn by_passes(threads: u64, calls: u64, keys: u64, mix: Mix) -> f64 {
    let updates = threads * calls * (mix.puts + mix.removes) / 100;
    let words = u64::from(words_for(keys as usize).unwrap()) + 90 * updates;
    let tree = Tree::open(words.min(1 << 28) as u32, &pairs(keys)).unwrap();
    let caller = |_| {
        let mut pass = tree.pass().unwrap();
        move |call| match call {
            Call::Get(key) => pass.get(key),
            Call::Put(key) => pass.insert(key, key).unwrap(),
            Call::Remove(key) => pass.remove(key).unwrap(),
        }
    };
    time((0..threads).map(caller).collect(), calls, keys, mix)
}

fn by_locked_map(threads: u64, calls: u64, keys: u64, mix: Mix) -> f64 {
    let map: BTreeMap<u64, u64> = pairs(keys).into_iter().map(|pair| (pair.key, pair.value)).collect();
    let map = RwLock::new(map);
    let caller = |_| {
        |call| match call {
            Call::Get(key) => map.read().unwrap().get(&key).copied(),
            Call::Put(key) => map.write().unwrap().insert(key, key),
            Call::Remove(key) => map.write().unwrap().remove(&key),
        }
    };
    time((0..threads).map(caller).collect(), calls, keys, mix)
}

fn main() {
    let numbers: Vec<u64> = std::env::args().skip(1).filter_map(|word| word.parse().ok()).collect();
    let calls = numbers.first().copied().unwrap_or(400_000);
    let repeats = numbers.get(1).copied().unwrap_or(5).max(1);
    let ways: [(&str, fn(u64, u64, u64, Mix) -> f64); 3] =
        [("Map", by_map), ("Pass", by_passes), ("RwLock<BTreeMap>", by_locked_map)];
    println!("puts removes keys threads | map: median (least .. greatest) million calls a second");
    for mix in [Mix { puts: 25, removes: 25 }, Mix { puts: 10, removes: 0 }, Mix { puts: 0, removes: 0 }] {
        for keys in [1_000, 100_000, 1_000_000] {
            for threads in [1, 2, 4] {
                for (name, way) in ways {
                    let speed = |_| (threads * calls) as f64 / way(threads, calls, keys, mix) / 1e6;
                    let mut speeds: Vec<f64> = (0..repeats).map(speed).collect();
                    speeds.sort_by(f64::total_cmp);
                    let (least, median, most) = (speeds[0], speeds[speeds.len() / 2], speeds[speeds.len() - 1]);
                    let Mix { puts, removes } = mix;
                    println!("{puts:4} {removes:7} {keys:7} {threads:2} | {name}: {median:.2} ({least:.2} .. {most:.2})");
                }
            }
        }
    }
}
