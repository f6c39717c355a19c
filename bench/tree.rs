//! What `bench/tree.sh` measures `try_bench` beside: the same calls on a `BTreeMap` under a lock that many may read at once. With
//! `--width` a find is an ordered read, as of `try_bench`; with `--expects 1` a put is conditional, by the map's entry; with `--grown 1` the
//! keys are put one after another, and not built of a sorted list.
use std::collections::btree_map::{BTreeMap, Entry};
use std::sync::RwLock;
use std::time::Instant;

fn mixed(number: u64) -> u64 {
    let once = (number ^ (number >> 30)).wrapping_mul(0xbf58_476d_1ce4_e5b9);
    let twice = (once ^ (once >> 27)).wrapping_mul(0x94d0_49bb_1331_11eb);
    twice ^ (twice >> 31)
}

struct Draws(u64);

impl Draws {
    fn next(&mut self) -> u64 {
        self.0 = self.0.wrapping_add(0x9e37_79b9_7f4a_7c15);
        mixed(self.0)
    }
}

fn key_of(spread: &str, number: u64) -> u64 {
    match spread {
        "uniform" => mixed(number),
        "rising" => number,
        "clustered" => (mixed(number / 1024) & !1023) | (number % 1024),
        _ => panic!("uniform, rising or clustered"),
    }
}

/// User and system time of all threads, in ticks of ten milliseconds.
fn ticks() -> u64 {
    let line = std::fs::read_to_string("/proc/self/stat").expect("an account of time");
    let (_, behind) = line.rsplit_once(')').expect("a name in brackets");
    behind.split_whitespace().skip(11).take(2).map(|it| it.parse::<u64>().expect("a number")).sum()
}

fn main() {
    let words: Vec<String> = std::env::args().collect();
    let word = |name: &str| words.iter().position(|it| it == name).and_then(|at| words.get(at + 1));
    let number = |name: &str, otherwise: u64| word(name).map_or(otherwise, |it| it.parse().expect("a number"));
    let spread = word("--spread").map_or("uniform", |it| it.as_str());
    let (seed, threads, calls) = (number("--seed", 1), number("--threads", 1), number("--calls", 1_000_000));
    let (puts, removes, finds) = (number("--puts", 0), number("--removes", 0), number("--finds", 1));
    let keys = number("--keys", 1000);
    let span = number("--span", keys);
    let width = number("--width", 0);
    let expects = number("--expects", 0) == 1;
    let all = puts + removes + finds;
    let mut map = BTreeMap::new();
    if number("--grown", 0) == 1 {
        for it in 0..keys {
            map.insert(key_of(spread, it), it);
        }
    } else {
        map = (0..keys).map(|it| (key_of(spread, it), it)).collect();
    }
    let map = RwLock::new(map);
    let (began, before) = (Instant::now(), ticks());
    let found: u64 = std::thread::scope(|scope| {
        let threads: Vec<_> = (0..threads)
            .map(|thread| {
                let map = &map;
                scope.spawn(move || {
                    let mut draws = Draws(seed.wrapping_add(Draws(thread).next()));
                    let mut found = 0;
                    for _ in 0..calls {
                        let drawn = draws.next() % all;
                        let number = draws.next() % span;
                        let key = key_of(spread, number);
                        let answer = if drawn < puts && expects {
                            match map.write().expect("a lock").entry(key) {
                                Entry::Occupied(mut it) if *it.get() == number => Some(it.insert(number)),
                                Entry::Occupied(it) => Some(*it.get()),
                                Entry::Vacant(_) => None,
                            }
                        } else if drawn < puts {
                            map.write().expect("a lock").insert(key, number)
                        } else if drawn < puts + removes {
                            map.write().expect("a lock").remove(&key)
                        } else if width == 0 {
                            map.read().expect("a lock").get(&key).copied()
                        } else if width == 1 {
                            map.read().expect("a lock").range(key..).next().map(|it| *it.1)
                        } else {
                            let last = key.saturating_add(width - 1);
                            let map = map.read().expect("a lock");
                            let pairs: Vec<(u64, u64)> = map.range(key..=last).map(|it| (*it.0, *it.1)).collect();
                            found += std::hint::black_box(pairs).len() as u64;
                            None
                        };
                        found += u64::from(answer.is_some());
                    }
                    found
                })
            })
            .collect();
        threads.into_iter().map(|it| it.join().expect("a thread")).sum()
    });
    let (elapsed, spent) = (began.elapsed().as_nanos(), (ticks() - before) * 10_000_000);
    let calls = calls * threads;
    let second = u128::from(calls) * 1_000_000_000 / elapsed.max(1);
    let keys = map.into_inner().expect("a map").len();
    println!("{} processor ns a call, {second} calls a second: {calls} calls, {found} found, {keys} keys", spent / calls);
}
