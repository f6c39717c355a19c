//! How long single calls take of threads that share a map without pause, as those of a service: quantiles, and the longest call.
//!
//!     cargo bench --offline --bench service [-- KEYS [THREADS [PUTS [REMOVES [SECONDS [RESTS]]]]]]
//!
//! Of 100 calls PUTS are puts (25), REMOVES are removes (25) and the others gets, on uniform keys below KEYS (1000000), of which half are in
//! the map at first. THREADS (4) make them for SECONDS (3). If RESTS is 1 (0), each thread rests 300 ms after each 500 ms. With real-time
//! priority (`chrt -f 50 cargo bench ..`) the longest call is told only so: the system stops threads of that priority that never rest.
//!
//! A line has millions of calls a second of the time in which the threads didn't rest, the quantiles in microseconds, and the most memory in
//! MB that the process had from the making of the map on. The line `none` is of calls that do nothing: what it has is the system's.

#[path = "../tests/common/mod.rs"]
mod common;

use common::Draws;
use luskadorv::Map;
use std::collections::BTreeMap;
use std::hint::black_box;
use std::sync::{Barrier, RwLock};
use std::thread::{scope, sleep};
use std::time::{Duration, Instant};

#[derive(Clone, Copy)]
struct Plan {
    keys: u64,
    threads: u64,
    puts: u64,
    removes: u64,
    time: Duration,
    rests: bool,
}

#[derive(Clone, Copy)]
enum Call {
    Get(u64),
    Put(u64),
    Remove(u64),
}

impl Plan {
    fn call(&self, draws: &mut Draws) -> Call {
        let (key, kind) = (draws.below(self.keys), draws.below(100));
        match kind {
            _ if kind < self.puts => Call::Put(key),
            _ if kind < self.puts + self.removes => Call::Remove(key),
            _ => Call::Get(key),
        }
    }

    fn pairs(&self) -> impl Iterator<Item = (u64, u64)> {
        (0..self.keys).step_by(2).map(|key| (key, key))
    }
}

// How many calls took how many nanoseconds, to three parts in a hundred.
struct Times {
    counts: Vec<u64>,
    longest: u64,
    busy: Duration,
}

const FINE: u64 = 32;

impl Times {
    fn new() -> Times {
        Times { counts: vec![0; 64 * FINE as usize], longest: 0, busy: Duration::ZERO }
    }

    fn place(time: u64) -> u64 {
        let power = u64::from((time / FINE).checked_ilog2().map_or(0, |log| log + 1));
        power * FINE + if power == 0 { time } else { (time >> (power - 1)) - FINE }
    }

    fn least(place: u64) -> u64 {
        let power = place / FINE;
        if power == 0 { place } else { (place % FINE + FINE) << (power - 1) }
    }

    fn count(&mut self, time: u64) {
        self.counts[Times::place(time) as usize] += 1;
        self.longest = self.longest.max(time);
    }

    fn add(&mut self, other: &Times) {
        self.counts.iter_mut().zip(&other.counts).for_each(|(count, more)| *count += more);
        self.longest = self.longest.max(other.longest);
        self.busy += other.busy;
    }

    fn calls(&self) -> u64 {
        self.counts.iter().sum()
    }

    // The time in microseconds that this share of the calls doesn't pass.
    fn quantile(&self, share: f64) -> f64 {
        let mut left = (self.calls() as f64 * share) as u64;
        for (place, count) in self.counts.iter().enumerate() {
            if *count > left {
                return Times::least(place as u64) as f64 / 1e3;
            }
            left -= count;
        }
        self.longest as f64 / 1e3
    }
}

// Makes calls until the time is over, and takes the time of each.
fn serve(plan: Plan, number: u64, mut caller: impl FnMut(Call) -> Option<u64>) -> Times {
    let (mut draws, mut times) = (Draws::new(number), Times::new());
    let begun = Instant::now();
    let (mut last, mut spell) = (begun, begun);
    while last - begun < plan.time {
        let call = plan.call(&mut draws);
        let before = Instant::now();
        black_box(caller(call));
        last = Instant::now();
        times.count((last - before).as_nanos() as u64);
        if plan.rests && last - spell > Duration::from_millis(500) {
            times.busy += last - spell;
            sleep(Duration::from_millis(300));
            spell = Instant::now();
        }
    }
    times.busy += last - spell;
    times
}

fn measure<C: FnMut(Call) -> Option<u64> + Send>(plan: Plan, callers: Vec<C>) -> Times {
    let barrier = Barrier::new(callers.len());
    let serve_one = |(number, caller)| {
        barrier.wait();
        serve(plan, number as u64, caller)
    };
    let mut all = Times::new();
    scope(|scope| {
        let threads: Vec<_> = callers.into_iter().enumerate().map(|it| scope.spawn(|| serve_one(it))).collect();
        threads.into_iter().for_each(|thread| all.add(&thread.join().unwrap()));
    });
    all
}

fn by_nothing(plan: Plan) -> Times {
    let caller = |_| {
        |call| match call {
            Call::Get(key) | Call::Put(key) | Call::Remove(key) => Some(key),
        }
    };
    measure(plan, (0..plan.threads).map(caller).collect())
}

fn by_map(plan: Plan) -> Times {
    let map: Map = plan.pairs().collect();
    let caller = |_| {
        |call| match call {
            Call::Get(key) => map.get(key),
            Call::Put(key) => map.insert(key, key),
            Call::Remove(key) => map.remove(key),
        }
    };
    measure(plan, (0..plan.threads).map(caller).collect())
}

fn by_locked_map(plan: Plan) -> Times {
    let map: RwLock<BTreeMap<u64, u64>> = RwLock::new(plan.pairs().collect());
    let caller = |_| {
        |call| match call {
            Call::Get(key) => map.read().unwrap().get(&key).copied(),
            Call::Put(key) => map.write().unwrap().insert(key, key),
            Call::Remove(key) => map.write().unwrap().remove(&key),
        }
    };
    measure(plan, (0..plan.threads).map(caller).collect())
}

// The most memory that the process had since it was last forgotten, in MB.
fn most_memory() -> u64 {
    let text = std::fs::read_to_string("/proc/self/status").unwrap_or_default();
    let line = text.lines().find(|line| line.starts_with("VmHWM")).unwrap_or_default();
    line.split_whitespace().nth(1).and_then(|word| word.parse::<u64>().ok()).unwrap_or(0) / 1024
}

fn forget_most_memory() {
    // where it can't be forgotten, what is told counts from the start of the process
    _ = std::fs::write("/proc/self/clear_refs", "5");
}

fn main() {
    let numbers: Vec<u64> = std::env::args().skip(1).filter_map(|word| word.parse().ok()).collect();
    let number = |at: usize, otherwise: u64| numbers.get(at).copied().unwrap_or(otherwise);
    let plan = Plan {
        keys: number(0, 1_000_000).max(1),
        threads: number(1, 4).max(1),
        puts: number(2, 25),
        removes: number(3, 25),
        time: Duration::from_secs(number(4, 3)),
        rests: number(5, 0) == 1,
    };
    println!("keys threads puts removes | map: M calls/s; p50 p99 p99.9 p99.99 longest, us; MB");
    let ways: [(&str, fn(Plan) -> Times); 3] =
        [("Map", by_map), ("RwLock<BTreeMap>", by_locked_map), ("none", by_nothing)];
    for (name, way) in ways {
        forget_most_memory();
        let times = way(plan);
        let speed = times.calls() as f64 * plan.threads as f64 / times.busy.as_secs_f64() / 1e6;
        let Plan { keys, threads, puts, removes, .. } = plan;
        print!("{keys:7} {threads:3} {puts:3} {removes:3} | {name}: {speed:.2};");
        for share in [0.5, 0.99, 0.999, 0.9999] {
            print!(" {:.1}", times.quantile(share));
        }
        println!(" {:.0}; {}", times.longest as f64 / 1e3, most_memory());
    }
}
