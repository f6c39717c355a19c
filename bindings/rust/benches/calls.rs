//! Nanoseconds a call of `Pass` and of `Map` by one thread, for the very calls that `try_bench` makes within Rattle with the same options:
//! uniform keys, all of which are in the map at first.
//!
//!     cargo bench --offline --bench calls [-- KEYS [CALLS [PUTS]]]
//!     try_bench --keys KEYS --calls CALLS --puts PUTS --finds $((100 - PUTS))
//!
//! PUTS of 100 calls are puts (0), the others are finds. Each way has three turns.

#[path = "../tests/common/mod.rs"]
mod common;

use common::{Draws, mixed};
use luskadorv::{Map, Pair, Tree, words_for};
use std::time::Instant;

struct Plan {
    keys: u64,
    calls: u64,
    puts: u64,
}

impl Plan {
    fn pairs(&self) -> Vec<Pair> {
        let mut pairs: Vec<Pair> = (0..self.keys).map(|number| Pair { key: mixed(number), value: number }).collect();
        pairs.sort_unstable_by_key(|pair| pair.key);
        pairs
    }

    // Makes the calls, where a put has a value, and prints what one took.
    fn time(&self, name: &str, mut call: impl FnMut(u64, Option<u64>) -> Option<u64>) {
        let mut draws = Draws::new(1u64.wrapping_add(Draws::new(0).next()));
        let begun = Instant::now();
        for _ in 0..self.calls {
            let (kind, number) = (draws.next() % 100, draws.next() % self.keys);
            let put = (kind < self.puts).then_some(number);
            assert!(call(mixed(number), put).is_some(), "each key has a value");
        }
        let nanoseconds = begun.elapsed().as_nanos() as u64 / self.calls;
        println!("{name}, {} keys, {} of 100 calls are puts: {nanoseconds} ns a call", self.keys, self.puts);
    }

    fn time_pass(&self) {
        let words = u64::from(words_for(self.keys as usize).unwrap()) + 100 * self.calls * self.puts / 100;
        let tree = Tree::open(words.min(1 << 28) as u32, &self.pairs()).unwrap();
        let mut pass = tree.pass().unwrap();
        self.time("Pass", |key, put| match put {
            Some(value) => pass.insert(key, value).unwrap(),
            None => pass.get(key),
        });
    }

    fn time_map(&self) {
        let map: Map = self.pairs().into_iter().map(|pair| (pair.key, pair.value)).collect();
        self.time("Map", |key, put| match put {
            Some(value) => map.insert(key, value),
            None => map.get(key),
        });
    }
}

fn main() {
    let numbers: Vec<u64> = std::env::args().skip(1).filter_map(|word| word.parse().ok()).collect();
    let number = |at: usize, otherwise: u64| numbers.get(at).copied().unwrap_or(otherwise);
    let plan = Plan { keys: number(0, 1_000).max(1), calls: number(1, 1_000_000).max(1), puts: number(2, 0) };
    for _ in 0..3 {
        plan.time_pass();
        plan.time_map();
    }
}
