//! How long a list of pairs takes by the least that it needs: a loop that loads the words of a balanced tree's rows, as `list_live` does,
//! and appends each pair. Nothing is checked, no change or rebuild is followed, and no other thread writes. So it bounds what a list over
//! these rows can take on a machine.
//!
//!     rustc -O --edition 2021 -o rows bench/rows.rs && ./rows [KEYS] [PAIRS]
use std::hint::black_box;
use std::sync::atomic::{AtomicU64, Ordering::SeqCst};
use std::time::Instant;

fn mixed(number: u64) -> u64 {
    let once = (number ^ (number >> 30)).wrapping_mul(0xbf58_476d_1ce4_e5b9);
    let twice = (once ^ (once >> 27)).wrapping_mul(0x94d0_49bb_1331_11eb);
    twice ^ (twice >> 31)
}

/// The words of a table, of which the first are used.
struct Table {
    words: Vec<AtomicU64>,
    next: u64,
}

impl Table {
    fn load(&self, place: u64) -> u64 {
        self.words[place as usize].load(SeqCst)
    }

    fn row(&mut self, words: &[u64]) -> u64 {
        let base = self.next;
        self.words.extend(words.iter().map(|it| AtomicU64::new(*it)));
        self.next += words.len() as u64;
        base
    }

    /// Builds the balanced rows of these keys, and returns the word that names them: a leaf has its key and value; an inner row its
    /// status, count, degree and size, its keys, and its slots.
    fn build(&mut self, keys: &[u64]) -> u64 {
        let size = keys.len();
        if size == 1 {
            return self.row(&[keys[0], 1]) * 8 + 1;
        }
        let degree = ((size as f64).sqrt() as usize).max(2);
        let base = self.row(&vec![0; 2 * degree + 3]);
        *self.words[base as usize + 2].get_mut() = degree as u64;
        *self.words[base as usize + 3].get_mut() = size as u64;
        let mut rest = keys;
        for slot in 0..degree {
            let (part, more) = rest.split_at(size / degree + usize::from(slot < size % degree));
            if slot > 0 {
                *self.words[base as usize + 3 + slot].get_mut() = part[0];
            }
            let word = self.build(part);
            *self.words[base as usize + 3 + degree + slot].get_mut() = word;
            rest = more;
        }
        base * 8 + 2
    }

    /// Appends the pairs from `first` to `last` below the word.
    fn list(&self, word: u64, first: u64, last: u64, found: &mut Vec<(u64, u64)>) {
        let base = word / 8;
        if word % 8 == 1 {
            let pair = (self.load(base), self.load(base + 1));
            if first <= pair.0 && pair.0 <= last {
                found.push(pair);
            }
            return;
        }
        let degree = self.load(base + 2);
        let mut slot = 0;
        while slot + 1 < degree && self.load(base + 4 + slot) <= first {
            slot += 1;
        }
        let mut from = first;
        loop {
            let to = if slot + 1 < degree {
                last.min(self.load(base + 4 + slot) - 1)
            } else {
                last
            };
            self.list(self.load(base + 3 + degree + slot), from, to, found);
            if to == last {
                return;
            }
            from = to + 1;
            slot += 1;
        }
    }
}

fn main() {
    let number = |at: usize, otherwise: u64| std::env::args().nth(at).map_or(otherwise, |it| it.parse().expect("a number"));
    let (count, pairs) = (number(1, 1_000_000), number(2, 10_000));
    let mut keys: Vec<u64> = (0..count).map(mixed).collect();
    keys.sort_unstable();
    let mut table = Table {
        words: Vec::new(),
        next: 0,
    };
    let root = table.build(&keys);
    let width = u64::MAX / count * pairs;
    let calls = 20_000_000 / pairs;
    let (began, mut found) = (Instant::now(), 0);
    for call in 0..calls {
        let first = mixed(mixed(call) % count);
        let mut list = Vec::new();
        table.list(root, first, first.saturating_add(width), &mut list);
        found += black_box(list).len();
    }
    println!(
        "{} ns a list, {found} pairs, {} bytes a key",
        began.elapsed().as_nanos() as u64 / calls,
        table.next * 8 / count
    );
}
