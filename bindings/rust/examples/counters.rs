//! Counters that threads raise by compare-and-set: how often each letter occurs in a text, whose lines are counted side by side.
//!
//!     cargo run --example counters [FILE]
//!
//! Without a file it counts its own text.

use luskadorv::TypedMap;
use std::thread;

// Raises the counter, which begins at 0. If another thread raised it meanwhile, it tries again with what it found.
fn raise(counters: &TypedMap<char, u64>, letter: char) {
    let mut had = counters.get(letter);
    while let Err(other) = counters.compare_exchange(letter, had, Some(had.unwrap_or(0) + 1)) {
        had = other;
    }
}

fn main() -> std::io::Result<()> {
    let text = match std::env::args_os().nth(1) {
        Some(path) => std::fs::read_to_string(path)?,
        None => include_str!("counters.rs").to_string(),
    };
    let counters = TypedMap::new();
    let lines: Vec<&str> = text.lines().collect();
    thread::scope(|scope| {
        for part in lines.chunks(lines.len().div_ceil(4).max(1)) {
            let counters = &counters;
            scope.spawn(move || part.iter().flat_map(|line| line.chars()).for_each(|letter| raise(counters, letter)));
        }
    });

    // Each letter was counted once, whichever thread met it.
    let counted: u64 = counters.iter().map(|(_, times)| times).sum();
    assert_eq!(counted as usize, lines.iter().map(|line| line.chars().count()).sum::<usize>());
    for (letter, times) in counters.range('a'..='z') {
        println!("{letter} {times}");
    }
    Ok(())
}
