//! An ordered map from `u64` keys to `u64` values that threads share.
//!
//! Safe Rust over a static library that is proved (`crates/ist_c`). `docs/LIBRARY.md` says what the proofs state of each call. This
//! package itself is only tested: its `unsafe` calls are all in `ffi.rs` and `shared.rs`, each with its reason.
//!
//! - [`Map`] is for those who come from `crossbeam_skiplist::SkipMap` or from a `BTreeMap` under a lock: its calls take `&self`,
//!   and it grows.
//! - [`Tree`] with a [`Pass`] for each thread is closer to the library: no call on keys takes a lock, and one that finds no words left
//!   returns [`Full`].
//!
//! Calls on one key are linearizable. That is proved of a [`Tree`], also over [`Tree::reopen`], and tested of a [`Map`], also while it
//! grows.
//!
//! ```
//! use luskadorv::Tree;
//!
//! let tree = Tree::open(1_000_000, &[])?;
//! std::thread::scope(|scope| {
//!     for number in 0..4 {
//!         let mut pass = tree.pass().unwrap();
//!         scope.spawn(move || {
//!             for key in 0..100 {
//!                 pass.insert(4 * key + number, key).unwrap();
//!             }
//!         });
//!     }
//! });
//! assert_eq!(tree.into_pairs()?.len(), 400);
//! # Ok::<(), luskadorv::Error>(())
//! ```
#![deny(unsafe_code)]
#![warn(missing_docs)]

mod errors;
#[allow(unsafe_code)]
mod ffi;
mod keys;
mod map;
#[allow(unsafe_code)]
mod shared;
mod tree;
mod typed;

pub use errors::{Error, Full, Kept};
pub use ffi::{Pair, Stats};
pub use keys::{Key, Value};
pub use map::{Map, Range};
pub use tree::{Exchanged, Note, Pass, Shot, Tree, shot_words, words_for};
pub use typed::{TypedMap, TypedRange};
