//! Each allocation of a call is refused once, of this package as of the library: the call returns an error or does its work, and no pair
//! is lost. An allocation that can't return an error would end the process.
//!
//! The program has a `malloc` of its own for that, before that of the C library.

use luskadorv::{Error, Kept, Map, Pair, Tree};
use std::cell::Cell;
use std::collections::BTreeMap;
use std::ffi::{c_int, c_void};
use std::panic::{AssertUnwindSafe, catch_unwind};
use std::ptr::null_mut;
use std::thread::scope;

thread_local! {
    // How many allocations of this thread succeed before one is refused, and whether all are from then on.
    static LEFT: Cell<Option<u64>> = const { Cell::new(None) };
    static IS_SHORT: Cell<bool> = const { Cell::new(false) };
    static REFUSED: Cell<u64> = const { Cell::new(0) };
}

fn is_refused() -> bool {
    let Some(left) = LEFT.get() else { return false };
    if left > 0 {
        LEFT.set(Some(left - 1));
        return false;
    }
    if !IS_SHORT.get() {
        LEFT.set(None);
    }
    REFUSED.set(REFUSED.get() + 1);
    true
}

unsafe extern "C" {
    fn __libc_malloc(size: usize) -> *mut c_void;
    fn __libc_calloc(count: usize, size: usize) -> *mut c_void;
    fn __libc_realloc(at: *mut c_void, size: usize) -> *mut c_void;
    fn __libc_memalign(align: usize, size: usize) -> *mut c_void;
}

// SAFETY, of all four: they have the C library's types, and do what its functions do or return that there is no memory.
#[unsafe(no_mangle)]
unsafe extern "C" fn malloc(size: usize) -> *mut c_void {
    if is_refused() { null_mut() } else { unsafe { __libc_malloc(size) } }
}

#[unsafe(no_mangle)]
unsafe extern "C" fn calloc(count: usize, size: usize) -> *mut c_void {
    if is_refused() { null_mut() } else { unsafe { __libc_calloc(count, size) } }
}

#[unsafe(no_mangle)]
unsafe extern "C" fn realloc(at: *mut c_void, size: usize) -> *mut c_void {
    if is_refused() { null_mut() } else { unsafe { __libc_realloc(at, size) } }
}

#[unsafe(no_mangle)]
unsafe extern "C" fn posix_memalign(out: *mut *mut c_void, align: usize, size: usize) -> c_int {
    let at = if is_refused() { null_mut() } else { unsafe { __libc_memalign(align, size) } };
    if at.is_null() {
        return 12; // ENOMEM
    }
    unsafe { *out = at };
    0
}

// Makes a call while this allocation of it is refused, and perhaps all that follow. Returns its reply, and whether one was refused.
fn refusing<T>(number: u64, is_short: bool, call: impl FnOnce() -> T) -> (T, bool) {
    IS_SHORT.set(is_short);
    REFUSED.set(0);
    LEFT.set(Some(number));
    let reply = call();
    LEFT.set(None);
    (reply, REFUSED.get() > 0)
}

// Tries each allocation until none is refused any more.
fn for_each_allocation(is_short: &[bool], mut check: impl FnMut(u64, bool) -> bool) {
    for is_short in is_short {
        let mut number = 0;
        while check(number, *is_short) {
            number += 1;
        }
        assert!(number > 0, "no allocation was refused");
    }
}

fn model(keys: u64) -> BTreeMap<u64, u64> {
    (0..keys).map(|key| (key, 10 * key)).collect()
}

// A map of these keys that grows, splits and merges all the time.
fn strained(model: &BTreeMap<u64, u64>) -> Map {
    let map = Map::strained(1000).unwrap();
    model.iter().for_each(|(key, value)| _ = map.insert(*key, *value));
    map
}

fn assert_has(map: &Map, model: &BTreeMap<u64, u64>, at: u64) {
    assert!(map.iter().eq(model.iter().map(|(key, value)| (*key, *value))), "allocation {at}");
    assert_eq!(map.len(), model.len(), "allocation {at}");
}

#[test]
fn an_insert_that_finds_no_memory_did_not_happen() {
    for_each_allocation(&[false, true], |number, is_short| {
        let mut model = model(20);
        let map = strained(&model);
        // long enough for some growths
        let calls = (0..60).map(|step| (7 * step % 40, step));
        let mut replies = Vec::with_capacity(60);
        let insert_all = || calls.clone().for_each(|(key, value)| replies.push((map.try_insert(key, value), map.try_get(key))));
        let (_, is_refused) = refusing(number, is_short, insert_all);
        for ((key, value), (inserted, found)) in calls.zip(replies) {
            match inserted {
                Ok(had) => assert_eq!(had, model.insert(key, value), "allocation {number}"),
                Err(error) => assert_eq!(error, Error::Memory, "allocation {number}"),
            }
            match found {
                Ok(found) => assert_eq!(found, model.get(&key).copied(), "allocation {number}"),
                Err(error) => assert_eq!(error, Error::Memory, "allocation {number}"),
            }
        }
        assert_has(&map, &model, number);
        // and the map goes on
        (0..60).for_each(|key| assert_eq!(map.try_insert(key, 1), Ok(model.insert(key, 1))));
        assert_has(&map, &model, number);
        is_refused
    });
}

#[test]
fn reads_go_on_after_growths_of_another_thread_failed() {
    for_each_allocation(&[true], |number, is_short| {
        let mut model = model(20);
        let map = strained(&model);
        // the passes of this thread are made, and then those of the other one
        assert_has(&map, &model, number);
        let update = || {
            model.iter_mut().for_each(|(key, value)| assert_eq!(map.insert(*key, 1), Some(std::mem::replace(value, 1))));
            let update_all = || (2..40).take_while(|value| map.try_insert(7, *value).is_ok()).last().unwrap_or(1);
            let (last, is_refused) = refusing(number, is_short, update_all);
            model.insert(7, last);
            is_refused
        };
        let is_refused = scope(|scope| scope.spawn(update).join().unwrap());
        model.iter().for_each(|(key, value)| assert_eq!(map.get(*key), Some(*value), "allocation {number}"));
        assert_eq!((map.first(), map.last()), (Some((0, 1)), Some((19, 1))), "allocation {number}");
        assert_has(&map, &model, number);
        is_refused
    });
}

#[test]
fn a_snapshot_that_finds_no_memory_leaves_the_map_as_it_was() {
    let model = model(200);
    let map = strained(&model);
    for_each_allocation(&[false, true], |number, is_short| {
        let (pairs, is_refused) = refusing(number, is_short, || map.snapshot(..));
        match pairs {
            Ok(pairs) => assert!(pairs.into_iter().eq(model.iter().map(|(key, value)| (*key, *value)))),
            Err(error) => assert_eq!(error, Error::Memory),
        }
        assert_has(&map, &model, number);
        is_refused
    });
}

// How many allocations a call makes.
fn allocations<T>(call: impl FnOnce() -> T) -> u64 {
    LEFT.set(Some(u64::MAX));
    call();
    u64::MAX - LEFT.take().expect("none is refused")
}

#[test]
fn passes_that_a_snapshot_had_serve_the_next_one() {
    let map = strained(&model(200));
    let counts: Vec<u64> = (0..5).map(|_| allocations(|| map.snapshot(..).unwrap())).collect();
    assert!(counts[1] < counts[0] && counts[1..].iter().all(|count| *count == counts[1]), "{counts:?}");
}

#[test]
fn a_tree_is_opened_over_rising_pairs_without_a_copy_of_them() {
    let rising: Vec<Pair> = (0..100).map(|key| Pair { key, value: key }).collect();
    let falling: Vec<Pair> = rising.iter().rev().copied().collect();
    let none = allocations(|| Tree::open(4096, &[]).unwrap());
    // A tree with rows takes one allocation more than one without any; a copy of the pairs would be another.
    assert_eq!(allocations(|| Tree::open(4096, &rising).unwrap()), none + 1);
    assert!(allocations(|| Tree::open(4096, &falling).unwrap()) > none + 1);
    // Too many words are refused before anything is sorted.
    assert_eq!(allocations(|| Tree::open(1 << 29, &falling).unwrap_err()), 0);
}

#[test]
fn a_map_that_finds_no_memory_to_shrink_keeps_its_pairs() {
    for_each_allocation(&[false, true], |number, is_short| {
        let mut model = model(100);
        let map = strained(&model);
        (0..90).for_each(|key| assert_eq!(map.remove(key), model.remove(&key)));
        let (_, is_refused) = refusing(number, is_short, || map.shrink_to_fit());
        assert_has(&map, &model, number);
        is_refused
    });
}

#[test]
fn a_clear_that_finds_no_memory_keeps_the_pairs() {
    let model = model(100);
    for_each_allocation(&[false], |number, is_short| {
        let map = strained(&model);
        let (cleared, is_refused) = refusing(number, is_short, || catch_unwind(AssertUnwindSafe(|| map.clear())));
        match cleared {
            Ok(()) => assert_eq!((map.first(), map.len()), (None, 0)),
            Err(_) => assert_has(&map, &model, number),
        }
        is_refused
    });
}

#[test]
fn pairs_that_find_no_memory_stay_in_their_map() {
    let model = model(100);
    for_each_allocation(&[false, true], |number, is_short| {
        let map = strained(&model);
        let (pairs, is_refused) = refusing(number, is_short, || map.into_pairs());
        let pairs = pairs.unwrap_or_else(|Kept { kept, error }| {
            assert_eq!(error, Error::Memory);
            assert_has(&kept, &model, number);
            kept.into_pairs().unwrap()
        });
        assert!(pairs.iter().map(|pair| (pair.key, pair.value)).eq(model.clone()));
        is_refused
    });
}

#[test]
fn a_first_read_of_a_thread_that_finds_no_memory_returns_that() {
    let model = model(100);
    for_each_allocation(&[false, true], |number, is_short| {
        let map = strained(&model);
        let read = || refusing(number, is_short, || map.try_get(50));
        let (found, is_refused) = scope(|scope| scope.spawn(read).join().unwrap());
        assert!(matches!(found, Ok(Some(500)) | Err(Error::Memory)));
        assert_eq!(map.get(50), Some(500));
        is_refused
    });
}

#[test]
fn a_map_that_finds_no_memory_is_not_made() {
    for_each_allocation(&[false, true], |number, is_short| {
        let (map, is_refused) = refusing(number, is_short, || Map::with_words(1000));
        assert!(matches!(map, Ok(_) | Err(Error::Memory)));
        is_refused
    });
}

#[test]
fn a_tree_that_finds_no_memory_is_not_opened_and_keeps_its_pairs() {
    let pairs: Vec<Pair> = (0..100).rev().map(|key| Pair { key, value: 1 }).collect();
    for_each_allocation(&[false, true], |number, is_short| {
        let (tree, is_refused) = refusing(number, is_short, || Tree::open(10_000, &pairs));
        assert!(matches!(tree, Ok(_) | Err(Error::Memory)));
        is_refused
    });
    for_each_allocation(&[false, true], |number, is_short| {
        let tree = Tree::open(10_000, &pairs).unwrap();
        let (closed, is_refused) = refusing(number, is_short, || tree.into_pairs());
        let closed = closed.unwrap_or_else(|Kept { kept, error }| {
            assert_eq!(error, Error::Memory);
            kept.into_pairs().unwrap()
        });
        assert!(closed.iter().eq(pairs.iter().rev()));
        is_refused
    });
}
