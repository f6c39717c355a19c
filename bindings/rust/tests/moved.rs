//! Passes, notes, shots and trees that go from thread to thread: by a channel, by a flag with release and acquire alone, and by the
//! start and join of a scoped thread. Whoever gets one finds all that was done by it before.

use luskadorv::{Note, Pair, Pass, Shot, Tree};
use std::hint::spin_loop;
use std::ptr::null_mut;
use std::sync::atomic::{AtomicPtr, Ordering};
use std::sync::mpsc::channel;
use std::thread::{scope, yield_now};

const THREADS: u64 = 4;

// What one turn does with a pass that a thread has just got: it finds what the turn before put, and puts more.
fn turn(pass: &mut Pass<'_>, owner: u64, at: u64) {
    let key = |at: u64| 1000 * owner + at % 50;
    if let Some(before) = at.checked_sub(1) {
        assert_eq!(pass.get(key(before)), Some(before), "pass {owner}, turn {at}");
    }
    pass.insert(key(at), at).unwrap();
}

// What a pass has put in so many turns.
fn left_by(owner: u64, turns: u64) -> impl Iterator<Item = Pair> {
    let mut left: Vec<_> = (turns.saturating_sub(50)..turns).map(|at| Pair { key: 1000 * owner + at % 50, value: at }).collect();
    left.sort_by_key(|pair| pair.key);
    left.into_iter()
}

#[test]
fn passes_go_round_by_channels() {
    const TURNS: u64 = 4_000;
    let tree = Tree::open(8_000_000, &[]).unwrap();
    scope(|scope| {
        let (senders, receivers): (Vec<_>, Vec<_>) = (0..THREADS).map(|_| channel::<(Pass<'_>, u64, u64)>()).unzip();
        // two passes for each thread, so that passes call at the same time as others are moved
        for owner in 0..2 * THREADS {
            senders[(owner % THREADS) as usize].send((tree.pass().unwrap(), owner, 0)).unwrap();
        }
        for (number, receiver) in receivers.into_iter().enumerate() {
            let next = senders[(number + 1) % THREADS as usize].clone();
            scope.spawn(move || {
                // no pass overtakes another one, so that each has about `TURNS` turns
                for _ in 0..2 * TURNS {
                    let (mut pass, owner, at) = receiver.recv().unwrap();
                    turn(&mut pass, owner, at);
                    // in the end nobody may be there to get it
                    let _ = next.send((pass, owner, at + 1));
                }
            });
        }
    });
    let found = tree.into_pairs().unwrap();
    assert_eq!(found.len() as u64, 2 * THREADS * 50);
    assert!(found.iter().all(|pair| pair.value >= TURNS - 100), "{found:?}");
}

// A place for one value, which only release and acquire order.
struct Place<T>(AtomicPtr<T>);

impl<T: Send> Place<T> {
    fn new() -> Place<T> {
        Place(AtomicPtr::new(null_mut()))
    }

    fn put(&self, value: T) {
        let at = Box::into_raw(Box::new(value));
        while self.0.compare_exchange(null_mut(), at, Ordering::Release, Ordering::Relaxed).is_err() {
            yield_now();
        }
    }

    fn take(&self) -> T {
        loop {
            let at = self.0.swap(null_mut(), Ordering::Acquire);
            if !at.is_null() {
                // SAFETY: `put` made it of a box, and the swap gave it to this thread alone.
                return *unsafe { Box::from_raw(at) };
            }
            spin_loop();
            yield_now();
        }
    }
}

#[test]
fn a_pass_goes_to_and_fro_by_release_and_acquire() {
    const TURNS: u64 = 20_000;
    let tree = Tree::open(8_000_000, &[]).unwrap();
    let (there, back) = (Place::new(), Place::new());
    scope(|scope| {
        scope.spawn(|| {
            for at in 0..TURNS / 2 {
                let mut pass: Pass<'_> = there.take();
                turn(&mut pass, 0, 2 * at);
                back.put(pass);
            }
        });
        there.put(tree.pass().unwrap());
        for at in 0..TURNS / 2 {
            let mut pass = back.take();
            turn(&mut pass, 0, 2 * at + 1);
            if 2 * at + 2 < TURNS {
                there.put(pass);
            }
        }
    });
    assert_eq!(tree.into_pairs().unwrap(), left_by(0, TURNS).collect::<Vec<_>>());
}

#[test]
fn notes_and_shots_go_by_release_and_acquire() {
    const TURNS: u64 = 500;
    let tree = Tree::open(4_000_000, &[]).unwrap();
    let place = Place::<(Note<'_>, Shot<'_>, u64)>::new();
    scope(|scope| {
        scope.spawn(|| {
            let mut pass = tree.pass().unwrap();
            for at in 0..TURNS {
                pass.insert(at, at).unwrap();
                place.put((pass.note().unwrap(), pass.shot(0).unwrap(), at));
            }
        });
        let mut pass = tree.pass().unwrap();
        for at in 0..TURNS {
            let (note, mut shot, last) = place.take();
            assert_eq!((last, shot.len() as u64), (at, at + 1));
            assert_eq!((shot.get(at), shot.get(at + 1)), (Some(at), None));
            pass.meet(note);
            assert_eq!(pass.get(at), Some(at));
        }
    });
    assert_eq!(tree.into_pairs().unwrap().len() as u64, TURNS);
}

#[test]
fn a_pass_goes_into_scoped_threads_and_comes_back() {
    const TURNS: u64 = 1_000;
    let tree = Tree::open(4_000_000, &[]).unwrap();
    let mut passes: Vec<_> = (0..THREADS).map(|owner| (tree.pass().unwrap(), owner)).collect();
    for at in 0..TURNS {
        passes = scope(|scope| {
            let running: Vec<_> = passes
                .drain(..)
                .map(|(mut pass, owner)| {
                    scope.spawn(move || {
                        turn(&mut pass, owner, at);
                        (pass, owner)
                    })
                })
                .collect();
            running.into_iter().map(|thread| thread.join().unwrap()).collect()
        });
    }
    drop(passes);
    assert_eq!(tree.into_pairs().unwrap(), (0..THREADS).flat_map(|owner| left_by(owner, TURNS)).collect::<Vec<_>>());
}

#[test]
fn a_tree_is_opened_by_one_thread_and_closed_by_another() {
    let place = Place::new();
    scope(|scope| {
        scope.spawn(|| {
            for at in 0..2_000 {
                let tree = Tree::open(1_000, &[Pair { key: at, value: at }]).unwrap();
                assert_eq!(tree.pass().unwrap().insert(at + 1, 7), Ok(None));
                place.put(tree);
            }
        });
        for at in 0..2_000 {
            let tree: Tree = place.take();
            assert_eq!(tree.pass().unwrap().get(at), Some(at));
            assert_eq!(tree.into_pairs().unwrap(), [Pair { key: at, value: at }, Pair { key: at + 1, value: 7 }]);
        }
    });
}
