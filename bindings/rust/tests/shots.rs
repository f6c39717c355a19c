//! Shots: what they have stays as it was while others write.

use luskadorv::{Error, Map, Pair, Shot, Tree, shot_words};
use std::sync::atomic::{AtomicBool, Ordering};
use std::thread::scope;

fn pairs(count: u64) -> Vec<Pair> {
    (0..count).map(|key| Pair { key, value: 10 * key }).collect()
}

fn sent<T: Send>() {}

#[test]
fn a_shot_stays_as_it_was_while_threads_write() {
    sent::<Shot<'static>>();
    let pairs = pairs(500);
    let tree = Tree::open(4_000_000, &pairs).unwrap();
    let mut shot = tree.shot(shot_words(500).unwrap()).unwrap();
    scope(|scope| {
        for number in 0..3 {
            let mut pass = tree.pass().unwrap();
            scope.spawn(move || {
                for i in 0..2_000 {
                    let key = (7 * i + number) % 700;
                    match i % 3 {
                        0 => pass.remove(key).unwrap(),
                        _ => pass.insert(key, i).unwrap(),
                    };
                }
            });
        }
        for turn in 0..50 {
            let at = 10 * turn as usize;
            assert_eq!(shot.list(..), pairs, "turn {turn}");
            assert_eq!(shot.list(10 * turn..10 * turn + 7), pairs[at..at + 7], "turn {turn}");
            assert_eq!(shot.get(turn), Some(10 * turn));
        }
    });
    assert_eq!((shot.len(), shot.get(600)), (500, None));
    drop(shot);
    assert_ne!(tree.into_pairs().unwrap(), pairs);
}

#[test]
fn a_shot_has_what_its_pass_did_before_and_not_what_it_did_after() {
    let tree = Tree::open(100_000, &[]).unwrap();
    let mut pass = tree.pass().unwrap();
    let mut shots = Vec::new();
    for key in 0..20 {
        pass.insert(key, key).unwrap();
        shots.push(pass.shot(0).unwrap());
    }
    for (at, shot) in shots.iter_mut().enumerate() {
        assert_eq!(shot.len(), at + 1);
        assert_eq!(shot.list(..).last(), Some(&Pair { key: at as u64, value: at as u64 }));
    }
}

#[test]
fn a_shot_is_read_in_pieces() {
    let pairs = pairs(10);
    let tree = Tree::open(10_000, &pairs).unwrap();
    let mut shot = tree.shot(0).unwrap();
    let mut room = [Pair::default(); 4];
    // the first key, the last, how many pairs are written, and where to go on
    let cases = [(0, 9, 4, Some(4)), (4, 9, 4, Some(8)), (8, 9, 2, None), (3, 6, 4, None), (5, 4, 0, None), (20, u64::MAX, 0, None)];
    for (first, last, count, next) in cases {
        assert_eq!(shot.list_into(first, last, &mut room), (count, next), "from {first} to {last}");
        assert_eq!(room[..count], pairs[first.min(10) as usize..][..count]);
    }
    assert_eq!(shot.list_into(2, 3, &mut []), (0, Some(2)));
}

#[test]
fn a_shot_that_is_refused_leaves_the_tree_as_it_was() {
    let pairs = pairs(10);
    let tree = Tree::open(1_000, &pairs).unwrap();
    match tree.shot(1_000) {
        Err(Error::Full(full)) => assert_eq!((full.asked, full.words), (1_000, 1_000)),
        other => panic!("{other:?}"),
    }
    let mut pass = tree.pass().unwrap();
    assert!(matches!(pass.shot(1_000), Err(Error::Full(_))));
    assert_eq!(pass.insert(10, 100), Ok(None));
    drop(pass);
    assert_eq!(tree.into_pairs().unwrap().len(), 11);
}

#[test]
fn an_empty_tree_has_an_empty_shot() {
    let tree = Tree::open(100, &[]).unwrap();
    let mut shot = tree.shot(0).unwrap();
    tree.pass().unwrap().insert(1, 2).unwrap();
    assert!(shot.is_empty() && shot.list(..).is_empty());
}

// One thread moves on by one key: it puts the next one and then removes the last. At each moment one key or two have values.
#[test]
fn a_snapshot_of_a_map_is_of_one_moment() {
    let map = Map::from([(0, 0)]);
    let is_done = AtomicBool::new(false);
    scope(|scope| {
        scope.spawn(|| {
            for key in 0..5_000 {
                map.insert(key + 1, key + 1);
                map.remove(key);
            }
            is_done.store(true, Ordering::SeqCst);
        });
        let mut from = 0;
        while !is_done.load(Ordering::SeqCst) {
            let keys: Vec<u64> = map.snapshot(..).unwrap().into_iter().map(|(key, _)| key).collect();
            assert!(keys.len() == 1 || keys.len() == 2 && keys[0] + 1 == keys[1], "{keys:?}");
            assert!(from <= keys[0], "{from} {keys:?}");
            from = keys[0];
        }
    });
    assert_eq!(map.snapshot(..), Ok(vec![(5_000, 5_000)]));
}

#[test]
fn a_map_grows_for_its_snapshots() {
    let map: Map = (0..1_000).map(|key| (key, key)).collect();
    for turn in 0..100 {
        let pairs = map.snapshot(turn..turn + 10).unwrap();
        assert_eq!(pairs, (turn..turn + 10).map(|key| (key, key)).collect::<Vec<_>>());
    }
    assert_eq!(map.len(), 1_000);
}
