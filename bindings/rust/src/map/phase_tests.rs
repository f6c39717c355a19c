//! Each step of a growth, a merge, a snapshot and a `clear` is held open while other calls are made.

use super::Map;
use super::hooks::Step;
use super::inner::Mode;
use super::sizes::{STRAINED, Sizes};
use crate::Error;
use std::ops::Bound::{Excluded, Included};
use std::sync::mpsc::{Receiver, Sender, channel};
use std::sync::{Arc, Mutex};
use std::thread::{scope, sleep, yield_now};
use std::time::Duration;

const GROWING: [Step; 5] = [Step::Begun, Step::Opened, Step::Mirroring, Step::Stopped, Step::Replaced];
const UPDATING: [Step; 2] = [Step::Slotted, Step::Asked];

fn set_hook(map: &Map, hook: impl Fn(Step) + Send + Sync + 'static) {
    *super::locked(&map.inner.hook) = Some(Arc::new(hook));
}

// A call that is held at a step until it is released, or until this is dropped: so that it goes on also if an assertion fails.
struct Hold {
    reached: Receiver<()>,
    release: Sender<()>,
}

impl Hold {
    fn wait(&self) {
        self.reached.recv_timeout(Duration::from_secs(60)).expect("a call reaches the step");
    }
}

// Holds the first call that reaches the step, for each of these.
fn holds<const N: usize>(map: &Map, steps: [Step; N]) -> [Hold; N] {
    let mut gates = Vec::new();
    let holds = steps.map(|step| {
        let ((told, reached), (release, released)) = (channel(), channel());
        gates.push((step, Mutex::new(Some((told, released)))));
        Hold { reached, release }
    });
    set_hook(map, move |at| {
        let gate = gates.iter().find(|(step, _)| *step == at);
        let first = gate.and_then(|(_, gate)| super::locked(gate).take());
        if let Some((told, released)) = first {
            _ = told.send(());
            _ = released.recv();
        }
    });
    holds
}

// Makes a call that is held when it first reaches the step, and others meanwhile. These get what releases it.
fn while_held<T: Send>(map: &Map, step: Step, call: impl FnOnce() -> T + Send, others: impl FnOnce(&Sender<()>)) -> T {
    let [held] = holds(map, [step]);
    scope(move |scope| {
        let held = held;
        let caller = scope.spawn(call);
        held.wait();
        others(&held.release);
        drop(held);
        caller.join().unwrap()
    })
}

// A map of one part that grows again and again, with the keys 0, 2, .. 98.
fn one_part() -> Map {
    let map = Map::of(4096, Sizes { least_words: 4096, hot_words: 4096, most_keys: 1000, hot_parts: 0, ..STRAINED }).unwrap();
    (0..50).for_each(|key| _ = map.insert(2 * key, key));
    map
}

// Updates keys from 1000 on until the map has grown.
fn grow(map: &Map) {
    (0..600).for_each(|number| _ = map.insert(1000 + number % 20, number));
}

fn assert_reads(map: &Map, at: Step) {
    for key in 0..100 {
        let value = (key % 2 == 0).then_some(key / 2);
        assert_eq!(map.get(key), value, "{at:?}");
        let next = map.lower_bound(Included(key)).filter(|pair| pair.0 < 100);
        assert_eq!(next, (key < 99).then_some((key.next_multiple_of(2), key.div_ceil(2))), "{at:?}");
        assert_eq!(map.upper_bound(Included(key)), Some((key / 2 * 2, key / 2)), "{at:?}");
    }
    assert!(map.range(..100).eq((0..50).map(|key| (2 * key, key))), "{at:?}");
}

#[test]
fn reads_are_made_in_each_step_of_a_growth() {
    for step in GROWING {
        let map = one_part();
        while_held(&map, step, || grow(&map), |_| assert_reads(&map, step));
        assert_reads(&map, step);
    }
}

#[test]
fn updates_are_made_in_each_step_of_a_growth_but_the_stop() {
    for step in GROWING.into_iter().filter(|step| *step != Step::Stopped) {
        let map = one_part();
        let update = |_: &Sender<()>| {
            assert_eq!(map.insert(10, 77), Some(5), "{step:?}");
            assert_eq!(map.insert(11, 78), None, "{step:?}");
            assert_eq!(map.remove(12), Some(6), "{step:?}");
            assert_eq!(map.compare_exchange(14, Some(7), Some(79)), Ok(Some(7)), "{step:?}");
            assert_eq!(map.compare_exchange(14, Some(7), Some(80)), Err(Some(79)), "{step:?}");
            assert!(map.range(10..15).eq([(10, 77), (11, 78), (14, 79)]), "{step:?}");
        };
        while_held(&map, step, || grow(&map), update);
        assert!(map.range(8..20).eq([(8, 4), (10, 77), (11, 78), (14, 79), (16, 8), (18, 9)]), "{step:?}");
        assert_eq!(map.len(), 50 + 20, "{step:?}");
    }
}

#[test]
fn updates_of_a_stopped_part_wait_and_are_then_made() {
    let map = one_part();
    let update_and_read = |release: &Sender<()>| {
        scope(|scope| {
            let updates = [scope.spawn(|| map.insert(10, 77)), scope.spawn(|| map.remove(12)), scope.spawn(|| map.insert(13, 79))];
            assert_reads(&map, Step::Stopped);
            assert!(updates.iter().all(|update| !update.is_finished()));
            release.send(()).unwrap();
            assert_eq!(updates.map(|update| update.join().unwrap()), [Some(5), Some(6), None]);
        });
    };
    while_held(&map, Step::Stopped, || grow(&map), update_and_read);
    assert!(map.range(8..16).eq([(8, 4), (10, 77), (13, 79), (14, 7)]));
}

#[test]
fn the_next_step_waits_for_the_calls_that_have_slots() {
    // the step before, the next one, and a call that goes from one to the other
    let cases: [(Option<Step>, Step, fn(&Map)); 5] = [
        (None, Step::Begun, grow),
        (Some(Step::Opened), Step::Mirroring, grow),
        (Some(Step::Mirroring), Step::Stopped, grow),
        (None, Step::Held, Map::clear),
        (None, Step::Held, |map| _ = map.snapshot(..)),
    ];
    for (before, next, call) in cases {
        let map = one_part();
        let ((told, steps), (release, released)) = (channel(), channel());
        let released = Mutex::new(released);
        set_hook(&map, move |step| {
            if !UPDATING.contains(&step) {
                _ = told.send(step);
            }
            if Some(step) == before {
                _ = released.lock().unwrap().recv();
            }
        });
        scope(|scope| {
            let release = release;
            let start = || scope.spawn(|| call(&map));
            let caller = before.map(|_| start());
            while before.is_some() && steps.recv().ok() != before {}
            let (_, passes) = map.inner.slot();
            _ = release.send(());
            let caller = caller.unwrap_or_else(start);
            // long enough for a call that doesn't wait
            assert!(steps.recv_timeout(Duration::from_millis(100)).is_err(), "{before:?} to {next:?}");
            drop(passes);
            assert_eq!(steps.recv(), Ok(next));
            drop(release);
            caller.join().unwrap();
        });
    }
}

#[test]
fn an_update_that_has_a_slot_while_a_growth_takes_its_next_step_is_kept() {
    for step in GROWING {
        let map = one_part();
        let [growing] = holds(&map, [step]);
        scope(|scope| {
            let growing = growing;
            let grower = scope.spawn(|| grow(&map));
            growing.wait();
            // from here on another hook holds the first update
            let [updating] = holds(&map, [Step::Asked]);
            let updates = scope.spawn(|| [map.insert(10, 77), map.remove(12)]);
            updating.wait();
            drop(growing);
            // long enough for the growth to wait for the update's slot
            sleep(Duration::from_millis(20));
            drop(updating);
            assert_eq!(updates.join().unwrap(), [Some(5), Some(6)], "{step:?}");
            grower.join().unwrap();
        });
        assert!(map.range(8..16).eq([(8, 4), (10, 77), (14, 7)]), "{step:?}");
        // and it is in the tree that follows the next one
        grow(&map);
        assert!(map.range(8..16).eq([(8, 4), (10, 77), (14, 7)]), "{step:?}");
        assert_eq!(map.len(), 49 + 20, "{step:?}");
    }
}

#[test]
fn updates_of_other_parts_are_made_while_one_is_stopped() {
    let map: Map = (0..10_000).map(|key| (key, key)).collect();
    let update = |_: &Sender<()>| {
        for key in 9000..10_000 {
            assert_eq!(map.insert(key, 1), Some(key));
        }
    };
    while_held(&map, Step::Stopped, || (0..5_000).for_each(|number| _ = map.insert(number % 100, number)), update);
    assert!(map.range(8_999..9_002).eq([(8_999, 8_999), (9_000, 1), (9_001, 1)]));
}

#[test]
fn calls_are_made_in_each_step_of_a_merge() {
    for step in GROWING {
        let map: Map = (0..10_000).map(|key| (key, key)).collect();
        (0..10_000).filter(|key| key % 100 != 0).for_each(|key| _ = map.remove(key));
        let call = |_: &Sender<()>| {
            assert!(map.iter().eq((0..100).map(|key| (100 * key, 100 * key))), "{step:?}");
            if step != Step::Stopped {
                assert_eq!(map.insert(5_000, 1), Some(5_000), "{step:?}");
                assert_eq!(map.remove(100), Some(100), "{step:?}");
                assert_eq!(map.insert(101, 1), None, "{step:?}");
            }
        };
        while_held(&map, step, || map.shrink_to_fit(), call);
        map.shrink_to_fit();
        assert_eq!(map.inner.directory().count, 1, "{step:?}");
        if step != Step::Stopped {
            assert!(map.range(..201).eq([(0, 0), (101, 1), (200, 200)]), "{step:?}");
        }
        assert_eq!(map.len(), 100, "{step:?}");
    }
}

#[test]
fn a_growth_is_given_up_if_the_map_is_cleared_meanwhile() {
    for step in GROWING {
        let map = one_part();
        let clear = |_: &Sender<()>| {
            map.clear();
            assert_eq!(map.first(), None, "{step:?}");
            assert_eq!(map.insert(3, 33), None, "{step:?}");
        };
        while_held(&map, step, || grow(&map), clear);
        assert!(map.range(..1000).eq([(3, 33)]), "{step:?}");
        assert_eq!(map.len(), map.iter().count(), "{step:?}");
    }
}

#[test]
fn a_growth_that_is_lost_each_time_stops_updates_at_last() {
    let map = one_part();
    let (told, steps) = channel();
    let inner = map.inner.clone();
    set_hook(&map, move |step| {
        if step == Step::Mirroring {
            inner.directory().part(0).lose();
        }
        if !UPDATING.contains(&step) {
            told.send(step).unwrap();
        }
    });
    grow(&map);
    // it had a reference to the map
    *super::locked(&map.inner.hook) = None;
    let steps: Vec<Step> = steps.into_iter().take_while(|step| *step != Step::Replaced).collect();
    assert_eq!(steps.iter().filter(|step| **step == Step::Mirroring).count(), 4);
    assert!(steps.ends_with(&[Step::Stopped, Step::Opened]), "{steps:?}");
    assert_reads(&map, Step::Replaced);
    assert_eq!(map.len(), 70);
}

#[test]
fn a_snapshot_has_what_was_there_when_it_began() {
    // what is done to the map while the snapshot is held
    let changes: [fn(&Map); 4] = [
        |map| {
            (0..100).for_each(|key| _ = map.insert(key, 1_000));
            (0..100).for_each(|key| _ = map.remove(key));
            (50..150).for_each(|key| _ = map.insert(key, 2_000));
        },
        grow,
        Map::clear,
        |map| {
            map.insert(10, 1_000);
            map.clear();
            grow(map);
            map.insert(10, 2_000);
            map.insert(11, 2_000);
        },
    ];
    for (number, change) in changes.into_iter().enumerate() {
        for step in [Step::Watched, Step::Listed, Step::Taken] {
            let map = one_part();
            let pairs = while_held(&map, step, || map.snapshot(..900).unwrap(), |_| change(&map));
            assert!(pairs.into_iter().eq((0..50).map(|key| (2 * key, key))), "change {number} at {step:?}");
            let left: Vec<_> = map.iter().collect();
            assert_eq!(map.snapshot(..), Ok(left), "change {number} at {step:?}");
        }
    }
}

#[test]
fn a_snapshot_has_no_slot_while_it_lists() {
    let map: Map = (0..10_000).map(|key| (key, key)).collect();
    let change = |_: &Sender<()>| {
        map.inner.sweep(|_| {});
        // the first part, which was listed, and the last one grow
        let parts = [0, 9_999].map(|key| map.inner.directory().part(key).place.tree);
        (0..5_000).for_each(|number| _ = map.insert(number % 100, number));
        (0..5_000).for_each(|number| _ = map.insert(9_999 - number % 100, number));
        assert!([0, 9_999].map(|key| map.inner.directory().part(key).place.tree) != parts);
    };
    let pairs = while_held(&map, Step::Listing, || map.snapshot(..).unwrap(), change);
    assert!(pairs.into_iter().eq((0..10_000).map(|key| (key, key))));
}

#[test]
fn a_snapshot_takes_its_records_while_updates_record() {
    let map = one_part();
    let [listed, taken, asked] = holds(&map, [Step::Listed, Step::Taken, Step::Asked]);
    let pairs = scope(|scope| {
        let (listed, taken, asked) = (listed, taken, asked);
        let snapshot = scope.spawn(|| map.snapshot(..).unwrap());
        listed.wait();
        // an update that records, and one before it that would record nothing if the recording were over
        let update = scope.spawn(|| map.insert(10, 77));
        asked.wait();
        drop(listed);
        taken.wait();
        assert_eq!(map.insert(10, 76), Some(5));
        drop(asked);
        assert_eq!(update.join().unwrap(), Some(76));
        drop(taken);
        snapshot.join().unwrap()
    });
    assert!(pairs.into_iter().eq((0..50).map(|key| (2 * key, key))));
}

#[test]
fn a_snapshot_that_lacks_a_record_fails_and_the_next_one_does_not() {
    let map = one_part();
    let change = |_: &Sender<()>| {
        map.inner.watch.lose();
        assert_eq!(map.insert(10, 77), Some(5));
    };
    assert_eq!(while_held(&map, Step::Watched, || map.snapshot(..), change), Err(Error::Memory));
    assert_eq!(map.snapshot(10..11), Ok(vec![(10, 77)]));
}

#[test]
fn an_update_that_has_a_slot_when_a_clear_ends_goes_by_what_that_left() {
    for step in UPDATING {
        let map = one_part();
        let [clearing, updating] = holds(&map, [Step::Held, step]);
        let had = scope(|scope| {
            let (clearing, updating) = (clearing, updating);
            let clear = scope.spawn(|| map.clear());
            clearing.wait();
            // no slot is locked for the clear from here on until updates go on
            let update = scope.spawn(|| map.insert(10, 77));
            updating.wait();
            drop(clearing);
            while map.inner.mode() == Mode::Held {
                yield_now();
            }
            drop(updating);
            clear.join().unwrap();
            update.join().unwrap()
        });
        assert_eq!(had, None, "{step:?}");
        assert!(map.iter().eq([(10, 77)]), "{step:?}");
        assert_eq!(map.len(), 1, "{step:?}");
    }
}

#[test]
fn a_snapshot_of_a_range_records_nothing_else() {
    let map = one_part();
    let change = |_: &Sender<()>| (0..100).for_each(|key| _ = map.insert(key, 1_000));
    let pairs = while_held(&map, Step::Watched, || map.snapshot((Excluded(8), Included(14))).unwrap(), change);
    assert_eq!(pairs, [(10, 5), (12, 6), (14, 7)]);
}

#[test]
fn reads_are_made_while_all_updates_are_held() {
    for clears in [false, true] {
        let map = one_part();
        let call = || if clears { map.clear() } else { _ = map.snapshot(..) };
        let read = |release: &Sender<()>| {
            scope(|scope| {
                let update = scope.spawn(|| map.insert(10, 77));
                assert_reads(&map, Step::Held);
                assert!(!update.is_finished());
                release.send(()).unwrap();
                assert_eq!(update.join().unwrap(), if clears { None } else { Some(5) });
            });
        };
        while_held(&map, Step::Held, call, read);
        assert_eq!(map.get(10), Some(77));
    }
}
