//! A cache whose entries end at a time: the map has them by that time, so that those that ended are its first ones.
//!
//!     cargo run --example cache
//!
//! Texts don't fit 64 bits: they are in a slab, a vector whose places are used again, and the map has their places.

use luskadorv::TypedMap;
use std::collections::HashMap;
use std::sync::Mutex;
use std::thread;
use std::time::{Duration, SystemTime};

#[derive(Default)]
struct Slab {
    texts: Vec<Option<(String, String)>>,
    free: Vec<u32>,
    places: HashMap<String, (SystemTime, u32)>,
}

/// Texts by name, each until its time. The map is read and cleared of what ended without the lock on the texts.
#[derive(Default)]
struct Cache {
    slab: Mutex<Slab>,
    // By the end of an entry, in seconds since 1970, and its place: two entries may end at one time.
    ends: TypedMap<(u32, u32), ()>,
}

fn seconds(time: SystemTime) -> u32 {
    time.duration_since(SystemTime::UNIX_EPOCH).map_or(0, |it| it.as_secs().try_into().unwrap_or(u32::MAX))
}

impl Cache {
    fn put(&self, name: &str, text: String, end: SystemTime) {
        let mut slab = self.slab.lock().unwrap();
        let place = slab.free.pop().unwrap_or(slab.texts.len() as u32);
        if place as usize == slab.texts.len() {
            slab.texts.push(None);
        }
        slab.texts[place as usize] = Some((name.to_string(), text));
        if let Some((old_end, old)) = slab.places.insert(name.to_string(), (end, place)) {
            slab.texts[old as usize] = None;
            slab.free.push(old);
            self.ends.remove((seconds(old_end), old));
        }
        self.ends.insert((seconds(end), place), ());
    }

    fn get(&self, name: &str, now: SystemTime) -> Option<String> {
        let slab = self.slab.lock().unwrap();
        let (end, place) = slab.places.get(name)?;
        (now < *end).then(|| slab.texts[*place as usize].as_ref().expect("a place that has a name has a text").1.clone())
    }

    // Drops what ended by now, and returns how many these were. Threads may do so at a time: who removes the pair drops the text.
    fn sweep(&self, now: SystemTime) -> usize {
        let mut dropped = 0;
        for ((end, place), ()) in self.ends.range(..=(seconds(now), u32::MAX)) {
            let mut slab = self.slab.lock().unwrap();
            if self.ends.remove((end, place)).is_some() {
                let (name, _) = slab.texts[place as usize].take().expect("a place that ends has a text");
                slab.places.remove(&name);
                slab.free.push(place);
                dropped += 1;
            }
        }
        dropped
    }
}

fn main() {
    let (cache, start) = (Cache::default(), SystemTime::now());
    let after = |seconds: u64| start + Duration::from_secs(seconds);
    thread::scope(|scope| {
        for number in 0..4 {
            let (cache, after) = (&cache, &after);
            scope.spawn(move || {
                for entry in 0..100 {
                    cache.put(&format!("{number}/{entry}"), format!("text {entry}"), after(10 + entry));
                }
            });
        }
    });
    assert_eq!(cache.get("3/50", start).as_deref(), Some("text 50"));
    assert_eq!(cache.get("3/50", after(60)), None);

    // An entry that is put again ends later.
    cache.put("3/5", "again".to_string(), after(1000));
    let swept: Vec<usize> = thread::scope(|scope| {
        let sweeps: Vec<_> = (0..4).map(|_| scope.spawn(|| cache.sweep(after(59)))).collect();
        sweeps.into_iter().map(|it| it.join().unwrap()).collect()
    });
    println!("entries that ended: {}, left: {}", swept.iter().sum::<usize>(), cache.ends.len());
    assert_eq!((swept.iter().sum::<usize>(), cache.ends.len()), (4 * 50 - 1, 4 * 50 + 1));
    assert_eq!(cache.get("3/5", after(59)).as_deref(), Some("again"));
}
