//! Readings of several sensors by time: threads write them, and others ask for a window of time, which one lists while they write.
//!
//!     cargo run --example readings
//!
//! The key is the second since 1970 and the sensor's number, so that a window of time is a range of keys.

use luskadorv::TypedMap;
use std::thread;

const SENSORS: u32 = 4;
const SECONDS: u32 = 3600;
const START: u32 = 1_700_000_000;

// What the sensor measures at this second.
fn reading(second: u32, sensor: u32) -> f64 {
    20.0 + f64::from(sensor) + f64::from(second % 60) / 60.0
}

// The mean of all readings from `first` to before `end`, if there are any.
fn mean(readings: &TypedMap<(u32, u32), f64>, first: u32, end: u32) -> Option<f64> {
    let (sum, count) = readings.range((first, 0)..(end, 0)).fold((0.0, 0), |(sum, count), (_, value)| (sum + value, count + 1));
    (count > 0).then(|| sum / f64::from(count))
}

fn main() {
    let readings = TypedMap::new();
    thread::scope(|scope| {
        for sensor in 0..SENSORS {
            let readings = &readings;
            scope.spawn(move || {
                for second in START..START + SECONDS {
                    readings.insert((second, sensor), reading(second, sensor));
                }
            });
        }
        // Meanwhile a list has some of the readings, each as it was written.
        for ((second, sensor), value) in readings.range((START, 0)..(START + 60, 0)) {
            assert_eq!(value, reading(second, sensor));
        }
    });
    assert_eq!(readings.len(), (SENSORS * SECONDS) as usize);

    let minute = mean(&readings, START + 600, START + 660).expect("there are readings of this minute");
    println!("mean of the eleventh minute: {minute:.3}");
    assert!((21.5..22.5).contains(&minute));
    assert_eq!(mean(&readings, START + SECONDS, u32::MAX), None);

    // What is older than half an hour goes, as one that keeps a window open would have it.
    while let Some((key, _)) = readings.first().filter(|((second, _), _)| *second < START + SECONDS / 2) {
        readings.remove(key);
    }
    println!("readings of the last half hour: {}", readings.len());
    assert_eq!(readings.len(), (SENSORS * SECONDS / 2) as usize);
}
