//! What `bench/lines.py` measures `tele` beside: a plain program over a `BTreeMap`, for good lines of version 1.
use std::collections::BTreeMap;
use std::io::{self, BufRead, BufWriter, Write};

fn main() -> io::Result<()> {
    let mut map: BTreeMap<u64, u64> = BTreeMap::new();
    let mut out = BufWriter::new(io::stdout().lock());
    for (number, line) in (1..).zip(io::stdin().lock().lines()) {
        let line = line?;
        let mut words = line.split_ascii_whitespace();
        let letter = words.next().unwrap_or("#");
        let mut next = || words.next().and_then(|word| word.parse().ok()).expect("a number");
        let before = match letter {
            "P" => {
                let key = next();
                map.insert(key, next())
            }
            "R" => map.remove(&next()),
            "G" => map.get(&next()).copied(),
            "I" => {
                let (first, last) = (next(), next());
                let pairs = if first <= last { map.range(first..=last) } else { map.range(0..0) };
                writeln!(out, "{number} {}", pairs.clone().count())?;
                for (key, value) in pairs {
                    writeln!(out, "{key} {value}")?;
                }
                continue;
            }
            _ => continue,
        };
        match before {
            Some(value) => writeln!(out, "{number} {value}")?,
            None => writeln!(out, "{number} -")?,
        }
    }
    out.flush()
}
