//! The directory: which part has a key.

use super::parts::{Part, Parts, Place, room_for};
use super::starts::Starts;
use crate::Error;
use crate::shared::Shared;

/// How many parts lie together at most.
const BLOCK: usize = 32;

/// How many parts a directory has at most that lists all their places: the list is made anew with each directory.
const LISTED: usize = 1024;

/// All parts of the map at one time, in blocks of some, so that another directory shares most blocks with this one. It is never
/// changed.
pub(super) struct Directory {
    pub(super) version: u64,
    // The places of all parts, unless they are many: a read finds its part's in one step.
    places: Option<Starts<Place>>,
    /// How many parts there are.
    pub(super) count: usize,
    blocks: Starts<Shared<Parts>>,
}

// How many parts lie in these blocks.
fn count_in(blocks: &[(u64, Shared<Parts>)]) -> usize {
    blocks.iter().map(|(_, block)| block.all().len()).sum()
}

// Blocks of these parts, about equally large.
fn blocks_of(parts: &[Shared<Part>]) -> Result<Vec<(u64, Shared<Parts>)>, Error> {
    let count = if parts.len() > BLOCK { parts.len().div_ceil(BLOCK / 2) } else { 1 };
    let mut blocks = room_for(count)?;
    for number in 0..count {
        let (from, to) = (number * parts.len() / count, (number + 1) * parts.len() / count);
        let mut block = room_for(to - from)?;
        block.extend_from_slice(&parts[from..to]);
        blocks.push((parts[from].first, Parts::of(block)?));
    }
    Ok(blocks)
}

// The places of all parts in these blocks, unless they are many.
fn places_of(blocks: &[(u64, Shared<Parts>)], count: usize) -> Result<Option<Starts<Place>>, Error> {
    if count > LISTED {
        return Ok(None);
    }
    let mut places = room_for(count)?;
    blocks.iter().for_each(|(_, block)| places.extend_from_slice(block.places()));
    Ok(Some(Starts::of(places)))
}

impl Directory {
    /// A directory of these parts, which have all keys.
    pub(super) fn of(version: u64, parts: &[Shared<Part>]) -> Result<Shared<Directory>, Error> {
        Directory::of_blocks(version, blocks_of(parts)?)
    }

    fn of_blocks(version: u64, blocks: Vec<(u64, Shared<Parts>)>) -> Result<Shared<Directory>, Error> {
        let count = count_in(&blocks);
        let places = places_of(&blocks, count)?;
        Shared::new(Directory { version, places, count, blocks: Starts::of(blocks) })
    }

    fn block(&self, key: u64) -> &Parts {
        &self.blocks.all()[self.blocks.at(key)].1
    }

    /// The place of the part that has this key.
    #[inline]
    pub(super) fn place(&self, key: u64) -> Place {
        match &self.places {
            Some(places) => places.all()[places.at(key)].1,
            None => self.block(key).place(key),
        }
    }

    /// The part that has this key.
    pub(super) fn part(&self, key: u64) -> &Shared<Part> {
        self.block(key).part(key)
    }

    /// Whether the part is one of it.
    pub(super) fn has(&self, part: &Part) -> bool {
        self.place(part.first).tree == part.place.tree
    }

    /// The parts that have keys from the first to the last one.
    pub(super) fn parts(&self, first: u64, last: u64) -> impl Iterator<Item = &Shared<Part>> {
        let mut next = Some(first);
        std::iter::from_fn(move || {
            let part = self.part(next.filter(|key| *key <= last)?);
            next = part.last.checked_add(1);
            Some(part)
        })
    }

    /// The next directory, which has other parts in place of these neighbours of it.
    pub(super) fn with(&self, next: &Parts, run: &[Shared<Part>]) -> Result<Shared<Directory>, Error> {
        let all = self.blocks.all();
        let (from, mut to) = (self.blocks.at(run[0].first), self.blocks.at(run[run.len() - 1].first) + 1);
        // a small block is joined with the next one
        if count_in(&all[from..to]) < BLOCK / 4 && to < all.len() {
            to += 1;
        }
        let mut parts = room_for(count_in(&all[from..to]) + next.all().len())?;
        let is_before = |part: &&Shared<Part>| part.first < run[0].first;
        let is_after = |part: &&Shared<Part>| part.first > run[run.len() - 1].first;
        let old = || all[from..to].iter().flat_map(|(_, block)| block.all());
        parts.extend(old().filter(is_before).cloned());
        parts.extend_from_slice(next.all());
        parts.extend(old().filter(is_after).cloned());
        let joined = blocks_of(&parts)?;
        let mut blocks = room_for(all.len() + joined.len())?;
        blocks.extend_from_slice(&all[..from]);
        blocks.extend(joined);
        blocks.extend_from_slice(&all[to..]);
        Directory::of_blocks(self.version + 1, blocks)
    }
}
