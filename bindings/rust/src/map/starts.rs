//! Neighbours by their first keys.

/// What begins at some keys, in order of these; at least one.
pub(super) struct Starts<T> {
    // What begins at a key is beside it: a search looks at two neighbours.
    all: Vec<(u64, T)>,
    first: u64,
    last: u64,
    // How far a step of one key goes along the list, in 2^64ths of a place.
    scale: u64,
}

impl<T> Starts<T> {
    /// Of this list, whose keys are strictly increasing.
    pub(super) fn of(all: Vec<(u64, T)>) -> Starts<T> {
        let (first, last) = (all[0].0, all[all.len() - 1].0);
        let scale = (((all.len() - 1) as u128) << 64) / u128::from(last - first).max(1);
        Starts { all, first, last, scale: scale.min(u128::from(u64::MAX)) as u64 }
    }

    pub(super) fn all(&self) -> &[(u64, T)] {
        &self.all
    }

    /// The place in the list of the last one that begins at this key or before it, or 0 if there is none.
    ///
    /// It looks first where linear interpolation points: that is right if they begin at about equal distances.
    #[inline]
    pub(super) fn at(&self, key: u64) -> usize {
        if key >= self.last {
            return self.all.len() - 1;
        }
        let guess = ((u128::from(key.saturating_sub(self.first)) * u128::from(self.scale)) >> 64) as usize;
        match self.all.get(guess..guess + 2) {
            Some([(start, _), (end, _)]) if *start <= key && key < *end => guess,
            _ => self.search(key),
        }
    }

    #[cold]
    fn search(&self, key: u64) -> usize {
        self.all.partition_point(|(start, _)| *start <= key).saturating_sub(1)
    }
}

#[cfg(test)]
mod tests {
    use super::Starts;

    #[test]
    fn the_guess_changes_no_answer() {
        let lists: [&[u64]; 7] = [
            &[0],
            &[7],
            &[0, 1, 2, 3],
            &[0, 10, 20, 31, 40],
            &[5, 6, 1 << 40, u64::MAX],
            &[0, 1 << 63, (1 << 63) + 1, u64::MAX - 1],
            &[0, u64::MAX],
        ];
        for list in lists {
            let starts = Starts::of(list.iter().map(|key| (*key, ())).collect());
            let around = |key: u64| [key.saturating_sub(1), key, key.saturating_add(1)];
            for key in list.iter().copied().flat_map(around).chain([3, 15, 1 << 39, 1 << 62]) {
                let expected = list.iter().rposition(|start| *start <= key).unwrap_or(0);
                assert_eq!(starts.at(key), expected, "{key} in {list:?}");
            }
        }
    }
}
