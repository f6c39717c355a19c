//! The tree and its passes.

use crate::ffi::{self, NoteHandle, Owner, PassHandle, ShotHandle};
use crate::{Error, Full, Kept, Pair, Stats};
use std::fmt::{Debug, Formatter};
use std::ops::RangeBounds;
use std::sync::{Mutex, MutexGuard, PoisonError};

/// What a key had before a [`compare_exchange`](Pass::compare_exchange): `Ok` if that was expected, and else `Err`.
pub type Exchanged = Result<Option<u64>, Option<u64>>;

/// Returns how many words of 8 bytes a tree of this many pairs takes at least, if there can be such a tree. Updates take
/// further words: some 60 each.
///
/// ```
/// assert_eq!(luskadorv::words_for(0), Some(4));
/// ```
pub fn words_for(pairs: usize) -> Option<u32> {
    let words = ffi::words_for(pairs as u64);
    u32::try_from(words).ok().filter(|words| (1..=ffi::MOST_WORDS).contains(words))
}

/// Returns how many words a [shot](Tree::shot) of this many pairs takes at most, if no other thread takes words meanwhile. No tree
/// has 2^32 pairs or more.
///
/// ```
/// assert_eq!(luskadorv::shot_words(1 << 32), None);
/// ```
pub fn shot_words(pairs: usize) -> Option<u64> {
    Some(ffi::shot_words(pairs as u64)).filter(|words| *words != 0)
}

// Why a list that isn't made panics.
const NO_MEMORY: &str = "there is memory for the list";

// The first and the last key of the range, if it has keys.
pub(crate) fn ends<R: RangeBounds<u64>>(range: R) -> Option<(u64, u64)> {
    use std::ops::Bound::{Excluded, Included, Unbounded};
    let first = match range.start_bound() {
        Included(key) => *key,
        Excluded(key) => key.checked_add(1)?,
        Unbounded => 0,
    };
    let last = match range.end_bound() {
        Included(key) => *key,
        Excluded(key) => key.checked_sub(1)?,
        Unbounded => u64::MAX,
    };
    (first <= last).then_some((first, last))
}

/// An ordered map with a fixed number of words. Threads share it by reference, and each calls it by a [`Pass`].
///
/// ```
/// use luskadorv::{Error, Pair, Tree};
///
/// let tree = Tree::open(1000, &[Pair { key: 5, value: 50 }])?;
/// let mut pass = tree.pass()?;
/// assert_eq!(pass.insert(6, 60), Ok(None));
/// drop(pass);
/// assert_eq!(tree.into_pairs()?, [Pair { key: 5, value: 50 }, Pair { key: 6, value: 60 }]);
/// # Ok::<(), Error>(())
/// ```
pub struct Tree {
    // One call at a time has the owner's handle, by this lock. No call on keys takes it.
    owner: Mutex<Owner>,
}

impl Tree {
    /// Opens a tree of these pairs, with this many words of 8 bytes. Of two pairs with one key it takes the later. All memory
    /// of the tree is allocated here.
    ///
    /// ```
    /// use luskadorv::{Error, Tree};
    ///
    /// assert_eq!(Tree::open(3, &[]).err(), Some(Error::Words));
    /// ```
    pub fn open(words: u32, pairs: &[Pair]) -> Result<Tree, Error> {
        Ok(Tree { owner: Mutex::new(Owner::open(words, pairs)?) })
    }

    fn owner(&self) -> MutexGuard<'_, Owner> {
        self.owner.lock().unwrap_or_else(PoisonError::into_inner)
    }

    /// Returns a pass, for one thread. It is given back when it is dropped, and then serves again: so a tree hands out any number of
    /// passes over time, and up to 2^32 - 1 at a time, beyond which this is [`Error::Passes`]. The same goes for shots, which have a
    /// pass each.
    ///
    /// A pass that served before has seen all that it saw then, and so its calls come after those.
    pub fn pass(&self) -> Result<Pass<'_>, Error> {
        let pass = self.owner().pass()?;
        Ok(Pass { tree: self, pass: Some(pass) })
    }

    /// Takes a shot: the map as it was at one moment of the call, whatever others do from then on. The whole tree is rebuilt for
    /// those who go on, which takes at most [`shot_words`] words, if no other thread takes words meanwhile.
    ///
    /// If fewer than `words` words are left at a moment of the call, it returns [`Error::Full`], and nothing was changed. A shot
    /// that runs out of words is taken, but later updates of the tree are [`Full`]: so ask for [`shot_words`] of its pairs, and for
    /// the words of updates that are made meanwhile.
    ///
    /// ```
    /// use luskadorv::{Error, Pair, Tree};
    ///
    /// let pairs = [5, 6, 7].map(|key| Pair { key, value: 10 * key });
    /// let tree = Tree::open(1000, &pairs)?;
    /// let mut shot = tree.shot(luskadorv::shot_words(3).unwrap())?;
    /// let mut pass = tree.pass()?;
    /// assert_eq!(pass.remove(6), Ok(Some(60)));
    /// assert_eq!(shot.list(..), pairs);
    /// assert_eq!(pass.list(..).len(), 2);
    /// assert!(matches!(tree.shot(1000), Err(Error::Full(full)) if full.asked == 1000));
    /// # Ok::<(), Error>(())
    /// ```
    pub fn shot(&self, words: u64) -> Result<Shot<'_>, Error> {
        let pass = self.owner().pass()?;
        self.shot_by(pass, words)
    }

    // Takes a shot by this pass, which is given back if it is refused.
    fn shot_by(&self, pass: PassHandle, words: u64) -> Result<Shot<'_>, Error> {
        match pass.into_shot(words) {
            Ok(mut shot) => {
                let len = shot.count() as usize;
                Ok(Shot { tree: self, shot: Some(shot), len })
            }
            Err((pass, full)) => {
                self.owner().give_back(pass);
                Err(full.into())
            }
        }
    }

    /// Goes on with this many words: closes the tree, and opens one that begins with exactly the pairs that all calls left.
    /// All passes were dropped, as the compiler sees.
    ///
    /// If that fails for want of memory, or since the words are too few for the pairs, the pairs are kept: call it again, or
    /// [`into_pairs`](Tree::into_pairs). Until then [`pass`](Tree::pass) returns [`Error::Closed`].
    ///
    /// ```
    /// use luskadorv::{Error, Tree};
    ///
    /// let mut tree = Tree::open(100, &[])?;
    /// let mut pass = tree.pass()?;
    /// let mut key = 0;
    /// while pass.insert(key, key).is_ok() {
    ///     key += 1;
    /// }
    /// drop(pass);
    /// tree.reopen(10_000)?;
    /// assert_eq!(tree.pass()?.insert(key, key), Ok(None));
    /// assert_eq!(tree.into_pairs()?.len() as u64, key + 1);
    /// # Ok::<(), Error>(())
    /// ```
    pub fn reopen(&mut self, words: u32) -> Result<(), Error> {
        self.owner.get_mut().unwrap_or_else(PoisonError::into_inner).reopen(words)
    }

    /// Closes the tree, and returns its pairs in increasing order of keys, and how far it was filled. All passes were dropped,
    /// as the compiler sees.
    ///
    /// ```
    /// use luskadorv::{Error, Pair, Tree};
    ///
    /// let tree = Tree::open(1000, &[Pair { key: 5, value: 50 }])?;
    /// let (pairs, stats) = tree.close()?;
    /// assert_eq!((pairs.len(), stats.keys, stats.words), (1, 1, 1000));
    /// assert_eq!(stats.used, u64::from(luskadorv::words_for(1).unwrap()));
    /// # Ok::<(), Error>(())
    /// ```
    ///
    /// If that fails, the tree is returned with the error: call it again.
    pub fn close(mut self) -> Result<(Vec<Pair>, Stats), Kept<Tree>> {
        let closed = self.owner.get_mut().unwrap_or_else(PoisonError::into_inner).close();
        closed.map_err(|error| Kept { kept: self, error })
    }

    /// Closes the tree, and returns its pairs in increasing order of keys. All passes were dropped, as the compiler sees. It fails as
    /// [`close`](Tree::close).
    pub fn into_pairs(self) -> Result<Vec<Pair>, Kept<Tree>> {
        self.close().map(|(pairs, _)| pairs)
    }
}

impl Debug for Tree {
    fn fmt(&self, out: &mut Formatter<'_>) -> std::fmt::Result {
        out.debug_struct("Tree").finish_non_exhaustive()
    }
}

/// What one thread calls its tree by. It can be sent to another thread.
///
/// Its calls never block and always return; only [`list`](Pass::list), [`note`](Pass::note) and [`shot`](Pass::shot) allocate. A pass that is
/// forgotten instead of dropped keeps its tree from being closed.
pub struct Pass<'t> {
    tree: &'t Tree,
    // None only while it is dropped.
    pass: Option<PassHandle>,
}

impl<'t> Pass<'t> {
    fn handle(&mut self) -> &mut PassHandle {
        self.pass.as_mut().expect("a pass has its handle until it is dropped")
    }

    /// Returns the value of the key, if it has one.
    ///
    /// ```
    /// let tree = luskadorv::Tree::open(1000, &[])?;
    /// assert_eq!(tree.pass()?.get(7), None);
    /// # Ok::<(), luskadorv::Error>(())
    /// ```
    pub fn get(&mut self, key: u64) -> Option<u64> {
        self.handle().find(key)
    }

    /// Puts the value at the key, and returns the value that the key had before.
    ///
    /// ```
    /// let tree = luskadorv::Tree::open(1000, &[])?;
    /// let mut pass = tree.pass()?;
    /// assert_eq!(pass.insert(7, 70), Ok(None));
    /// assert_eq!(pass.insert(7, 71), Ok(Some(70)));
    /// assert_eq!(pass.get(7), Some(71));
    /// # Ok::<(), luskadorv::Error>(())
    /// ```
    pub fn insert(&mut self, key: u64, value: u64) -> Result<Option<u64>, Full> {
        self.handle().update(key, Some(value))
    }

    /// Removes the key, and returns the value that it had.
    ///
    /// ```
    /// let tree = luskadorv::Tree::open(1000, &[])?;
    /// let mut pass = tree.pass()?;
    /// assert_eq!(pass.insert(7, 70), Ok(None));
    /// assert_eq!(pass.remove(7), Ok(Some(70)));
    /// assert_eq!(pass.remove(7), Ok(None));
    /// # Ok::<(), luskadorv::Error>(())
    /// ```
    pub fn remove(&mut self, key: u64) -> Result<Option<u64>, Full> {
        self.handle().update(key, None)
    }

    /// Makes the key's value `new` if it is `expected`, where `None` is no value, and returns what it was: `Ok` if the value
    /// was exchanged, and else `Err`.
    ///
    /// ```
    /// let tree = luskadorv::Tree::open(1000, &[])?;
    /// let mut pass = tree.pass()?;
    /// assert_eq!(pass.compare_exchange(7, None, Some(70)), Ok(Ok(None)));
    /// assert_eq!(pass.compare_exchange(7, Some(71), Some(72)), Ok(Err(Some(70))));
    /// assert_eq!(pass.compare_exchange(7, Some(70), None), Ok(Ok(Some(70))));
    /// assert_eq!(pass.compare_exchange(7, None, None), Ok(Ok(None)));
    /// # Ok::<(), luskadorv::Error>(())
    /// ```
    pub fn compare_exchange(&mut self, key: u64, expected: Option<u64>, new: Option<u64>) -> Result<Exchanged, Full> {
        let had = self.handle().update_if(key, expected, new)?;
        Ok(if had == expected { Ok(had) } else { Err(had) })
    }

    /// Returns the pair with the least key that is at least `key`, if there is one.
    ///
    /// The pair was in the map at some moment of the call, and each key from `key` to before it was absent at a moment of its
    /// own.
    ///
    /// ```
    /// let tree = luskadorv::Tree::open(1000, &[luskadorv::Pair { key: 5, value: 50 }])?;
    /// let mut pass = tree.pass()?;
    /// assert_eq!(pass.at_least(3).map(|pair| pair.key), Some(5));
    /// assert_eq!(pass.at_least(6), None);
    /// # Ok::<(), luskadorv::Error>(())
    /// ```
    pub fn at_least(&mut self, key: u64) -> Option<Pair> {
        self.handle().at_least(key)
    }

    /// Returns the pair with the greatest key that is at most `key`, if there is one. Otherwise as
    /// [`at_least`](Pass::at_least).
    pub fn at_most(&mut self, key: u64) -> Option<Pair> {
        self.handle().at_most(key)
    }

    /// Returns the pairs with keys in the range, in increasing order of keys. Each key has what the list gives it at a moment
    /// of its own.
    ///
    /// ```
    /// let pairs = [5, 6, 7].map(|key| luskadorv::Pair { key, value: 10 * key });
    /// let tree = luskadorv::Tree::open(1000, &pairs)?;
    /// let mut pass = tree.pass()?;
    /// assert_eq!(pass.list(..), pairs);
    /// assert_eq!(pass.list(6..7), pairs[1..2]);
    /// # Ok::<(), luskadorv::Error>(())
    /// ```
    pub fn list<R: RangeBounds<u64>>(&mut self, range: R) -> Vec<Pair> {
        let mut pairs = Vec::new();
        if let Some((first, last)) = ends(range) {
            pairs.try_reserve(64).expect(NO_MEMORY);
            self.handle().append(first, last, 0, &mut pairs).expect(NO_MEMORY);
        }
        pairs
    }

    /// Writes the pairs from `first` to `last` into `room`, in increasing order of keys, as many as there is room for. Returns
    /// how many these are, and the key to go on from if keys are left. It allocates nothing.
    pub fn list_into(&mut self, first: u64, last: u64, room: &mut [Pair]) -> (usize, Option<u64>) {
        self.handle().list(first, last, room)
    }

    /// Returns how many words of the tree are left at one moment of the call. Other threads may take words from then on. An update
    /// takes some 60, and [`shot_words`] says how many a [shot](Pass::shot) takes.
    ///
    /// ```
    /// let tree = luskadorv::Tree::open(1000, &[])?;
    /// let mut pass = tree.pass()?;
    /// let left = pass.words_left();
    /// assert_eq!(pass.insert(7, 70), Ok(None));
    /// assert!(pass.words_left() < left);
    /// # Ok::<(), luskadorv::Error>(())
    /// ```
    pub fn words_left(&mut self) -> u64 {
        self.handle().room()
    }

    /// Takes a shot, as [`Tree::shot`]. It has all that this pass has done and seen, and it is read beside the pass.
    ///
    /// ```
    /// let tree = luskadorv::Tree::open(1000, &[])?;
    /// let mut pass = tree.pass()?;
    /// pass.insert(7, 70).unwrap();
    /// let mut shot = pass.shot(0)?;
    /// pass.insert(7, 71).unwrap();
    /// assert_eq!((shot.get(7), pass.get(7)), (Some(70), Some(71)));
    /// # Ok::<(), luskadorv::Error>(())
    /// ```
    pub fn shot(&mut self, words: u64) -> Result<Shot<'t>, Error> {
        let note = self.handle().note()?;
        let mut pass = self.tree.owner().pass()?;
        pass.meet(note);
        self.tree.shot_by(pass, words)
    }

    /// Makes a note of what the pass has seen, for another pass of its tree.
    pub fn note(&mut self) -> Result<Note<'t>, Error> {
        let tree = self.tree;
        let note = self.handle().note()?;
        Ok(Note { tree, note })
    }

    /// Lets the pass learn what the note holds: its later calls come after those that the note's pass had made.
    ///
    /// ```
    /// let tree = luskadorv::Tree::open(1000, &[])?;
    /// let (mut one, mut two) = (tree.pass()?, tree.pass()?);
    /// one.insert(7, 70).unwrap();
    /// two.meet(one.note()?);
    /// assert_eq!(two.get(7), Some(70));
    /// # Ok::<(), luskadorv::Error>(())
    /// ```
    ///
    /// # Panics
    ///
    /// If the note is of another tree.
    pub fn meet(&mut self, note: Note<'_>) {
        let _ = note.tree;
        self.handle().meet(note.note);
    }
}

impl Drop for Pass<'_> {
    fn drop(&mut self) {
        if let Some(pass) = self.pass.take() {
            self.tree.owner().give_back(pass);
        }
    }
}

impl Debug for Pass<'_> {
    fn fmt(&self, out: &mut Formatter<'_>) -> std::fmt::Result {
        out.debug_struct("Pass").finish_non_exhaustive()
    }
}

/// What a pass had seen, for another pass to [meet](Pass::meet).
pub struct Note<'t> {
    tree: &'t Tree,
    note: NoteHandle,
}

impl Debug for Note<'_> {
    fn fmt(&self, out: &mut Formatter<'_>) -> std::fmt::Result {
        out.debug_struct("Note").finish_non_exhaustive()
    }
}

/// The map as it was at one moment: see [`Tree::shot`]. It can be sent to another thread.
///
/// The words of the shot's tree are in use until the tree is closed. A shot that is forgotten instead of dropped keeps its tree
/// from being closed.
pub struct Shot<'t> {
    tree: &'t Tree,
    // None only while it is dropped.
    shot: Option<ShotHandle>,
    len: usize,
}

impl Shot<'_> {
    fn handle(&mut self) -> &mut ShotHandle {
        self.shot.as_mut().expect("a shot has its handle until it is dropped")
    }

    /// Returns how many pairs it has.
    ///
    /// ```
    /// let tree = luskadorv::Tree::open(1000, &[luskadorv::Pair { key: 5, value: 50 }])?;
    /// assert_eq!(tree.shot(0)?.len(), 1);
    /// # Ok::<(), luskadorv::Error>(())
    /// ```
    pub fn len(&self) -> usize {
        self.len
    }

    /// Returns whether it has no pairs.
    pub fn is_empty(&self) -> bool {
        self.len == 0
    }

    /// Returns the value that the key had, if it had one.
    pub fn get(&mut self, key: u64) -> Option<u64> {
        let mut room = [Pair::default()];
        let (count, _) = self.handle().list(key, key, &mut room);
        (count == 1).then_some(room[0].value)
    }

    /// Returns the pairs with keys in the range, in increasing order of keys.
    ///
    /// ```
    /// let pairs = [5, 6, 7].map(|key| luskadorv::Pair { key, value: 10 * key });
    /// let tree = luskadorv::Tree::open(1000, &pairs)?;
    /// assert_eq!(tree.shot(0)?.list(6..), pairs[1..]);
    /// # Ok::<(), luskadorv::Error>(())
    /// ```
    pub fn list<R: RangeBounds<u64>>(&mut self, range: R) -> Vec<Pair> {
        let (mut pairs, mut rest) = (Vec::new(), ends(range));
        while let Some((first, last)) = rest {
            let begun = pairs.len();
            pairs.try_reserve(64).expect(NO_MEMORY);
            pairs.resize(begun + 64, Pair::default());
            let (count, next) = self.handle().list(first, last, &mut pairs[begun..]);
            pairs.truncate(begun + count);
            rest = next.map(|key| (key, last));
        }
        pairs
    }

    /// Writes the pairs from `first` to `last` into `room`, as [`Pass::list_into`].
    pub fn list_into(&mut self, first: u64, last: u64, room: &mut [Pair]) -> (usize, Option<u64>) {
        self.handle().list(first, last, room)
    }
}

impl Drop for Shot<'_> {
    fn drop(&mut self) {
        if let Some(shot) = self.shot.take() {
            self.tree.owner().give_back(shot.into_pass());
        }
    }
}

impl Debug for Shot<'_> {
    fn fmt(&self, out: &mut Formatter<'_>) -> std::fmt::Result {
        out.debug_struct("Shot").field("len", &self.len).finish_non_exhaustive()
    }
}
