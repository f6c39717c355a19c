//! Steps at which a test may hold a call. Without tests, nothing happens there.

/// A moment that an update, a growth, a merge, a `clear` or a snapshot has reached.
#[derive(Clone, Copy, Debug, PartialEq, Eq, Hash)]
pub(super) enum Step {
    /// The keys that were changed before were taken over.
    Begun,
    /// The next trees were opened.
    Opened,
    /// Updates of the parts copy their keys.
    Mirroring,
    /// Updates of the parts are stopped.
    Stopped,
    /// The directory was replaced, and slots may still have passes of the old trees.
    Replaced,
    /// All updates are stopped.
    Held,
    /// Updates record for a snapshot.
    Watched,
    /// A part was listed for a snapshot.
    Listing,
    /// All pairs were listed for a snapshot, and all slots were locked once since.
    Listed,
    /// The records of a snapshot were taken, and updates still record.
    Taken,
    /// An update has a slot, and has yet to learn whether updates are stopped.
    Slotted,
    /// An update knows whether it must record, and has yet to find its part.
    Asked,
}

#[cfg(test)]
pub(super) type Hook = std::sync::Arc<dyn Fn(Step) + Send + Sync>;

impl super::inner::Inner {
    #[cfg(not(test))]
    #[inline(always)]
    pub(super) fn reached(&self, _step: Step) {}

    #[cfg(test)]
    pub(super) fn reached(&self, step: Step) {
        // without the lock, so that other calls reach their steps while one is held
        let hook = super::locked(&self.hook).clone();
        if let Some(hook) = hook {
            hook(step);
        }
    }
}
