//! Why pairs leave.

/// Why a pair left a cache.
#[derive(Clone, Copy, Debug, PartialEq, Eq, Hash)]
pub enum Cause {
    /// Another pair came, or fewer may be here, or it was asked for.
    Evicted,
    /// Another value of the key came.
    Replaced,
    /// Its key was removed, or the pair wasn't retained.
    Removed,
    /// Its time was over.
    Expired,
    /// All pairs were removed.
    Cleared,
}
