// Written by bindings/rust/erase from crates/clock2q_cache/src/shares.rt; change that, and run erase.
//! How a cache's capacity is divided among its queues.

/// The capacity of a cache, Small's share of it, the window (the number of admissions to Small for
/// which an entry is young) and the number of evicted keys that the history remembers.
#[derive(Clone, Copy)]
pub(crate) struct Shares {
    pub(crate) capacity: usize,
    pub(crate) small: usize,
    pub(crate) window: usize,
    pub(crate) history: usize,
}

impl Shares {
    /// Returns the shares of a cache that is made with only a capacity.
    #[inline]
    pub(crate) fn usual(capacity: usize) -> Self {
        let small = if capacity > 1 {
            (capacity / 10).max(1)
        } else {
            0
        };
        Shares {
            capacity,
            small,
            window: small.div_ceil(2),
            history: Shares::usual_history(capacity),
        }
    }

    /// Returns how many keys the history remembers if the caller doesn't say.
    #[inline]
    pub(crate) fn usual_history(capacity: usize) -> usize {
        capacity / 2
    }

    /// Returns the shares of a cache that is made with all four numbers, or `None` if they don't
    /// fit together.
    #[inline]
    pub(crate) fn new(capacity: usize, small: usize, window: usize, history: usize) -> Option<Self> {
        if small >= capacity
            || (small == 0) != (window == 0)
            || window > small
            || history > capacity {
            return None;
        }
        Some(Shares {
            capacity,
            small,
            window,
            history,
        })
    }

    /// Returns what Small leaves.
    #[inline]
    pub(crate) fn main(self) -> usize {
        self.capacity - self.small
    }

    /// Returns true if no share is smaller than in `old`.
    #[inline]
    pub(crate) fn is_at_least(self, old: Shares) -> bool {
        old.small <= self.small
            && old.main() <= self.main()
            && old.window <= self.window
            && old.history <= self.history
    }
}
