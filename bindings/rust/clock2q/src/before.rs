//! What the slot of a pair had before.

/// What had the slot of a pair that was stored.
pub(crate) enum Before<K, V> {
    /// Nothing.
    Nothing,
    /// This key: here is its old value, and the new one of the equal keys.
    Replaced(K, V),
    /// Another key, or one that left for this one.
    Evicted(K, V),
}

impl<K, V> Before<K, V> {
    /// Returns what had the slot if that was another key, or nothing.
    #[inline(always)]
    pub(crate) fn evicted(pair: Option<(K, V)>) -> Before<K, V> {
        match pair {
            Some((key, value)) => Before::Evicted(key, value),
            None => Before::Nothing,
        }
    }

    /// Returns the value that was replaced. A pair that was evicted is dropped.
    pub(crate) fn replaced(self) -> Option<V> {
        match self {
            Before::Replaced(_, value) => Some(value),
            _ => None,
        }
    }

    /// Returns what was replaced or evicted.
    pub(crate) fn pair(self) -> Option<(K, V)> {
        match self {
            Before::Nothing => None,
            Before::Replaced(key, value) | Before::Evicted(key, value) => Some((key, value)),
        }
    }
}
