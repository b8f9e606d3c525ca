// Written by bindings/rust/erase from crates/clock2q_directory/src/history.rt; change that, and run erase.
//! The keys that Small evicted, which the literature calls Ghost.

use crate::proved::directory::keys::{Entry, Keys};
use crate::proved::queues::order::Order;
use crate::proved::rattle::{Allocator, Global};

/// The keys that are remembered, each at a place, and the order of the places, the newest key's
/// first. The index has each place under its key's hash, and its caller changes that.
pub(crate) struct Ghost<K, A: Allocator = Global> {
    pub(crate) order: Order<A>,
    pub(crate) keys: Keys<K, (), A>,
}

/// A key that leaves its slot and is remembered.
#[derive(Clone, Copy)]
pub struct Retired {
    /// Its hash.
    pub hash: u64,
    /// The place at which it is remembered.
    pub place: u32,
    /// The hash of the oldest key, if that one had the place, and is forgotten.
    pub oldest: Option<u64>,
}

impl<K, A: Allocator> Ghost<K, A> {
    /// Writes a key to a place at the front: to a free one, or, if every place has a key, to the oldest
    /// key's, which the index still has. If there are no places, returns `None` and drops the key.
    #[inline(always)]
    pub(crate) fn push(&mut self, hash: u64, key: K) -> Option<Retired> {
        if self.order.limit() == 0 {
            return None;
        }
        let value = Some(());
        let entry = Entry { hash, key, value };
        if self.order.len() < self.order.limit() {
            let place = self.order.push();
            self.keys.put(place, entry);
            return Some(Retired {
                hash,
                place,
                oldest: None,
            });
        }
        let place = self.order.replace_oldest();
        let (oldest, _) = self.keys.replace(place, entry);
        Some(Retired {
            hash,
            place,
            oldest: Some(oldest),
        })
    }

    /// Forgets every key.
    #[inline]
    pub(crate) fn clear(&mut self) {
        self.order.clear();
        self.keys.clear();
    }
}
