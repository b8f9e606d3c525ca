//! SIEVE: a list from the newest entry to the oldest. The hand goes from the oldest on, and an entry
//! that it passes stays where it is.
use crate::index::{Index, Keyed};
use crate::Policy;

/// No neighbour.
const NONE: u32 = u32::MAX;

#[derive(Clone, Copy)]
struct Entry {
    key: u64,
    value: u64,
    newer: u32,
    older: u32,
    is_hit: bool,
}

impl Keyed for Entry {
    fn key(&self) -> u64 {
        self.key
    }
}

pub struct Sieve {
    index: Index,
    entries: Vec<Entry>,
    capacity: usize,
    newest: u32,
    oldest: u32,
    hand: u32,
}

impl Sieve {
    pub fn new(capacity: usize) -> Sieve {
        Sieve {
            index: Index::new(capacity),
            entries: Vec::with_capacity(capacity),
            capacity,
            newest: NONE,
            oldest: NONE,
            hand: NONE,
        }
    }

    /// Takes the entry that the hand chooses out of the list and the index.
    fn evict(&mut self) -> u32 {
        let mut at = if self.hand == NONE {
            self.oldest
        } else {
            self.hand
        };
        while self.entries[at as usize].is_hit {
            let entry = &mut self.entries[at as usize];
            entry.is_hit = false;
            at = if entry.newer == NONE {
                self.oldest
            } else {
                entry.newer
            };
        }
        let Entry { newer, older, .. } = self.entries[at as usize];
        self.hand = newer;
        match newer {
            NONE => self.newest = older,
            _ => self.entries[newer as usize].older = older,
        }
        match older {
            NONE => self.oldest = newer,
            _ => self.entries[older as usize].newer = newer,
        }
        self.index.remove(at, &self.entries);
        at
    }
}

impl Policy for Sieve {
    #[inline]
    fn get(&mut self, key: u64) -> Option<u64> {
        let at = self.index.find(key, &self.entries)?;
        let entry = &mut self.entries[at as usize];
        entry.is_hit = true;
        Some(entry.value)
    }

    fn put(&mut self, key: u64, value: u64) {
        let full = self.entries.len() == self.capacity;
        let at = if full {
            self.evict()
        } else {
            self.entries.len() as u32
        };
        let entry = Entry {
            key,
            value,
            newer: NONE,
            older: self.newest,
            is_hit: false,
        };
        if full {
            self.entries[at as usize] = entry;
        } else {
            self.entries.push(entry);
        }
        match self.newest {
            NONE => self.oldest = at,
            newest => self.entries[newest as usize].newer = at,
        }
        self.newest = at;
        self.index.insert(at, &self.entries);
    }
}
