//! CLOCK: a ring of entries, whose hand clears bits until it finds one that is clear.
use crate::index::{Index, Keyed};
use crate::Policy;

struct Entry {
    key: u64,
    value: u64,
    is_hit: bool,
}

impl Keyed for Entry {
    fn key(&self) -> u64 {
        self.key
    }
}

pub struct Clock {
    index: Index,
    entries: Vec<Entry>,
    capacity: usize,
    hand: usize,
}

impl Clock {
    pub fn new(capacity: usize) -> Clock {
        Clock {
            index: Index::new(capacity),
            entries: Vec::with_capacity(capacity),
            capacity,
            hand: 0,
        }
    }

    /// Moves the hand on by one entry, and returns the one that it left.
    fn advance(&mut self) -> usize {
        let left = self.hand;
        self.hand += 1;
        if self.hand == self.capacity {
            self.hand = 0;
        }
        left
    }

    /// Takes the entry that the hand chooses out of the index.
    fn evict(&mut self) -> usize {
        while self.entries[self.hand].is_hit {
            let passed = self.advance();
            self.entries[passed].is_hit = false;
        }
        self.index.remove(self.hand as u32, &self.entries);
        self.advance()
    }
}

impl Policy for Clock {
    #[inline]
    fn get(&mut self, key: u64) -> Option<u64> {
        let at = self.index.find(key, &self.entries)?;
        let entry = &mut self.entries[at as usize];
        entry.is_hit = true;
        Some(entry.value)
    }

    fn put(&mut self, key: u64, value: u64) {
        let entry = Entry {
            key,
            value,
            is_hit: false,
        };
        let at = if self.entries.len() < self.capacity {
            self.entries.push(entry);
            self.entries.len() - 1
        } else {
            let at = self.evict();
            self.entries[at] = entry;
            at
        };
        self.index.insert(at as u32, &self.entries);
    }
}
