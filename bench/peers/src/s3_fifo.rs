//! S3-FIFO: a small queue of a tenth of the entries, a main queue of the others, and as many
//! remembered keys as the main queue has entries. An entry counts its hits up to three.
use crate::index::{Index, Keyed};
use crate::Policy;
use std::collections::VecDeque;

#[derive(Clone, Copy)]
struct Entry {
    key: u64,
    value: u64,
    hits: u8,
}

impl Keyed for Entry {
    fn key(&self) -> u64 {
        self.key
    }
}

struct Remembered {
    key: u64,
    is_known: bool,
}

impl Keyed for Remembered {
    fn key(&self) -> u64 {
        self.key
    }
}

/// Keys that left the small queue, in a ring whose oldest place is written next.
struct Ghost {
    index: Index,
    keys: Vec<Remembered>,
    limit: usize,
    oldest: usize,
}

impl Ghost {
    fn new(limit: usize) -> Ghost {
        Ghost {
            index: Index::new(limit),
            keys: Vec::with_capacity(limit),
            limit,
            oldest: 0,
        }
    }

    fn remember(&mut self, key: u64) {
        let remembered = Remembered {
            key,
            is_known: true,
        };
        let at = if self.keys.len() < self.limit {
            self.keys.push(remembered);
            self.keys.len() - 1
        } else {
            let at = self.oldest;
            self.oldest = (at + 1) % self.limit;
            if self.keys[at].is_known {
                self.index.remove(at as u32, &self.keys);
            }
            self.keys[at] = remembered;
            at
        };
        self.index.insert(at as u32, &self.keys);
    }

    /// Forgets a key, and returns true if it was remembered.
    fn forget(&mut self, key: u64) -> bool {
        let Some(at) = self.index.find(key, &self.keys) else {
            return false;
        };
        self.index.remove(at, &self.keys);
        self.keys[at as usize].is_known = false;
        true
    }
}

pub struct S3Fifo {
    index: Index,
    entries: Vec<Entry>,
    capacity: usize,
    small: VecDeque<u32>,
    small_share: usize,
    main: VecDeque<u32>,
    ghost: Ghost,
}

impl S3Fifo {
    pub fn new(capacity: usize) -> S3Fifo {
        let small_share = (capacity / 10).max(1);
        S3Fifo {
            index: Index::new(capacity),
            entries: Vec::with_capacity(capacity),
            capacity,
            small: VecDeque::with_capacity(capacity),
            small_share,
            main: VecDeque::with_capacity(capacity),
            ghost: Ghost::new(capacity - small_share),
        }
    }

    /// Takes an entry out of its queue and the index: of the small queue if that has its share,
    /// unless the entry was hit more than once, otherwise of the main queue.
    fn evict(&mut self) -> u32 {
        loop {
            let from_small = self.small.len() >= self.small_share || self.main.is_empty();
            let queue = if from_small {
                &mut self.small
            } else {
                &mut self.main
            };
            let at = queue.pop_front().expect("a full cache has an entry");
            let entry = &mut self.entries[at as usize];
            match (from_small, entry.hits) {
                (true, 0 | 1) => self.ghost.remember(entry.key),
                (true, _) => {
                    entry.hits = 0;
                    self.main.push_back(at);
                    continue;
                }
                (false, 0) => {}
                (false, _) => {
                    entry.hits -= 1;
                    self.main.push_back(at);
                    continue;
                }
            }
            self.index.remove(at, &self.entries);
            return at;
        }
    }
}

impl Policy for S3Fifo {
    #[inline]
    fn get(&mut self, key: u64) -> Option<u64> {
        let at = self.index.find(key, &self.entries)?;
        let entry = &mut self.entries[at as usize];
        entry.hits = (entry.hits + 1).min(3);
        Some(entry.value)
    }

    fn put(&mut self, key: u64, value: u64) {
        let was_remembered = self.ghost.forget(key);
        let entry = Entry {
            key,
            value,
            hits: 0,
        };
        let at = if self.entries.len() < self.capacity {
            self.entries.push(entry);
            self.entries.len() as u32 - 1
        } else {
            let at = self.evict();
            self.entries[at as usize] = entry;
            at
        };
        if was_remembered {
            self.main.push_back(at);
        } else {
            self.small.push_back(at);
        }
        self.index.insert(at, &self.entries);
    }
}
