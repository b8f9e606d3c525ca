//! Where each key is: hashbrown's table of numbers, which asks its caller for the key of a number.
use crate::stand_ins::ahash::RandomState;
use hashbrown::HashTable;
use std::hash::BuildHasher;

/// What has a key at a number.
pub trait Keyed {
    fn key(&self) -> u64;
}

pub struct Index {
    table: HashTable<u32>,
}

fn hash(key: u64) -> u64 {
    RandomState.hash_one(key)
}

impl Index {
    pub fn new(capacity: usize) -> Index {
        Index {
            table: HashTable::with_capacity(capacity),
        }
    }

    #[inline]
    pub fn find(&self, key: u64, items: &[impl Keyed]) -> Option<u32> {
        let is_key = |number: &u32| items[*number as usize].key() == key;
        self.table.find(hash(key), is_key).copied()
    }

    pub fn insert(&mut self, number: u32, items: &[impl Keyed]) {
        let hash_of = |number: &u32| hash(items[*number as usize].key());
        self.table.insert_unique(hash_of(&number), number, hash_of);
    }

    pub fn remove(&mut self, number: u32, items: &[impl Keyed]) {
        let hash = hash(items[number as usize].key());
        if let Ok(entry) = self.table.find_entry(hash, |held| *held == number) {
            entry.remove();
        }
    }
}
