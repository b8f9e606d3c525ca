//! The LRU caches of the crates `lru` and `hashlink`, with the bench's hasher.
use crate::stand_ins::ahash::RandomState;
use crate::Policy;

pub struct Lru {
    cache: lru::LruCache<u64, u64, RandomState>,
}

impl Lru {
    pub fn new(capacity: usize) -> Lru {
        Lru {
            cache: lru::LruCache::with_hasher(capacity, RandomState),
        }
    }
}

impl Policy for Lru {
    #[inline]
    fn get(&mut self, key: u64) -> Option<u64> {
        self.cache.get(&key).copied()
    }

    fn put(&mut self, key: u64, value: u64) {
        self.cache.put(key, value);
    }
}

pub struct Hashlink {
    cache: hashlink::LruCache<u64, u64, RandomState>,
}

impl Hashlink {
    pub fn new(capacity: usize) -> Hashlink {
        Hashlink {
            cache: hashlink::LruCache::with_hasher(capacity, RandomState),
        }
    }
}

impl Policy for Hashlink {
    #[inline]
    fn get(&mut self, key: u64) -> Option<u64> {
        self.cache.get(&key).copied()
    }

    fn put(&mut self, key: u64, value: u64) {
        self.cache.insert(key, value);
    }
}
