//! Runs the trace of the bench through a map of fixed capacity: a look-up, and an insertion after a miss.
//! Prints the nanoseconds an access, of the thread's processor time, the hit ratio, and the nanoseconds of a get
//! of what is there: of the accesses whose key is there at the end.
//!
//! usage: access FORM sip|ahash|product u64|string CAPACITY, of the forms `clock2q`, `entry`, `lru` and `hashlink`;
//! access shared|lru|sixteen sip|ahash|product threads CAPACITY THREADS, where each thread has its part of the trace
//! and the time is that of the clock, and no gets are timed.

use std::hash::{BuildHasher, BuildHasherDefault, Hash, Hasher};
use std::sync::Mutex;
use std::time::Instant;

const ACCESSES: usize = 2_000_000;

fn mix(mut x: u64) -> u64 {
    x = (x ^ (x >> 30)).wrapping_mul(0xBF58_476D_1CE4_E5B9);
    x = (x ^ (x >> 27)).wrapping_mul(0x94D0_49BB_1331_11EB);
    x ^ (x >> 31)
}

/// The keys of the bench's trace, wider at larger capacities, and longer at those above 100,000.
fn trace(capacity: usize) -> Vec<u64> {
    let (levels, accesses) = match capacity {
        0..=1000 => (13, ACCESSES),
        1001..=10_000 => (17, ACCESSES),
        10_001..=100_000 => (20, ACCESSES),
        _ => (23, 5 * ACCESSES),
    };
    let mut state = 1u64;
    let draw = |_| {
        state = state.wrapping_add(0x9E37_79B9_7F4A_7C15);
        let drawn = mix(state);
        let range = 1u64 << (drawn % levels);
        mix(range.wrapping_add((drawn >> 32) & (range - 1)))
    };
    (0..accesses).map(draw).collect()
}

/// A hasher that multiplies once, for a number.
#[derive(Clone, Copy, Default)]
struct Product(u64);

impl Hasher for Product {
    fn write(&mut self, bytes: &[u8]) {
        for part in bytes.chunks(8) {
            let mut number = [0; 8];
            number[..part.len()].copy_from_slice(part);
            self.write_u64(u64::from_le_bytes(number));
        }
    }

    fn write_u64(&mut self, number: u64) {
        let product = u128::from(self.0 ^ number) * 0x9E37_79B9_7F4A_7C15;
        self.0 = product as u64 ^ (product >> 64) as u64;
    }

    fn finish(&self) -> u64 {
        self.0
    }
}

#[repr(C)]
struct Timespec {
    seconds: i64,
    nanoseconds: i64,
}

extern "C" {
    fn clock_gettime(clock: i32, time: *mut Timespec) -> i32;
}

/// Nanoseconds of this thread's processor time.
fn processor_time() -> i64 {
    let mut time = Timespec {
        seconds: 0,
        nanoseconds: 0,
    };
    unsafe { clock_gettime(3, &mut time) };
    time.seconds * 1_000_000_000 + time.nanoseconds
}

trait Form<K> {
    /// Looks a key up, and inserts it after a miss. Returns true after a hit.
    fn access(&mut self, key: &K, value: u64) -> bool;

    /// Returns true, after a hit, if the key is there.
    fn has(&mut self, key: &K) -> bool;
}

impl<K: Hash + Eq + Clone, S: BuildHasher> Form<K> for clock2q::Cache<K, u64, S> {
    fn access(&mut self, key: &K, value: u64) -> bool {
        let is_hit = self.get(key).is_some();
        if !is_hit {
            self.insert(key.clone(), value);
        }
        is_hit
    }

    fn has(&mut self, key: &K) -> bool {
        self.get(key).is_some()
    }
}

/// The same by `entry`, which hashes once but takes a key each time.
struct ByEntry<K, S>(clock2q::Cache<K, u64, S>);

impl<K: Hash + Eq + Clone, S: BuildHasher> Form<K> for ByEntry<K, S> {
    fn access(&mut self, key: &K, value: u64) -> bool {
        let mut is_hit = true;
        self.0.entry(key.clone()).or_insert_with(|| {
            is_hit = false;
            value
        });
        is_hit
    }

    fn has(&mut self, key: &K) -> bool {
        self.0.get(key).is_some()
    }
}

impl<K: Hash + Eq + Clone, S: BuildHasher> Form<K> for lru::LruCache<K, u64, S> {
    fn access(&mut self, key: &K, value: u64) -> bool {
        let is_hit = self.get(key).is_some();
        if !is_hit {
            self.put(key.clone(), value);
        }
        is_hit
    }

    fn has(&mut self, key: &K) -> bool {
        self.get(key).is_some()
    }
}

impl<K: Hash + Eq + Clone, S: BuildHasher> Form<K> for hashlink::LruCache<K, u64, S> {
    fn access(&mut self, key: &K, value: u64) -> bool {
        let is_hit = self.get(key).is_some();
        if !is_hit {
            self.insert(key.clone(), value);
        }
        is_hit
    }

    fn has(&mut self, key: &K) -> bool {
        self.get(key).is_some()
    }
}

/// Returns how many accesses hit. Its instructions are counted.
#[inline(never)]
fn accesses<K, F: Form<K>>(form: &mut F, keys: &[K]) -> usize {
    let mut hits = 0;
    for (value, key) in keys.iter().enumerate() {
        hits += usize::from(form.access(key, value as u64));
    }
    hits
}

/// Looks up keys that are there.
#[inline(never)]
fn gets<K, F: Form<K>>(form: &mut F, keys: &[&K]) {
    assert!(keys.iter().all(|key| form.has(key)));
}

/// Returns the nanoseconds that `run` takes for each of a number of calls, and what it returns.
fn timed<T>(calls: usize, run: impl FnOnce() -> T) -> (f64, T) {
    let begun = processor_time();
    let result = run();
    ((processor_time() - begun) as f64 / calls as f64, result)
}

fn measure<K, F: Form<K>>(mut form: F, keys: &[K]) {
    let (access, hits) = timed(keys.len(), || accesses(&mut form, keys));
    let there: Vec<&K> = keys.iter().filter(|key| form.has(key)).collect();
    let (get, ()) = timed(there.len(), || gets(&mut form, &there));
    println!(
        "{access:.2} {:.4} {get:.2}",
        hits as f64 / keys.len() as f64
    );
}

fn run<K: Hash + Eq + Clone, S: BuildHasher>(form: &str, capacity: usize, hasher: S, keys: &[K]) {
    let cache = |hasher| clock2q::Cache::with_hasher(capacity, hasher).expect("a cache");
    match form {
        "clock2q" => measure(cache(hasher), keys),
        "entry" => measure(ByEntry(cache(hasher)), keys),
        "lru" => measure(lru::LruCache::with_hasher(capacity, hasher), keys),
        "hashlink" => measure(hashlink::LruCache::with_hasher(capacity, hasher), keys),
        _ => panic!("no form {form}"),
    }
}

/// What threads do with a part of the trace each. Returns true after a hit.
fn run_threads(threads: usize, keys: &[u64], access: impl Fn(&u64) -> bool + Sync) {
    let begun = Instant::now();
    let part = keys.len() / threads;
    let hits: usize = std::thread::scope(|scope| {
        let access = &access;
        let count = |part: &[u64]| part.iter().filter(|key| access(key)).count();
        let start = |part| scope.spawn(move || count(part));
        let started: Vec<_> = keys.chunks_exact(part).map(start).collect();
        started
            .into_iter()
            .map(|thread| thread.join().expect("no panic"))
            .sum()
    });
    let time = begun.elapsed().as_nanos();
    println!(
        "{:.2} {:.4}",
        time as f64 / keys.len() as f64,
        hits as f64 / keys.len() as f64
    );
}

fn share<S: BuildHasher + Clone + Sync + Send>(form: &str, capacity: usize, threads: usize, hasher: S) {
    let keys = trace(capacity);
    match form {
        "shared" => {
            let cache = clock2q::sync::Cache::with_hasher(capacity, hasher).expect("a cache");
            run_threads(threads, &keys, |key| {
                let is_hit = cache.get(key).is_some();
                if !is_hit {
                    cache.insert(*key, 1u64);
                }
                is_hit
            });
        }
        "lru" => {
            let cache = Mutex::new(lru::LruCache::with_hasher(capacity, hasher));
            run_threads(threads, &keys, |key| {
                cache.lock().expect("no panic").access(key, 1)
            });
        }
        "sixteen" => {
            let part = |_| Mutex::new(lru::LruCache::with_hasher(capacity / 16, hasher.clone()));
            let parts: Vec<_> = (0..16).map(part).collect();
            run_threads(threads, &keys, |key| {
                let part = &parts[(hasher.hash_one(key) >> 60) as usize];
                part.lock().expect("no panic").access(key, 1)
            });
        }
        _ => panic!("no form {form}"),
    }
}

fn begin<S: BuildHasher + Clone + Sync + Send>(arguments: &[String], hasher: S) {
    let (form, capacity) = (&arguments[1], arguments[4].parse().expect("a capacity"));
    match arguments[3].as_str() {
        "u64" => run(form, capacity, hasher, &trace(capacity)),
        "string" => {
            let name = |key: u64| format!("/articles/{key:016x}/index.html");
            let keys: Vec<String> = trace(capacity).into_iter().map(name).collect();
            run(form, capacity, hasher, &keys);
        }
        "threads" => share(
            form,
            capacity,
            arguments[5].parse().expect("a number"),
            hasher,
        ),
        kind => panic!("no keys {kind}"),
    }
}

fn main() {
    let arguments: Vec<String> = std::env::args().collect();
    match arguments[2].as_str() {
        "sip" => begin(&arguments, std::collections::hash_map::RandomState::new()),
        "ahash" => begin(&arguments, ahash::RandomState::new()),
        "product" => begin(&arguments, BuildHasherDefault::<Product>::default()),
        hasher => panic!("no hasher {hasher}"),
    }
}
