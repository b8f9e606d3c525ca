//! The bench's trace over caches that are no port of anything: CLOCK, SIEVE and S3-FIFO, each over
//! hashbrown's `HashTable`, and the LRU caches of the crates `lru` and `hashlink`. All hash as the
//! bench does. `bench/README.md` says how to build it.
#![feature(rustc_private)]
extern crate hashbrown;

mod clock;
mod index;
mod lists;
mod s3_fifo;
mod sieve;
#[allow(dead_code)]
#[path = "../../stand_ins.rs"]
mod stand_ins;

use clock::Clock;
use lists::{Hashlink, Lru};
use s3_fifo::S3Fifo;
use sieve::Sieve;
use std::time::Instant;

/// What a trace is run over.
trait Policy {
    /// Returns the value of a key that is here, and records the hit.
    fn get(&mut self, key: u64) -> Option<u64>;
    /// Inserts a key that isn't here.
    fn put(&mut self, key: u64, value: u64);
}

fn mix(number: u64) -> u64 {
    let once = (number ^ number >> 30).wrapping_mul(0xBF58_476D_1CE4_E5B9);
    let twice = (once ^ once >> 27).wrapping_mul(0x94D0_49BB_1331_11EB);
    twice ^ twice >> 31
}

fn trace(length: usize, spread: u64) -> Vec<u64> {
    let mut seed: u64 = 1;
    (0..length)
        .map(|_| {
            seed = seed.wrapping_add(0x9E37_79B9_7F4A_7C15);
            let drawn = mix(seed);
            let range = 1 << (drawn % spread);
            mix(range + (drawn >> 32 & (range - 1)))
        })
        .collect()
}

#[inline(never)]
fn access_all(cache: &mut impl Policy, keys: &[u64]) -> (u64, u64) {
    let mut hits: u64 = 0;
    let mut sum: u64 = 0;
    for (number, key) in keys.iter().enumerate() {
        if let Some(value) = cache.get(*key) {
            hits = hits.wrapping_add(1);
            sum = sum.wrapping_add(value);
        } else {
            cache.put(*key, number as u64);
        }
    }
    (hits, sum)
}

fn measure(name: &str, mut cache: impl Policy, capacity: usize, keys: &[u64]) {
    let start = Instant::now();
    let (hits, sum) = access_all(&mut cache, keys);
    let taken = start.elapsed();
    eprintln!("{name} of {capacity}: {taken:?}");
    println!(
        "{name} of {capacity}: {hits} hits of {}, sum of values {sum}",
        keys.len()
    );
}

fn main() {
    for (capacity, accesses, spread) in [
        (1_000, 2_000_000, 13),
        (10_000, 2_000_000, 17),
        (100_000, 2_000_000, 20),
        (1_000_000, 10_000_000, 23),
    ] {
        let keys = trace(accesses, spread);
        measure("clock", Clock::new(capacity), capacity, &keys);
        measure("sieve", Sieve::new(capacity), capacity, &keys);
        measure("s3-fifo", S3Fifo::new(capacity), capacity, &keys);
        measure("lru", Lru::new(capacity), capacity, &keys);
        measure("hashlink", Hashlink::new(capacity), capacity, &keys);
    }
}
