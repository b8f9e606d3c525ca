//! Lookups by slot, clearing and making of the Rust module's caches, for a comparison with the
//! bench. They stand in a program of their own: with them in `module.rs` its calls are inlined less,
//! and an access takes 20 instructions more. `bench/README.md` says how to build it.
#![feature(rustc_private)]
#![allow(dead_code)]
extern crate hashbrown;

mod cache;
mod handles;

mod stand_ins;
use stand_ins::{ahash, prefetch};

use cache::Cache;
use std::num::NonZeroUsize;
use std::time::{Duration, Instant};

fn mix(number: u64) -> u64 {
    let once = (number ^ number >> 30).wrapping_mul(0xBF58_476D_1CE4_E5B9);
    let twice = (once ^ once >> 27).wrapping_mul(0x94D0_49BB_1331_11EB);
    twice ^ twice >> 31
}

#[inline(never)]
fn access_all(cache: &mut Cache<u64, u64>, keys: &[u64]) -> (u64, u64) {
    let mut hits: u64 = 0;
    let mut sum: u64 = 0;
    for (number, key) in keys.iter().enumerate() {
        if let Some(value) = cache.get(key) {
            hits = hits.wrapping_add(1);
            sum = sum.wrapping_add(*value);
        } else {
            cache.put(*key, number as u64);
        }
    }
    (hits, sum)
}

#[inline(never)]
fn hint_all(cache: &mut Cache<u64, u64>, slots: &[usize], keys: &[u64]) -> u64 {
    let mut sum: u64 = 0;
    for (slot, key) in slots.iter().zip(keys) {
        if let Some(value) = cache.get_at(*slot, key) {
            sum = sum.wrapping_add(*value);
        }
    }
    sum
}

#[inline(never)]
fn clear(cache: &mut Cache<u64, u64>) {
    cache.clear();
}

#[inline(never)]
fn make(capacity: usize) -> Cache<u64, u64> {
    Cache::new(NonZeroUsize::new(capacity).unwrap())
}

fn trace(length: usize, spread: u64) -> Vec<u64> {
    let mut seed: u64 = 1;
    (0..length)
        .map(|_| {
            seed = seed.wrapping_add(0x9E37_79B9_7F4A_7C15);
            let drawn = mix(seed);
            let range = 1 << (drawn % spread);
            mix(range + (drawn >> 32 & (range - 1)))
        })
        .collect()
}

fn main() {
    for (capacity, accesses, spread) in [
        (1_000, 2_000_000, 13),
        (10_000, 2_000_000, 17),
        (100_000, 2_000_000, 20),
        (1_000_000, 10_000_000, 23),
    ] {
        measure_cache(capacity, accesses, spread);
    }
}

fn measure_cache(capacity: usize, accesses: usize, spread: u64) {
    let keys = trace(accesses, spread);
    let mut cache = make(capacity);
    let (hits, sum) = access_all(&mut cache, &keys);
    let mut slots = Vec::new();
    let mut known = Vec::new();
    for key in &keys {
        if cache.contains(key) {
            slots.push(cache.get_or_insert_mut(*key, || 0).0);
            known.push(*key);
        }
    }
    let start = Instant::now();
    let hinted = hint_all(&mut cache, &slots, &known);
    let by_slot = start.elapsed();
    eprintln!("cache of {capacity}: {} by slot: {by_slot:?}", known.len());
    println!(
        "cache of {capacity}: {hits} hits of {accesses}, sum of values {sum}, by slot {hinted}"
    );
    measure_clearing(&mut cache, &keys, capacity);
}

fn measure_clearing(cache: &mut Cache<u64, u64>, keys: &[u64], capacity: usize) {
    let mut making = Duration::ZERO;
    let mut clearing = Duration::ZERO;
    for _ in 0..1_000_000 / capacity {
        let start = Instant::now();
        let made = make(capacity);
        making += start.elapsed();
        drop(made);
        for (number, key) in keys.iter().take(capacity).enumerate() {
            cache.put(*key, number as u64);
        }
        let start = Instant::now();
        clear(cache);
        clearing += start.elapsed();
    }
    eprintln!("caches of {capacity}: made in {making:?}, cleared in {clearing:?}");
}
