//! The bench's work over the Rust module, for a comparison: `bench/README.md` says how to build it.
#![feature(rustc_private)]
#![allow(dead_code)]
extern crate hashbrown;

mod cache;
mod handles;

mod stand_ins;
use stand_ins::{ahash, prefetch};

use cache::Cache;
use handles::Table;
use std::num::NonZeroUsize;
use std::time::Instant;

fn mix(number: u64) -> u64 {
    let once = (number ^ number >> 30).wrapping_mul(0xBF58_476D_1CE4_E5B9);
    let twice = (once ^ once >> 27).wrapping_mul(0x94D0_49BB_1331_11EB);
    twice ^ twice >> 31
}

#[inline(never)]
fn insert_all(table: &mut Table<usize>, hashes: &[u64]) {
    for handle in 0..hashes.len() {
        table.insert(hashes[handle], handle, |at| hashes[at]);
    }
}

#[inline(never)]
fn find_all(table: &Table<usize>, hashes: &[u64], order: &[usize]) -> usize {
    let mut sum: usize = 0;
    for handle in order {
        let hash = hashes[*handle];
        if let Some(found) = table.get(hash).find(|at| hashes[*at] == hash) {
            sum = sum.wrapping_add(found);
        }
    }
    sum
}

#[inline(never)]
fn remove_all(table: &mut Table<usize>, hashes: &[u64], order: &[usize]) -> usize {
    let mut removed: usize = 0;
    for handle in order {
        if table.remove(hashes[*handle], *handle) {
            removed = removed.wrapping_add(1);
        }
    }
    removed
}

#[inline(never)]
fn access_all(cache: &mut Cache<u64, u64>, keys: &[u64]) -> (u64, u64) {
    let mut hits: u64 = 0;
    let mut sum: u64 = 0;
    for (number, key) in keys.iter().enumerate() {
        if let Some(value) = cache.get(key) {
            hits = hits.wrapping_add(1);
            sum = sum.wrapping_add(*value);
        } else {
            cache.put(*key, number as u64);
        }
    }
    (hits, sum)
}

fn trace(length: usize, spread: u64) -> Vec<u64> {
    let mut seed: u64 = 1;
    (0..length)
        .map(|_| {
            seed = seed.wrapping_add(0x9E37_79B9_7F4A_7C15);
            let drawn = mix(seed);
            let range = 1 << (drawn % spread);
            mix(range + (drawn >> 32 & (range - 1)))
        })
        .collect()
}

fn main() {
    let entries = 1_000_000;
    let hashes: Vec<u64> = (0..entries).map(|handle| mix(handle as u64 + 1)).collect();
    let order: Vec<usize> = (0..entries).map(|i| i * 7919 % entries).collect();
    let mut table = Table::new();
    let start = Instant::now();
    insert_all(&mut table, &hashes);
    let inserted = start.elapsed();
    let start = Instant::now();
    let sum = find_all(&table, &hashes, &order);
    let found = start.elapsed();
    let start = Instant::now();
    let removed = remove_all(&mut table, &hashes, &order);
    let taken = start.elapsed();
    eprintln!("insertion {inserted:?}, lookup {found:?}, removal {taken:?}");
    println!(
        "table of {entries}: sum of handles {sum}, removed {removed}, left {}",
        table.len()
    );
    for (capacity, accesses, spread) in [
        (1_000, 2_000_000, 13),
        (10_000, 2_000_000, 17),
        (100_000, 2_000_000, 20),
        (1_000_000, 10_000_000, 23),
    ] {
        let keys = trace(accesses, spread);
        let mut cache = Cache::new(NonZeroUsize::new(capacity).unwrap());
        let start = Instant::now();
        let (hits, sum) = access_all(&mut cache, &keys);
        let taken = start.elapsed();
        eprintln!("cache of {capacity}: {taken:?}");
        println!("cache of {capacity}: {hits} hits of {accesses}, sum of values {sum}");
    }
}
