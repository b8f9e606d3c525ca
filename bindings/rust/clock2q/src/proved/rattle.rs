//! What the sources use of their std that Rust's doesn't have: vectors whose requests for memory may be refused, and
//! a hasher with a fixed seed.

use alloc::vec;
use core::fmt;
use core::hash::Hasher;
use core::ops::{Deref, DerefMut};
use core::slice;

/// A request for memory was refused.
#[derive(Clone, Copy, Debug, PartialEq, Eq)]
pub struct AllocError;

impl fmt::Display for AllocError {
    fn fmt(&self, f: &mut fmt::Formatter<'_>) -> fmt::Result {
        f.write_str("no memory")
    }
}

#[cfg(feature = "std")]
impl std::error::Error for AllocError {}

/// Where memory comes from. It names no call: all memory is the [`Global`] allocator's.
pub trait Allocator {}

/// Rust's global allocator.
#[derive(Clone, Copy, Debug, Default, PartialEq, Eq)]
pub struct Global;

impl Allocator for Global {}

/// A vector that says if there is no memory.
pub struct Vec<T, A: Allocator = Global> {
    items: vec::Vec<T>,
    alloc: A,
}

impl<T, A: Allocator> Vec<T, A> {
    /// Returns an empty vector, and takes no memory.
    pub fn new(alloc: A) -> Self {
        Vec {
            items: vec::Vec::new(),
            alloc,
        }
    }

    /// Returns an empty vector with room for so many items.
    pub fn with_capacity(alloc: A, room: usize) -> Result<Self, AllocError> {
        let mut all = Vec::new(alloc);
        all.reserve_exact(room)?;
        Ok(all)
    }

    /// Makes room for so many more items, and moves the items at most once.
    pub fn reserve_exact(&mut self, more: usize) -> Result<(), AllocError> {
        self.items.try_reserve_exact(more).map_err(|_| AllocError)
    }

    /// Returns where the memory comes from.
    pub fn allocator(&self) -> &A {
        &self.alloc
    }

    /// Adds an item, for which there is room.
    #[inline]
    pub fn push_reserved(&mut self, item: T) {
        self.items.push(item);
    }

    /// Removes the last item, and returns it.
    #[inline]
    pub fn pop(&mut self) -> Option<T> {
        self.items.pop()
    }

    /// Drops all items, and keeps the room.
    #[inline]
    pub fn clear(&mut self) {
        self.items.clear();
    }

    /// Returns the items.
    #[inline]
    pub fn as_slice(&self) -> &[T] {
        &self.items
    }

    /// Returns the items to write to.
    #[inline]
    pub fn as_mut_slice(&mut self) -> &mut [T] {
        &mut self.items
    }
}

impl<T: Copy, A: Allocator> Vec<T, A> {
    /// Returns a vector of copies of an item.
    pub fn from_elem(alloc: A, item: T, count: usize) -> Result<Self, AllocError> {
        let mut copies = Vec::with_capacity(alloc, count)?;
        copies.items.resize(count, item);
        Ok(copies)
    }

    /// Removes the last items, or adds copies of one, until there are so many.
    pub fn resize(&mut self, count: usize, item: T) -> Result<(), AllocError> {
        let more = count.saturating_sub(self.items.len());
        self.reserve_exact(more)?;
        self.items.resize(count, item);
        Ok(())
    }

    /// Adds copies of items.
    pub fn extend_from_slice(&mut self, items: &[T]) -> Result<(), AllocError> {
        let more = items.len();
        self.reserve_exact(more)?;
        self.items.extend_from_slice(items);
        Ok(())
    }
}

impl<'a, T, A: Allocator> IntoIterator for &'a Vec<T, A> {
    type Item = &'a T;
    type IntoIter = slice::Iter<'a, T>;

    #[inline]
    fn into_iter(self) -> slice::Iter<'a, T> {
        self.items.iter()
    }
}

impl<T, A: Allocator> Deref for Vec<T, A> {
    type Target = [T];

    #[inline]
    fn deref(&self) -> &[T] {
        &self.items
    }
}

impl<T, A: Allocator> DerefMut for Vec<T, A> {
    #[inline]
    fn deref_mut(&mut self) -> &mut [T] {
        &mut self.items
    }
}

/// A hasher with a fixed seed: the same keys have the same hashes in each run.
#[derive(Clone, Default)]
pub struct FoldHasher(u64);

impl FoldHasher {
    /// The digits of pi after the point, and 2 to the 64th divided by the golden ratio.
    const SEED: u64 = 0x243F_6A88_85A3_08D3;
    const FACTOR: u64 = 0x9E37_79B9_7F4A_7C15;

    #[inline]
    fn fold(number: u64) -> u64 {
        let product = u128::from(number) * u128::from(FoldHasher::FACTOR);
        product as u64 ^ (product >> 64) as u64
    }
}

impl Hasher for FoldHasher {
    #[inline]
    fn write(&mut self, bytes: &[u8]) {
        for part in bytes.chunks(8) {
            let mut number = [0; 8];
            number[..part.len()].copy_from_slice(part);
            self.write_u64(u64::from_le_bytes(number));
        }
    }

    #[inline]
    fn write_u64(&mut self, number: u64) {
        self.0 = FoldHasher::fold(self.0 ^ number ^ FoldHasher::SEED);
    }

    #[inline]
    fn write_u32(&mut self, number: u32) {
        self.write_u64(u64::from(number));
    }

    #[inline]
    fn write_usize(&mut self, number: usize) {
        self.write_u64(number as u64);
    }

    #[inline]
    fn finish(&self) -> u64 {
        FoldHasher::fold(self.0)
    }
}
