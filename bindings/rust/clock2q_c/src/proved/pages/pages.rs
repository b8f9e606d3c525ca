// Written by bindings/rust/erase from crates/clock2q_pages/src/pages.rt; change that, and run erase.
//! The frames of a page cache.

use clock2q::proved::cache::Cache;
use core::hash::{BuildHasher, Hash};

/// Returns the frame of a page, which is the slot of its number, and the page that got the frame
/// last. A page without a frame gets a free one, or that of a page that has to leave; a page with a
/// frame keeps it, with a hit.
///
/// If another page got the frame last, or none did, the caller has to load the page.
#[inline]
pub fn enter<S: BuildHasher>(
    pages: &mut Cache<u64, Option<u64>, S>,
    page: u64,
) -> (usize, Option<u64>) {
    let (frame, held) = pages.get_or_insert_mut(page, || None);
    let last = *held;
    *held = Some(page);
    (frame, last)
}

/// If the page is in this frame, records a hit and returns true. The frame may be any number.
/// Hashes nothing, so a caller that has kept the frame should ask here first.
#[inline]
pub fn is_in<V, S: BuildHasher>(pages: &mut Cache<u64, V, S>, frame: usize, page: u64) -> bool {
    pages.get_at(frame, &page).is_some()
}

/// Returns the frame of a page that is in memory, and records a hit. Returns `None` and changes
/// nothing if it isn't.
#[inline]
pub fn find<V, S: BuildHasher>(pages: &mut Cache<u64, V, S>, page: u64) -> Option<usize> {
    pages.slot(&page)
}
