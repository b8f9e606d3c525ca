// Written by bindings/rust/erase from crates/clock2q_c/src/making.rt; change that, and run erase.
//! The calls that make a cache and release it.

use crate::proved::c::unboxed::Box;
use crate::proved::c::handle::{Handle, opened, put};
use crate::proved::c::held::Held;
use crate::proved::c::status::{BAD_CAPACITY, BAD_POLICY, DONE, NO_MEMORY, status_of};
use clock2q::proved::cache::{Cache, CacheError, DefaultHashBuilder, MAX_CAPACITY};
use clock2q::proved::rattle::{Allocator, Global};
use core::hash::BuildHasherDefault;
use core::num::NonZeroUsize;

/// Makes a cache for `capacity` keys, with the usual shares.
///
/// Returns [`DONE`], or why no cache was made: [`BAD_CAPACITY`], before any memory is taken, or
/// [`NO_MEMORY`], after what was taken is given back.
///
/// # Cost
///
/// Time and memory in proportion to `capacity`, in at most twelve requests for memory.
#[no_mangle]
pub extern "C" fn clock2q_new(handle: &mut Handle, capacity: usize) -> u32 {
    let alloc = Global;
    match boxed(alloc, capacity) {
        Ok(cache) => {
            put(handle, cache);
            DONE
        }
        Err(refusal) => status_of(refusal),
    }
}

/// Makes a cache for `capacity` keys in which Small has `small` slots and a key is young for
/// `window` admissions.
///
/// Returns what [`clock2q_new`] does, or [`BAD_POLICY`] if the capacity is valid but Small leaves
/// Main no slot, or one of `small` and `window` is 0 and the other isn't, or the window is longer
/// than Small.
///
/// # Cost
///
/// That of [`clock2q_new`].
#[no_mangle]
pub extern "C" fn clock2q_with_policy(
    handle: &mut Handle,
    capacity: usize,
    small: usize,
    window: usize,
) -> u32 {
    let alloc = Global;
    match boxed_with(alloc, capacity, small, window) {
        Ok(cache) => {
            put(handle, cache);
            DONE
        }
        Err(refusal) => status_of(refusal),
    }
}

/// Makes a cache as [`clock2q_with_policy`] does, whose history remembers up to `history` evicted
/// keys in place of half the capacity.
///
/// Returns what [`clock2q_with_policy`] does, and [`BAD_POLICY`] if `history` is more than the
/// capacity too.
///
/// # Cost
///
/// That of [`clock2q_new`], with room for `history` evicted keys.
#[no_mangle]
pub extern "C" fn clock2q_with_history(
    handle: &mut Handle,
    capacity: usize,
    small: usize,
    window: usize,
    history: usize,
) -> u32 {
    let alloc = Global;
    match boxed_remembering(alloc, capacity, small, window, history) {
        Ok(cache) => {
            put(handle, cache);
            DONE
        }
        Err(refusal) => status_of(refusal),
    }
}

/// Frees a cache with all its memory, and consumes the handle.
#[no_mangle]
pub extern "C" fn clock2q_release(handle: Handle) {
    drop(opened(handle));
}

/// Makes a cache with the usual shares on the heap.
///
/// # Errors
///
/// `Capacity` if it is 0 or above [`MAX_CAPACITY`], before any memory is taken. `Memory` if a
/// request is refused; what was taken is given back.
#[inline]
pub(crate) fn boxed<A: Allocator + Copy>(
    alloc: A,
    capacity: usize,
) -> Result<Box<Held<A>, A>, CacheError> {
    let Some(capacity) = NonZeroUsize::new(capacity) else {
        return Err(CacheError::Capacity);
    };
    in_box(alloc, Cache::new(alloc, capacity)?)
}

/// Makes a cache with these shares on the heap.
///
/// # Errors
///
/// Those of [`boxed`], and `Policy` if the capacity is valid but the shares don't fit, before any
/// memory is taken.
#[inline]
pub(crate) fn boxed_with<A: Allocator + Copy>(
    alloc: A,
    capacity: usize,
    small: usize,
    window: usize,
) -> Result<Box<Held<A>, A>, CacheError> {
    let Some(capacity) = NonZeroUsize::new(capacity) else {
        return Err(CacheError::Capacity);
    };
    let hasher = BuildHasherDefault::default();
    in_box(
        alloc,
        Cache::with_policy(alloc, capacity, small, window, hasher)?,
    )
}

/// Makes a cache with these shares and this history on the heap.
///
/// # Errors
///
/// Those of [`boxed_with`].
#[inline]
pub(crate) fn boxed_remembering<A: Allocator + Copy>(
    alloc: A,
    capacity: usize,
    small: usize,
    window: usize,
    history: usize,
) -> Result<Box<Held<A>, A>, CacheError> {
    let Some(capacity) = NonZeroUsize::new(capacity) else {
        return Err(CacheError::Capacity);
    };
    let hasher = BuildHasherDefault::default();
    in_box(
        alloc,
        Cache::with_history(alloc, capacity, small, window, history, hasher)?,
    )
}

/// Puts a cache on the heap. If there is no memory for that, it frees the cache.
#[inline]
fn in_box<A: Allocator>(
    alloc: A,
    cache: Cache<u64, (), DefaultHashBuilder, A>,
) -> Result<Box<Held<A>, A>, CacheError> {
    match Box::new(alloc, Held { cache }) {
        Ok(made) => Ok(made),
        Err(_) => Err(CacheError::Memory),
    }
}
