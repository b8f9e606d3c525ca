// Written by bindings/rust/erase from crates/clock2q_handles/src/candidates.rt; change that, and run erase.
//! The handles that a lookup yields.

use crate::proved::handles::gap::Gap;
use crate::proved::handles::metadata::Wanted;
use crate::proved::handles::slots::View;
use crate::proved::count::Count;

/// An iterator over the candidates of a hash, in the order of their slots. It reads one word of
/// metadata for each slot that it visits, and a handle only for each candidate.
///
/// # Example
///
/// ```
/// # #![allow(unused)]
/// # use clock2q::proved::handles::{partition, Entry, Table, TableError};
/// # fn find(table: &Table<usize>, keys: &[u64], key: u64) -> Option<usize> {
/// # let hash_of = |key: u64| key;
/// let mut candidates = table.get(hash_of(key));
/// while let Some(number) = candidates.next() {
///     if keys[number] == key {
///         return Some(number);
///     }
/// }
/// # None
/// # }
/// ```
pub struct Candidates<'a, H: Copy + Eq + Default> {
    pub(crate) view: View<'a, H>,
    pub(crate) slot: usize,
    pub(crate) wanted: Wanted,
    pub(crate) reads: Count,
    pub(crate) handle_reads: Count,
}

impl<'a, H: Copy + Eq + Default> Candidates<'a, H> {
    /// Returns the next candidate and stays at it until [`advance`](Candidates::advance) or
    /// [`next`](Iterator::next) moves on. It is for callers that mostly accept the first candidate,
    /// since what comes after it is computed only if it is passed.
    #[inline(always)]
    pub fn peek(&mut self) -> Option<H> {
        if self.wanted.is_nothing() {
            return None;
        }
        let Ok(handle) = self.peek_or_gap() else {
            self.wanted = Wanted::nothing();
            return None;
        };
        Some(handle)
    }

    /// Returns the next candidate and stays at it, as [`peek`](Candidates::peek) does, or else the
    /// gap where an entry of the hash would be inserted.
    #[inline(always)]
    pub fn peek_or_gap(&mut self) -> Result<H, Gap> {
        let found = self.view.candidate(self.slot, self.wanted, &mut self.reads);
        match found {
            Err(gap) => Err(gap),
            Ok((slot, wanted)) => {
                self.slot = slot;
                self.wanted = wanted;
                Ok(self.view.handle(slot, &mut self.handle_reads))
            }
        }
    }

    /// Moves past the candidate that [`peek`](Candidates::peek) is at. It reads no slot.
    #[inline(always)]
    pub fn advance(&mut self) {
        self.slot = self.view.after(self.slot);
        self.wanted = self.wanted.next();
    }
}

impl<'a, H: Copy + Default> View<'a, H> {
    /// Advances a walk to its next candidate, and returns the candidate's slot with what the walk
    /// looks for there, or else the gap where the walk ends.
    #[inline(always)]
    fn candidate(
        &self,
        mut slot: usize,
        mut wanted: Wanted,
        reads: &mut Count,
    ) -> Result<(usize, Wanted), Gap> {
        loop {
            let metadata = self.read(slot, reads);
            if metadata.is(wanted) {
                return Ok((slot, wanted));
            }
            if metadata.ends_walk_for(wanted) {
                return Err(Gap { slot, wanted });
            }
            slot = self.after(slot);
            wanted = wanted.next();
        }
    }

    /// Calls `matches` on the candidates of `hash`, up to the first that it accepts. Returns that
    /// candidate and its slot, or else where the walk ends.
    #[inline(always)]
    pub(super) fn offer<F: FnMut(H) -> bool>(
        &self,
        hash: u64,
        matches: &mut F,
        reads: &mut Count,
    ) -> Result<(H, usize), Gap> {
        let mut slot = self.home(hash);
        let mut wanted = Wanted::new(hash);
        loop {
            match self.candidate(slot, wanted, reads) {
                Err(gap) => return Err(gap),
                Ok((here, found)) => {
                    let handle = self.handle(here, &mut Count::new());
                    if matches(handle) {
                        return Ok((handle, here));
                    }
                    slot = self.after(here);
                    wanted = found.next();
                }
            }
        }
    }
}

impl<'a, H: Copy + Eq + Default> Iterator for Candidates<'a, H> {
    type Item = H;

    #[inline(always)]
    fn next(&mut self) -> Option<H> {
        let Some(handle) = self.peek() else {
            return None;
        };
        self.advance();
        Some(handle)
    }
}
