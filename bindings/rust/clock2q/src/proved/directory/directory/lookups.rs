// Written by bindings/rust/erase from crates/clock2q_directory/src/directory/lookups.rt; change that, and run erase.
//! Where a key is: lookups of residents and of remembered keys.

use crate::proved::directory::directory::Directory;
use crate::proved::directory::handle::{Found, Handle};
use crate::proved::directory::keys::Keys;
use crate::proved::count::Count;
use crate::proved::handles::Candidates;
use crate::proved::rattle::Allocator;

impl<K: Eq, V, A: Allocator> Directory<K, V, A> {
    /// Looks a key up among the residents and the remembered keys. The index is charged one lookup.
    #[inline(always)]
    pub fn lookup(&mut self, hash: u64, key: &K) -> Found {
        self.index.charge_lookup(hash); // once for both kinds
        let found = look_among(
            self.index.handles(hash),
            key,
            &mut self.residents,
            &mut self.history.keys,
        );
        match found {
            // checked late, since most keys are found in the table of the slots
            Found::Absent(gap) if !self.index.is_shared() => {
                match self.history.keys.find(self.index.own_places(hash), key) {
                    Some(place) => Found::Remembered(place),
                    None => Found::Absent(gap),
                }
            }
            found => found,
        }
    }

    /// Returns the slot of a resident key, and counts each comparison. Places are skipped. The index
    /// is charged one lookup.
    #[inline]
    pub fn find_resident(&mut self, hash: u64, key: &K) -> Option<u32> {
        let found = self.residents.find(self.index.handles(hash), key);
        self.index.charge_lookup(hash);
        found
    }

    /// Returns the place of a remembered key, and counts each comparison. Slots are skipped. The
    /// index is charged one lookup.
    #[inline]
    pub fn find_remembered(&mut self, hash: u64, key: &K) -> Option<u32> {
        self.index.charge_lookup(hash);
        if self.index.is_shared() {
            let handles = self.index.handles(hash);
            return self.history.keys.find_remembered(handles, key);
        }
        self.history.keys.find(self.index.own_places(hash), key)
    }

    /// Returns the slot of a resident key. It counts no comparison, and charges the index nothing.
    #[inline]
    pub fn slot_of(&self, hash: u64, key: &K) -> Option<u32> {
        let mut compared = Count::new();
        self.residents
            .find_counting_in(self.index.handles(hash), key, &mut compared)
    }

    /// Returns the slot that comes after `nth` others among those of the residents whose keys have
    /// this hash. It compares no key.
    #[inline]
    pub fn slot_with_hash(&self, hash: u64, nth: usize) -> Option<u32> {
        self.residents
            .with_hash(self.index.handles(hash), hash, nth)
    }
}

/// Returns the first of `handles` that has `key`, as a resident or as a remembered key, or else the
/// gap where they end.
#[inline(always)]
fn look_among<K: Eq, V, A: Allocator>(
    mut handles: Candidates<'_, u32>,
    key: &K,
    residents: &mut Keys<K, V, A>,
    remembered: &mut Keys<K, (), A>,
) -> Found {
    loop {
        let handle = match handles.peek_or_gap() {
            Ok(handle) => handle,
            Err(gap) => return Found::Absent(Some(gap)),
        };
        match Handle::unpack(handle) {
            Handle::Resident(slot) => {
                if residents.key_equals(slot, key) {
                    return Found::Resident(slot);
                }
            }
            Handle::Remembered(place) => {
                if remembered.key_equals(place, key) {
                    return Found::Remembered(place);
                }
            }
        }
        handles.advance();
    }
}
