// Written by bindings/rust/erase from crates/clock2q_directory/src/keys/hashed.rt; change that, and run erase.
//! The keys of one hash, found without a comparison of keys.

use crate::proved::directory::handle::Handle;
use crate::proved::directory::keys::Keys;
use crate::proved::handles::Candidates;
use crate::proved::rattle::Allocator;

impl<K, V, A: Allocator> Keys<K, V, A> {
    /// Returns the slot that comes after `nth` others among the slots of `handles` whose keys have
    /// this hash. It compares no key.
    #[inline]
    pub fn with_hash(&self, mut handles: Candidates<'_, u32>, hash: u64, nth: usize) -> Option<u32> {
        let mut more = nth;
        while let Some(handle) = handles.peek() {
            if let Handle::Resident(slot) = Handle::unpack(handle) {
                if self.hash(slot) == hash {
                    if more == 0 {
                        return Some(slot);
                    }
                    more -= 1;
                }
            }
            handles.advance();
        }
        None
    }
}
