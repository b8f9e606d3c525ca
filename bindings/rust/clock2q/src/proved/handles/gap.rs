// Written by bindings/rust/erase from crates/clock2q_handles/src/gap.rt; change that, and run erase.
//! Where lookups that find nothing end.
use crate::proved::handles::metadata::Wanted;

/// The slot of a table where a lookup that found nothing ended, and where an entry of its hash
/// would be inserted. [`Table::search`](crate::proved::handles::Table::search) and
/// [`Candidates::peek_or_gap`](crate::proved::handles::Candidates::peek_or_gap) return it.
///
/// A gap stays valid until an entry is inserted or removed, or the table grows.
pub struct Gap {
    pub(super) slot: usize,

    /// What the lookup looked for in the slot.
    pub(super) wanted: Wanted,
}
