// Written by bindings/rust/erase from crates/clock2q_handles/src/entry.rt; change that, and run erase.
//! An entry of a table.

/// A handle with the hash that it was or will be inserted under.
///
/// # Example
///
/// ```
/// # #![allow(unused)]
/// # use clock2q::proved::rattle::Global;
/// # use clock2q::proved::handles::{partition, Entry, Table, TableError};
/// let mut table: Table<usize> = Table::with_capacity(Global, 12)?;
/// table.insert(7, 70, |_| 7)?;
/// let old = Entry { hash: 7, handle: 70 };
/// table.replace(None, Entry { hash: 9, handle: 90 }, old);
/// assert_eq!(table.get(9).next(), Some(90));
/// # Ok::<(), Box<dyn std::error::Error>>(())
/// ```
#[derive(Clone, Copy)]
pub struct Entry<H> {
    /// The hash.
    pub hash: u64,
    /// The handle.
    pub handle: H,
}
