// Written by bindings/rust/erase from crates/clock2q_handles/src/error.rt; change that, and run erase.
//! Why a table refuses a call.

/// The reason why a [Table](crate::proved::handles::Table) refused a call.
///
/// # Example
///
/// ```
/// # #![allow(unused)]
/// # use clock2q::proved::rattle::Global;
/// # use clock2q::proved::handles::{partition, Entry, Table, TableError};
/// # let (mut table, hash, handle, rehash) = (Table::<usize>::new(Global), 7, 70, |_| 7);
/// match table.insert(hash, handle, rehash) {
///     Ok(()) => println!("inserted"),
///     Err(TableError::Memory) => println!("out of memory"),
///     Err(refusal) => println!("refused: {refusal}"),
/// }
/// ```
#[derive(Debug, Clone, Copy, PartialEq, Eq)]
pub enum TableError {
    /// There is no memory for the slots.
    Memory,
    /// The entries, or the slots for them, are too many to count.
    Size,
    /// An entry would be more than 2^24 - 2 slots past its home.
    RunTooLong,
}

impl core::fmt::Display for TableError {
    fn fmt(&self, f: &mut core::fmt::Formatter<'_>) -> core::fmt::Result {
        f.write_str(match self {
            TableError::Memory => "no memory",
            TableError::Size => "size refused",
            TableError::RunTooLong => "run too long",
        })
    }
}

#[cfg(feature = "std")]
impl std::error::Error for TableError {}
