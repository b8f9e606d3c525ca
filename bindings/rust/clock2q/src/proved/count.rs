// Written by bindings/rust/erase from crates/clock2q_count/src/lib.rt; change that, and run erase.
//! Numbers and other values that only contracts can see.
//!
//! A contract often has to state how often something was done, or what went through a device,
//! though the program keeps no such value. A [`Count`] or a [`GhostValue`] holds it: it takes no bytes,
//! no code can read it, and clauses name it like any field.

mod ghost_value;

pub use ghost_value::GhostValue;
use core::fmt;

/// The number of times that something was done. It takes no bytes, and no code can read it: it is a
/// field of the struct whose accesses it counts, and the accessors tick it.
///
/// No method lowers it. Its owner can replace it with a new count, which is zero, so a clause of
/// the owner has to rule that out.
///
/// # Example
///
/// ```
/// # use clock2q::proved::count::Count;
/// # struct Cells<T> { items: Vec<T>, accesses: Count }
/// # impl<T: Copy> Cells<T> {
/// pub fn read(&mut self, at: u32) -> T {
///     self.accesses.tick();
///     self.items[at as usize]
/// }
/// # }
/// ```
pub struct Count {
    ticks: GhostValue<usize>,
}

impl Count {
    /// Returns a count of zero.
    #[inline]
    pub fn new() -> Count {
        Count {
            ticks: GhostValue::new(&()),
        }
    }

    /// Adds one.
    #[inline]
    pub fn tick(&mut self) {
        self.ticks.set(&());
    }

    /// Raises the count to a bound that the proof of the call picks. The bound may depend on what
    /// `seen` refers to.
    #[inline]
    pub fn raise<X>(&mut self, seen: &X) {
        self.ticks.set(seen);
    }
}

impl fmt::Debug for Count {
    #[inline]
    fn fmt(&self, f: &mut fmt::Formatter<'_>) -> fmt::Result {
        f.write_str("Count")
    }
}

const _: () = assert!(core::mem::size_of::<Count>() == 0);
