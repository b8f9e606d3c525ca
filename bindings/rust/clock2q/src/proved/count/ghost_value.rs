// Written by bindings/rust/erase from crates/clock2q_count/src/ghost_value.rt; change that, and run erase.
use core::marker::PhantomData;

/// A value of type `T` that only contracts can see. It takes no bytes, and no code can read it.
///
/// The proof of each call picks the value. It may depend on what the call's argument refers to.
///
/// # Example
///
/// A [Count](crate::proved::count::Count) is one of these over a number:
///
/// ```
/// # #![allow(unused)]
/// # use clock2q::proved::count::GhostValue;
/// # macro_rules! counted { ($count:item $this:ident.$($set:tt)*) => {
/// #     $count impl Count { fn tick(&mut $this) { $this.$($set)* } }
/// # } }
/// # counted! {
/// struct Count {
///     ticks: GhostValue<usize>,
/// }
///
/// self.ticks.set(&());
/// # }
/// ```
pub struct GhostValue<T> {
    of: PhantomData<T>,
}

impl<T> GhostValue<T> {
    /// Returns a `GhostValue` with the picked value.
    #[inline]
    pub fn new<X>(_seen: &X) -> GhostValue<T> {
        GhostValue { of: PhantomData }
    }

    /// Replaces the value with the picked one.
    #[inline]
    pub fn set<X>(&mut self, seen: &X) {
        *self = GhostValue::new(seen);
    }
}
