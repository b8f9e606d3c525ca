//! Written by hand in place of `clock2q_c/src/unboxed.rt`, which takes boxes apart. There is no `unsafe` code here.

use clock2q::proved::rattle::{AllocError, Allocator, Global};
use std::boxed;
use std::marker::PhantomData;

/// A value on the heap. Rust's own box can't report that there is no memory for it; a vector with one item can.
pub(crate) struct Box<T, A: Allocator = Global> {
    item: Pointer<T>,
    allocator: PhantomData<A>,
}

/// What C sees as the pointer to a `T`.
pub(crate) type Pointer<T> = boxed::Box<[T; 1]>;

impl<T, A: Allocator> Box<T, A> {
    /// Puts a value on the heap.
    ///
    /// # Errors
    ///
    /// `AllocError` if there is no memory; the value is dropped then.
    pub(crate) fn new(_: A, value: T) -> Result<Self, AllocError> {
        let mut items = Vec::new();
        items.try_reserve_exact(1).map_err(|_| AllocError)?;
        items.push(value);
        let item = items.into_boxed_slice().try_into();
        item.map(Box::from_pointer).map_err(|_| AllocError)
    }

    /// Returns the pointer.
    pub(crate) fn into_pointer(self) -> Pointer<T> {
        self.item
    }

    /// Returns the box that a pointer was.
    pub(crate) fn from_pointer(item: Pointer<T>) -> Self {
        Box {
            item,
            allocator: PhantomData,
        }
    }
}

/// Writes a handle to a `$held` and the functions that the erased text calls.
macro_rules! handle {
    ($(#[$about:meta])* $handle:ident, $held:ty) => {
        $(#[$about])*
        #[repr(C)]
        pub struct $handle {
            cache: Option<Pointer<$held>>,
        }

        impl $handle {
            /// Returns a reference to what the handle points to.
            #[inline]
            pub(crate) fn held(&mut self) -> &mut $held {
                match &mut self.cache {
                    Some(cache) => &mut cache[0],
                    None => no_cache(),
                }
            }
        }

        /// Takes the cache out of a handle that C gives up.
        pub(crate) fn opened(handle: $handle) -> Box<$held> {
            match handle.cache {
                Some(cache) => Box::from_pointer(cache),
                None => no_cache(),
            }
        }

        /// Puts a cache into a handle without one.
        pub(crate) fn put(handle: &mut $handle, cache: Box<$held>) {
            handle.cache = Some(cache.into_pointer());
        }
    };
}
pub(crate) use handle;

/// Ends the program, since C made a call that needs a cache without one.
#[cold]
pub(crate) fn no_cache() -> ! {
    panic!("clock2q: a call that needs a cache was made without one")
}
