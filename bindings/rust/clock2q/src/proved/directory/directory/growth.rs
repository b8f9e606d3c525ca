// Written by bindings/rust/erase from crates/clock2q_directory/src/directory/growth.rt; change that, and run erase.
//! Room for more residents and more remembered keys.
use crate::proved::directory::directory::Directory;
use crate::proved::rattle::{AllocError, Allocator};

impl<K: Eq, V, A: Allocator + Copy> Directory<K, V, A> {
    /// Makes room for up to `slots` residents and `limit` remembered keys. Every key keeps its slot
    /// or its place, and the index is made anew, as large as a new directory's. The counts go on
    /// from what they were.
    ///
    /// # Errors
    ///
    /// `AllocError` if a request for memory is refused. Every key, the limit and the index are then
    /// as they were.
    ///
    /// # Cost
    ///
    /// Linear in `slots` and `limit` if hashes are well spread, with two accesses to links for each
    /// place that was used.
    #[inline]
    pub fn grow(&mut self, alloc: A, slots: usize, limit: usize) -> Result<(), AllocError> {
        self.residents.reserve(slots)?;
        self.history.keys.reserve(limit)?;
        let order = self.history.order.grown(alloc, limit as u32)?;
        let keys = (&self.residents, &self.history.keys);
        let index = self.index.grown(alloc, slots, limit, keys)?;
        self.history.order = order;
        self.index = index;
        Ok(())
    }
}
