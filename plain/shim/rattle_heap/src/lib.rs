//! An allocator with a budget in bytes, for tests of allocation failures.
use rattle_std::alloc::{AllocError, Allocator, Global};
use std::cell::Cell;

/// A budget in bytes. It fits any division: unlike a heap it has no holes.
#[derive(Debug)]
pub struct LocalHeap {
    left: Cell<usize>,
}

impl LocalHeap {
    pub fn new(_alloc: Global, bytes: usize) -> Result<LocalHeap, AllocError> {
        Ok(LocalHeap { left: Cell::new(bytes) })
    }
}

impl Allocator for &LocalHeap {
    fn reserve(&self, bytes: usize) -> Result<(), AllocError> {
        self.left.set(self.left.get().checked_sub(bytes).ok_or(AllocError)?);
        Ok(())
    }

    fn release(&self, bytes: usize) {
        self.left.set(self.left.get() + bytes);
    }
}
