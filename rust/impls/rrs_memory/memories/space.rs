//! What Rust's users ask of a space beside the proved text.

use super::{MemoryRegion, MemorySpace};
use crate::Memory;
use std::alloc::Global;

impl<M> MemorySpace<M> {
    /// The regions in the order in which they were added: the base of each, its size, and its
    /// memory.
    pub fn regions(&self) -> impl Iterator<Item = (u32, u32, &M)> {
        self.regions
            .iter()
            .map(|region| (region.base, region.size, &region.memory))
    }
}

impl<M: Memory> Default for MemorySpace<M> {
    fn default() -> Self {
        MemorySpace::new(Global)
    }
}

impl<M: Clone> Clone for MemorySpace<M> {
    fn clone(&self) -> Self {
        MemorySpace {
            regions: self.regions.clone(),
            by_base: self.by_base.clone(),
            ..*self
        }
    }
}

/// The regions are the same, in the same order. What accesses searched is not compared.
impl<M: PartialEq> PartialEq for MemorySpace<M> {
    fn eq(&self, other: &Self) -> bool {
        self.regions().eq(other.regions())
    }
}

impl<M: Eq> Eq for MemorySpace<M> {}

impl<M: Clone> Clone for MemoryRegion<M> {
    fn clone(&self) -> Self {
        MemoryRegion {
            base: self.base,
            size: self.size,
            memory: self.memory.clone(),
        }
    }
}
