//! What Rust's users ask of the memories beside the proved text.

use crate::memories::{MemorySpaceError, SliceMemory, VecMemory};
use crate::{MemAccessSize, Memory};
use core::error::Error;
use core::hash::{Hash, Hasher};
use std::boxed::Box;
use std::fmt;
use std::vec::Vec;

impl MemAccessSize {
    /// The number of bytes: 1, 2 or 4.
    pub const fn bytes(self) -> u32 {
        match self {
            MemAccessSize::Byte => 1,
            MemAccessSize::HalfWord => 2,
            MemAccessSize::Word => 4,
        }
    }
}

impl Eq for MemAccessSize {}

impl Hash for MemAccessSize {
    fn hash<H: Hasher>(&self, state: &mut H) {
        self.bytes().hash(state);
    }
}

/// The memory that is borrowed, also one of a type that is not known: `&mut dyn Memory`.
impl<M: Memory + ?Sized> Memory for &mut M {
    #[inline(always)]
    fn read_mem(&mut self, addr: u32, size: MemAccessSize) -> Option<u32> {
        (**self).read_mem(addr, size)
    }

    #[inline(always)]
    fn write_mem(&mut self, addr: u32, size: MemAccessSize, store_data: u32) -> bool {
        (**self).write_mem(addr, size, store_data)
    }

    #[inline(always)]
    fn reads_are_pure(&self, addr: u32) -> bool {
        (**self).reads_are_pure(addr)
    }
}

/// The memory in the box, also one of a type that is not known: `Box<dyn Memory + Send>`.
impl<M: Memory + ?Sized> Memory for Box<M> {
    #[inline(always)]
    fn read_mem(&mut self, addr: u32, size: MemAccessSize) -> Option<u32> {
        (**self).read_mem(addr, size)
    }

    #[inline(always)]
    fn write_mem(&mut self, addr: u32, size: MemAccessSize, store_data: u32) -> bool {
        (**self).write_mem(addr, size, store_data)
    }

    #[inline(always)]
    fn reads_are_pure(&self, addr: u32) -> bool {
        (**self).reads_are_pure(addr)
    }
}

impl VecMemory {
    /// A memory with these bytes from address 0 on, and bytes of 0 up to the next whole word.
    ///
    /// # Examples
    ///
    /// ```
    /// use rrs_memory::memories::VecMemory;
    /// let memory = VecMemory::from_bytes(&[1, 2, 3, 4, 5]);
    /// assert_eq!(memory.mem, [0x0403_0201, 5]);
    /// assert_eq!(memory.to_bytes(), [1, 2, 3, 4, 5, 0, 0, 0]);
    /// ```
    pub fn from_bytes(bytes: &[u8]) -> VecMemory {
        let word = |bytes: &[u8]| {
            let mut whole = [0; 4];
            whole[..bytes.len()].copy_from_slice(bytes);
            u32::from_le_bytes(whole)
        };
        VecMemory {
            mem: bytes.chunks(4).map(word).collect(),
        }
    }

    /// Its bytes from address 0 on, four of each word.
    pub fn to_bytes(&self) -> Vec<u8> {
        self.mem
            .iter()
            .flat_map(|word| word.to_le_bytes())
            .collect()
    }
}

impl Clone for VecMemory {
    fn clone(&self) -> Self {
        VecMemory {
            mem: self.mem.clone(),
        }
    }
}

impl PartialEq for VecMemory {
    fn eq(&self, other: &Self) -> bool {
        self.mem == other.mem
    }
}

impl Eq for VecMemory {}

/// The base and the words are the same.
impl PartialEq for SliceMemory<'_> {
    fn eq(&self, other: &Self) -> bool {
        (self.base, &*self.words) == (other.base, &*other.words)
    }
}

impl Eq for SliceMemory<'_> {}

impl Clone for MemorySpaceError {
    fn clone(&self) -> Self {
        *self
    }
}

impl Copy for MemorySpaceError {}

impl Eq for MemorySpaceError {}

impl fmt::Display for MemorySpaceError {
    fn fmt(&self, f: &mut fmt::Formatter<'_>) -> fmt::Result {
        f.pad(match self {
            MemorySpaceError::RegionOverlap => "the region would overlap another one",
            MemorySpaceError::Unaligned => "the base or the size is not a multiple of 4",
            MemorySpaceError::OutOfMemory => "out of memory",
        })
    }
}

impl Error for MemorySpaceError {}

#[cfg(feature = "std")]
impl Error for crate::memories::LoadFault {
    fn source(&self) -> Option<&(dyn Error + 'static)> {
        match self {
            crate::memories::LoadFault::Reader(error) => Some(error),
            _ => None,
        }
    }
}
