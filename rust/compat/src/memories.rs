//! Memories, and a loader.

use crate::{Lent, MemAccessSize, Memory};
use rrs_kit::alloc::Global;
use rrs_kit::memories as kit;
pub use rrs_kit::memories::VecMemory;
use std::io::{self, Read};

impl Memory for VecMemory {
    /// Panics where the address is no multiple of the size.
    #[inline]
    fn read_mem(&mut self, addr: u32, size: MemAccessSize) -> Option<u32> {
        assert!(
            size.is_aligned(addr),
            "a read of {size:?} at 0x{addr:08x} is not aligned"
        );
        rrs_kit::Memory::read_mem(self, addr, size)
    }

    /// Panics where the address is no multiple of the size.
    #[inline]
    fn write_mem(&mut self, addr: u32, size: MemAccessSize, store_data: u32) -> bool {
        assert!(
            size.is_aligned(addr),
            "a write of {size:?} at 0x{addr:08x} is not aligned"
        );
        rrs_kit::Memory::write_mem(self, addr, size, store_data)
    }
}

/// A reader that goes on after an interrupted read.
struct Patient<R>(R);

impl<R: Read> Read for Patient<R> {
    fn read(&mut self, buffer: &mut [u8]) -> io::Result<usize> {
        loop {
            match self.0.read(buffer) {
                Err(error) if error.kind() == io::ErrorKind::Interrupted => {}
                result => return result,
            }
        }
    }
}

/// Writes the bytes of a reader into a memory, from `start_addr` on.
///
/// # Errors
///
/// That of the reader, or one of kind `Other` with an address: the memory refused the byte there.
/// What was written before stays written.
pub fn read_to_memory(
    reader: impl Read,
    memory: &mut impl Memory,
    start_addr: u32,
) -> io::Result<()> {
    let loaded = kit::read_to_memory(&mut Patient(reader), &mut Lent(memory), start_addr);
    loaded.map_err(|fault| match fault {
        kit::LoadFault::Reader(error) => error,
        refused => io::Error::other(refused.to_string()),
    })
}

/// Why a memory could not be added to a space.
#[derive(Debug, PartialEq)]
pub enum MemorySpaceError {
    /// It would overlap one that is there.
    RegionOverlap,
    /// Its base or its size is no multiple of 4.
    Unaligned,
}

/// A memory in a box.
struct Boxed(Box<dyn Memory>);

impl rrs_kit::Memory for Boxed {
    #[inline]
    fn read_mem(&mut self, addr: u32, size: MemAccessSize) -> Option<u32> {
        self.0.read_mem(addr, size)
    }

    #[inline]
    fn write_mem(&mut self, addr: u32, size: MemAccessSize, store_data: u32) -> bool {
        self.0.write_mem(addr, size, store_data)
    }
}

/// An address space of regions, each with a memory. A memory is called with the offset of the
/// address from the base of its region.
pub struct MemorySpace(kit::MemorySpace<Boxed>);

impl MemorySpace {
    /// A space without regions.
    pub fn new() -> Self {
        MemorySpace(kit::MemorySpace::new(Global))
    }

    /// Adds a memory, and returns its index. Panics where the list of regions can't grow.
    ///
    /// # Errors
    ///
    /// `Unaligned`, and else `RegionOverlap`. The memory is dropped.
    pub fn add_memory(
        &mut self,
        base: u32,
        size: u32,
        memory: Box<dyn Memory>,
    ) -> Result<usize, MemorySpaceError> {
        self.0
            .add_memory(base, size, Boxed(memory))
            .map_err(|error| match error {
                kit::MemorySpaceError::RegionOverlap => MemorySpaceError::RegionOverlap,
                kit::MemorySpaceError::Unaligned => MemorySpaceError::Unaligned,
                kit::MemorySpaceError::OutOfMemory => panic!("there is no memory for a region"),
            })
    }

    /// The memory of an index, where there is one and it is of type `T`.
    pub fn get_memory_ref<T: Memory>(&self, index: usize) -> Option<&T> {
        self.0.get_memory_ref(index)?.0.downcast_ref()
    }

    /// The memory of an index, for writing, where there is one and it is of type `T`.
    pub fn get_memory_mut<T: Memory>(&mut self, index: usize) -> Option<&mut T> {
        self.0.get_memory_mut(index)?.0.downcast_mut()
    }
}

impl Default for MemorySpace {
    fn default() -> Self {
        Self::new()
    }
}

impl Memory for MemorySpace {
    #[inline]
    fn read_mem(&mut self, addr: u32, size: MemAccessSize) -> Option<u32> {
        rrs_kit::Memory::read_mem(&mut self.0, addr, size)
    }

    #[inline]
    fn write_mem(&mut self, addr: u32, size: MemAccessSize, store_data: u32) -> bool {
        rrs_kit::Memory::write_mem(&mut self.0, addr, size, store_data)
    }
}

#[cfg(test)]
mod tests {
    use super::{MemorySpace, VecMemory, read_to_memory};
    use crate::{MemAccessSize, Memory};
    use std::io::{self, ErrorKind, Read};

    /// A reader that is interrupted, gives a byte, and then fails or ends.
    struct Tired(Vec<Result<u8, ErrorKind>>);

    impl Read for Tired {
        fn read(&mut self, buffer: &mut [u8]) -> io::Result<usize> {
            match self.0.pop() {
                Some(Err(kind)) => Err(kind.into()),
                Some(Ok(byte)) => {
                    buffer[0] = byte;
                    Ok(1)
                }
                None => Ok(0),
            }
        }
    }

    #[test]
    fn a_loader_goes_on_and_tells_why_it_ends() {
        let (again, broken) = (ErrorKind::Interrupted, ErrorKind::BrokenPipe);
        for (mut reads, wanted) in [
            (vec![Err(again), Ok(1), Err(again), Ok(2)], (Ok(()), 0x201)),
            (vec![Ok(1), Err(broken), Ok(2)], (Err(broken), 1)),
            (vec![Ok(1), Ok(2), Ok(3), Ok(4), Ok(5)], (Err(ErrorKind::Other), 0x0403_0201)),
        ] {
            reads.reverse();
            let mut memory = VecMemory::new(vec![0]);
            let loaded = read_to_memory(Tired(reads), &mut memory, 0);
            assert_eq!((loaded.map_err(|error| error.kind()), memory.mem[0]), wanted);
        }
    }

    #[test]
    fn a_memory_is_of_its_type_alone() {
        let mut space = MemorySpace::default();
        let ram = space.add_memory(16, 4, Box::new(VecMemory::new(vec![5])));
        let mut boxed: Box<dyn Memory> = Box::new(space);
        let seen = (
            (boxed.is::<VecMemory>(), boxed.is::<MemorySpace>()),
            boxed.downcast_ref::<VecMemory>().is_none(),
            boxed.downcast_mut::<VecMemory>().is_none(),
            boxed.downcast_mut::<MemorySpace>().is_some(),
        );
        assert_eq!(seen, ((false, true), true, true, true));
        let boxed = boxed.downcast::<VecMemory>().map(|_| ()).unwrap_err();
        let mut space = boxed.downcast::<MemorySpace>().ok().unwrap();
        let other = space.get_memory_mut::<MemorySpace>(0).is_none();
        let seen = (ram, other, space.get_memory_ref::<VecMemory>(1).is_none());
        assert_eq!(seen, (Ok(0), true, true));
        assert_eq!(space.read_mem(16, MemAccessSize::Byte), Some(5));
    }
}
