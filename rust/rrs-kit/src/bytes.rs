//! Bytes in a row.

use core::error::Error;
use core::fmt;
use rrs_lib::{MemAccessSize, Memory};

/// Reads and writes of bytes in a row, over any [`Memory`].
///
/// Each byte is an access of its own, in the order of the addresses. An access that is refused is
/// the last one.
pub trait MemoryExt: Memory {
    /// Reads the bytes from `addr` on into a buffer.
    ///
    /// # Errors
    ///
    /// [`BytesRefused`] where the memory does not have a byte, or `addr` and those before it reach
    /// the last address. The bytes before it are in the buffer.
    ///
    /// # Examples
    ///
    /// ```
    /// use rrs_kit::memories::VecMemory;
    /// use rrs_kit::{BytesRefused, MemoryExt};
    /// let mut memory = VecMemory::from_bytes(b"four");
    /// let mut bytes = [0; 3];
    /// assert_eq!(memory.read_bytes(1, &mut bytes), Ok(()));
    /// assert_eq!(&bytes, b"our");
    /// let refused = memory.read_bytes(2, &mut bytes).unwrap_err();
    /// assert_eq!(refused.done, 2);
    /// ```
    fn read_bytes(&mut self, addr: u32, bytes: &mut [u8]) -> Result<(), BytesRefused> {
        for (done, byte) in bytes.iter_mut().enumerate() {
            let value = address(addr, done).and_then(|at| self.read_mem(at, MemAccessSize::Byte));
            *byte = value.ok_or(BytesRefused { addr, done })? as u8;
        }
        Ok(())
    }

    /// Writes bytes from `addr` on.
    ///
    /// # Errors
    ///
    /// [`BytesRefused`] where the memory refuses a byte, or `addr` and those before it reach the
    /// last address. The bytes before it are written.
    fn write_bytes(&mut self, addr: u32, bytes: &[u8]) -> Result<(), BytesRefused> {
        for (done, &byte) in bytes.iter().enumerate() {
            let is_written = address(addr, done)
                .is_some_and(|at| self.write_mem(at, MemAccessSize::Byte, byte.into()));
            if !is_written {
                return Err(BytesRefused { addr, done });
            }
        }
        Ok(())
    }
}

impl<M: Memory + ?Sized> MemoryExt for M {}

/// The address that lies so many bytes behind another one, if there is one.
fn address(addr: u32, distance: usize) -> Option<u32> {
    addr.checked_add(u32::try_from(distance).ok()?)
}

/// Why bytes in a row were not all read or written.
#[derive(Clone, Copy, Debug, PartialEq, Eq, Hash)]
#[non_exhaustive]
pub struct BytesRefused {
    /// The address of the first of them.
    pub addr: u32,
    /// How many there are before the one that was refused.
    pub done: usize,
}

impl fmt::Display for BytesRefused {
    fn fmt(&self, f: &mut fmt::Formatter<'_>) -> fmt::Result {
        match address(self.addr, self.done) {
            Some(at) => write!(f, "the memory refused the byte at address 0x{at:08x}"),
            None => f.pad("there is no address behind 0xffffffff"),
        }
    }
}

impl Error for BytesRefused {}
