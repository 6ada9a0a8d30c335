//! The allocator, and the errors of calls that allocate.

use core::{error, fmt};
use heap::collections::TryReserveError;
#[cfg(feature = "std")]
use host::io;

/// The allocator of the program: that of Rust's `alloc`. It is passed to what allocates.
#[derive(Clone, Copy, Debug, Default)]
pub struct Global;

/// Memory ran out. What was to grow is as it was.
#[derive(Clone, Copy, Debug, PartialEq, Eq)]
pub struct AllocError;

/// Memory ran out, and a value could not be stored. What was to take it is as it was.
pub struct AllocFailed<T> {
    /// The value.
    pub value: T,
}

impl<T> fmt::Debug for AllocFailed<T> {
    fn fmt(&self, f: &mut fmt::Formatter<'_>) -> fmt::Result {
        f.write_str("AllocFailed")
    }
}

impl fmt::Display for AllocError {
    fn fmt(&self, f: &mut fmt::Formatter<'_>) -> fmt::Result {
        f.write_str("memory allocation failed")
    }
}

impl error::Error for AllocError {}

impl<T> From<AllocFailed<T>> for AllocError {
    fn from(_: AllocFailed<T>) -> AllocError {
        AllocError
    }
}

impl From<TryReserveError> for AllocError {
    fn from(_: TryReserveError) -> AllocError {
        AllocError
    }
}

impl From<AllocError> for fmt::Error {
    fn from(_: AllocError) -> fmt::Error {
        fmt::Error
    }
}

#[cfg(feature = "std")]
impl From<AllocError> for io::Error {
    fn from(_: AllocError) -> io::Error {
        io::ErrorKind::OutOfMemory.into()
    }
}

#[cfg(feature = "std")]
impl<T> From<AllocFailed<T>> for io::Error {
    fn from(_: AllocFailed<T>) -> io::Error {
        io::ErrorKind::OutOfMemory.into()
    }
}
