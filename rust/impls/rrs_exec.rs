//! What Rust's users ask of processes beside the proved text.

use crate::{ImageError, ProcessEnd, ProcessMemory, ProtectedMemory, Protection};
use core::error::Error;
use std::fmt;

impl Clone for ProcessMemory {
    fn clone(&self) -> Self {
        ProcessMemory {
            low: self.low.clone(),
            high: self.high.clone(),
            ..*self
        }
    }
}

/// The words are the same, at the same addresses.
impl PartialEq for ProcessMemory {
    fn eq(&self, other: &Self) -> bool {
        (self.base, self.split, self.end) == (other.base, other.split, other.end)
            && (&self.low, &self.high) == (&other.low, &other.high)
    }
}

impl Eq for ProcessMemory {}

impl Clone for ProtectedMemory {
    fn clone(&self) -> Self {
        ProtectedMemory {
            memory: self.memory.clone(),
            marks: self.marks.clone(),
        }
    }
}

impl PartialEq for ProtectedMemory {
    fn eq(&self, other: &Self) -> bool {
        (&self.memory, &self.marks) == (&other.memory, &other.marks)
    }
}

impl Eq for ProtectedMemory {}

impl Eq for Protection {}

impl Clone for ProcessEnd {
    fn clone(&self) -> Self {
        *self
    }
}

impl Copy for ProcessEnd {}

impl Eq for ProcessEnd {}

impl Eq for ImageError {}

impl fmt::Display for ImageError {
    fn fmt(&self, f: &mut fmt::Formatter<'_>) -> fmt::Result {
        match self {
            ImageError::Elf(error) => error.fmt(f),
            ImageError::NoRoom => f.pad("there are no addresses for a heap and a stack"),
            ImageError::NeedsMemory(bytes) => write!(f, "it needs {bytes} bytes of memory"),
            ImageError::LongArguments => {
                f.pad("the arguments and the environment do not fit in the stack")
            }
            ImageError::Refused(address) => write!(f, "cannot load at address 0x{address:08x}"),
            ImageError::OutOfMemory => f.pad("out of memory"),
        }
    }
}

impl Error for ImageError {}
