//! What Rust's users ask of the board beside the proved text.

use crate::memory::BoardMemory;
use crate::{Board, BoardError};
use core::error::Error;
use std::fmt;

impl Clone for Board {
    fn clone(&self) -> Self {
        Board {
            hart: self.hart.clone(),
            csrs: self.csrs,
            memory: self.memory.clone(),
        }
    }
}

impl PartialEq for Board {
    fn eq(&self, other: &Self) -> bool {
        (&self.hart, self.csrs) == (&other.hart, other.csrs) && self.memory == other.memory
    }
}

impl Clone for BoardMemory {
    fn clone(&self) -> Self {
        BoardMemory {
            ram: self.ram.clone(),
            devices: self.devices,
        }
    }
}

impl PartialEq for BoardMemory {
    fn eq(&self, other: &Self) -> bool {
        self.devices == other.devices && self.ram == other.ram
    }
}

impl Eq for BoardError {}

impl fmt::Display for BoardError {
    fn fmt(&self, f: &mut fmt::Formatter<'_>) -> fmt::Result {
        match self {
            BoardError::Elf(error) => error.fmt(f),
            BoardError::Refused(address) => {
                write!(f, "the byte for address 0x{address:08x} is not for RAM")
            }
            BoardError::OutOfMemory => f.pad("out of memory"),
        }
    }
}

impl Error for BoardError {}

#[cfg(feature = "std")]
impl Eq for crate::TerminalError {}

#[cfg(feature = "std")]
impl fmt::Display for crate::TerminalError {
    fn fmt(&self, f: &mut fmt::Formatter<'_>) -> fmt::Result {
        f.pad(match self {
            crate::TerminalError::Input => "a read of the input failed",
            crate::TerminalError::Output => "a write or a flush of the output failed",
        })
    }
}

#[cfg(feature = "std")]
impl Error for crate::TerminalError {}
