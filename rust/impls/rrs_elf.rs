//! What Rust's users ask of the loader beside the proved text.

use crate::{ElfError, Refused};
use core::error::Error;
use std::fmt;

impl Eq for ElfError {}

impl Eq for Refused {}

impl fmt::Display for Refused {
    fn fmt(&self, f: &mut fmt::Formatter<'_>) -> fmt::Result {
        write!(
            f,
            "the memory refused the byte at address 0x{:08x}",
            self.address
        )
    }
}

impl Error for Refused {}
