//! What Rust's users ask of the hart beside the proved text.

use crate::HartState;
use crate::disassembly::Disassembled;
use core::hash::{Hash, Hasher};
use std::fmt;

impl Clone for HartState {
    fn clone(&self) -> Self {
        HartState { ..*self }
    }
}

/// All fields are the same, entry 0 of the registers too.
impl PartialEq for HartState {
    fn eq(&self, other: &Self) -> bool {
        (self.pc, self.last_register_write) == (other.pc, other.last_register_write)
            && self.registers == other.registers
    }
}

impl Eq for HartState {}

impl Hash for HartState {
    fn hash<H: Hasher>(&self, state: &mut H) {
        self.registers.hash(state);
        (self.pc, self.last_register_write).hash(state);
    }
}

impl fmt::Debug for Disassembled {
    fn fmt(&self, f: &mut fmt::Formatter<'_>) -> fmt::Result {
        f.debug_struct("Disassembled")
            .field("instruction", &self.instruction)
            .field("pc", &self.pc)
            .finish()
    }
}
