//! What Rust's users ask of an instruction beside the proved text.

use super::{Instruction, decode};
use core::error::Error;
use core::hash::{Hash, Hasher};
use std::fmt;

/// A word that is no instruction of RV32IM.
#[derive(Clone, Copy, Debug, PartialEq, Eq, Hash)]
pub struct IllegalWord(pub u32);

impl fmt::Display for IllegalWord {
    fn fmt(&self, f: &mut fmt::Formatter<'_>) -> fmt::Result {
        write!(f, "0x{:08x} is no instruction of RV32IM", self.0)
    }
}

impl Error for IllegalWord {}

/// The instruction of a word, as [decode] has it.
impl TryFrom<u32> for Instruction {
    type Error = IllegalWord;

    fn try_from(word: u32) -> Result<Self, IllegalWord> {
        decode(word).ok_or(IllegalWord(word))
    }
}

impl Eq for Instruction {}

impl Hash for Instruction {
    fn hash<H: Hasher>(&self, state: &mut H) {
        self.number().hash(state);
        self.fields().hash(state);
    }
}
