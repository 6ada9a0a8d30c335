//! The text of an instruction.

use crate::InstructionProcessor;
use crate::rows::{by_handle, for_each_row};
use rrs_kit::disassembly::Disassembled;
use rrs_kit::instruction::Instruction;

/// A processor that returns the text of an instruction.
pub struct InstructionStringOutputter {
    /// The address of the instruction, by which the target of a jump is printed.
    pub insn_pc: u32,
}

impl InstructionStringOutputter {
    fn handle(&mut self, instruction: Instruction) -> String {
        Disassembled {
            instruction,
            pc: self.insn_pc,
        }
        .text()
        .to_string()
    }
}

impl InstructionProcessor for InstructionStringOutputter {
    type InstructionResult = String;

    for_each_row!(by_handle);
}
