//! The decoder.

use crate::InstructionProcessor;
use crate::rows::for_each_row;
use rrs_kit::InstructionHandler;
use rrs_kit::instruction::Instruction;

/// A processor as a handler of `rrs-kit`. The rows that it has no function for return `None`.
struct By<'a, T>(&'a mut T);

impl<T: InstructionProcessor> InstructionHandler for By<'_, T> {
    type Answer = Option<T::InstructionResult>;

    #[inline]
    fn handle(&mut self, instruction: &Instruction) -> Self::Answer {
        macro_rules! call {
            ($($row:ident $function:ident $format:ident,)*) => {
                match *instruction {
                    $(Instruction::$row(fields) => Some(self.0.$function(fields)),)*
                    Instruction::Ecall(_) | Instruction::Ebreak(_) => None,
                }
            };
        }
        for_each_row!(call)
    }
}

/// Decodes a word and calls the function of its row. `None` where the word is of no row, and no
/// function was called.
pub fn process_instruction<T: InstructionProcessor>(
    processor: &mut T,
    insn_bits: u32,
) -> Option<T::InstructionResult> {
    rrs_kit::process_instruction(&mut By(processor), insn_bits).flatten()
}
