//! The execution of instructions.

use crate::rows::{by_handle, for_each_row};
use crate::{HartState, InstructionProcessor, Lent, Memory};
use rrs_kit::InstructionHandler;
use rrs_kit::instruction::Instruction;
use rrs_kit::instruction_executor as kit;

/// The words of `ecall` and `ebreak`.
const ECALL: u32 = 0x0000_0073;
const EBREAK: u32 = 0x0010_0073;

/// Why a step could not be made.
#[derive(Debug, PartialEq)]
pub enum InstructionException {
    /// The word at the pc is no instruction: the pc and the word.
    IllegalInstruction(u32, u32),
    /// There are no four bytes at the pc: the pc.
    FetchError(u32),
    /// A load's bytes are not there: their address.
    LoadAccessFault(u32),
    /// A store's bytes are not there: their address.
    StoreAccessFault(u32),
    /// An address is misaligned: that of a load or a store, or the pc.
    AlignmentFault(u32),
}

impl From<kit::InstructionException> for InstructionException {
    fn from(exception: kit::InstructionException) -> Self {
        use kit::InstructionException as Kit;
        match exception {
            Kit::IllegalInstruction(pc, word) => Self::IllegalInstruction(pc, word),
            Kit::FetchError(pc) => Self::FetchError(pc),
            Kit::LoadAccessFault(address) => Self::LoadAccessFault(address),
            Kit::StoreAccessFault(address) => Self::StoreAccessFault(address),
            Kit::AlignmentFault(address) => Self::AlignmentFault(address),
            Kit::EnvironmentCall(pc) => Self::IllegalInstruction(pc, ECALL),
            Kit::Breakpoint(pc) => Self::IllegalInstruction(pc, EBREAK),
        }
    }
}

/// A processor that executes an instruction, on a hart and a memory.
pub struct InstructionExecutor<'a, M: Memory> {
    /// What loads read and stores write.
    pub mem: &'a mut M,
    /// The registers and the pc.
    pub hart_state: &'a mut HartState,
}

impl<M: Memory> InstructionExecutor<'_, M> {
    /// Does something by the executor of `rrs-kit` over the same hart and memory.
    #[inline]
    fn by_kit<T>(
        &mut self,
        act: impl FnOnce(&mut kit::InstructionExecutor<'_, Lent<'_, M>>) -> T,
    ) -> T {
        let mem = &mut Lent(&mut *self.mem);
        act(&mut kit::InstructionExecutor {
            mem,
            hart_state: self.hart_state,
        })
    }

    /// Executes the instruction at the pc. After an error the registers, the pc and the bytes are
    /// as they were, and `last_register_write` is `None`.
    #[inline]
    pub fn step(&mut self) -> Result<(), InstructionException> {
        self.by_kit(|executor| executor.step())
            .map_err(InstructionException::from)
    }

    fn handle(&mut self, instruction: Instruction) -> Result<bool, InstructionException> {
        self.by_kit(|executor| executor.handle(&instruction))
            .map_err(InstructionException::from)
    }
}

/// A function returns whether the instruction wrote the pc.
impl<M: Memory> InstructionProcessor for InstructionExecutor<'_, M> {
    type InstructionResult = Result<bool, InstructionException>;

    for_each_row!(by_handle);
}

#[cfg(test)]
mod tests {
    use super::{InstructionException, InstructionExecutor};
    use crate::memories::VecMemory;
    use crate::{HartState, process_instruction};

    #[test]
    fn each_exception_is_the_one_of_the_original() {
        use InstructionException as Is;
        for (word, pc, wanted) in [
            (0x0000_0073, 0, Is::IllegalInstruction(0, 0x0000_0073)), // ecall
            (0x0010_0073, 0, Is::IllegalInstruction(0, 0x0010_0073)), // ebreak
            (0, 0, Is::IllegalInstruction(0, 0)),
            (0, 4, Is::FetchError(4)),
            (0, 2, Is::AlignmentFault(2)),
            (0x0040_a103, 0, Is::LoadAccessFault(0x1004)), // lw x2, 4(x1)
            (0x0020_a423, 0, Is::StoreAccessFault(0x1008)), // sw x2, 8(x1)
            (0x0010_a103, 0, Is::AlignmentFault(0x1001)),  // lw x2, 1(x1)
        ] {
            let mut hart = HartState::new();
            (hart.pc, hart.registers[1]) = (pc, 0x1000);
            let mut mem = VecMemory::new(vec![word]);
            let mut executor = InstructionExecutor {
                mem: &mut mem,
                hart_state: &mut hart,
            };
            let has_row = process_instruction(&mut executor, word).is_some();
            assert_eq!((has_row, executor.step()), (word & 127 != 0x73 && word != 0, Err(wanted)));
        }
    }
}
