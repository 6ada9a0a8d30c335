// What is the same source over the crate here and the original: `rrs_lib` is one of them.

use crate::{Run, Step};
use rrs_lib::instruction_executor::{InstructionException, InstructionExecutor};
use rrs_lib::instruction_string_outputter::InstructionStringOutputter;
use rrs_lib::memories::VecMemory;
use rrs_lib::{HartState, process_instruction};

fn hart_at(registers: [u32; 32], pc: u32) -> HartState {
    let mut hart = HartState::new();
    hart.registers = registers;
    hart.pc = pc;
    hart
}

/// A step of the word at address 16.
pub fn step(words: &[u32], registers: [u32; 32]) -> Step {
    let mut memory = VecMemory::new(words.to_vec());
    let mut hart = hart_at(registers, 16);
    let step = InstructionExecutor {
        mem: &mut memory,
        hart_state: &mut hart,
    }
    .step();
    let end = match step {
        Ok(()) => String::from("ok"),
        Err(exception) => format!("{exception:?}"),
    };
    let text = process_instruction(&mut InstructionStringOutputter { insn_pc: 16 }, words[4]);
    let last = hart.last_register_write;
    Step {
        end,
        text,
        registers: hart.registers,
        pc: hart.pc,
        last,
        memory: memory.mem,
    }
}
