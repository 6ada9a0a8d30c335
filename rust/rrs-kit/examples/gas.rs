//! A run with a budget, as a virtual machine of contracts has it: each instruction has its price,
//! and is executed only where what is left pays for it.

use rrs_kit::alloc::Global;
use rrs_kit::asm::{Layout, assemble_source};
use rrs_kit::instruction::{Instruction, decode};
use rrs_kit::instruction_executor::{InstructionException, InstructionExecutor};
use rrs_kit::memories::VecMemory;
use rrs_kit::{HartState, Memory};

/// The factorial of 5, into a word.
const SOURCE: &[u8] = b"
        li   t0, 5
        li   a0, 1
next:   mul  a0, a0, t0
        addi t0, t0, -1
        bnez t0, next
        sw   a0, result, t1
        ebreak
        .balign 4
result: .word 0
";

/// The price of an instruction: an access takes 3, a multiplication 5, a division 20, and each other
/// one 1.
fn price(instruction: &Instruction) -> u64 {
    match instruction {
        Instruction::Mul(_) | Instruction::Mulh(_) => 5,
        Instruction::Mulhu(_) | Instruction::Mulhsu(_) => 5,
        Instruction::Div(_) | Instruction::Divu(_) => 20,
        Instruction::Rem(_) | Instruction::Remu(_) => 20,
        other if other.access().is_some() => 3,
        _ => 1,
    }
}

/// Why a run ended.
enum End {
    /// What is left does not pay for the instruction at this pc.
    OutOfGas(u32),
    /// The step raised an exception.
    Raised(InstructionException),
}

/// Makes steps until what is left does not pay for one, or one raises an exception.
fn run<M: Memory>(executor: &mut InstructionExecutor<M>, gas: &mut u64) -> End {
    loop {
        let cost = executor.word_at_pc().and_then(decode).map_or(1, |found| price(&found));
        let Some(left) = gas.checked_sub(cost) else {
            return End::OutOfGas(executor.hart_state.pc);
        };
        if let Err(exception) = executor.step() {
            return End::Raised(exception);
        }
        *gas = left;
    }
}

/// Two runs, of which the second is paid for.
pub fn report() -> String {
    let program = assemble_source(Global, SOURCE, Layout::flat(0)).expect("the source");
    let mut lines = Vec::new();
    for budget in [30, 100] {
        let mut memory = VecMemory::from_bytes(&program.sections[0].made.bytes);
        let (mut hart, mut gas) = (HartState::new(), budget);
        let mut executor = InstructionExecutor { mem: &mut memory, hart_state: &mut hart };
        let end = match run(&mut executor, &mut gas) {
            End::OutOfGas(pc) => format!("out of gas at 0x{pc:08x}"),
            End::Raised(exception) => exception.to_string(),
        };
        let result = memory.mem.last().copied().unwrap_or(0);
        lines.push(format!("{budget}: {end}, {gas} left, {result}"));
    }
    lines.join("\n")
}

fn main() {
    println!("{}", report());
}
