//! A transpiler and an executor, as virtual machines that prove their runs have them: each word
//! becomes one of the machine's own operations once, and each step leaves a record. `custom-0` is a
//! product without carries, `ecall` reveals a0, and the kit executes what has no operation. The kit
//! also runs the program by itself, and leaves the same records.

use rrs_kit::alloc::Global;
use rrs_kit::asm::{Layout, assemble_source, image};
use rrs_kit::instruction::Instruction;
use rrs_kit::instruction_executor::{
    InstructionException as Raised, InstructionExecutor, execute_parts,
};
use rrs_kit::instruction_formats::RType;
use rrs_kit::memories::VecMemory;
use rrs_kit::trace::{MemoryAccess, TracedMemory, step_retired};
use rrs_kit::{HartState, InstructionHandler, MemAccessSize, Memory, process_instruction};

/// Reveals the sum of 1 to 100, which it keeps in memory, and 11 times 13 without carries.
const SOURCE: &[u8] = b"
        la   s0, total
        li   a1, 100
again:  lw   a0, 0(s0)
        add  a0, a0, a1
        sw   a0, 0(s0)
        addi a1, a1, -1
        bnez a1, again
        ecall
        li   a0, 11
        li   a1, 13
        .word 0x00b5050b    # custom-0 a0, a0, a1
        ecall
total:  .word 0             # no instruction: the program ends
";

/// The machine's operations. `Bne` has the address of its target.
#[derive(Clone, Copy)]
enum Operation {
    AddNumber(usize, usize, u32),
    LoadWord(usize, usize, u32),
    Bne(usize, usize, u32),
    Multiply(RType),
    Call,
    Executed(Instruction),
}

/// Turns the instruction at an address into an operation.
struct Transpiler(u32);

impl InstructionHandler for Transpiler {
    type Answer = Operation;

    fn handle(&mut self, instruction: &Instruction) -> Operation {
        match *instruction {
            Instruction::Addi(f) => Operation::AddNumber(f.rd, f.rs1, f.imm as u32),
            Instruction::Lw(f) => Operation::LoadWord(f.rd, f.rs1, f.imm as u32),
            Instruction::Bne(f) => Operation::Bne(f.rs1, f.rs2, self.0.wrapping_add_signed(f.imm)),
            Instruction::Ecall(_) => Operation::Call,
            other => Operation::Executed(other),
        }
    }
}

/// The fields of a word that is the machine's own instruction.
fn own_fields(word: u32) -> Option<RType> {
    (word & 0xfe00_707f == 0x0b).then(|| RType::new(word))
}

/// What a step did: where it was and where it went, the register that it wrote, and its access.
type Record = (u32, u32, Option<(usize, u32)>, MemoryAccess);

/// A hart, its memory, and what it revealed.
struct Machine(HartState, VecMemory, Vec<u32>);

impl Machine {
    /// A step of the machine's own. `None` where the program ended, or raised an exception.
    fn step(&mut self, operation: Operation) -> Option<Record> {
        let Machine(hart, memory, _) = self;
        let access = MemoryAccess::none();
        let mut memory = TracedMemory { memory, is_fetch: false, insn: None, access };
        let pc = hart.pc;
        (hart.pc, hart.last_register_write) = (pc.wrapping_add(4), None);
        let value = |register| hart.read_register(register);
        match operation {
            Operation::AddNumber(rd, one, number) => {
                hart.write_register(rd, value(one).wrapping_add(number));
            }
            Operation::LoadWord(rd, base, offset) => {
                let (address, size) = (value(base).wrapping_add(offset), MemAccessSize::Word);
                let word = size.is_aligned(address).then(|| memory.read_mem(address, size))??;
                hart.write_register(rd, word);
            }
            Operation::Bne(one, other, _) if value(one) == value(other) => {}
            Operation::Bne(_, _, target) => hart.pc = target,
            Operation::Executed(instruction) => {
                let end = execute_parts(&mut memory, &mut hart.registers, pc, &instruction);
                (hart.pc, hart.last_register_write) = (end.pc, end.last_register_write);
                end.answer.ok()?;
            }
            Operation::Multiply(fields) => multiply(hart, fields),
            Operation::Call => self.2.push(hart.read_register(10)),
        }
        let access = memory.access;
        Some((pc, self.0.pc, self.0.last_written(), access))
    }

    /// The same by the kit's executor, which has no such instruction and serves no call.
    fn step_by_kit(&mut self, order: u64) -> Option<Record> {
        let Machine(hart_state, mem, revealed) = self;
        let (answer, record) = step_retired(&mut InstructionExecutor { mem, hart_state }, order);
        match answer {
            Ok(()) => {}
            Err(Raised::IllegalInstruction(_, word)) => multiply(hart_state, own_fields(word)?),
            Err(Raised::EnvironmentCall(_)) => revealed.push(hart_state.read_register(10)),
            Err(_) => return None,
        }
        hart_state.pc = hart_state.pc.wrapping_add(4 * u32::from(record.trap));
        Some((record.pc_rdata, hart_state.pc, hart_state.last_written(), record.mem))
    }
}

/// The product of two registers without carries.
fn multiply(hart: &mut HartState, RType { rd, rs1, rs2, .. }: RType) {
    let (one, other) = (hart.read_register(rs1), hart.read_register(rs2));
    let bits = (0..32).filter(|bit| (other >> bit) & 1 == 1);
    hart.write_register(rd, bits.fold(0, |sum, bit| sum ^ (one << bit)));
}

/// Runs the program in both ways, and says what was seen.
pub fn report() -> String {
    let program = assemble_source(Global, SOURCE, Layout::flat(0)).expect("a source");
    let bytes = image(Global, &program, 0).expect("memory");
    let word = |bytes: &[u8]| bytes.iter().rev().fold(0, |all, &byte| all * 256 + u32::from(byte));
    let words: Vec<u32> = bytes.chunks(4).map(word).collect();
    let transpiled = |(index, &word): (usize, &u32)| {
        let own = own_fields(word).map(Operation::Multiply);
        process_instruction(&mut Transpiler(4 * index as u32), word).or(own)
    };
    let operations: Vec<Option<Operation>> = words.iter().enumerate().map(transpiled).collect();
    let new = || Machine(HartState::new(), VecMemory::new(words.clone()), Vec::new());
    let (mut own, mut kits) = (new(), new());
    let next = |machine: &Machine| operations.get(machine.0.pc as usize / 4).copied().flatten();
    let records: Vec<_> = (0..).map_while(|_| next(&own).and_then(|one| own.step(one))).collect();
    let by_kit: Vec<_> = (0..).map_while(|order| kits.step_by_kit(order)).collect();
    assert!(records == by_kit && own.2 == kits.2, "the two runs differ");
    let accesses = records.iter().filter(|record| record.3 != MemoryAccess::none()).count();
    format!("revealed {:?} in {} records, {accesses} with an access", own.2, records.len())
}

fn main() {
    println!("{}", report());
}
