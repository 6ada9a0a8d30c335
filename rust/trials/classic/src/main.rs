//! A program for rrs-lib 0.1.0: a counting processor, a device, a space with downcasts, a tracer
//! and a loader. `classic FILE` runs a raw program, and prints what it did.

use rrs_lib::instruction_executor::{InstructionException, InstructionExecutor};
use rrs_lib::instruction_formats::{self, BType, IType, ITypeShamt, JType, RType, SType, UType};
use rrs_lib::instruction_string_outputter::InstructionStringOutputter;
use rrs_lib::memories::{MemorySpace, MemorySpaceError, VecMemory, read_to_memory};
use rrs_lib::{HartState, InstructionProcessor, MemAccessSize, Memory, process_instruction};

/// Counts the instructions of each format, and the bits of their first register.
#[derive(Default, Debug)]
struct Counter {
    formats: [u64; 7],
    bits: u64,
}

macro_rules! count {
    ($place:expr, $register:ident, $format:ident: $($function:ident)*) => {
        $(fn $function(&mut self, dec_insn: $format) {
            self.formats[$place] += 1;
            self.bits ^= (dec_insn.$register as u64 + 1) << (self.formats[$place] % 32);
        })*
    };
}

impl InstructionProcessor for Counter {
    type InstructionResult = ();

    count!(0, rd, RType: process_add process_sub process_sll process_slt process_sltu process_xor
        process_srl process_sra process_or process_and process_mul process_mulh process_mulhu
        process_mulhsu process_div process_divu process_rem process_remu);
    count!(1, rd, IType: process_addi process_slti process_sltui process_xori process_ori
        process_andi process_lb process_lbu process_lh process_lhu process_lw process_jalr
        process_fence);
    count!(2, rd, ITypeShamt: process_slli process_srli process_srai);
    count!(3, rs1, SType: process_sb process_sh process_sw);
    count!(4, rs1, BType: process_beq process_bne process_blt process_bltu process_bge
        process_bgeu);
    count!(5, rd, UType: process_lui process_auipc);
    count!(6, rd, JType: process_jal);
}

/// A device: it keeps what is written to it, and reads as the count of that.
struct Port {
    written: Vec<u8>,
}

impl Memory for Port {
    fn read_mem(&mut self, _addr: u32, _size: MemAccessSize) -> Option<u32> {
        Some(self.written.len() as u32)
    }

    fn write_mem(&mut self, addr: u32, size: MemAccessSize, data: u32) -> bool {
        let is_byte = matches!(size, MemAccessSize::Byte) && addr == 0;
        if is_byte {
            self.written.push(data as u8);
        }
        is_byte
    }
}

/// What was executed, and the kinds of ends, all of them.
fn name_of(end: InstructionException) -> String {
    match end {
        InstructionException::IllegalInstruction(pc, word) => {
            format!("illegal {word:08x} at {pc:x}")
        }
        InstructionException::FetchError(pc) => format!("no word at {pc:x}"),
        InstructionException::LoadAccessFault(address) => format!("no load from {address:x}"),
        InstructionException::StoreAccessFault(address) => format!("no store to {address:x}"),
        InstructionException::AlignmentFault(address) => format!("misaligned {address:x}"),
    }
}

fn load(file: &str) -> std::io::Result<VecMemory> {
    let mut ram = VecMemory::new(vec![0; 1 << 10]);
    read_to_memory(std::fs::File::open(file)?, &mut ram, 0)?;
    Ok(ram)
}

fn main() {
    let file = std::env::args().nth(1).expect("classic FILE");
    let mut space = MemorySpace::new();
    let ram = space
        .add_memory(0, 1 << 12, Box::new(load(&file).unwrap()))
        .unwrap();
    let port = space
        .add_memory(0x1000_0000, 4, Box::new(Port { written: vec![] }))
        .unwrap();
    for (base, size) in [(0x1000, 2), (0x800, 4)] {
        let refused = space.add_memory(base, size, Box::new(VecMemory::new(vec![])));
        match refused.unwrap_err() {
            MemorySpaceError::RegionOverlap => println!("{base:x} overlaps"),
            MemorySpaceError::Unaligned => println!("{base:x} is unaligned"),
        }
    }
    let mut small = VecMemory::new(vec![0; 1]);
    println!(
        "{}",
        read_to_memory(&[1u8, 2, 3, 4, 5][..], &mut small, 0).unwrap_err()
    );
    println!(
        "{:?} {:08x?}",
        small.read_mem(2, MemAccessSize::HalfWord),
        small.mem
    );

    let (mut counter, mut hart) = (Counter::default(), HartState::default());
    let mut executor = InstructionExecutor {
        mem: &mut space,
        hart_state: &mut hart,
    };
    let mut steps = 0;
    let end = loop {
        let pc = executor.hart_state.pc;
        let word = executor.mem.read_mem(pc, MemAccessSize::Word).unwrap_or(0);
        if process_instruction(&mut counter, word).is_none() {
            println!("{word:08x} has no row");
        }
        if steps % 50 < 8 {
            let text = process_instruction(&mut InstructionStringOutputter { insn_pc: pc }, word);
            println!(
                "{pc:08x} {:?} {:?}",
                text, executor.hart_state.last_register_write
            );
        }
        match executor.step() {
            Ok(()) => steps += 1,
            Err(end) => break name_of(end),
        }
        if steps == 400 {
            break String::from("the limit");
        }
    };
    println!("{steps} steps, then {end}: {counter:?}");
    println!("{:x?}", executor.hart_state.registers);
    let fields = instruction_formats::RType {
        funct7: 0,
        rs2: 1,
        rs1: 2,
        funct3: 0,
        rd: 3,
    };
    println!(
        "{:?} {:?}",
        executor.process_mul(fields),
        executor.hart_state.registers[3]
    );
    println!(
        "{:?}",
        space
            .get_memory_ref::<Port>(port)
            .map(|port| port.written.clone())
    );
    println!("{}", space.get_memory_ref::<VecMemory>(port).is_none());
    space.get_memory_mut::<VecMemory>(ram).unwrap().mem[3] = 7;
    println!("{:?}", space.read_mem(13, MemAccessSize::Byte));
    let boxed: Box<dyn Memory> = Box::new(space);
    println!(
        "{} {}",
        boxed.is::<Port>(),
        boxed.downcast::<MemorySpace>().is_ok()
    );
}
