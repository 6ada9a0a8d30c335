//! Compares the kit's decoder and that of Zba to Zicond, word by word, with the decoder that
//! `decoder.py` makes of QEMU's tables, and the texts' rows; and with the feature `original` the kit's
//! with rrs-lib 0.1.0, with its texts. QEMU 7.2 has no Zicond: of that the listing of the standard is
//! written here. It compares each half-word too that is no part of a word: the
//! row that it stands for.
//!
//! usage: every-word all | every-word PART
//!
//! A part, 0 to 63, is a 64th of the words, spread over all of them; and `ecall` and `ebreak` are in
//! each. The status is 0 where all is as it should be, and else 1, after the first words that differ.

use kit::disassembly::Disassembled;
use kit::hart::{Encoding, row_in};
use kit::instruction::{Instruction, InstructionFields, decode};
use kit::instruction_formats::{BType, IType, ITypeShamt, JType, RType, SType, UType};
use kit::machine::system::{LayerInstruction, bit_text, decode_bits, decode_layer};
use std::fmt::Arguments;
use std::process::ExitCode;
use std::sync::atomic::{AtomicU64, Ordering::Relaxed};
use std::thread;

#[cfg(feature = "original")]
mod original;
include!(env!("NAMES"));

/// Words that are instructions: 22 rows with 22 bits that are free, 3 with 25, 21 with 15, and
/// `ecall` and `ebreak`.
const INSTRUCTIONS: u64 = (22 << 22) + (3 << 25) + (21 << 15) + 2;
/// Words that are instructions of Zba to Zicond: 27 with 15 bits that are free, pack, whose rs2 is not
/// x0, and 11 with 10.
const BITS: u64 = (27 << 15) + (31 << 10) + (11 << 10);
/// Words that the original takes for `slli`, for 127 more funct7, and for `jalr`, for 7 more funct3;
/// and `ecall` and `ebreak`, which it does not decode.
const LISTED: u64 = (127 << 15) + (7 << 22) + 2;
/// Half-words whose low two bits are not 11, and those of them that stand for a row: by how many values
/// the bits may have that a form leaves free. Nine forms leave eleven bits.
const HALVES: u32 = 3 << 14;
const SHORT: u32 = (9 << 11)
    + (255 << 3) // addi4spn
    + (63 << 5) // lui and addi16sp
    + (31 << 6) // lwsp
    + (1 << 10) // slli
    + 2 * (31 << 5) // mv and add
    + 2 * (1 << 8) // srli and srai
    + (1 << 9) // andi
    + 4 * (1 << 6) // sub, xor, or and and
    + 2 * 31 // jr and jalr
    + 1; // ebreak
/// Words are taken in the order of their multiples of this odd number, so that each part has of all.
const STRIDE: u32 = 0x9e37_79b1;
const CHUNK: u64 = 1 << 16;
const ENVIRONMENT: [u32; 2] = [0x0000_0073, 0x0010_0073];
/// The address of each instruction: the texts of branches and jumps show their targets.
const PC: u32 = 0x1000_0010;

/// What QEMU's decoder found in a word, as `decoder.py` has it.
#[derive(Default)]
#[repr(C)]
struct Decoded {
    word: u32,
    row: u32,
    format: u32,
    funct7: u32,
    funct3: u32,
    rd: u32,
    rs1: u32,
    rs2: u32,
    shamt: u32,
    imm: i32,
}

#[link(name = "qemu_decoder", kind = "static")]
unsafe extern "C" {
    fn qemu_decode(word: u32, decoded: *mut Decoded) -> bool;
    fn qemu_decode_half(half: u16, decoded: *mut Decoded) -> bool;
}

/// The name of the row that an encoding is by QEMU's tables, or stands for, and its fields.
fn decode_by_qemu(encoding: Encoding) -> Option<(&'static str, InstructionFields)> {
    let mut found = Decoded::default();
    // SAFETY: the functions write the struct, and nothing else.
    let is_row = unsafe {
        match encoding {
            Encoding::Short(half) => qemu_decode_half(half, &mut found),
            Encoding::Long(word) => qemu_decode(word, &mut found),
        }
    };
    if !is_row {
        return None;
    }
    let Decoded { funct7, funct3, shamt, imm, .. } = found;
    let [rd, rs1, rs2] = [found.rd, found.rs1, found.rs2].map(|register| register as usize);
    let fields = match found.format {
        0 => InstructionFields::R(RType { funct7, rs2, rs1, funct3, rd }),
        1 => InstructionFields::I(IType { imm, rs1, funct3, rd }),
        2 => InstructionFields::IShamt(ITypeShamt { funct7, shamt, rs1, funct3, rd }),
        3 => InstructionFields::S(SType { imm, rs2, rs1, funct3 }),
        4 => InstructionFields::B(BType { imm, rs2, rs1, funct3 }),
        5 => InstructionFields::U(UType { imm, rd }),
        _ => InstructionFields::J(JType { imm, rd }),
    };
    Some((NAMES[found.row as usize], fields))
}

/// The instruction of Zicond that a word is: opcode 0110011 and funct7 0000111, `czero.eqz` with
/// funct3 101 and `czero.nez` with 111.
fn conditional(word: u32) -> Option<(&'static str, InstructionFields)> {
    let name = match word & 0xfe00_707f {
        0x0e00_5033 => "czero.eqz",
        0x0e00_7033 => "czero.nez",
        _ => return None,
    };
    let register = |place: u32| (word >> place & 31) as usize;
    let fields = RType {
        funct7: 7,
        rs2: register(20),
        rs1: register(15),
        funct3: word >> 12 & 7,
        rd: register(7),
    };
    Some((name, InstructionFields::R(fields)))
}

/// Whether the decoder of Zba to Zicond, and that of all layers, have the row by the text's name and
/// the fields that QEMU's has, or that the listing of Zicond has. `None` is of no such instruction.
fn is_qemus_layer(word: u32, qemus: Option<(&'static str, InstructionFields)>) -> bool {
    let found = decode_bits(word);
    let is_one = match (found, qemus.or_else(|| conditional(word))) {
        (None, None) => true,
        (Some(bits), Some((name, fields))) => {
            InstructionFields::R(bits.fields) == fields
                && bit_text(&bits).as_str().split(' ').next() == Some(name)
        }
        _ => false,
    };
    let of_layers = match decode_layer(word) {
        Some(LayerInstruction::Bits(bits)) => Some(bits),
        _ => None,
    };
    is_one && of_layers == found
}

/// Whether the kit has the row and the fields that QEMU's decoder has, and the text that row's name.
fn is_qemus(word: u32, decoded: Option<Instruction>) -> bool {
    match (decoded, decode_by_qemu(Encoding::Long(word))) {
        (None, qemus) => is_qemus_layer(word, qemus),
        (Some(instruction), Some((name, fields))) => {
            let text = Disassembled { instruction, pc: PC }.text();
            instruction.mnemonic() == name
                && instruction.fields() == fields
                && text.as_str().split(' ').next() == Some(name)
        }
        _ => false,
    }
}

/// Whether the kit has the row and the fields that a half-word stands for by QEMU's table. That takes
/// `c.mv` for `addi rd, rs2, 0`; the standard, for `add rd, x0, rs2`.
fn is_qemus_half(half: u16) -> bool {
    let found = match (decode_by_qemu(Encoding::Short(half)), half & 0xf003) {
        (Some(("addi", InstructionFields::I(IType { rs1, rd, .. }))), 0x8002) => {
            let fields = RType { funct7: 0, rs2: rs1, rs1: 0, funct3: 0, rd };
            Some(("add", InstructionFields::R(fields)))
        }
        (found, _) => found,
    };
    let row = row_in(Encoding::Short(half));
    row.map(|instruction| (instruction.mnemonic(), instruction.fields())) == found
}

/// Whether a word is one of those in which the original differs.
#[cfg(feature = "original")]
fn is_listed(word: u32) -> bool {
    match (word & 0x7f, word >> 12 & 7) {
        (0x13, 1) => word >> 25 != 0,
        (0x67, funct3) => funct3 != 0,
        _ => ENVIRONMENT.contains(&word),
    }
}

/// Counts of what was seen.
#[derive(Default)]
struct Seen {
    instructions: AtomicU64,
    bits: AtomicU64,
    listed: AtomicU64,
    wrong: AtomicU64,
    next: AtomicU64,
}

impl Seen {
    /// Says that a word is not as it should be: the first ten of them.
    fn says(&self, word: Arguments, of: &str) {
        if self.wrong.fetch_add(1, Relaxed) < 10 {
            println!("{word} differs from {of}");
        }
    }

    /// Compares a word, and counts what it is: a row, one of Zba to Zicond, and one in which the
    /// original differs.
    fn compare(&self, word: u32, [instructions, bits, _listed]: &mut [u64; 3]) {
        let decoded = decode(word);
        *instructions += u64::from(decoded.is_some());
        *bits += u64::from(decode_bits(word).is_some());
        if !is_qemus(word, decoded) {
            self.says(format_args!("0x{word:08x}"), "QEMU's");
        }
        #[cfg(feature = "original")]
        {
            let differs = !original::is_same(word, decoded);
            *_listed += u64::from(differs);
            if differs != is_listed(word) {
                self.says(format_args!("0x{word:08x}"), "what is listed of the original");
            }
        }
    }

    /// Compares each half-word that is no part of a word, and counts those that stand for a row.
    fn compare_halves(&self) -> u32 {
        let mut short = 0;
        for half in (0..=u16::MAX).filter(|half| half & 3 != 3) {
            short += u32::from(row_in(Encoding::Short(half)).is_some());
            if !is_qemus_half(half) {
                self.says(format_args!("0x{half:04x}"), "QEMU's");
            }
        }
        short
    }

    /// Compares the words of each chunk that nobody has taken yet, up to an index of a word.
    fn work(&self, end: u64) {
        loop {
            let begin = self.next.fetch_add(CHUNK, Relaxed);
            if begin >= end {
                return;
            }
            let mut counts = [0; 3];
            for index in begin..begin + CHUNK {
                self.compare((index as u32).wrapping_mul(STRIDE), &mut counts);
            }
            for (sum, count) in [&self.instructions, &self.bits, &self.listed].iter().zip(counts) {
                sum.fetch_add(count, Relaxed);
            }
        }
    }
}

fn main() -> ExitCode {
    let asked = std::env::args().nth(1).unwrap_or_default();
    let (begin, end) = match asked.parse::<u64>() {
        Ok(part) if part < 64 => (part << 26, (part + 1) << 26),
        Err(_) if asked == "all" => (0, 1 << 32),
        _ => {
            eprintln!("usage: every-word all | every-word PART, from 0 to 63");
            return ExitCode::from(2);
        }
    };
    let seen = Seen { next: AtomicU64::new(begin), ..Seen::default() };
    thread::scope(|scope| {
        for _ in 0..thread::available_parallelism().map_or(1, usize::from) {
            scope.spawn(|| seen.work(end));
        }
    });
    for word in ENVIRONMENT {
        seen.compare(word, &mut [0; 3]);
    }
    let short = seen.compare_halves();
    let [instructions, bits, listed] =
        [seen.instructions, seen.bits, seen.listed].map(AtomicU64::into_inner);
    let is_counted = short == SHORT
        && (asked != "all"
            || (instructions == INSTRUCTIONS
                && bits == BITS
                && (listed == LISTED || !cfg!(feature = "original"))));
    let wrong = seen.wrong.into_inner();
    if wrong > 0 || !is_counted {
        println!("{wrong} words are wrong; {instructions} are instructions, and {listed} differ");
        println!("{bits} are instructions of Zba to Zicond");
        println!("{short} half-words stand for one");
        return ExitCode::FAILURE;
    }
    println!("{} words, {instructions} of them instructions: as QEMU's decoder", end - begin);
    println!("{bits} more are instructions of Zba to Zicond: as QEMU's decoder");
    println!("{HALVES} half-words, {short} of them instructions: as QEMU's decoder");
    if cfg!(feature = "original") {
        println!("as the original, but for {listed} words that are listed");
    }
    ExitCode::SUCCESS
}
