//! What rrs-lib 0.1.0 decodes and prints, to be compared with the kit.

use super::PC;
use kit::disassembly::Disassembled;
use kit::instruction::{Instruction, InstructionFields};
use kit::instruction_formats as kits;
use rrs_original::instruction_formats::{BType, IType, ITypeShamt, JType, RType, SType, UType};
use rrs_original::instruction_string_outputter::InstructionStringOutputter;
use rrs_original::{InstructionProcessor, process_instruction};

/// The kit's fields with the values of the original's: the function's name, the kind, the format and
/// the fields.
macro_rules! converted {
    ($($function:ident $kind:ident $format:ident { $($field:ident),* })*) => {
        $(fn $function(fields: $format) -> InstructionFields {
            InstructionFields::$kind(kits::$format { $($field: fields.$field),* })
        })*
    };
}

converted! {
    of_r R RType { funct7, rs2, rs1, funct3, rd }
    of_i I IType { imm, rs1, funct3, rd }
    of_shift IShamt ITypeShamt { funct7, shamt, rs1, funct3, rd }
    of_s S SType { imm, rs2, rs1, funct3 }
    of_b B BType { imm, rs2, rs1, funct3 }
    of_u U UType { imm, rd }
    of_j J JType { imm, rd }
}

/// The functions of rows of a format, each with the row's name.
macro_rules! rows {
    ($format:ident $converted:ident: $($function:ident $name:literal),*) => {
        $(fn $function(&mut self, fields: $format) -> Self::InstructionResult {
            ($name, $converted(fields))
        })*
    };
}

/// A processor of the original that returns the row's name and its fields.
struct Decoder;

impl InstructionProcessor for Decoder {
    type InstructionResult = (&'static str, InstructionFields);
    rows! { RType of_r: process_add "add", process_sub "sub", process_sll "sll", process_slt "slt",
    process_sltu "sltu", process_xor "xor", process_srl "srl", process_sra "sra", process_or "or",
    process_and "and", process_mul "mul", process_mulh "mulh", process_mulhu "mulhu",
    process_mulhsu "mulhsu", process_div "div", process_divu "divu", process_rem "rem",
    process_remu "remu" }
    rows! { IType of_i: process_addi "addi", process_slti "slti", process_sltui "sltiu",
    process_xori "xori", process_ori "ori", process_andi "andi", process_lb "lb", process_lbu "lbu",
    process_lh "lh", process_lhu "lhu", process_lw "lw", process_jalr "jalr", process_fence "fence" }
    rows! { ITypeShamt of_shift: process_slli "slli", process_srli "srli", process_srai "srai" }
    rows! { SType of_s: process_sb "sb", process_sh "sh", process_sw "sw" }
    rows! { BType of_b: process_beq "beq", process_bne "bne", process_blt "blt", process_bltu "bltu",
    process_bge "bge", process_bgeu "bgeu" }
    rows! { UType of_u: process_lui "lui", process_auipc "auipc" }
    rows! { JType of_j: process_jal "jal" }
}

/// Whether the original has the kit's row, fields and text of a word, or none where the kit has none.
pub fn is_same(word: u32, decoded: Option<Instruction>) -> bool {
    match (decoded, process_instruction(&mut Decoder, word)) {
        (None, None) => true,
        (Some(instruction), Some((name, fields))) => {
            let mut outputter = InstructionStringOutputter { insn_pc: PC };
            let text = process_instruction(&mut outputter, word);
            instruction.mnemonic() == name
                && instruction.fields() == fields
                && text.as_deref() == Some(Disassembled { instruction, pc: PC }.text().as_str())
        }
        _ => false,
    }
}
