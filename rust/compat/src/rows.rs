//! The rows of the original: each has a name, a function, and a format.

use crate::instruction_formats::{BType, IType, ITypeShamt, JType, RType, SType, UType};

/// Gives a macro the rows.
macro_rules! for_each_row {
    ($make:ident) => {
        $make! {
            Add process_add RType, Sub process_sub RType, Sll process_sll RType,
            Slt process_slt RType, Sltu process_sltu RType, Xor process_xor RType,
            Srl process_srl RType, Sra process_sra RType, Or process_or RType,
            And process_and RType, Addi process_addi IType, Slli process_slli ITypeShamt,
            Slti process_slti IType, Sltiu process_sltui IType, Xori process_xori IType,
            Srli process_srli ITypeShamt, Srai process_srai ITypeShamt, Ori process_ori IType,
            Andi process_andi IType, Lui process_lui UType, Auipc process_auipc UType,
            Beq process_beq BType, Bne process_bne BType, Blt process_blt BType,
            Bltu process_bltu BType, Bge process_bge BType, Bgeu process_bgeu BType,
            Lb process_lb IType, Lbu process_lbu IType, Lh process_lh IType,
            Lhu process_lhu IType, Lw process_lw IType, Sb process_sb SType,
            Sh process_sh SType, Sw process_sw SType, Jal process_jal JType,
            Jalr process_jalr IType, Mul process_mul RType, Mulh process_mulh RType,
            Mulhu process_mulhu RType, Mulhsu process_mulhsu RType, Div process_div RType,
            Divu process_divu RType, Rem process_rem RType, Remu process_remu RType,
            Fence process_fence IType,
        }
    };
}
pub(crate) use for_each_row;

macro_rules! declare {
    ($($row:ident $function:ident $format:ident,)*) => {
        /// Something that is done with instructions. Each row has a function.
        pub trait InstructionProcessor {
            /// What each function returns.
            type InstructionResult;

            $(
                #[doc = concat!("What is done with an instruction `", stringify!($row), "`.")]
                fn $function(&mut self, dec_insn: $format) -> Self::InstructionResult;
            )*
        }
    };
}
for_each_row!(declare);

/// Implements the functions of [`InstructionProcessor`] by one, `handle`, of an `Instruction`.
macro_rules! by_handle {
    ($($row:ident $function:ident $format:ident,)*) => {
        $(
            fn $function(
                &mut self,
                dec_insn: $crate::instruction_formats::$format,
            ) -> Self::InstructionResult {
                self.handle(rrs_kit::instruction::Instruction::$row(dec_insn))
            }
        )*
    };
}
pub(crate) use by_handle;

#[cfg(test)]
mod tests {
    use super::InstructionProcessor;
    use crate::instruction_formats::{BType, IType, ITypeShamt, JType, RType, SType, UType};
    use crate::instruction_string_outputter::InstructionStringOutputter;
    use crate::process_instruction;

    /// A word of each row, and the row's name, by GNU as.
    #[rustfmt::skip]
    const WORDS: [(u32, &str); 46] = [
        (0x0020_81b3, "add"), (0x4020_81b3, "sub"), (0x0020_91b3, "sll"), (0x0020_a1b3, "slt"),
        (0x0020_b1b3, "sltu"), (0x0020_c1b3, "xor"), (0x0020_d1b3, "srl"), (0x4020_d1b3, "sra"),
        (0x0020_e1b3, "or"), (0x0020_f1b3, "and"), (0x0020_8193, "addi"), (0x0020_9193, "slli"),
        (0x0020_a193, "slti"), (0x0020_b193, "sltiu"), (0x0020_c193, "xori"), (0x0020_d193, "srli"),
        (0x4020_d193, "srai"), (0x0020_e193, "ori"), (0x0020_f193, "andi"), (0x0000_21b7, "lui"),
        (0x0000_2197, "auipc"), (0x0020_8463, "beq"), (0x0020_9463, "bne"), (0x0020_c463, "blt"),
        (0x0020_e463, "bltu"), (0x0020_d463, "bge"), (0x0020_f463, "bgeu"), (0x0040_8183, "lb"),
        (0x0040_c183, "lbu"), (0x0040_9183, "lh"), (0x0040_d183, "lhu"), (0x0040_a183, "lw"),
        (0x0020_8223, "sb"), (0x0020_9223, "sh"), (0x0020_a223, "sw"), (0x0080_01ef, "jal"),
        (0x0040_81e7, "jalr"), (0x0220_81b3, "mul"), (0x0220_91b3, "mulh"), (0x0220_b1b3, "mulhu"),
        (0x0220_a1b3, "mulhsu"), (0x0220_c1b3, "div"), (0x0220_d1b3, "divu"), (0x0220_e1b3, "rem"),
        (0x0220_f1b3, "remu"), (0x0ff0_000f, "fence"),
    ];

    /// Returns the name of the function that is called, and the text that the outputter's function
    /// of that name returns.
    struct Namer;

    macro_rules! by_name {
        ($($row:ident $function:ident $format:ident,)*) => {
            $(
                fn $function(&mut self, dec_insn: $format) -> Self::InstructionResult {
                    let text = InstructionStringOutputter { insn_pc: 0 }.$function(dec_insn);
                    (stringify!($function), text)
                }
            )*
        };
    }

    impl InstructionProcessor for Namer {
        type InstructionResult = (&'static str, String);

        for_each_row!(by_name);
    }

    #[test]
    fn each_word_calls_the_function_of_its_row() {
        for (word, name) in WORDS {
            let (function, text) = process_instruction(&mut Namer, word).unwrap();
            let wanted = if name == "sltiu" { "sltui" } else { name };
            assert_eq!(function.strip_prefix("process_"), Some(wanted));
            assert_eq!(text.split(' ').next(), Some(name));
        }
    }
}
