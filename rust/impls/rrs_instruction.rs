//! What Rust's users ask of the fields of instructions beside the proved text.

use crate::instruction::{DataAccess, InstructionFields};
use crate::instruction_formats::{BType, IType, ITypeShamt, JType, RType, SType, UType};
use core::hash::{Hash, Hasher};

/// Equality is one of numbers, and a hash is that of all fields.
macro_rules! hashed {
    ($($format:ident { $($field:ident),* })*) => {
        $(impl Eq for $format {}

        impl Hash for $format {
            fn hash<H: Hasher>(&self, state: &mut H) {
                let $format { $($field),* } = self;
                $($field.hash(state);)*
            }
        })*
    };
}

hashed! {
    RType { funct7, rs2, rs1, funct3, rd }
    IType { imm, rs1, funct3, rd }
    ITypeShamt { funct7, shamt, rs1, funct3, rd }
    SType { imm, rs2, rs1, funct3 }
    BType { imm, rs2, rs1, funct3 }
    UType { imm, rd }
    JType { imm, rd }
}

impl Eq for InstructionFields {}

impl Hash for InstructionFields {
    fn hash<H: Hasher>(&self, state: &mut H) {
        core::mem::discriminant(self).hash(state);
        match self {
            InstructionFields::R(fields) => fields.hash(state),
            InstructionFields::I(fields) => fields.hash(state),
            InstructionFields::IShamt(fields) => fields.hash(state),
            InstructionFields::S(fields) => fields.hash(state),
            InstructionFields::B(fields) => fields.hash(state),
            InstructionFields::U(fields) => fields.hash(state),
            InstructionFields::J(fields) => fields.hash(state),
        }
    }
}

impl Eq for DataAccess {}

impl Hash for DataAccess {
    fn hash<H: Hasher>(&self, state: &mut H) {
        match *self {
            DataAccess::Load(bytes) => (false, bytes).hash(state),
            DataAccess::Store(bytes) => (true, bytes).hash(state),
        }
    }
}
