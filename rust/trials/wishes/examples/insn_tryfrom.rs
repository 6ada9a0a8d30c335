//! A word is made an instruction.

use rrs_kit::instruction::Instruction;

fn main() {
    assert!(Instruction::try_from(0x13u32).is_ok());
}
