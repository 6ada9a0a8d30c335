//! An instruction is a key of a map.

use rrs_kit::instruction::Instruction;

fn has<T: std::hash::Hash + Eq>() {}

fn main() {
    has::<Instruction>();
}
