//! An exception is a key of a map.

use rrs_kit::instruction_executor::InstructionException;

fn has<T: Eq + std::hash::Hash>() {}

fn main() {
    has::<InstructionException>();
}
