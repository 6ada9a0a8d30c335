//! An exception is an error.

use rrs_kit::instruction_executor::InstructionException;

fn has<T: std::error::Error>() {}

fn main() {
    has::<InstructionException>();
}
