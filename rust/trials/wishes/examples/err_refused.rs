//! A refusal of the loader is an error.

use rrs_kit::elf::Refused;

fn has<T: std::error::Error>() {}

fn main() {
    has::<Refused>();
}
