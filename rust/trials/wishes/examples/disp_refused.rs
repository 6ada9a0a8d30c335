//! A refusal has a text.

use rrs_kit::elf::Refused;

fn has<T: std::fmt::Display>() {}

fn main() {
    has::<Refused>();
}
