//! A refused region has a text.

use rrs_kit::memories::MemorySpaceError;

fn has<T: std::fmt::Display>() {}

fn main() {
    has::<MemorySpaceError>();
}
