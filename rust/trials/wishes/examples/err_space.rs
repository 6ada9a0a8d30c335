//! A refused region is an error.

use rrs_kit::memories::MemorySpaceError;

fn has<T: std::error::Error>() {}

fn main() {
    has::<MemorySpaceError>();
}
