//! A memory that is borrowed is one.

use rrs_kit::Memory;
use rrs_kit::memories::VecMemory;

fn has<T: Memory>() {}

fn main() {
    has::<&mut VecMemory>();
}
