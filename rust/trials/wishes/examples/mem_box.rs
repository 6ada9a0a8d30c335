//! A box of a memory is one.

use rrs_kit::Memory;
use rrs_kit::memories::VecMemory;

fn has<T: Memory>() {}

fn main() {
    has::<Box<VecMemory>>();
}
