//! A box of some memory is one.

use rrs_kit::Memory;

fn has<T: Memory>() {}

fn main() {
    has::<Box<dyn Memory>>();
    has::<Box<dyn Memory + Send>>();
}
