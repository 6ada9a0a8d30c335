//! A memory is cloned.

use rrs_kit::memories::VecMemory;

fn has<T: Clone>() {}

fn main() {
    has::<VecMemory>();
}
