//! The end of a run is cloned.

use rrs_kit::instruction_executor::RunEnd;

fn has<T: Clone>() {}

fn main() {
    has::<RunEnd>();
}
