//! The reason of a stop is cloned.

use rrs_kit::trace::StopReason;

fn has<T: Clone>() {}

fn main() {
    has::<StopReason>();
}
