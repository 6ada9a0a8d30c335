//! A hart is cloned.

use rrs_kit::HartState;

fn has<T: Clone>() {}

fn main() {
    has::<HartState>();
}
