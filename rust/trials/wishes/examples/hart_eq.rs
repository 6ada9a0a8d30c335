//! A hart is compared.

use rrs_kit::HartState;

fn has<T: PartialEq>() {}

fn main() {
    has::<HartState>();
}
