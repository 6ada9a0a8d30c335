//! A fault of a load is an error.

use rrs_kit::memories::LoadFault;

fn has<T: std::error::Error>() {}

fn main() {
    has::<LoadFault>();
}
