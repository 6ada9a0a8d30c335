//! A refused page is an error.

use rrs_kit::extra::PageError;

fn has<T: std::error::Error>() {}

fn main() {
    has::<PageError>();
}
