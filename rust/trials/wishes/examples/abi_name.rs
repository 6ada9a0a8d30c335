//! A register has a name.

use rrs_kit::instruction_formats::abi_name;

fn main() {
    assert_eq!(abi_name(2), Some("sp"));
}
