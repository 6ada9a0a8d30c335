//! A size is a number of bytes.

use rrs_kit::MemAccessSize;

fn main() {
    assert_eq!(MemAccessSize::Word.bytes(), 4);
}
