//! A memory is made of bytes.

use rrs_kit::memories::VecMemory;

fn main() {
    let memory = VecMemory::from_bytes(&[1, 2, 3, 4]);
    assert_eq!(memory.mem, [0x0403_0201]);
}
