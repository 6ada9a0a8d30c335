//! Bytes are read in a row.

use rrs_kit::MemoryExt;
use rrs_kit::memories::VecMemory;

fn main() {
    let mut memory = VecMemory::new(vec![1]);
    assert!(memory.read_bytes(0, &mut [0; 4]).is_ok());
}
