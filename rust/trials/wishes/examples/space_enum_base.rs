//! The regions of a space are listed.

use rrs_kit::alloc::Global;
use rrs_kit::memories::{MemorySpace, VecMemory};

fn main() {
    let space: MemorySpace<VecMemory> = MemorySpace::new(Global);
    for (base, size, _) in space.regions() {
        println!("0x{base:08x}: {size} bytes");
    }
}
