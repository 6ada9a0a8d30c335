//! A space has a default.

use rrs_kit::memories::{MemorySpace, VecMemory};

fn main() {
    let space: MemorySpace<VecMemory> = Default::default();
    assert_eq!(space.regions().count(), 0);
}
