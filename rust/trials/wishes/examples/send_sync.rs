//! What a run needs may go to another thread.

use rrs_kit::HartState;
use rrs_kit::fast::CachedMemory;
use rrs_kit::memories::{MemorySpace, VecMemory};

fn has<T: Send + Sync>() {}

fn main() {
    has::<MemorySpace<VecMemory>>();
    has::<CachedMemory<VecMemory, 1024>>();
    has::<HartState>();
}
