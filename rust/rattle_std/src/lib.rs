//! What the crates of `rrs-kit` name `std`.
//!
//! These crates are written in Rattle, whose library is Rust's but for three things: an allocator
//! is passed to what allocates ([`alloc`]), a call that allocates returns an error where memory ran
//! out ([`prelude`]), and the runtime is a value that is passed ([`rt`]). Each of them begins with
//! `extern crate rattle_std as std`, and its text stays as it is proved.
//!
//! Containers, readers and writers are Rust's own. Memory that ran out is an error by
//! `try_reserve`. A `Box`, a `BTreeMap`, a buffer and a sort stop the program instead, since Rust
//! has no call of theirs that returns.
//!
//! Without the feature `std` this crate needs `core` and `alloc` alone, and has what is of memory.

#![no_std]

#[cfg(target_pointer_width = "16")]
compile_error!("an address of 32 bits does not fit into a usize of 16");

extern crate alloc as heap;
#[cfg(feature = "std")]
extern crate std as host;

pub use core::*;
pub use heap::{borrow, boxed, collections, fmt, rc, slice, str, string};
#[cfg(feature = "std")]
pub use host::{ffi, os, path, sync};

#[cfg(feature = "std")]
mod ahead;
pub mod alloc;
pub mod casts;
#[cfg(feature = "std")]
pub mod env;
#[cfg(feature = "std")]
pub mod fs;
#[cfg(feature = "std")]
pub mod io;
mod macros;
pub mod prelude;
#[cfg(feature = "std")]
pub mod process;
pub mod rt;
pub mod test;
pub mod text;
#[cfg(feature = "std")]
pub mod time;

/// Vectors, of Rust's library.
pub mod vec {
    pub use heap::vec::*;
}

#[doc(hidden)]
pub use macros::hidden;
