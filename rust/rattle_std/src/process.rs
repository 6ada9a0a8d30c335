//! The end of the process.

use crate::rt::HostRuntime;
pub use host::process::*;

/// What a failed assertion ends the process by.
pub trait Abort {}

impl Abort for HostRuntime {}
