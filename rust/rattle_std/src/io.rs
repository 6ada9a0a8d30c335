//! Readers and writers, which are Rust's, and a writer to standard output, by a runtime.

use crate::rt::Print;
use core::marker::PhantomData;
pub use host::io::*;

/// What may be a terminal.
pub trait IsTerminal {
    /// Whether it is one.
    fn is_terminal(&self) -> bool;
}

/// A writer to standard output, through the buffer of Rust's library.
pub struct Printer<'a, R>(PhantomData<&'a R>);

/// A writer to standard output.
pub fn writer<R: Print>(_: &R) -> Printer<'_, R> {
    Printer(PhantomData)
}

impl<R: Print> Write for Printer<'_, R> {
    fn write(&mut self, bytes: &[u8]) -> Result<usize> {
        stdout().write(bytes)
    }

    fn flush(&mut self) -> Result<()> {
        stdout().flush()
    }
}
