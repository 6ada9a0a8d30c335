//! `write!` to a text.

use crate::alloc::AllocError;
use crate::prelude::TryString;
use core::fmt;
use heap::string::String;

/// What `write!` calls of a `String`, where `std::fmt::Write` is not imported.
pub trait WriteText {
    /// Appends what is formatted. Where memory ran out a beginning of it is appended.
    fn write_fmt(&mut self, what: fmt::Arguments<'_>) -> Result<(), AllocError>;
}

/// A text that grows by `try_reserve`.
struct Checked<'a>(&'a mut String);

impl fmt::Write for Checked<'_> {
    fn write_str(&mut self, text: &str) -> fmt::Result {
        self.0.try_push_str(text).map_err(|_| fmt::Error)
    }
}

impl WriteText for String {
    fn write_fmt(&mut self, what: fmt::Arguments<'_>) -> Result<(), AllocError> {
        fmt::write(&mut Checked(self), what).map_err(|_| AllocError)
    }
}
