//! How a test fails.

use core::fmt;
use heap::format;
use heap::string::{String, ToString};

/// Why a test failed. It has no `Debug`, so that by `?` each error that has one becomes a `Fail`.
pub struct Fail(String);

impl Fail {
    /// A failure with this text.
    pub fn new(why: fmt::Arguments<'_>) -> Fail {
        Fail(why.to_string())
    }
}

impl<E: fmt::Debug> From<E> for Fail {
    fn from(error: E) -> Fail {
        Fail(format!("{error:?}"))
    }
}

/// Panics with the text of a test that failed.
pub fn pass(outcome: Result<(), Fail>) {
    if let Err(Fail(why)) = outcome {
        panic!("{why}");
    }
}
