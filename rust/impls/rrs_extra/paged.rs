//! What Rust's users ask of a memory of pages beside the proved text.

use super::{PageContents, PageError, PagedMemory};
use core::error::Error;
use std::fmt;

impl Clone for PageContents {
    fn clone(&self) -> Self {
        PageContents {
            words: self.words.clone(),
            read_only: self.read_only.clone(),
        }
    }
}

impl PartialEq for PageContents {
    fn eq(&self, other: &Self) -> bool {
        (&self.words, &self.read_only) == (&other.words, &other.read_only)
    }
}

impl Clone for PagedMemory {
    fn clone(&self) -> Self {
        PagedMemory {
            pages: self.pages.clone(),
        }
    }
}

/// The pages are the same, with their marks.
impl PartialEq for PagedMemory {
    fn eq(&self, other: &Self) -> bool {
        self.pages == other.pages
    }
}

impl Eq for PagedMemory {}

impl Clone for PageError {
    fn clone(&self) -> Self {
        *self
    }
}

impl Copy for PageError {}

impl Eq for PageError {}

impl fmt::Display for PageError {
    fn fmt(&self, f: &mut fmt::Formatter<'_>) -> fmt::Result {
        f.pad(match self {
            PageError::PageTaken => "there is a page of this number",
            PageError::OutOfMemory => "out of memory",
        })
    }
}

impl Error for PageError {}
