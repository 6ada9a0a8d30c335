//! What Rust's users ask of a kind of mistake beside the proved text.

use crate::SourceErrorKind;
use core::error::Error;

impl Eq for SourceErrorKind {}

impl Error for SourceErrorKind {}
