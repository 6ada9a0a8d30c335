//! What Rust's users ask of a mistake beside the proved text.

use crate::SourceError;
use core::error::Error;

impl Eq for SourceError {}

impl Error for SourceError {}
