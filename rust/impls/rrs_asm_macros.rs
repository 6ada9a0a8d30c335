//! What Rust's users ask of a mistake beside the proved text.

use crate::MacroError;
use core::error::Error;

impl Error for MacroError {}
