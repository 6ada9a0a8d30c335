//! What Rust's users ask of the ends of runs beside the proved text.

use crate::{StopEnd, StopReason};

impl Clone for StopReason {
    fn clone(&self) -> Self {
        *self
    }
}

impl Copy for StopReason {}

impl Eq for StopReason {}

impl Clone for StopEnd {
    fn clone(&self) -> Self {
        *self
    }
}

impl Copy for StopEnd {}

impl Eq for StopEnd {}
