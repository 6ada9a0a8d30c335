//! What Rust's users ask of RAM beside the proved text.

use super::Ram;

impl Clone for Ram {
    fn clone(&self) -> Self {
        Ram {
            words: self.words.clone(),
        }
    }
}

impl PartialEq for Ram {
    fn eq(&self, other: &Self) -> bool {
        self.words == other.words
    }
}

impl Eq for Ram {}
