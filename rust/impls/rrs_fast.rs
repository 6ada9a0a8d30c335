//! What Rust's users ask of a memory with decoded words, and of the ends of runs, beside the proved
//! text.

use crate::{CachedMemory, Ending, ServedEnd, ZeroWords};
use rrs_lib::Memory;
use rrs_lib::memories::VecMemory;
use std::vec::Vec;

/// The memory is cloned. Of the words of the clone none is known yet.
impl<M: Memory + Clone, const N: usize> Clone for CachedMemory<M, N> {
    fn clone(&self) -> Self {
        CachedMemory::new(self.memory().clone())
    }
}

/// The memories are the same. Which words are known is not compared.
impl<M: Memory + PartialEq, const N: usize> PartialEq for CachedMemory<M, N> {
    fn eq(&self, other: &Self) -> bool {
        self.memory() == other.memory()
    }
}

impl<M: Memory + Eq, const N: usize> Eq for CachedMemory<M, N> {}

/// The clone has room for as many words.
impl Clone for ZeroWords {
    fn clone(&self) -> Self {
        let mut words = Vec::with_capacity(self.room);
        words.extend_from_slice(&self.words.mem);
        ZeroWords {
            words: VecMemory::new(words),
            room: self.room,
        }
    }
}

/// There is room for as many words, and each is the same. One that is not there is 0.
impl PartialEq for ZeroWords {
    fn eq(&self, other: &Self) -> bool {
        let (one, other_words) = (&self.words.mem, &other.words.mem);
        let both = one.len().min(other_words.len());
        let mut rest = one[both..].iter().chain(&other_words[both..]);
        self.room == other.room && one[..both] == other_words[..both] && rest.all(|&word| word == 0)
    }
}

impl Eq for ZeroWords {}

impl Clone for Ending {
    fn clone(&self) -> Self {
        *self
    }
}

impl Copy for Ending {}

impl Eq for Ending {}

impl Clone for ServedEnd {
    fn clone(&self) -> Self {
        *self
    }
}

impl Copy for ServedEnd {}

impl Eq for ServedEnd {}
