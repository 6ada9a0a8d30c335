//! What Rust's users ask of the executor beside the proved text.

use super::{InstructionException, InstructionExecutor, RunEnd, StepEnd};
use crate::Memory;
use core::error::Error;
use core::hash::{Hash, Hasher};
use core::iter::FusedIterator;

impl Eq for InstructionException {}

impl Hash for InstructionException {
    fn hash<H: Hasher>(&self, state: &mut H) {
        core::mem::discriminant(self).hash(state);
        match *self {
            Self::IllegalInstruction(pc, word) => (pc, word).hash(state),
            Self::FetchError(address)
            | Self::LoadAccessFault(address)
            | Self::StoreAccessFault(address)
            | Self::AlignmentFault(address)
            | Self::EnvironmentCall(address)
            | Self::Breakpoint(address) => address.hash(state),
        }
    }
}

impl Error for InstructionException {}

impl Clone for RunEnd {
    fn clone(&self) -> Self {
        *self
    }
}

impl Copy for RunEnd {}

impl Eq for RunEnd {}

impl Eq for StepEnd {}

/// The steps of an executor, up to the first that is an exception.
pub struct Steps<'a, M: Memory> {
    executor: Option<InstructionExecutor<'a, M>>,
}

impl<M: Memory> Iterator for Steps<'_, M> {
    type Item = Result<(), InstructionException>;

    /// Makes a step, and returns what it returns. After an exception none is made.
    fn next(&mut self) -> Option<Self::Item> {
        let answer = self.executor.as_mut()?.step();
        if answer.is_err() {
            self.executor = None;
        }
        Some(answer)
    }
}

impl<M: Memory> FusedIterator for Steps<'_, M> {}

/// A loop over an executor makes its steps, up to the first that is an exception.
impl<'a, M: Memory> IntoIterator for InstructionExecutor<'a, M> {
    type Item = Result<(), InstructionException>;
    type IntoIter = Steps<'a, M>;

    fn into_iter(self) -> Steps<'a, M> {
        Steps {
            executor: Some(self),
        }
    }
}
