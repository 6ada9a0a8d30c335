#![doc = include_str!("../README.md")]

pub mod instruction_executor;
pub mod instruction_string_outputter;
pub mod memories;
pub mod process_instruction;
mod rows;

/// The fields of each format of instructions, and the opcodes.
pub mod instruction_formats {
    pub use rrs_kit::instruction_formats::*;
}

pub use process_instruction::process_instruction;
pub use rows::InstructionProcessor;
pub use rrs_kit::{HartState, MemAccessSize};
use std::any::Any;

/// What each `Memory` is, so that a `dyn Memory` can be asked for its type.
pub trait Downcast: Any {
    /// The value.
    fn as_any(&self) -> &dyn Any;
    /// The value, for writing.
    fn as_any_mut(&mut self) -> &mut dyn Any;
    /// The box.
    fn into_any(self: Box<Self>) -> Box<dyn Any>;
}

impl<T: Any> Downcast for T {
    fn as_any(&self) -> &dyn Any {
        self
    }

    fn as_any_mut(&mut self) -> &mut dyn Any {
        self
    }

    fn into_any(self: Box<Self>) -> Box<dyn Any> {
        self
    }
}

/// A memory: bytes at addresses, little-endian.
pub trait Memory: Downcast {
    /// Reads `size` bytes from `addr`, a multiple of the size. `None` where they are not there.
    fn read_mem(&mut self, addr: u32, size: MemAccessSize) -> Option<u32>;

    /// Writes the low `size` bytes of `store_data` to `addr`, a multiple of the size. `true` where
    /// they were written.
    fn write_mem(&mut self, addr: u32, size: MemAccessSize, store_data: u32) -> bool;
}

impl dyn Memory {
    /// Whether the memory is of a type.
    pub fn is<T: Memory>(&self) -> bool {
        self.as_any().is::<T>()
    }

    /// The memory, where it is of a type.
    pub fn downcast_ref<T: Memory>(&self) -> Option<&T> {
        self.as_any().downcast_ref()
    }

    /// The memory, for writing, where it is of a type.
    pub fn downcast_mut<T: Memory>(&mut self) -> Option<&mut T> {
        self.as_any_mut().downcast_mut()
    }

    /// The memory in its box, where it is of a type, and else the box.
    pub fn downcast<T: Memory>(self: Box<Self>) -> Result<Box<T>, Box<Self>> {
        if self.is::<T>() {
            Ok(self.into_any().downcast().expect("the type was asked for"))
        } else {
            Err(self)
        }
    }
}

/// A memory of this crate as one of `rrs-kit`, of which a read may do something.
struct Lent<'a, M: ?Sized>(&'a mut M);

impl<M: Memory + ?Sized> rrs_kit::Memory for Lent<'_, M> {
    #[inline]
    fn read_mem(&mut self, addr: u32, size: MemAccessSize) -> Option<u32> {
        self.0.read_mem(addr, size)
    }

    #[inline]
    fn write_mem(&mut self, addr: u32, size: MemAccessSize, store_data: u32) -> bool {
        self.0.write_mem(addr, size, store_data)
    }
}
