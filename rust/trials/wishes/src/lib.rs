//! The examples of this package are programs of one line each, as Rust's users write them. Three
//! more do not compile. Each of them stands here with the reason, and with what does.
//!
//! `exec_dyn`: a `dyn Memory` is none of the memories of an executor, whose type is that of
//! `rrs-lib` 0.1.0. A `&mut dyn Memory` is.
//!
//! ```compile_fail,E0277
//! # use rrs_kit::{HartState, Memory, instruction_executor::InstructionExecutor};
//! fn step(memory: &mut dyn Memory, hart: &mut HartState) {
//!     let _ = InstructionExecutor { mem: memory, hart_state: hart }.step();
//! }
//! ```
//!
//! ```
//! # use rrs_kit::{HartState, Memory, instruction_executor::InstructionExecutor};
//! fn step(mut memory: &mut dyn Memory, hart: &mut HartState) {
//!     let _ = InstructionExecutor { mem: &mut memory, hart_state: hart }.step();
//! }
//! ```
//!
//! `insn_display`: an instruction alone has no text, since that of a branch has its target, and so
//! depends on the pc.
//!
//! ```compile_fail,E0277
//! # use rrs_kit::instruction::Instruction;
//! fn has<T: std::fmt::Display>() {}
//! has::<Instruction>();
//! ```
//!
//! ```
//! # use rrs_kit::disassembly::Disassembled;
//! fn has<T: std::fmt::Display>() {}
//! has::<Disassembled>();
//! ```
//!
//! `send_boxed`: what is in a `BoxedMemory` may stay in its thread, by the type of its field in the
//! proved text. A box of what may go to another thread is a memory too.
//!
//! ```compile_fail,E0277
//! # use rrs_kit::memories::BoxedMemory;
//! fn has<T: Send>() {}
//! has::<BoxedMemory>();
//! ```
//!
//! ```
//! # use rrs_kit::Memory;
//! fn has<T: Memory + Send>() {}
//! has::<Box<dyn Memory + Send>>();
//! ```
