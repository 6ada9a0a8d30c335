#![doc = include_str!("../README.md")]
#![no_std]
// docs.rs shows with each item the feature that it needs
#![cfg_attr(docsrs, feature(doc_cfg))]

mod bytes;
#[cfg(feature = "linux")]
mod processes;
mod registers;

pub use bytes::{BytesRefused, MemoryExt};
pub use rrs_instruction::arithmetic;
pub use rrs_lib::*;

/// The formats of instructions, their opcodes, and the names of registers.
pub mod instruction_formats {
    pub use crate::registers::abi_name;
    pub use rrs_lib::instruction_formats::*;
}

#[doc(inline)]
pub use rrs_fast as fast;

#[doc(inline)]
pub use rrs_encode as encode;

#[doc(inline)]
pub use rrs_extra as extra;

/// The allocator that is passed to what allocates, and the error where memory ran out.
pub mod alloc {
    #[doc(inline)]
    pub use rattle_std::alloc::{AllocError, Global};
}

/// The runtime of the host, which is passed to what reaches files, streams and clocks. Feature
/// `std`.
#[cfg(feature = "std")]
pub mod rt {
    #[doc(inline)]
    pub use rattle_std::rt::{AllocGlobal, Env, Eprint, Files, HostRuntime, Print};
}

/// Feature `trace`.
#[cfg(feature = "trace")]
#[doc(inline)]
pub use rrs_trace as trace;

/// Feature `elf`.
#[cfg(feature = "elf")]
#[doc(inline)]
pub use rrs_elf as elf;

/// A hart with what a [HartProfile](hart::HartProfile) has beside the 48 rows: extension A,
/// `fence.i`, misaligned accesses, compressed code, and Zba to Zicond. Feature `hart`.
///
/// [run_hart](hart::run_hart) decodes each instruction. [run_layers_cached](fast::run_layers_cached)
/// makes the same run over a [CachedMemory](fast::CachedMemory), which keeps instructions of 2 and of
/// 4 bytes.
/// [fetch_in](hart::fetch_in) and [execute_in](hart::execute_in) are a step in two parts, for a
/// caller that looks at the instruction between them.
#[cfg(feature = "hart")]
pub mod hart {
    #[doc(inline)]
    pub use rrs_hart::*;
    #[doc(inline)]
    pub use rrs_words::LayerInstruction;
}

/// Machine mode: CSRs, traps and interrupts. Feature `machine`.
#[cfg(feature = "machine")]
pub mod machine {
    #[doc(inline)]
    pub use rrs_board as board;
    #[doc(inline)]
    pub use rrs_machine::*;

    /// The CSRs: their numbers, and what they keep.
    pub mod csrs {
        pub use rrs_machine::csrs::*;
        pub use rrs_words::csrs::*;
    }
    /// The instructions of machine mode.
    pub mod instructions {
        #[doc(inline)]
        pub use rrs_words::{SystemInstruction, SystemRow, decode_system};
    }
    /// The words and texts of the instructions of machine mode, and records of its steps.
    pub mod system {
        #[doc(inline)]
        pub use rrs_machine::{CsrAccess, MachineRetired, step_machine_retired};
        #[doc(inline)]
        pub use rrs_words::{
            AtomicInstruction, AtomicRow, BitExtension, BitInstruction, BitOperand, BitRow,
            LayerInstruction, LayerText, atomic_named, atomic_text, bit_text, decode_atomic,
            decode_bits, decode_layer, encode_atomic, encode_bits, encode_layer, encode_system,
            laws, layer_text, system_text,
        };
    }
}

/// The calls of Linux. Feature `linux`.
#[cfg(feature = "linux")]
pub mod linux {
    #[doc(inline)]
    pub use rrs_linux::*;

    /// A process from its executable to its end.
    ///
    /// [`execute_process`](exec::execute_process) runs one by a record of options, and
    /// [`watch_process`](exec::watch_process) shows each of its steps.
    pub mod exec {
        pub use crate::processes::{ProcessOptions, environment, execute_process, watch_process};
        #[doc(inline)]
        pub use rrs_exec::*;
    }
    /// Environments, which serve the `ecall`s of a run.
    pub mod env {
        #[doc(inline)]
        pub use rrs_fast::{Ending, Environment, ServedEnd, run_served};
    }
    /// The image of a process: its segments, its stack and its rights.
    pub mod process {
        #[doc(inline)]
        pub use rrs_exec::{
            Image, ImageError, Layout, PAGE_BYTES, PageRange, ProgramHeaders, ProtectedMemory,
            Protection, image_of, initial_stack, layout_of, marks_of, stack_pointer,
        };
    }
}

/// The remote protocol of gdb. Feature `gdb`.
#[cfg(feature = "gdb")]
pub mod gdb {
    #[doc(inline)]
    pub use rrs_gdb::*;
    #[doc(inline)]
    pub use rrs_history as history;
}

/// An assembler in the words of GNU `as`. Feature `asm`.
#[cfg(feature = "asm")]
pub mod asm {
    #[doc(inline)]
    pub use rrs_asm::*;
    #[doc(inline)]
    pub use rrs_asm_lines as lines;
    #[doc(inline)]
    pub use rrs_asm_macros as macros;
    #[doc(inline)]
    pub use rrs_asm_output as assembly;
}
