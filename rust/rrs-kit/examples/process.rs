//! A process of Linux: an executable with arguments and streams, run to its end.
//!
//! The executable is assembled here. One that a compiler made is `std::fs::read(PATH)`.

use rrs_kit::alloc::Global;
use rrs_kit::asm::assembly::executable_of;
use rrs_kit::asm::{Layout, assemble_source};
use rrs_kit::linux::exec::{NoProgress, ProcessOptions, environment, execute_process};

/// A program that writes its first argument and a line that it reads, and ends with the number of
/// its arguments as its status.
const SOURCE: &[u8] = b"
        .globl _start
_start: lw   s0, 0(sp)          # the number of arguments, with its name
        lw   a1, 8(sp)
        mv   a2, a1
length: lbu  t0, 0(a2)
        addi a2, a2, 1
        bnez t0, length
        addi a2, a2, -1
        sub  a2, a2, a1
        li   a0, 1
        li   a7, 64             # write
        ecall
        addi a1, sp, -64
        li   a2, 64
        li   a0, 0
        li   a7, 63             # read
        ecall
        mv   a2, a0
        li   a0, 1
        li   a7, 64
        ecall
        mv   a0, s0
        li   a7, 93             # exit
        ecall
";

/// What the program writes, and how it ends.
pub fn report() -> String {
    let program = assemble_source(Global, SOURCE, Layout::flat(0x1_0000)).expect("the source");
    let file = executable_of(Global, &program).expect("an executable");
    let (mut output, mut errors) = (Vec::new(), Vec::new());
    let mut streams = environment(&b"in\n"[..], &mut output, &mut errors);
    let options = ProcessOptions::new("echo").argument("out and ").memory(1 << 22).limit(1000);
    let end = execute_process(&file, &options, &mut streams, &mut NoProgress).expect("a process");
    let text = String::from_utf8_lossy(&output);
    format!("{text}{:?} after {} steps", end.ending, end.steps)
}

fn main() {
    println!("{}", report());
}
