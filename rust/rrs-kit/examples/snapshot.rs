//! Snapshots: a guest is run to where it asks for a number, and from there once for each answer, over a
//! copy of its memory and its hart.

use rrs_kit::HartState;
use rrs_kit::alloc::Global;
use rrs_kit::asm::{Layout, assemble_source};
use rrs_kit::fast::{CachedMemory, run_cached};
use rrs_kit::instruction_executor::{InstructionException, InstructionExecutor};
use rrs_kit::memories::VecMemory;

/// A guest that fills a table of squares, and is asked for one of them.
const SOURCE: &[u8] = b"
        la   s0, table
        li   t0, 0
fill:   mul  t1, t0, t0
        slli t2, t0, 2
        add  t2, t2, s0
        sw   t1, 0(t2)
        addi t0, t0, 1
        li   t1, 100
        bne  t0, t1, fill
        ecall                   # which one?
        slli a0, a0, 2
        add  a0, a0, s0
        lw   a0, 0(a0)
        ebreak
        .balign 4
table:  .zero 400
";

/// A guest at a moment.
#[derive(Clone, PartialEq)]
struct Guest {
    hart: HartState,
    memory: CachedMemory<VecMemory, 256>,
}

impl Guest {
    /// Runs it to its next exception.
    fn run(&mut self) -> Option<InstructionException> {
        let Guest { hart, memory } = self;
        run_cached(&mut InstructionExecutor { mem: memory, hart_state: hart }, 10_000).exception
    }
}

/// The answers from one snapshot.
pub fn report() -> String {
    let program = assemble_source(Global, SOURCE, Layout::flat(0)).expect("the source");
    let memory = CachedMemory::new(VecMemory::from_bytes(&program.sections[0].made.bytes));
    let mut guest = Guest { hart: HartState::new(), memory };
    let asked = guest.run();
    assert!(matches!(asked, Some(InstructionException::EnvironmentCall(_))));
    guest.hart.pc += 4;
    let snapshot = guest.clone();
    let mut lines = Vec::new();
    for number in [3, 50, 99] {
        let mut from_there = snapshot.clone();
        from_there.hart.write_register(10, number);
        from_there.run();
        lines.push(format!("{number}: {}", from_there.hart.read_register(10)));
        assert!(from_there != snapshot && guest == snapshot);
    }
    lines.join("\n")
}

fn main() {
    println!("{}", report());
}
