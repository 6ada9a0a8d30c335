//! How long a step and a text take: `cargo bench -p same`. With the feature `original`, by which
//! `rust/check --original` builds, rrs-lib 0.1.0 is beside them.
//!
//! Each way runs one loop, whose sum is known, and shows the same words, whose texts are as long
//! by each. A number is the median of rounds, in nanoseconds. It needs nothing of a registry.

use rrs_kit::HartState;
use rrs_kit::disassembly::Disassembled;
use rrs_kit::fast::{CachedMemory, DecodeCache, run_cached, step_cached};
use rrs_kit::instruction::decode;
use rrs_kit::instruction_executor::{InstructionExecutor, RunEnd};
use rrs_kit::memories::VecMemory;
use std::hint::black_box;
use std::time::Instant;

/// addi x1, x1, 1; lw x2, 32(x0); add x2, x2, x1; sw x2, 32(x0); jal x0, -16
const LOOP: [u32; 9] = [0x0010_8093, 0x0200_2103, 0x0011_0133, 0x0220_2023, 0xff1f_f06f, 0, 0, 0, 0];
/// How often the loop is run in a round, of 5 steps each.
const TURNS: u32 = 100_000;
const STEPS: u64 = 5 * TURNS as u64;
const ROUNDS: usize = 11;

/// The sum of 1 to `TURNS`, which the loop leaves at 32.
fn is_summed(words: &[u32]) -> bool {
    u64::from(words[8]) == u64::from(TURNS) * u64::from(TURNS + 1) / 2 % (1 << 32)
}

/// Prints the median of rounds, by item.
fn time(name: &str, items: u64, mut round: impl FnMut() -> bool) {
    let mut times: Vec<f64> = (0..ROUNDS)
        .map(|_| {
            let begun = Instant::now();
            assert!(round(), "{name}: another answer");
            begun.elapsed().as_nanos() as f64 / items as f64
        })
        .collect();
    times.sort_by(f64::total_cmp);
    println!("{name:<44} {:>8.2} ns", times[ROUNDS / 2]);
}

/// A round of the loop over a memory, by what makes the steps.
fn round(run: impl Fn(&mut InstructionExecutor<VecMemory>) -> u64) -> bool {
    let (mut memory, mut hart) = (VecMemory::new(LOOP.to_vec()), HartState::new());
    let mut executor = InstructionExecutor {
        mem: &mut memory,
        hart_state: &mut hart,
    };
    run(&mut executor) == STEPS && is_summed(&memory.mem)
}

/// The same over a memory with decoded words.
fn round_cached(run: impl Fn(&mut InstructionExecutor<CachedMemory<VecMemory, 64>>) -> u64) -> bool {
    let mut memory = CachedMemory::new(VecMemory::new(LOOP.to_vec()));
    let mut hart = HartState::new();
    let mut executor = InstructionExecutor {
        mem: &mut memory,
        hart_state: &mut hart,
    };
    run(&mut executor) == STEPS && is_summed(&memory.into_memory().mem)
}

/// The words of which texts are made.
fn words() -> impl Iterator<Item = u32> {
    (0..20_000_u32).map(|number| number.wrapping_mul(0x9e37_79b1) | 3)
}

/// What rrs-lib 0.1.0 and the crate with its signatures are asked in the same words.
macro_rules! with_signatures {
    ($name:ident, $library:ident) => {
        mod $name {
            use super::{LOOP, STEPS, is_summed, words};
            use $library::instruction_executor::InstructionExecutor;
            use $library::instruction_string_outputter::InstructionStringOutputter;
            use $library::memories::VecMemory;
            use $library::{HartState, process_instruction};

            pub fn steps() -> bool {
                let (mut memory, mut hart) = (VecMemory::new(LOOP.to_vec()), HartState::new());
                let mut executor = InstructionExecutor {
                    mem: &mut memory,
                    hart_state: &mut hart,
                };
                (0..STEPS).all(|_| executor.step().is_ok()) && is_summed(&memory.mem)
            }

            /// How many bytes the texts have.
            pub fn texts() -> usize {
                let mut outputter = InstructionStringOutputter { insn_pc: 0 };
                let texts = words().filter_map(|word| process_instruction(&mut outputter, word));
                texts.map(|text| text.len()).sum()
            }
        }
    };
}

with_signatures!(ours, rrs_lib_compat);
#[cfg(feature = "original")]
with_signatures!(theirs, original);

fn main() {
    let ended = |end: RunEnd| end.steps;
    time("a step: run_cached", STEPS, || {
        round_cached(|executor| ended(run_cached(executor, STEPS)))
    });
    time("a step: step_cached", STEPS, || {
        round_cached(|executor| {
            (0..STEPS)
                .filter(|_| step_cached(executor).is_ok())
                .count() as u64
        })
    });
    time("a step: DecodeCache::run", STEPS, || {
        round(|executor| ended(DecodeCache::new().run(executor, STEPS)))
    });
    time("a step: InstructionExecutor::run", STEPS, || {
        round(|executor| ended(executor.run(STEPS)))
    });
    time("a step: InstructionExecutor::step", STEPS, || {
        round(|executor| (0..STEPS).filter(|_| executor.step().is_ok()).count() as u64)
    });
    time("a step: compat", STEPS, ours::steps);
    #[cfg(feature = "original")]
    time("a step: rrs-lib 0.1.0", STEPS, theirs::steps);
    let found: Vec<_> = words().filter_map(decode).collect();
    let (texts, length) = (found.len() as u64, ours::texts());
    time("a text: Disassembled", texts, || {
        let shown = |&instruction| Disassembled { instruction, pc: 0 }.text().len();
        black_box(&found).iter().map(shown).sum::<usize>() == length
    });
    time("a text: compat", texts, || ours::texts() == length);
    #[cfg(feature = "original")]
    time("a text: rrs-lib 0.1.0", texts, || theirs::texts() > 0);
}
