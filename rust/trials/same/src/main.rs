//! Steps, texts and runs of many words, from many states, as rrs-lib 0.1.0 makes them.
//!
//! usage: same
//!
//! It prints a number for each block of answers, over all that they have. `answers` has those of
//! the original. With the feature `original` each answer is compared with that of the original in
//! this process, and the first that differs is printed. Left out are the words of the two rows that
//! are stricter here.

use std::fmt::Debug;

mod cases;

/// The crate here: steps and texts by its signatures, and runs by the fast run of rrs-kit.
mod ours {
    use rrs_kit::fast::{CachedMemory, run_cached};
    use rrs_kit::instruction_executor as kit;
    use rrs_lib_compat as rrs_lib;

    include!("subject.rs");

    pub fn run(words: &[u32], registers: [u32; 32], limit: u64) -> Run {
        let mut memory: CachedMemory<_, 64> = CachedMemory::new(VecMemory::new(words.to_vec()));
        let mut hart = hart_at(registers, 0);
        let mut executor = kit::InstructionExecutor {
            mem: &mut memory,
            hart_state: &mut hart,
        };
        let ended = run_cached(&mut executor, limit);
        let end = ended.exception.map(InstructionException::from);
        let end = end.map(|exception| format!("{exception:?}"));
        let memory = memory.into_memory().mem;
        Run {
            steps: ended.steps,
            end,
            registers: hart.registers,
            pc: hart.pc,
            memory,
        }
    }
}

/// The original, in steps.
#[cfg(feature = "original")]
mod theirs {
    use original as rrs_lib;

    include!("subject.rs");

    pub fn run(words: &[u32], registers: [u32; 32], limit: u64) -> Run {
        let mut memory = VecMemory::new(words.to_vec());
        let mut hart = hart_at(registers, 0);
        let mut executor = InstructionExecutor {
            mem: &mut memory,
            hart_state: &mut hart,
        };
        let (mut steps, mut end) = (0, None);
        while steps < limit && end.is_none() {
            let pc = executor.hart_state.pc;
            let word = words_at(executor.mem.mem.as_slice(), pc);
            end = match word {
                _ if !pc.is_multiple_of(4) => Some(InstructionException::AlignmentFault(pc)),
                Some(word) if crate::cases::is_of_a_stricter_row(word) => {
                    Some(InstructionException::IllegalInstruction(pc, word))
                }
                _ => executor.step().err(),
            };
            steps += u64::from(end.is_none());
        }
        let end = end.map(|exception| format!("{exception:?}"));
        Run {
            steps,
            end,
            registers: hart.registers,
            pc: hart.pc,
            memory: memory.mem,
        }
    }

    fn words_at(words: &[u32], pc: u32) -> Option<u32> {
        words.get(pc as usize / 4).copied()
    }
}

/// What a step left, and the text of its word.
#[derive(Debug, PartialEq)]
pub struct Step {
    end: String,
    text: Option<String>,
    registers: [u32; 32],
    pc: u32,
    last: Option<usize>,
    memory: Vec<u32>,
}

/// What a run left. The register that was written last is left out.
#[derive(Debug, PartialEq)]
pub struct Run {
    steps: u64,
    end: Option<String>,
    registers: [u32; 32],
    pc: u32,
    memory: Vec<u32>,
}

/// A number over the answers of a block (FNV-1a, 64 bits).
struct Sum(u64);

impl Sum {
    fn add(&mut self, answer: &impl Debug) {
        for byte in format!("{answer:?}").bytes() {
            self.0 = (self.0 ^ u64::from(byte)).wrapping_mul(0x0000_0100_0000_01b3);
        }
    }
}

/// Prints a block: its answers are made by a function of the place of a case.
fn print_block(name: &str, block: u64, of: u64, mut add: impl FnMut(u64, &mut Sum)) {
    let mut sum = Sum(0xcbf2_9ce4_8422_2325);
    (block * of..(block + 1) * of).for_each(|place| add(place, &mut sum));
    println!("{name} {block} {:016x}", sum.0);
}

macro_rules! answer {
    ($function:ident($($argument:expr),*)) => {{
        let ours = ours::$function($($argument),*);
        #[cfg(feature = "original")]
        {
            let theirs = theirs::$function($($argument),*);
            assert_eq!(ours, theirs, "ours is on the left");
        }
        ours
    }};
}

fn main() {
    for block in 0..20 {
        print_block("steps", block, 10_000, |place, sum| {
            let case = cases::step_case(place);
            if !cases::is_of_a_stricter_row(case.words[4]) {
                sum.add(&answer!(step(&case.words, case.registers)));
            }
        });
    }
    let mut steps = 0;
    for block in 0..20 {
        print_block("runs", block, 300, |place, sum| {
            let case = cases::run_case(place);
            let run = answer!(run(&case.words, case.registers, 1000));
            steps += run.steps;
            sum.add(&run);
        });
    }
    println!("{steps} steps of runs");
}
