//! Two engines beside each other on random programs: the steps of the executor, and a run over a cache
//! of decoded words. They end in the same way, with the same hart and the same memory.
//!
//! A core or a simulator of one's own takes the place of one of them.

use rrs_kit::HartState;
use rrs_kit::encode::encode;
use rrs_kit::fast::{CachedMemory, run_cached};
use rrs_kit::instruction::Instruction;
use rrs_kit::instruction_executor::{InstructionExecutor, RunEnd};
use rrs_kit::memories::VecMemory;

/// The words of a program.
const WORDS: usize = 64;
/// The runs of a program, each from where the one before ended.
const ROUNDS: usize = 50;
/// The most steps of a run.
const LIMIT: u64 = 100;

/// Random numbers: SplitMix64.
struct Random(u64);

impl Random {
    fn next(&mut self) -> u32 {
        self.0 = self.0.wrapping_add(0x9e37_79b9_7f4a_7c15);
        let mixed = (self.0 ^ (self.0 >> 30)).wrapping_mul(0xbf58_476d_1ce4_e5b9);
        let mixed = (mixed ^ (mixed >> 27)).wrapping_mul(0x94d0_49bb_1331_11eb);
        (mixed ^ (mixed >> 31)) as u32
    }

    /// A word that is an instruction, with an immediate near 0 where it has one.
    fn instruction(&mut self) -> u32 {
        const OPCODES: [u32; 8] = [0x33, 0x13, 0x03, 0x23, 0x63, 0x6f, 0x67, 0x37];
        loop {
            let word = (self.next() & 0x81ff_ff80) | OPCODES[self.next() as usize % OPCODES.len()];
            if let Ok(found) = Instruction::try_from(word) {
                assert_eq!(encode(&found), Some(word));
                return word;
            }
        }
    }
}

/// How runs ended, the hart, and the memory.
type Outcome = (Vec<RunEnd>, HartState, VecMemory);

/// Where a hart goes on after an exception: at the next word, or at the first.
fn next_place(pc: u32) -> u32 {
    (pc.wrapping_add(4) & !3) % (4 * WORDS as u32)
}

/// The outcome by the cache.
fn by_cache(words: &[u32], mut hart: HartState) -> Outcome {
    let mut memory = CachedMemory::<_, 16>::new(VecMemory::new(words.to_vec()));
    let mut ends = Vec::new();
    for _ in 0..ROUNDS {
        let mut executor = InstructionExecutor { mem: &mut memory, hart_state: &mut hart };
        ends.push(run_cached(&mut executor, LIMIT));
        hart.pc = next_place(hart.pc);
    }
    (ends, hart, memory.into_memory())
}

/// The outcome by steps.
fn by_steps(words: &[u32], mut hart: HartState) -> Outcome {
    let mut memory = VecMemory::new(words.to_vec());
    let mut ends = Vec::new();
    for _ in 0..ROUNDS {
        let executor = InstructionExecutor { mem: &mut memory, hart_state: &mut hart };
        let answers: Vec<_> = executor.into_iter().take(LIMIT as usize).collect();
        let exception = answers.last().and_then(|answer| answer.err());
        let steps = answers.iter().filter(|answer| answer.is_ok()).count() as u64;
        ends.push(RunEnd { steps, exception });
        hart.pc = next_place(hart.pc);
    }
    (ends, hart, memory)
}

/// Runs as many programs. It panics where two outcomes differ.
pub fn report(programs: u64) -> String {
    let (mut steps, mut raised) = (0, 0);
    for seed in 0..programs {
        let mut random = Random(seed);
        let words: Vec<u32> = (0..WORDS).map(|_| random.instruction()).collect();
        let mut hart = HartState::new();
        for register in &mut hart.registers[1..] {
            *register = (random.next() % (4 * WORDS as u32)) & !3;
        }
        let outcome = by_cache(&words, hart.clone());
        assert_eq!(outcome, by_steps(&words, hart), "seed {seed}: {words:08x?}");
        steps += outcome.0.iter().map(|end| end.steps).sum::<u64>();
        raised += outcome.0.iter().filter(|end| end.exception.is_some()).count();
    }
    format!("{programs} programs, {steps} steps and {raised} exceptions: the same by both")
}

fn main() {
    println!("{}", report(2000));
}
