//! A guest in a sandbox: functions of an executable are called by their names, with arguments, a limit
//! of steps, and a buffer that is lent for the call.
//!
//! The guest has two regions, its own words and the buffer. That it reaches nothing else is a theorem:
//! by the contract of `run_until` each access is one of its steps, and by that of `MemorySpace` each is
//! served by the region that has the address, or refused.

use rrs_kit::HartState;
use rrs_kit::alloc::Global;
use rrs_kit::asm::assembly::executable_of;
use rrs_kit::asm::{Layout, assemble_source};
use rrs_kit::elf::Executable;
use rrs_kit::instruction_executor::{InstructionException, InstructionExecutor};
use rrs_kit::memories::{MemorySpace, SliceMemory};
use rrs_kit::trace::{StopReason, run_until};

/// The guest's source. A compiler's executable serves as well.
const SOURCE: &[u8] = b"
_start: ebreak
square: mul  a0, a0, a0
        ret
sums:   mv   t0, a0             # each of a1 words at a0 becomes the sum up to it
        li   a0, 0
next:   beqz a1, done
        lw   t1, 0(t0)
        add  a0, a0, t1
        sw   a0, 0(t0)
        addi t0, t0, 4
        addi a1, a1, -1
        j    next
done:   ret
poke:   sw   a1, 0(a0)
        ret
spin:   j    spin
";

/// Where the guest's words lie, with its stack at their end.
const BASE: u32 = 0x1_0000;
const WORDS: usize = 0x4000;
/// Where a buffer lies during a call.
const LENT: u32 = 0x8000_0000;
/// Where a function returns to: no memory is there.
const RETURN: u32 = 0xffff_fff0;

/// Why a call has no result.
#[derive(Debug, PartialEq)]
pub enum Failure {
    /// The executable has no such symbol.
    NoFunction,
    /// The limit of steps is reached.
    Limit,
    /// The guest raised an exception, such as a store outside of its regions.
    Raised(InstructionException),
}

/// An executable with its words.
pub struct Guest<'a> {
    program: Executable<'a>,
    words: Vec<u32>,
}

impl<'a> Guest<'a> {
    /// Loads an executable.
    pub fn new(file: &'a [u8]) -> Result<Guest<'a>, String> {
        let program = Executable::parse(file).map_err(|error| error.to_string())?;
        let mut words = vec![0; WORDS];
        let loaded = program.load(&mut SliceMemory { words: &mut words, base: BASE });
        loaded.map_err(|refused| format!("no memory at 0x{:08x}", refused.address))?;
        Ok(Guest { program, words })
    }

    /// The address of a symbol.
    fn address_of(&self, name: &str) -> Option<u32> {
        let symbols = self.program.symbols().ok()??;
        let found = |&index: &u32| symbols.name(index) == Some(name.as_bytes());
        let index = (0..symbols.count()).find(found)?;
        Some(symbols.symbol(index)?.value)
    }

    /// Calls a function: the address of what is lent, if anything is, and the arguments are a0, a1, ..
    pub fn call(
        &mut self,
        name: &str,
        arguments: &[u32],
        lent: &mut [u32],
        limit: u64,
    ) -> Result<u32, Failure> {
        let mut hart = HartState::new();
        hart.pc = self.address_of(name).ok_or(Failure::NoFunction)?;
        hart.write_register(1, RETURN);
        hart.write_register(2, BASE + 4 * WORDS as u32);
        for (register, &argument) in (10..18).zip(arguments) {
            hart.write_register(register, argument);
        }
        let mut space = MemorySpace::new(Global);
        for (base, words) in [(BASE, &mut self.words[..]), (LENT, lent)] {
            let size = 4 * words.len() as u32;
            if size > 0 {
                let region = SliceMemory { words, base: 0 };
                space.add_memory(base, size, region).expect("two regions");
            }
        }
        let mut executor = InstructionExecutor { mem: &mut space, hart_state: &mut hart };
        match run_until(&mut executor, limit, &[RETURN]).reason {
            StopReason::AtStop => Ok(hart.read_register(10)),
            StopReason::Limit => Err(Failure::Limit),
            StopReason::Fault(exception) => Err(Failure::Raised(exception)),
        }
    }
}

/// Calls functions that return, and some that must not.
pub fn report() -> String {
    let program = assemble_source(Global, SOURCE, Layout::flat(BASE)).expect("a source");
    let file = executable_of(Global, &program).expect("an executable");
    let mut guest = Guest::new(&file).expect("an executable that fits");
    let mut lent = [1, 2, 3, 4];
    let mut lines = vec![
        format!("square(12) = {:?}", guest.call("square", &[12], &mut [], 100)),
        format!("sums(lent, 4) = {:?}", guest.call("sums", &[LENT, 4], &mut lent, 100)),
    ];
    lines.push(format!("lent = {lent:?}"));
    for address in [LENT, 0, BASE - 4, LENT + 16, RETURN] {
        let poked = guest.call("poke", &[address, 7], &mut lent, 100);
        lines.push(format!("poke(0x{address:08x}, 7) = {poked:?}"));
    }
    lines.push(format!("spin() = {:?}", guest.call("spin", &[], &mut [], 1_000_000)));
    lines.push(format!("none() = {:?}", guest.call("none", &[], &mut [], 100)));
    lines.push(format!("lent = {lent:?}"));
    lines.join("\n")
}

fn main() {
    println!("{}", report());
}
