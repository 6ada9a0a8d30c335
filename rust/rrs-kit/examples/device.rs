//! A device beside RAM: a serial line with a byte to read, a byte to write, and a status, which the
//! host fills and empties between two runs.

use rrs_kit::HartState;
use rrs_kit::alloc::Global;
use rrs_kit::asm::{Layout, assemble_source};
use rrs_kit::fast::DecodeCache;
use rrs_kit::instruction_executor::{InstructionException, InstructionExecutor};
use rrs_kit::memories::{MemorySpace, VecMemory};
use rrs_kit::{MemAccessSize, Memory};
use std::cell::RefCell;
use std::collections::VecDeque;
use std::rc::Rc;

/// A guest that sends each byte back in capitals, and stops where there is none.
const SOURCE: &[u8] = b"
        li   s0, 0x10000000
next:   lbu  t0, 1(s0)          # whether there is a byte
        beqz t0, done
        lbu  a0, 0(s0)          # takes it
        addi t1, a0, -'a'
        sltiu t1, t1, 26
        slli t1, t1, 5
        sub  a0, a0, t1
        sb   a0, 0(s0)
        j    next
done:   ebreak
";

/// The serial line. Its bytes are shared with the host.
#[derive(Default)]
struct Serial {
    received: VecDeque<u8>,
    sent: Vec<u8>,
}

impl Memory for Serial {
    fn read_mem(&mut self, addr: u32, size: MemAccessSize) -> Option<u32> {
        match (addr, size) {
            (0, MemAccessSize::Byte) => Some(self.received.pop_front().unwrap_or(0).into()),
            (1, MemAccessSize::Byte) => Some((!self.received.is_empty()).into()),
            _ => None,
        }
    }

    fn write_mem(&mut self, addr: u32, size: MemAccessSize, data: u32) -> bool {
        let is_served = addr == 0 && size == MemAccessSize::Byte;
        if is_served {
            self.sent.push(data as u8);
        }
        is_served
    }
}

/// A handle of the line: the space owns one, and the host another.
#[derive(Clone, Default)]
struct Line(Rc<RefCell<Serial>>);

impl Memory for Line {
    fn read_mem(&mut self, addr: u32, size: MemAccessSize) -> Option<u32> {
        self.0.borrow_mut().read_mem(addr, size)
    }

    fn write_mem(&mut self, addr: u32, size: MemAccessSize, data: u32) -> bool {
        self.0.borrow_mut().write_mem(addr, size, data)
    }
}

/// What the guest sends back of two lines.
pub fn report() -> String {
    let program = assemble_source(Global, SOURCE, Layout::flat(0)).expect("the source");
    let ram = VecMemory::from_bytes(&program.sections[0].made.bytes);
    let (size, line) = (4 * ram.mem.len() as u32, Line::default());
    let mut space: MemorySpace<Box<dyn Memory>> = MemorySpace::new(Global);
    space.add_memory(0, size, Box::new(ram)).expect("the first region");
    space.add_memory(0x1000_0000, 4, Box::new(line.clone())).expect("another address");
    let mut cache = DecodeCache::new();
    for text in ["hello, ", "world: 42"] {
        line.0.borrow_mut().received.extend(text.bytes());
        let mut hart = HartState::new();
        let mut executor = InstructionExecutor { mem: &mut space, hart_state: &mut hart };
        let end = cache.run(&mut executor, 10_000);
        assert!(matches!(end.exception, Some(InstructionException::Breakpoint(_))));
    }
    String::from_utf8_lossy(&line.0.borrow().sent).into_owned()
}

fn main() {
    println!("{}", report());
}
