//! A loop makes the steps of an executor.

use rrs_kit::HartState;
use rrs_kit::instruction_executor::InstructionExecutor;
use rrs_kit::memories::VecMemory;

fn main() {
    let mut memory = VecMemory::new(vec![0x13; 4]);
    let mut hart = HartState::new();
    let executor = InstructionExecutor { mem: &mut memory, hart_state: &mut hart };
    for step in executor {
        println!("{step:?}");
    }
    assert_eq!(hart.pc, 16);
}
