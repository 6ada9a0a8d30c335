//! The examples print what they must: the numbers are worked out by hand.
#![cfg(all(feature = "trace", feature = "asm"))]

#[allow(dead_code)]
#[path = "../examples/device.rs"]
mod device;
#[allow(dead_code)]
#[path = "../examples/fuzz.rs"]
mod fuzz;
#[allow(dead_code)]
#[path = "../examples/gas.rs"]
mod gas;
#[cfg(feature = "linux")]
#[allow(dead_code)]
#[path = "../examples/process.rs"]
mod process;
#[allow(dead_code)]
#[path = "../examples/sandbox.rs"]
mod sandbox;
#[allow(dead_code)]
#[path = "../examples/snapshot.rs"]
mod snapshot;
#[allow(dead_code)]
#[path = "../examples/transpiler.rs"]
mod transpiler;

#[test]
fn a_device_has_what_is_sent_back() {
    assert_eq!(device::report(), "HELLO, WORLD: 42");
}

/// The 8 letters of the argument and the byte behind them take 27 steps, and all else 20. The words
/// that a process decoded stand on the stack.
#[cfg(feature = "linux")]
#[test]
fn a_process_writes_and_ends() {
    let thread = std::thread::Builder::new().stack_size(16 << 20).spawn(process::report);
    assert_eq!(thread.unwrap().join().unwrap(), "out and in\nExit(2) after 47 steps");
}

/// 2 at first, 7 a round, 4 for the store: 30 pays for four rounds, and 41 for all.
#[test]
fn a_run_is_paid_for() {
    let wanted = "\
30: out of gas at 0x00000008, 0 left, 0
100: Breakpoint pc=0x0000001c, 59 left, 120";
    assert_eq!(gas::report(), wanted);
}

#[test]
fn both_engines_agree() {
    let said = fuzz::report(300);
    let numbers: Vec<u64> = said.split(' ').filter_map(|word| word.parse().ok()).collect();
    assert!(matches!(numbers[..], [300, 10_000..=1_000_000, 10_000..=15_000]), "{said}");
}

#[test]
fn a_snapshot_gives_each_answer() {
    assert_eq!(snapshot::report(), "3: 9\n50: 2500\n99: 9801");
}

/// 1 + .. + 100 is 5050, and x^3 + x + 1 times x^3 + x^2 + 1 over two elements is 127. The loop has
/// 100 rounds of 5 instructions, two of them accesses, and 8 instructions are around it.
#[test]
fn both_machines_leave_the_same_records() {
    let wanted = "revealed [5050, 127] in 508 records, 200 with an access";
    assert_eq!(transpiler::report(), wanted);
}

#[test]
fn a_guest_reaches_its_words_and_what_is_lent() {
    let wanted = "\
square(12) = Ok(144)
sums(lent, 4) = Ok(10)
lent = [1, 3, 6, 10]
poke(0x80000000, 7) = Ok(2147483648)
poke(0x00000000, 7) = Err(Raised(StoreAccessFault(0)))
poke(0x0000fffc, 7) = Err(Raised(StoreAccessFault(65532)))
poke(0x80000010, 7) = Err(Raised(StoreAccessFault(2147483664)))
poke(0xfffffff0, 7) = Err(Raised(StoreAccessFault(4294967280)))
spin() = Err(Limit)
none() = Err(NoFunction)
lent = [7, 3, 6, 10]";
    assert_eq!(sandbox::report(), wanted);
}
