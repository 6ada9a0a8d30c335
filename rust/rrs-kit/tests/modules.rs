//! Each module of the kit is the one that its name says.

use rrs_kit::alloc::Global;
use rrs_kit::extra::PagedMemory;
use rrs_kit::{MemAccessSize, Memory, arithmetic, encode, instruction};

#[test]
fn words_are_encoded_and_computed_and_a_page_is_none() {
    let found = instruction::decode(0x0031_00b3).as_ref().and_then(encode::encode);
    let read = PagedMemory::new(Global).read_mem(0, MemAccessSize::Byte);
    let seen = (found, read, arithmetic::sub(1, 2));
    assert_eq!(seen, (Some(0x0031_00b3), None, u32::MAX));
}

/// The runtime of the host has all that the kit names of it.
#[cfg(feature = "std")]
#[test]
fn the_runtime_opens_files() {
    use rrs_kit::rt::{AllocGlobal, Env, Eprint, Files, HostRuntime, Print};
    fn has_all(_: &(impl AllocGlobal + Env + Eprint + Files + Print)) {}
    has_all(&HostRuntime::new());
}

/// The sum of 5 to 1 in x11, by compressed code: c.li x10, 5; c.add x11, x10; c.addi x10, -1;
/// c.bnez x10, -4; c.nop; fence.i; ecall.
#[cfg(feature = "hart")]
const COMPRESSED: [u32; 5] = [0x95aa_4515, 0xfd75_157d, 0x100f_0001, 0x0073_0000, 0];

/// A run of it that decodes, one that keeps instructions, and steps in two parts end alike, at the
/// `ecall`: after 18 steps, of which 17 are of 16 bits. A hart without `fence.i` ends at it, and to
/// one without compressed code the first word is illegal.
#[cfg(feature = "hart")]
#[test]
fn compressed_code_runs_in_each_way() {
    use rrs_kit::fast::{CachedMemory, run_layers_cached};
    use rrs_kit::hart::{Encoding, HartProfile, execute_in, fetch_in, run_hart};
    use rrs_kit::instruction_executor::{InstructionException, InstructionExecutor};
    use rrs_kit::{HartState, memories::VecMemory};
    type Run<'a> = &'a mut dyn FnMut(&mut InstructionExecutor<VecMemory>, HartProfile) -> u64;
    let none = HartProfile::no_layers();
    let all = HartProfile { fence_i: true, compressed: true, ..none };
    let after = |run: Run, profile| {
        let (mut memory, mut hart) = (VecMemory::new(COMPRESSED.to_vec()), HartState::new());
        let mut executor = InstructionExecutor { mem: &mut memory, hart_state: &mut hart };
        let steps = run(&mut executor, profile);
        (steps, hart.pc, hart.read_register(11))
    };
    let mut decoded = |executor: &mut InstructionExecutor<VecMemory>, profile| {
        run_hart(executor, &mut None, profile, 99).steps
    };
    let mut kept = |executor: &mut InstructionExecutor<VecMemory>, profile| {
        let mut memory = CachedMemory::<_, 8>::new(VecMemory::new(COMPRESSED.to_vec()));
        let hart_state = &mut *executor.hart_state;
        let mut cached = InstructionExecutor { mem: &mut memory, hart_state };
        run_layers_cached(&mut cached, &mut None, profile, 99).steps
    };
    let (mut short, mut last) = (0, None);
    let mut parted = |executor: &mut InstructionExecutor<VecMemory>, profile| {
        for steps in 0..99 {
            let (memory, hart) = (&mut *executor.mem, &mut *executor.hart_state);
            let done = fetch_in(memory, profile, hart.pc).and_then(|encoding| {
                short += u32::from(matches!(encoding, Encoding::Short(_)));
                execute_in(memory, hart, &mut None, profile, encoding)
            });
            if let Err(exception) = done {
                last = Some(exception);
                return steps;
            }
        }
        99
    };
    for run in [&mut decoded as Run, &mut kept, &mut parted] {
        assert_eq!(after(run, all), (18, 14, 15));
        assert_eq!(after(run, HartProfile { fence_i: false, ..all }), (17, 10, 15));
        assert_eq!(after(run, none), (0, 0, 0));
    }
    assert_eq!((short, last), (34, Some(InstructionException::IllegalInstruction(0, 0x95aa_4515))));
}

/// Firmware that transmits a byte, looks for one until it is there, transmits it, reads the time,
/// sets the software interrupt and the alarm, and ends.
#[cfg(all(feature = "machine", feature = "std"))]
const FIRMWARE: [u32; 20] = [
    0x1000_0437, // lui  s0, 0x10000: the UART
    0x0200_04b7, // lui  s1, 0x2000: the CLINT, msip
    0x0200_4937, // lui  s2, 0x2004: mtimecmp
    0x0200_c9b7, // lui  s3, 0x200c: behind mtime
    0x0010_0a37, // lui  s4, 0x100: the finisher
    0x0680_0513, // addi a0, zero, 'h'
    0x00a4_0023, // sb   a0, 0(s0)
    0x0054_4583, // look: lbu a1, 5(s0)
    0x0015_f593, // andi a1, a1, 1
    0xfe05_8ce3, // beq  a1, zero, look
    0x0004_4603, // lbu  a2, 0(s0)
    0x00c4_0023, // sb   a2, 0(s0)
    0xff89_a683, // lw   a3, -8(s3)
    0x00b4_a023, // sw   a1, 0(s1)
    0x0630_0713, // addi a4, zero, 99
    0x00e9_2023, // sw   a4, 0(s2)
    0x0009_2223, // sw   zero, 4(s2)
    0x0007_3537, // lui  a0, 0x73
    0x3335_0513, // addi a0, a0, 0x333
    0x00aa_2023, // sw   a0, 0(s4)
];

/// The devices stand at the addresses of QEMU's `virt`. Input arrives after a thousand looks, of
/// three instructions each: the time is that of 7 instructions, 1,001 looks and 2 more.
#[cfg(all(feature = "machine", feature = "std"))]
#[test]
fn the_board_has_its_devices_at_their_addresses() {
    use rrs_kit::machine::board::{Board, BoardEnd, BoardEvent, PlainRuns, Typed};
    use rrs_kit::machine::board::run_at_terminal;
    let image: Vec<u8> = FIRMWARE.iter().flat_map(|word| word.to_le_bytes()).collect();
    let mut board = Board::load_image(Global, &image, FIRMWARE.len()).unwrap();
    let mut output = Vec::new();
    let (mut runs, mut input) = (PlainRuns, Typed::new(&b"i"[..]));
    let end = run_at_terminal(&mut runs, &mut board, 9999, false, &mut input, &mut output);
    let steps = 7 + 3 * 1001 + 10;
    assert_eq!(end, Ok(BoardEnd { steps, event: Some(BoardEvent::Finished(7)) }));
    let devices = &board.memory.devices;
    let seen = (devices.software, devices.alarm, devices.inputs().timer, devices.time);
    assert_eq!((&output[..], seen), (&b"hi"[..], (1, 99, true, steps)));
    assert_eq!(board.hart.read_register(13), 7 + 3 * 1001 + 2);
}

/// An input that has nothing for three times, and keeps how long it might wait. It is asked after
/// each thousand looks, and not to wait.
#[cfg(all(feature = "machine", feature = "std"))]
#[test]
fn the_input_of_a_board_is_asked_not_to_wait() {
    use rrs_kit::machine::board::{Board, BoardEnd, BoardEvent, BoardInput, InputAnswer, Patience};
    use rrs_kit::machine::board::{PlainRuns, run_at_terminal};
    struct Late(Vec<Patience>);
    impl BoardInput for Late {
        fn ask(&mut self, patience: Patience) -> InputAnswer {
            self.0.push(patience);
            if self.0.len() < 4 { InputAnswer::Nothing } else { InputAnswer::Byte(b'i') }
        }
    }
    let image: Vec<u8> = FIRMWARE.iter().flat_map(|word| word.to_le_bytes()).collect();
    let mut board = Board::load_image(Global, &image, FIRMWARE.len()).unwrap();
    let (mut runs, mut input, mut output) = (PlainRuns, Late(Vec::new()), Vec::new());
    let end = run_at_terminal(&mut runs, &mut board, 99_999, false, &mut input, &mut output);
    let steps = 7 + 3 * 4001 + 10;
    assert_eq!(end, Ok(BoardEnd { steps, event: Some(BoardEvent::Finished(7)) }));
    assert_eq!((&output[..], &input.0[..]), (&b"hi"[..], &[Patience::AtOnce; 4][..]));
}

#[cfg(feature = "asm")]
#[test]
fn the_assembler_has_its_parts() {
    use rrs_kit::alloc::AllocError;
    use rrs_kit::asm::{assembly, lines, macros};
    let expanded = macros::expand(Global, b".rept 2\nnop\n.endr\n").expect("a repetition");
    let nops = expanded.text.split(|&byte| byte == b'\n').filter(|line| *line == b"nop");
    let text: Result<String, AllocError> = assembly::gnu_text(Global, &0x13_u32.to_le_bytes());
    let is_told = text.is_ok_and(|text| text.contains("addi"));
    assert_eq!((nops.count(), lines::register_number(b"fp"), is_told), (2, Some(8), true));
}

#[cfg(feature = "linux")]
#[test]
fn a_process_has_its_parts() {
    use rrs_kit::linux::{Linux, env::Environment, exec::DECODED_WORDS, process::layout_of};
    fn is_served_by<E: Environment>() {}
    is_served_by::<Linux<&[u8], Vec<u8>, Vec<u8>>>();
    let layout = layout_of(0x1_0000, 0x1_0100, 1 << 24);
    assert_eq!((layout.is_some(), DECODED_WORDS.is_power_of_two()), (true, true));
}

#[cfg(feature = "gdb")]
#[test]
fn gdb_is_told_of_the_hart() {
    let target = rrs_kit::gdb::TARGET;
    assert!(target.windows(5).any(|part| part == b"riscv"));
}
