//! What Rust's users ask beside the proved text: errors, snapshots, memories that are borrowed or
//! boxed, loops over steps, and bytes in a row.

use rrs_kit::alloc::Global;
use rrs_kit::extra::{PageError, PagedMemory};
use rrs_kit::fast::{CachedMemory, run_cached};
use rrs_kit::instruction::{IllegalWord, Instruction};
use rrs_kit::instruction_executor::{InstructionException, InstructionExecutor, RunEnd};
use rrs_kit::memories::{MemorySpace, MemorySpaceError, SliceMemory, VecMemory};
use rrs_kit::{BytesRefused, HartState, MemAccessSize, Memory, MemoryExt, encode};
use std::collections::HashSet;
use std::error::Error;

/// addi x1, x1, 1; sw x1, 8(x0), over its third word; jal x0, -8
const COUNTER: [u32; 3] = [0x0010_8093, 0x0010_2423, 0xff9f_f06f];

/// Runs a program for so many steps.
fn run(memory: &mut impl Memory, hart: &mut HartState, limit: u64) -> RunEnd {
    InstructionExecutor { mem: memory, hart_state: hart }.run(limit)
}

/// The text of an error that a caller passes on with `?`.
fn text_of(error: impl Error + 'static) -> String {
    let passed = || -> Result<(), Box<dyn Error>> { Err(error)? };
    passed().unwrap_err().to_string()
}

#[test]
fn errors_are_passed_on_with_their_texts() {
    let texts = [
        text_of(MemorySpaceError::RegionOverlap),
        text_of(MemorySpaceError::Unaligned),
        text_of(MemorySpaceError::OutOfMemory),
        text_of(PageError::PageTaken),
        text_of(PageError::OutOfMemory),
        text_of(InstructionException::FetchError(0x10)),
        text_of(IllegalWord(7)),
    ];
    let wanted = [
        "the region would overlap another one",
        "the base or the size is not a multiple of 4",
        "out of memory",
        "there is a page of this number",
        "out of memory",
        "FetchError pc=0x00000010",
        "0x00000007 is no instruction of RV32IM",
    ];
    assert_eq!(texts, wanted);
}

/// A reader that fails.
#[cfg(feature = "std")]
#[test]
fn a_fault_of_a_load_tells_its_source() {
    use rrs_kit::memories::read_to_memory;
    struct Failing;
    impl std::io::Read for Failing {
        fn read(&mut self, _: &mut [u8]) -> std::io::Result<usize> {
            Err(std::io::Error::other("no more"))
        }
    }
    let mut memory = VecMemory::new(vec![0]);
    let fault = read_to_memory(&mut Failing, &mut memory, 0).unwrap_err();
    assert_eq!(fault.source().map(ToString::to_string), Some("no more".to_owned()));
    let refused = read_to_memory(&mut &b"12345"[..], &mut memory, 0).unwrap_err();
    assert!(refused.source().is_none());
    assert_eq!(text_of(refused), "Could not write byte at address 0x00000004");
}

#[cfg(feature = "elf")]
#[test]
fn a_refusal_of_the_loader_has_its_address() {
    let refused = rrs_kit::elf::Refused { address: 0x1234 };
    assert_eq!(text_of(refused), "the memory refused the byte at address 0x00001234");
}

#[cfg(feature = "linux")]
#[test]
fn a_file_that_is_no_process_is_refused() {
    use rrs_kit::elf::ElfError;
    use rrs_kit::linux::exec::ImageError;
    let wanted = [
        (ImageError::Elf(ElfError::NotElf), "not an ELF file"),
        (ImageError::NoRoom, "there are no addresses for a heap and a stack"),
        (ImageError::NeedsMemory(7), "it needs 7 bytes of memory"),
        (ImageError::LongArguments, "the arguments and the environment do not fit in the stack"),
        (ImageError::Refused(16), "cannot load at address 0x00000010"),
        (ImageError::OutOfMemory, "out of memory"),
    ];
    for (error, text) in wanted {
        assert_eq!(text_of(error), text);
    }
}

#[cfg(all(feature = "machine", feature = "std"))]
#[test]
fn a_board_tells_why_it_does_not_start() {
    use rrs_kit::elf::ElfError;
    use rrs_kit::machine::board::{BoardError, TerminalError};
    let wanted = [
        (text_of(BoardError::Elf(ElfError::NotElf)), "not an ELF file"),
        (text_of(BoardError::Refused(4)), "the byte for address 0x00000004 is not for RAM"),
        (text_of(BoardError::OutOfMemory), "out of memory"),
        (text_of(TerminalError::Input), "a read of the input failed"),
        (text_of(TerminalError::Output), "a write or a flush of the output failed"),
    ];
    for (text, wanted) in wanted {
        assert_eq!(text, wanted);
    }
}

/// Two steps count and store; the same memory is reached in each way.
#[test]
fn a_memory_that_is_borrowed_or_boxed_is_one() {
    let mut memory = VecMemory::new(COUNTER.to_vec());
    let mut hart = HartState::new();
    let mut borrowed: &mut dyn Memory = &mut memory;
    assert_eq!(run(&mut borrowed, &mut hart, 2).steps, 2);
    assert!(borrowed.reads_are_pure(0));
    assert_eq!(memory.mem[2], 1);
    let mut boxed: Box<dyn Memory + Send> = Box::new(VecMemory::new(COUNTER.to_vec()));
    let mut hart = std::thread::spawn(move || {
        let mut hart = HartState::new();
        run(&mut boxed, &mut hart, 2);
        assert_eq!(boxed.read_mem(8, MemAccessSize::Word), Some(1));
        assert!(boxed.reads_are_pure(0));
        hart
    })
    .join()
    .unwrap();
    assert_eq!((hart.pc, hart.registers[1]), (8, 1));
    let mut of_many: MemorySpace<Box<dyn Memory>> = MemorySpace::default();
    of_many.add_memory(0, 12, Box::new(memory)).unwrap();
    of_many.add_memory(16, 4, Box::new(PagedMemory::new(Global))).unwrap();
    assert_eq!(run(&mut of_many, &mut hart, 1).exception, illegal(8, 1));
}

fn illegal(pc: u32, word: u32) -> Option<InstructionException> {
    Some(InstructionException::IllegalInstruction(pc, word))
}

/// A snapshot stays as it is, and a run from it is the same run again.
fn runs_again<M: Memory + Clone + PartialEq>(mut memory: M) {
    let mut hart = HartState::new();
    run(&mut memory, &mut hart, 1);
    let (kept, kept_hart) = (memory.clone(), hart.clone());
    assert!(kept == memory && kept_hart == hart);
    let end = run(&mut memory, &mut hart, 5);
    assert!(kept != memory && kept_hart != hart);
    let (mut again, mut hart_again) = (kept.clone(), kept_hart.clone());
    assert_eq!(run(&mut again, &mut hart_again, 5), end);
    assert!(again == memory && hart_again == hart && kept != again);
}

#[test]
fn a_snapshot_is_kept_and_runs_again() {
    let words = VecMemory::new(COUNTER.to_vec());
    let mut space = MemorySpace::new(Global);
    space.add_memory(0, 12, words.clone()).unwrap();
    let mut pages = PagedMemory::new(Global);
    pages.add_page(0, [&COUNTER[..], &[0; 1021]].concat(), vec![false; 1024]).unwrap();
    runs_again(words.clone());
    runs_again(space.clone());
    runs_again(pages);
    runs_again(CachedMemory::<_, 16>::new(words));
    runs_again(CachedMemory::<_, 16>::new(space));
}

/// A clone of a cache decodes anew: what its memory has then is what it runs.
#[test]
fn a_clone_of_a_cache_runs_its_own_words() {
    let mut memory = CachedMemory::<_, 16>::new(VecMemory::new(COUNTER.to_vec()));
    let mut hart = HartState::new();
    run_cached(&mut InstructionExecutor { mem: &mut memory, hart_state: &mut hart }, 2);
    let (mut other, mut other_hart) = (memory.clone(), HartState::new());
    assert!(other.write_mem(0, MemAccessSize::Word, 0x0100_8093));
    let mut executor = InstructionExecutor { mem: &mut other, hart_state: &mut other_hart };
    run_cached(&mut executor, 2);
    assert_eq!((other_hart.registers[1], hart.registers[1]), (16, 1));
    assert!(other != memory);
}

/// What a read searched is not compared; the order and the bounds of the regions are.
#[test]
fn spaces_are_compared_by_their_regions() {
    let space = |first: u32, second: u32| {
        let mut space = MemorySpace::new(Global);
        space.add_memory(first, 4, VecMemory::new(vec![1])).unwrap();
        space.add_memory(second, 4, VecMemory::new(vec![1])).unwrap();
        space
    };
    let mut one = space(0, 8);
    assert_eq!(one.read_mem(8, MemAccessSize::Word), Some(1));
    assert_eq!(one, space(0, 8));
    assert_ne!(one, space(8, 0));
    let listed: Vec<_> =
        one.regions().map(|(base, size, words)| (base, size, &*words.mem)).collect();
    assert_eq!(listed, [(0, 4, &[1][..]), (8, 4, &[1][..])]);
}

#[test]
fn lent_words_are_compared_with_their_base() {
    let (mut one, mut other) = ([1, 2], [1, 2]);
    let mut one = SliceMemory { words: &mut one, base: 4 };
    let other = SliceMemory { words: &mut other, base: 4 };
    assert_eq!(one, other);
    one.base = 8;
    assert_ne!(one, other);
    one.base = 4;
    other.words[1] = 3;
    assert_ne!(one, other);
}

#[test]
fn words_that_are_not_there_are_zero() {
    use rrs_kit::fast::ZeroWords;
    let mut one = ZeroWords::new(Global, 4096).unwrap();
    let mut grown = one.clone();
    grown.grow(2000);
    assert!(one == grown);
    assert!(grown.put(4 * 2000, MemAccessSize::Word, 7));
    assert!(one != grown);
    one.grow(0);
    assert!(one != grown);
    assert!(grown.clone() == grown && grown.clone().words.mem.capacity() >= 4096);
    assert!(ZeroWords::new(Global, 8).unwrap() != ZeroWords::new(Global, 4).unwrap());
}

#[cfg(feature = "machine")]
#[test]
fn a_board_is_kept_and_runs_again() {
    use rrs_kit::machine::board::Board;
    let image: Vec<u8> = COUNTER.iter().flat_map(|word| word.to_le_bytes()).collect();
    let mut board = Board::load_image(Global, &image, 64).unwrap();
    board.step();
    let kept = board.clone();
    assert!(kept == board);
    board.step();
    assert!(kept != board);
    let mut again = kept.clone();
    again.step();
    assert!(again == board);
}

/// After an exception there are no more steps.
#[test]
fn a_loop_makes_the_steps_up_to_an_exception() {
    let mut memory = VecMemory::new(vec![0x13; 2]);
    let mut hart = HartState::new();
    let executor = InstructionExecutor { mem: &mut memory, hart_state: &mut hart };
    let mut steps = executor.into_iter();
    assert_eq!((steps.next(), steps.next()), (Some(Ok(())), Some(Ok(()))));
    assert_eq!(steps.next(), Some(Err(InstructionException::FetchError(8))));
    assert_eq!((steps.next(), steps.next()), (None, None));
    assert_eq!(hart.pc, 8);
}

#[test]
fn words_and_exceptions_are_keys_of_a_map() {
    let words = (0..2_000_000).map(|number: u32| number.wrapping_mul(0x9e37_79b1));
    let found: Vec<_> = words.filter_map(|word| Instruction::try_from(word).ok()).collect();
    let encoded: HashSet<_> = found.iter().filter_map(encode::encode).collect();
    let mut kept: HashSet<_> = found.iter().copied().collect();
    assert!(found.len() > 10_000 && kept.len() == encoded.len());
    assert!(!kept.insert(found[0]));
    assert_eq!(Instruction::try_from(0), Err(IllegalWord(0)));
    let exceptions = [illegal(4, 0), illegal(0, 4), Some(InstructionException::FetchError(4))];
    assert_eq!(exceptions.iter().collect::<HashSet<_>>().len(), 3);
}

#[test]
fn bytes_become_words_and_words_bytes() {
    for length in 0..9_u8 {
        let bytes: Vec<u8> = (1..=length).collect();
        let mut whole = VecMemory::from_bytes(&bytes).to_bytes();
        assert_eq!((whole.len() % 4, &whole[..bytes.len()]), (0, &bytes[..]));
        assert!(whole.split_off(bytes.len()).iter().all(|&byte| byte == 0));
    }
}

#[test]
fn bytes_in_a_row_end_at_the_first_that_is_refused() {
    let mut words = [0; 2];
    let mut memory = SliceMemory { words: &mut words, base: 0xffff_fff8 };
    assert_eq!(memory.write_bytes(0xffff_fffd, b"abc"), Ok(()));
    let mut bytes = [7; 4];
    let refused = memory.read_bytes(0xffff_fffe, &mut bytes).unwrap_err();
    assert_eq!((refused.addr, refused.done, &bytes), (0xffff_fffe, 2, b"bc\x07\x07"));
    assert_eq!(text_of(refused), "there is no address behind 0xffffffff");
    let refused: BytesRefused = memory.write_bytes(0xffff_fff7, b"x").unwrap_err();
    assert_eq!(text_of(refused), "the memory refused the byte at address 0xfffffff7");
    assert_eq!(words, [0, 0x6362_6100]);
}

/// The assembler has the same names.
#[cfg(feature = "asm")]
#[test]
fn names_of_registers_are_those_of_the_assembler() {
    use rrs_kit::asm::lines::register_number;
    use rrs_kit::instruction_formats::abi_name;
    for register in 0..32 {
        let name = abi_name(register).unwrap();
        assert_eq!(register_number(name.as_bytes()), Some(register), "{name}");
    }
    assert_eq!(abi_name(32), None);
}
