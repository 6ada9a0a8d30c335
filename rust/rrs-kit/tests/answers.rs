//! Answers the stored questions about the kit, and compares the answers with the stored ones.
//!
//! The questions are those of `rrs-replay` whose answers come from elsewhere, and those that the faces
//! for C and Python are asked (`bindings/answers/README.md` has the forms), but for those of calls that are C's alone.
//! `rust/build` puts them beside this file.
#![cfg(all(feature = "trace", feature = "elf", feature = "machine", feature = "gdb"))]

use rrs_kit::disassembly::Disassembled;
use rrs_kit::elf::{ElfError, Executable};
use rrs_kit::fast::{Runner, WordCache};
use rrs_kit::gdb::history::{Change, step_noted, undo};
use rrs_kit::instruction::{Instruction, decode};
use rrs_kit::instruction_executor::{InstructionException, InstructionExecutor};
use rrs_kit::machine::csrs::is_read_only;
use rrs_kit::machine::instructions::SystemInstruction;
use rrs_kit::machine::system::{
    AtomicInstruction, BitInstruction, BitOperand, LayerInstruction, MachineRetired, decode_layer,
    step_machine_retired,
};
use rrs_kit::machine::{Csr, CsrFile, Inputs, MachineAnswer, Profile};
use rrs_kit::memories::SliceMemory;
use rrs_kit::trace::{
    DataRequest, Retired, StopEnd, StopReason, complete, request, run_until, run_until_with,
    step_retired,
};
use rrs_kit::{HartState, MemAccessSize};
use std::fs;
use std::ops::Range;
use std::path::Path;

/// Questions of calls that only the library for C has.
const OF_C: [&str; 5] = ["name", "cause", "compare", "retire", "rvfi32"];
/// How many questions of `rrs-replay` have answers from elsewhere.
const FROM_ELSEWHERE: usize = 3402;
/// How many questions are answered.
const ASKED: usize = FROM_ELSEWHERE + 5917 - 181 - 276 - 900 - 320 - 212;

/// What is left of a line.
struct Line<'a>(&'a str);

impl<'a> Line<'a> {
    /// Takes the next word off.
    fn word(&mut self) -> &'a str {
        let (word, rest) = self.0.split_once(' ').unwrap_or((self.0, ""));
        self.0 = rest;
        word
    }

    /// Takes the value of `name=` off.
    fn value(&mut self, name: &str) -> &'a str {
        let word = self.word();
        match word.split_once('=') {
            Some((before, value)) if before == name => value,
            _ => panic!("no {name}: {word}"),
        }
    }

    /// Takes a hart and all words of memory off.
    fn state(&mut self) -> (HartState, Vec<u32>) {
        let mut hart = HartState::new();
        hart.pc = hex(self.value("pc"));
        hart.last_register_write = self.value("last").strip_prefix('x').map(decimal);
        for entry in entries(self.value("regs")) {
            let (name, value) = entry.split_once('=').expect("a register and its value");
            hart.registers[decimal::<usize>(&name[1..])] = hex(value);
        }
        (hart, entries(self.value("mem")).map(hex).collect())
    }

    /// Takes the address of the first word off, and which words are lent.
    fn place(&mut self) -> (u32, Range<usize>) {
        let base = hex(self.value("at"));
        let (first, count) = self.value("part").split_once(':').expect("two numbers");
        let first: usize = decimal(first);
        (base, first..first + decimal::<usize>(count))
    }
}

fn hex(text: &str) -> u32 {
    u32::from_str_radix(text.strip_prefix("0x").expect(text), 16).expect(text)
}

fn decimal<T: std::str::FromStr>(text: &str) -> T {
    text.parse().unwrap_or_else(|_| panic!("no number: {text}"))
}

/// The entries of a list, of which `-` has none.
fn entries(text: &str) -> impl Iterator<Item = &str> {
    text.split(',').filter(|&entry| entry != "-")
}

fn listed(entries: Vec<String>) -> String {
    if entries.is_empty() { "-".to_owned() } else { entries.join(",") }
}

fn shown_exception(exception: &InstructionException) -> String {
    let (name, address) = match exception {
        InstructionException::IllegalInstruction(pc, word) => {
            return format!("IllegalInstruction 0x{pc:08x} 0x{word:08x}");
        }
        InstructionException::FetchError(pc) => ("FetchError", pc),
        InstructionException::LoadAccessFault(address) => ("LoadAccessFault", address),
        InstructionException::StoreAccessFault(address) => ("StoreAccessFault", address),
        InstructionException::AlignmentFault(address) => ("AlignmentFault", address),
        InstructionException::EnvironmentCall(pc) => ("EnvironmentCall", pc),
        InstructionException::Breakpoint(pc) => ("Breakpoint", pc),
    };
    format!("{name} 0x{address:08x}")
}

fn shown_answer(answer: Result<(), InstructionException>) -> String {
    answer.map_or_else(|exception| shown_exception(&exception), |()| "Ok".to_owned())
}

fn shown_end(steps: u64, exception: Option<InstructionException>) -> String {
    let why = exception.map_or("limit".to_owned(), |exception| shown_exception(&exception));
    format!("{steps} {why}")
}

fn shown_stop(end: StopEnd) -> String {
    match end.reason {
        StopReason::AtStop => format!("{} stop", end.steps),
        StopReason::Limit => shown_end(end.steps, None),
        StopReason::Fault(exception) => shown_end(end.steps, Some(exception)),
    }
}

fn shown_hart(hart: &HartState) -> String {
    let last = hart.last_register_write.map_or("-".to_owned(), |register| format!("x{register}"));
    let registers = hart.registers.iter().enumerate().filter(|&(_, &value)| value != 0);
    let registers = registers.map(|(n, value)| format!("x{n}=0x{value:08x}")).collect();
    format!(" pc=0x{:08x} last={last} regs={}", hart.pc, listed(registers))
}

fn shown_words(words: &[u32]) -> String {
    listed(words.iter().map(|word| format!("0x{word:08x}")).collect())
}

fn shown_state(hart: &HartState, words: &[u32]) -> String {
    format!("{} mem={}", shown_hart(hart), shown_words(words))
}

fn shown_record(record: &Retired) -> String {
    let Retired { order, insn, trap, pc_rdata, pc_wdata, .. } = record;
    let Retired { rs1_addr, rs1_rdata, rs2_addr, rs2_rdata, rd_addr, rd_wdata, mem, .. } = record;
    let insn = insn.map_or("-".to_owned(), |word| format!("0x{word:08x}"));
    format!(
        " order={order} insn={insn} trap={} pc_rdata=0x{pc_rdata:08x} pc_wdata=0x{pc_wdata:08x} \
         rs1_addr={rs1_addr} rs1_rdata=0x{rs1_rdata:08x} \
         rs2_addr={rs2_addr} rs2_rdata=0x{rs2_rdata:08x} \
         rd_addr={rd_addr} rd_wdata=0x{rd_wdata:08x} \
         mem_addr=0x{:08x} mem_rmask={} mem_wmask={} mem_rdata=0x{:08x} mem_wdata=0x{:08x}",
        u32::from(*trap),
        mem.addr,
        mem.rmask,
        mem.wmask,
        mem.rdata,
        mem.wdata
    )
}

fn bytes_of(size: MemAccessSize) -> u32 {
    match size {
        MemAccessSize::Byte => 1,
        MemAccessSize::HalfWord => 2,
        MemAccessSize::Word => 4,
    }
}

/// The questions of a word alone.
fn answer_word(name: &str, line: &mut Line) -> Option<String> {
    let none = || "none".to_owned();
    let text = |instruction, pc| Disassembled { instruction, pc }.text().as_str().to_owned();
    Some(match name {
        "decode" => decode(hex(line.word())).map_or_else(none, |instruction| {
            let text = text(instruction, 0);
            format!("{} {}", instruction.number(), text.split(' ').next().unwrap_or(""))
        }),
        "text" => {
            let pc = hex(line.word());
            decode(hex(line.word())).map_or_else(none, |instruction| text(instruction, pc))
        }
        "fields" => fields_of(hex(line.word())).unwrap_or_else(none),
        _ => return None,
    })
}

/// The fields of a word of the table, or above it.
fn fields_of(word: u32) -> Option<String> {
    if let Some(found) = decode(word) {
        return Some(shown_fields(&found));
    }
    Some(match decode_layer(word)? {
        LayerInstruction::System(SystemInstruction { row, fields }) => {
            let (rd, rs1, csr) = (fields.rd, fields.rs1, word >> 20);
            format!("{} rd={rd} rs1={rs1} rs2=0 shamt=0 imm={csr}", row.number())
        }
        LayerInstruction::Atomic(AtomicInstruction { row, fields }) => {
            let (rd, rs1, rs2, order) = (fields.rd, fields.rs1, fields.rs2, fields.funct7 % 4);
            format!("{} rd={rd} rs1={rs1} rs2={rs2} shamt=0 imm={order}", row.number())
        }
        LayerInstruction::Bits(BitInstruction { row, fields }) => {
            let (rd, rs1) = (fields.rd, fields.rs1);
            let (rs2, amount) = match row.operand() {
                BitOperand::Register | BitOperand::NotX0 => (fields.rs2, 0),
                BitOperand::Amount => (0, fields.rs2),
                BitOperand::Fixed(_) => (0, 0),
            };
            format!("{} rd={rd} rs1={rs1} rs2={rs2} shamt={amount} imm=0", row.number())
        }
    })
}

fn shown_fields(found: &Instruction) -> String {
    format!(
        "{} rd={} rs1={} rs2={} shamt={} imm={}",
        found.number(),
        found.rd().unwrap_or(0),
        found.rs1().unwrap_or(0),
        found.rs2().unwrap_or(0),
        found.shift_amount().unwrap_or(0),
        found.immediate().unwrap_or(0)
    )
}

/// The CSRs of a question, and whether the step before trapped.
fn csrs_of(text: &str) -> (CsrFile, u64) {
    let fields: Vec<u64> = text.split(',').map(decimal).collect();
    let &[mstatus, mie, mtvec, mscratch, mepc, mcause, mtval, ref rest @ ..] = &fields[..] else {
        panic!("no CSRs: {text}")
    };
    let &[mcountinhibit, mcycle, minstret, trapped] = rest else { panic!("no CSRs: {text}") };
    let [mstatus, mie, mtvec, mscratch] = [mstatus, mie, mtvec, mscratch].map(|value| value as u32);
    let [mepc, mcause, mtval] = [mepc, mcause, mtval].map(|value| value as u32);
    let mcountinhibit = mcountinhibit as u32;
    let file = CsrFile {
        mstatus,
        mie,
        mtvec,
        mscratch,
        mepc,
        mcause,
        mtval,
        mcountinhibit,
        mcycle,
        minstret,
        ..CsrFile::new()
    };
    (file, trapped)
}

fn shown_csrs(file: &CsrFile, trapped: u64) -> String {
    let CsrFile { mstatus, mie, mtvec, mscratch, mepc, mcause, .. } = file;
    let CsrFile { mtval, mcountinhibit, mcycle, minstret, .. } = file;
    format!(
        "{mstatus},{mie},{mtvec},{mscratch},{mepc},{mcause},{mtval},{mcountinhibit},{mcycle},\
         {minstret},{trapped}"
    )
}

fn inputs_of(mip: u32, time: u64) -> Inputs {
    Inputs { external: mip & 0x800 != 0, software: mip & 8 != 0, timer: mip & 0x80 != 0, time }
}

/// The questions of a CSR.
fn answer_csr(name: &str, line: &mut Line) -> Option<String> {
    if name != "csr" && name != "write" {
        return None;
    }
    let (number, second) = (hex(line.word()), hex(line.word()));
    let csr = Csr::at(Profile::machine_alone(), number);
    if name == "csr" {
        let inputs = inputs_of(second, decimal(line.word()));
        let (file, _) = csrs_of(line.word());
        let value = csr.map(|csr| file.read(csr, &inputs));
        return Some(value.map_or("none".to_owned(), |value| format!("0x{value:08x}")));
    }
    let (mut file, trapped) = csrs_of(line.word());
    let written = csr.filter(|_| !is_read_only(number));
    written.into_iter().for_each(|csr| file.write(csr, second));
    Some(format!("{} {}", u32::from(written.is_some()), shown_csrs(&file, trapped)))
}

fn shown_machine(record: &MachineRetired) -> String {
    let MachineRetired { retired, valid, intr, mode, cause, csr } = record;
    format!(
        "{} valid={} intr={} mode={mode} trapped={} cause=0x{:08x} csr_addr=0x{:03x} \
         csr_rmask=0x{:08x} csr_wmask=0x{:08x} csr_rdata=0x{:08x} csr_wdata=0x{:08x}",
        shown_record(retired),
        u32::from(*valid),
        u32::from(*intr),
        u32::from(cause.is_some()),
        cause.unwrap_or(0),
        csr.addr,
        csr.rmask,
        csr.wmask,
        csr.rdata,
        csr.wdata
    )
}

/// A step with machine mode.
fn answer_machine(line: &mut Line) -> String {
    let order = decimal(line.word());
    let mip = hex(line.word());
    let inputs = inputs_of(mip, decimal(line.word()));
    let (mut csrs, trapped) = csrs_of(line.word());
    let (base, part) = line.place();
    let (mut hart, mut words) = line.state();
    let mut memory = SliceMemory { words: &mut words[part], base };
    let mut executor = InstructionExecutor { mem: &mut memory, hart_state: &mut hart };
    let (answer, seen) =
        step_machine_retired(&mut executor, &mut csrs, &inputs, order, trapped == 1);
    let outcome = match answer {
        MachineAnswer::Retired => "retired".to_owned(),
        MachineAnswer::Waiting => "waiting".to_owned(),
        MachineAnswer::Raised(raised) => {
            format!("raised 0x{:08x} 0x{:08x}", raised.code(), raised.value())
        }
        MachineAnswer::Interrupted(taken) => {
            format!("interrupted 0x{:08x}", taken.code() | 0x8000_0000)
        }
    };
    let csrs = shown_csrs(&csrs, u64::from(seen.cause.is_some()));
    outcome + &shown_machine(&seen) + " csrs=" + &csrs + &shown_state(&hart, &words)
}

/// The change of a question.
fn change_of(text: &str) -> Change {
    let fields: Vec<u32> = text.split(',').map(decimal).collect();
    let &[pc, last, rd, value, address, size, bytes] = &fields[..] else { panic!("no change") };
    let stored = match size {
        0 => None,
        1 => Some(MemAccessSize::Byte),
        2 => Some(MemAccessSize::HalfWord),
        _ => Some(MemAccessSize::Word),
    };
    Change {
        last: last as usize,
        pc,
        value,
        address,
        bytes,
        stored,
        register: if rd < 32 { rd as u8 } else { 0 },
        had_last: last > 0 && last < 32,
        starts: true,
        of_call: false,
    }
}

fn shown_change(change: &Change) -> String {
    let Change { last, pc, value, address, bytes, stored, register, had_last, .. } = change;
    let (last, size) = (if *had_last { *last } else { 0 }, stored.map_or(0, bytes_of));
    format!(" change={pc},{last},{register},{value},{address},{size},{bytes}")
}

/// A step that is taken back, and a change that is.
fn answer_change(name: &str, line: &mut Line) -> String {
    let change = (name == "undo").then(|| change_of(line.word()));
    let (base, part) = line.place();
    let (mut hart, mut words) = line.state();
    let mut memory = SliceMemory { words: &mut words[part], base };
    let mut executor = InstructionExecutor { mem: &mut memory, hart_state: &mut hart };
    let mut shown = String::new();
    let change = change.unwrap_or_else(|| {
        let (answer, change) = step_noted(&mut executor);
        shown = shown_answer(answer) + &shown_change(&change) + &shown_hart(executor.hart_state);
        shown += &format!(" part={} ", shown_words(executor.mem.words));
        change
    });
    undo(&mut executor, &change);
    shown + "undone" + &shown_state(&hart, &words)
}

/// The questions of a word and a hart.
fn answer_access(name: &str, line: &mut Line) -> Option<String> {
    if name != "request" && name != "complete" {
        return None;
    }
    let word = hex(line.word());
    let given = if name == "complete" { line.word() } else { "-" };
    let (mut hart, words) = line.state();
    let answer = if name == "complete" {
        shown_answer(complete(&mut hart, word, (given != "-").then(|| hex(given))))
    } else {
        match request(&hart, word) {
            Ok(None) => "none".to_owned(),
            Ok(Some(DataRequest::Load(address, size))) => {
                format!("load 0x{address:08x} {}", bytes_of(size))
            }
            Ok(Some(DataRequest::Store(address, size, value))) => {
                format!("store 0x{address:08x} {} 0x{value:08x}", bytes_of(size))
            }
            Err(exception) => shown_exception(&exception),
        }
    };
    Some(answer + &shown_state(&hart, &words))
}

/// The number of a refusal in `rrs.h`, and its own numbers.
fn numbers_of(error: ElfError) -> (u32, u32, u32) {
    match error {
        ElfError::NotElf => (1, 0, 0),
        ElfError::HeaderCutShort => (2, 0, 0),
        ElfError::Class(class) => (3, class.into(), 0),
        ElfError::ByteOrder(order) => (4, order.into(), 0),
        ElfError::IdentVersion(version) => (5, version.into(), 0),
        ElfError::PositionIndependent => (6, 0, 0),
        ElfError::NotExecutable(kind) => (7, kind.into(), 0),
        ElfError::Machine(machine) => (8, machine.into(), 0),
        ElfError::Version(version) => (9, version, 0),
        ElfError::CompressedCode => (10, 0, 0),
        ElfError::FloatingPoint => (11, 0, 0),
        ElfError::Embedded => (12, 0, 0),
        ElfError::ProgramHeaderSize(size) => (13, size.into(), 0),
        ElfError::TooManyProgramHeaders => (14, 0, 0),
        ElfError::ProgramHeadersCutShort => (15, 0, 0),
        ElfError::Interpreter(index) => (16, index.into(), 0),
        ElfError::SegmentCutShort(index) => (17, index.into(), 0),
        ElfError::SegmentSizes(index) => (18, index.into(), 0),
        ElfError::SegmentPastLastAddress(index) => (19, index.into(), 0),
        ElfError::SegmentsOverlap(one, other) => (20, one.into(), other.into()),
        ElfError::EntryMisaligned(entry) => (21, entry, 0),
        ElfError::EntryOutside(entry) => (22, entry, 0),
        _ => panic!("a refusal of symbols: {error}"),
    }
}

/// The function that an address lies in, or the nearest before it.
fn shown_location(program: &Executable, address: u32) -> Option<String> {
    let symbols = program.symbols().ok()??;
    let at = symbols.function_at(address)?;
    let name = String::from_utf8_lossy(symbols.name(at.symbol)?);
    let how = if at.is_inside { "in" } else { "behind" };
    Some(format!("{how} {name}+{}", at.distance))
}

/// An executable: its entry, its segments, what a load leaves, and the place of an address.
fn answer_elf(line: &mut Line) -> String {
    let digits = line.word();
    let bytes = (0..digits.len() / 2).map(|at| u8::from_str_radix(&digits[2 * at..2 * at + 2], 16));
    let file: Vec<u8> = bytes.map(|byte| byte.expect("a byte")).collect();
    let base = hex(line.word());
    let mut words = vec![u32::MAX; decimal(line.word())];
    let address = hex(line.word());
    let program = match Executable::parse(&file) {
        Ok(program) => program,
        Err(error) => {
            let (refusal, number, other) = numbers_of(error);
            return format!("refused {refusal} {number} {other} none");
        }
    };
    let mut shown = vec![format!("entry=0x{:08x}", program.entry())];
    for index in 0..program.program_header_count() {
        shown.push(program.segment(index).map_or("none".to_owned(), |s| {
            let (address, size) = (s.address, s.memory_size);
            format!("0x{address:08x},{size},{},{},{}", s.offset, s.file_size, s.flags)
        }));
    }
    shown.push(match program.load(&mut SliceMemory { words: &mut words, base }) {
        Ok(()) => "loaded".to_owned(),
        Err(stop) => format!("refused 31 0x{:08x}", stop.address),
    });
    shown.push(words.iter().map(|word| format!("0x{word:08x}")).collect::<Vec<_>>().join(","));
    shown.push(shown_location(&program, address).unwrap_or("none".to_owned()));
    shown.join(" ")
}

/// Runs over one cache, in turn over the words and over others, which are these with bit 7 inverted.
/// After each pair a word is written from outside.
fn answer_cached(name: &str, line: &mut Line) -> String {
    let limits: Vec<u64> = line.word().split(',').map(decimal).collect();
    let stops: Option<Vec<u32>> =
        (name == "cached_until").then(|| entries(line.word()).map(hex).collect());
    let writes: Vec<(usize, u32)> = entries(line.word())
        .map(|write| write.split_once(':').expect("a number and a word"))
        .map(|(number, word)| (decimal(number), hex(word)))
        .collect();
    let (base, part) = line.place();
    let (mut hart, mut words) = line.state();
    let mut other = HartState::new();
    (other.registers, other.pc) = (hart.registers, hart.pc);
    other.last_register_write = hart.last_register_write;
    let mut others: Vec<u32> = words[part.clone()].iter().map(|word| word ^ 0x80).collect();
    let mut cache = WordCache::new();
    let mut run = |hart: &mut HartState, words: &mut [u32], limit| {
        let mut memory = SliceMemory { words, base };
        let mut executor = InstructionExecutor { mem: &mut memory, hart_state: hart };
        let Some(stops) = &stops else {
            let end = cache.run(&mut executor, limit);
            return shown_end(end.steps, end.exception);
        };
        shown_stop(run_until_with(&mut cache, &mut executor, limit, stops))
    };
    let (mut ends, mut other_ends) = (Vec::new(), Vec::new());
    for (number, &limit) in limits.iter().enumerate() {
        ends.push(run(&mut hart, &mut words[part.clone()], limit));
        other_ends.push(run(&mut other, &mut others, limit));
        if let Some(&(place, word)) = writes.get(number) {
            words[part.clone()][place] = word;
        }
    }
    let (of_other, of_words) = (shown_hart(&other), shown_words(&others));
    let beside = ends.join(";") + &shown_state(&hart, &words);
    format!("{}{of_other} part={of_words} beside {beside}", other_ends.join(";"))
}

/// The questions over memory.
fn answer_memory(name: &str, line: &mut Line) -> String {
    let number: u64 = if name == "step" { 0 } else { decimal(line.word()) };
    let stops: Vec<u32> =
        if name == "until" { entries(line.word()).map(hex).collect() } else { Vec::new() };
    let place = (name != "steps").then(|| line.place());
    let (mut hart, mut words) = line.state();
    let (base, part) = place.unwrap_or((0, 0..words.len()));
    let mut memory = SliceMemory { words: &mut words[part], base };
    let mut executor = InstructionExecutor { mem: &mut memory, hart_state: &mut hart };
    let answer = match name {
        "steps" if number == 0 => "-".to_owned(),
        "steps" => {
            let answers: Vec<_> = (0..number).map(|_| shown_answer(executor.step())).collect();
            answers.join(";")
        }
        "step" => shown_answer(executor.step()),
        "rvfi" => {
            let (answer, record) = step_retired(&mut executor, number);
            shown_answer(answer) + &shown_record(&record)
        }
        "run" => {
            let end = executor.run(number);
            shown_end(end.steps, end.exception)
        }
        "until" => shown_stop(run_until(&mut executor, number, &stops)),
        _ => panic!("no question: {name}"),
    };
    answer + &shown_state(&hart, &words)
}

fn answer(text: &str) -> String {
    let mut line = Line(text);
    let name = line.word();
    let answer = answer_word(name, &mut line)
        .or_else(|| answer_csr(name, &mut line))
        .or_else(|| answer_access(name, &mut line));
    answer.unwrap_or_else(|| match name {
        "elf" => answer_elf(&mut line),
        "machine" => answer_machine(&mut line),
        "noted" | "undo" => answer_change(name, &mut line),
        "cached" | "cached_until" => answer_cached(name, &mut line),
        _ => answer_memory(name, &mut line),
    })
}

#[test]
fn the_answers_are_those_that_are_stored() {
    let folder = Path::new(env!("CARGO_MANIFEST_DIR")).join("tests/answers");
    let read = |name: &str| fs::read_to_string(folder.join(name)).expect(name);
    let [first, first_answers] = ["questions.replay", "answers.replay"].map(read);
    let [second, second_answers] = ["questions", "answers"].map(read);
    let questions = first.lines().take(FROM_ELSEWHERE).chain(second.lines());
    let answers = first_answers.lines().take(FROM_ELSEWHERE).chain(second_answers.lines());
    let mut asked = 0;
    for (question, wanted) in questions.zip(answers) {
        if !OF_C.contains(&question.split(' ').next().unwrap_or("")) {
            assert_eq!(answer(question), wanted, "{question}");
            asked += 1;
        }
    }
    assert_eq!(asked, ASKED);
}
