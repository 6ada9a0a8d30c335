"""The substitutions at one place each: the source, what stands there once, what is put there, and
why. A place that is not found once is an error."""

NARROW = "A `usize` of 32 bits has no 2^32."

SITES = (
    (
        "rrs_lib/src/instruction_executor/engine.rt",
        "self.registers[index]",
        "self.registers[index & 31]",
        "An index is below 32, by the contract, so the mask changes nothing, and the compiler"
        " leaves the check of the bound out.",
    ),
    (
        "rrs_lib/src/instruction_executor/engine.rt",
        "self.registers[rd] = value",
        "self.registers[rd & 31] = value",
        "As for a register that is read.",
    ),
    (
        "rrs_board/src/input.rt",
        "    let _ = patience;\n    reader.read(buffer)\n",
        "    let milliseconds = match patience {\n"
        "        Patience::AtOnce => Some(0),\n"
        "        Patience::Millisecond => Some(1),\n"
        "        Patience::Endless => None,\n"
        "    };\n"
        "    std::rt::read_within(reader, buffer, milliseconds)\n",
        "The proved program can't ask whether a read would wait. Here a thread reads standard input"
        " ahead, so a look at a pipe or a terminal does not wait.",
    ),
    (
        "rrs_commands/src/subcommands.rt",
        "Each such look waits for\ninput here, with --input wait or without.",
        "No such look waits for\ninput here, unless with --input wait.",
        "So a look does, by the substitution before.",
    ),
    (
        "rrs_files/src/host_folder.rt",
        "str::from_utf8(path)",
        "core::str::from_utf8(path)",
        "The crates are for Rust 1.85, in which `str` itself has no such function.",
    ),
    (
        "rrs_files/src/host_opening.rt",
        "options.mode(how.mode);",
        "options.mode(how.mode).neither_waits_nor_follows();",
        "These flags Rattle's library has no word for. So no FIFO that is put in the place of a file"
        " after that was looked at is waited for, and no link followed.",
    ),
    (
        "rrs_files/src/host_directory.rt",
        "str::from_utf8(&name)",
        "core::str::from_utf8(&name)",
        "The same.",
    ),
    (
        "tests_assembler/src/expansions.rt",
        "Result<Program, SourceFault>",
        "Result<Program<'_>, SourceFault>",
        "Rust warns where a lifetime is not shown.",
    ),
    (
        "tests_kit/src/loading.rt",
        "fn reader_of(bytes: &[u8]) -> Failing",
        "fn reader_of(bytes: &[u8]) -> Failing<'_>",
        "Rust warns where a lifetime is not shown.",
    ),
    (
        "tests_assembler/src/assembled.rt",
        "Result<Program, SourceFault>",
        "Result<Program<'_>, SourceFault>",
        "Rust warns where a lifetime is not shown.",
    ),
    (
        "rrs_history/src/change.rt",
        "prove!(size_of::<Change>() == 32)",
        "prove!(size_of::<usize>() != 8 || size_of::<Change>() == 32)",
        "On a `usize` of 32 bits it is smaller.",
    ),
    (
        "rrs_gdb/src/contents.rt",
        "values.len() > 0x1_0000_0000 - address as usize",
        "values.len() as u64 > 0x1_0000_0000 - u64::from(address)",
        NARROW,
    ),
    (
        "rrs_board_gdb/src/ram.rt",
        "values.len() > 0x1_0000_0000 - address as usize",
        "values.len() as u64 > 0x1_0000_0000 - u64::from(address)",
        NARROW,
    ),
    (
        "rrs_asm_output/src/accepting.rt",
        "let at = offset as usize + index;",
        "let at = (offset as usize).saturating_add(index);",
        "On a `usize` of 32 bits the sum may not fit. Then it is past each file.",
    ),
    (
        "rrs_gdb/src/queries.rt",
        "(start + length as usize).min(object.len())",
        "start.saturating_add(length as usize).min(object.len())",
        "On a `usize` of 32 bits the sum may not fit. Then it is past each object.",
    ),
    (
        "rrs_gdb/src/queries.rt",
        "if is_too_many(room) {",
        "if is_too_many(room) || room > usize::MAX as u64 {",
        "So much room a `usize` of 32 bits can't count: there is no memory for it.",
    ),
    (
        "rrs_asm/src/sections.rt",
        "(self.made.bytes.len() % 0x1_0000_0000) as u32",
        "self.made.bytes.len() as u32",
        NARROW,
    ),
    (
        "rrs_run_commands/src/files.rt",
        "        ErrorKind::InvalidFilename => HostFault::LongName,\n",
        "",
        "Rust has this kind from 1.87 on. Before it no reason is told.",
    ),
    (
        "tests_host/src/devices.rt",
        "    if let Some(memory) = space.get_memory_mut(cell)\n"
        "        && let Some(word) = memory.mem.get_mut(0)\n    {",
        "    let Some(memory) = space.get_memory_mut(cell) else {\n        return;\n    };\n"
        "    if let Some(word) = memory.mem.get_mut(0) {",
        "Rust 1.85 has one `let` in an `if`.",
    ),
    (
        "rrs_gdb/src/lib.rt",
        "//! A [Session] answers",
        "//! A session answers",
        "There is no item of that name to link to.",
    ),
)


# Types that get `Debug`, which `unwrap`, `assert_eq` and a `derive` of a user's type ask for.
DEBUG = (
    ("rrs_memory/src/memories/load.rt", "#[derive(Drop)]", "pub enum LoadFault"),
    ("rrs_memory/src/memories.rt", "#[derive(Drop)]", "pub struct VecMemory"),
    ("rrs_memory/src/memories/slice.rt", "#[derive(Drop)]", "pub struct SliceMemory"),
    ("rrs_memory/src/memories/space.rt", "#[derive(Drop)]", "pub struct MemorySpace"),
    ("rrs_memory/src/memories/space.rt", "#[derive(Drop)]", "struct MemoryRegion"),
    ("rrs_lib/src/lib.rt", "#[derive(Drop)]", "pub struct HartState"),
    ("rrs_extra/src/paged.rt", "#[derive(Drop)]", "pub struct PagedMemory"),
    ("rrs_extra/src/paged.rt", "#[derive(Drop)]", "struct PageContents"),
    ("rrs_elf/src/accepting.rt", "#[derive(Clone, Copy)]", "pub struct Executable"),
)

# Docs that speak of what the prover alone reads, or of a crate above, which a package can't name.
DOCS = (
    (
        "rrs_instruction/src/decode.rt",
        "/// let mut outputter = InstructionStringOutputter { insn_pc: 0x100, alloc };\n"
        '/// let text = process_instruction(&mut outputter, 0x0020_8463).ok_or("no row")??;\n'
        '/// assert_eq!(rt; text.as_str(), "beq x1, x2, 0x00000108");\n'
        "/// assert!(rt; process_instruction(&mut outputter, 0xffff_ffff).is_none());\n",
        "/// struct Names;\n"
        "/// impl InstructionHandler for Names {\n"
        "///     type Answer = &'static str;\n"
        "///     fn handle(&mut self, instruction: &Instruction) -> &'static str {\n"
        "///         instruction.mnemonic()\n"
        "///     }\n"
        "/// }\n"
        '/// assert_eq!(process_instruction(&mut Names, 0x0020_8463), Some("beq"));\n'
        "/// assert_eq!(process_instruction(&mut Names, 0xffff_ffff), None);\n",
    ),
    (
        "rrs_memory/src/lib.rt",
        " What a call does to all of its value it says\n"
        "/// by two relations, `reads` and `writes`. One that has nothing to say beside the laws"
        " answers\n"
        "/// `Unit {0}` to both.\n",
        " A read may change it too.\n",
    ),
    (
        "rrs_memory/src/lib.rt",
        "does nothing, by the relation `reads`, now and after any\n",
        "changes nothing, now and after any\n",
    ),
    (
        "rrs_memory/src/memories/slice.rt",
        " Its relations `reads` and `writes` say that the\n"
        "/// same words stay lent, so that their owner knows afterwards what they are.\n",
        " The same words stay lent.\n",
    ),
    (
        "rrs_instruction/src/lib.rt",
        " An implementation says what it does by its relation `did`, and each function meets it.\n",
        "\n",
    ),
    (
        "rrs_instruction/src/lib.rt",
        " with the same relation, whose functions\n",
        ", whose functions\n",
    ),
    (
        "rrs_fast/src/lib.rt",
        "left out: by the memory's own relation it was made (`accesses`).",
        "left out: by the memory's own word it changes nothing (`accesses`).",
    ),
    (
        "rrs_fast/src/cached.rt",
        "not fetched: by the memory's own relation the fetch was\n/// made (`accesses`).",
        "not fetched: by the memory's own word the fetch\n/// changes nothing (`accesses`).",
    ),
    (
        "rrs_lib/src/lib.rt",
        "The number of registers, 32. A proof that must know the length of the array calls this.",
        "The number of registers, 32.",
    ),
    (
        "rrs_lib/src/instruction_executor/engine.rt",
        "The number of registers. A proof that must know the length of the array calls this.",
        "The number of registers.",
    ),
    (
        "rrs_extra/src/laws.rt",
        "//! No proof looks at how a call of `rrs_lib` is written: they use its contracts, its"
        " definitions,\n//! and lemmas over these.\n",
        "//! The contract of each function is its law.\n",
    ),
)


# What is done with bytes where the stand-ins stand, which look at them where they become a `str`.
# The crates of a registry have no such calls.
APPENDED = (
    (
        "rrs_lib/src/disassembly/digits.rt",
        "text.push_str(unsafe { str::from_utf8_unchecked(&digits[first..]) });",
        "text.push_bytes(&digits[first..]);",
    ),
    (
        "rrs_lib/src/disassembly.rt",
        "b'0' + number as u8];\n        text.push_str(unsafe { str::from_utf8_unchecked(&name) });",
        "b'0' + number as u8];\n        text.push_bytes(&name);",
    ),
    (
        "rrs_lib/src/disassembly.rt",
        "(number % 10) as u8];\n"
        "        text.push_str(unsafe { str::from_utf8_unchecked(&name) });",
        "(number % 10) as u8];\n        text.push_bytes(&name);",
    ),
    (
        "rrs_lib/src/disassembly.rt",
        "text.push_str(buffer.format(number));",
        "text.push_bytes(buffer.digits(number));",
    ),
    (
        "rrs_lib/src/disassembly.rt",
        "text.push_str(hexadecimal_digits(least, word).as_str());",
        "text.append(&hexadecimal_digits(least, word));",
    ),
    (
        "rrs_cli/src/report.rt",
        "line.push_str(hexadecimal_digits(8, pc).as_str());",
        "line.append(&hexadecimal_digits(8, pc));",
    ),
    ("rrs_cli/src/report.rt", "line.push_str(text.as_str());", "line.append(text);"),
    ("rrs_cli/src/simulation.rt", "line.as_str().as_bytes()", "line.as_bytes()"),
    (
        "rrs_reports/src/commit_log.rt",
        "line.push_str(hexadecimal_digits(least, word).as_str());",
        "line.append(&hexadecimal_digits(least, word));",
    ),
    (
        "rrs_reports/src/commit_log.rt",
        "line.push_str(buffer.format(register));",
        "line.push_bytes(buffer.digits(register));",
    ),
    (
        "rrs_reports/src/commit_log.rt",
        "self.write(commit_line(word, retired).as_str());",
        "self.write(commit_line(word, retired).as_bytes());",
    ),
    (
        "rrs_reports/src/commit_log.rt",
        "fn write(&mut self, lines: &str)",
        "fn write(&mut self, lines: &[u8])",
    ),
    (
        "rrs_reports/src/commit_log.rt",
        "self.out.write_all(lines.as_bytes())",
        "self.out.write_all(lines)",
    ),
    (
        "rrs_reports/src/board_log.rt",
        "self.write(step_lines(step).as_str());",
        "self.write(step_lines(step).as_bytes());",
    ),
)


def all_sites(registry=False):
    """Each substitution: the source, what stands there, what is put there, and why."""
    for source, old, new in DOCS:
        yield source, old, new, "A caller of Rust has no use for it."
    for source, derive, item in DEBUG:
        more = derive.replace("derive(", "derive(Debug, ")
        yield source, f"{derive}\n{item}", f"{more}\n{item}", "`unwrap` and `assert_eq` ask for it."
    yield from SITES
    for source, old, new in () if registry else APPENDED:
        yield source, old, new, "Each text would be looked at once more, whether it is UTF-8."


def put(path, text, registry):
    """The text of a source with what is put at its places."""
    for source, old, new, _ in all_sites(registry):
        if source == path:
            if text.count(old) != 1:
                raise SystemExit(f"crates/{path}: `{old}` stands {text.count(old)} times, not once")
            text = text.replace(old, new)
    return text
