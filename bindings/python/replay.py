#!/usr/bin/env python3
"""Answers questions about the kit, one a line, from standard input, over rrs.py alone.

bindings/answers/README.md has the forms; those of rrs-replay are answered as it does.
"""

import sys

import rrs
from rrs import AccessKind, Fault, FaultKind, Machine, Retired, Row, decode, disassemble

NAMES = {
    FaultKind.ILLEGAL_INSTRUCTION: "IllegalInstruction",
    FaultKind.FETCH_FAULT: "FetchError",
    FaultKind.LOAD_FAULT: "LoadAccessFault",
    FaultKind.STORE_FAULT: "StoreAccessFault",
    FaultKind.MISALIGNED: "AlignmentFault",
    FaultKind.ECALL: "EnvironmentCall",
    FaultKind.EBREAK: "Breakpoint",
}


def entries(text):
    return [] if text == "-" else text.split(",")


def words_of(text):
    return [int(word, 16) for word in entries(text)]


def listed(words):
    return ",".join(words) or "-"


def listed_words(words):
    return listed([f"0x{word:08x}" for word in words])


def value_of(word, name):
    before, _, value = word.partition("=")
    if before != name:
        raise ValueError(f"no {name}: {word}")
    return value


class State:
    """The words of a question, and the machine that has a part of them."""

    def __init__(self, words, place=None):
        if len(words) != 4:
            raise ValueError(f"no state: {words}")
        pc, last, registers, memory = map(value_of, words, ("pc", "last", "regs", "mem"))
        self.words = words_of(memory)
        self.first, base, count = 0, 0, len(self.words)
        if place:
            base = int(value_of(place[0], "at"), 16)
            self.first, count = map(int, value_of(place[1], "part").split(":"))
        self.machine = Machine(self.words[self.first :][:count], base)
        self.machine.pc = int(pc, 16)
        # no call of the face sets these two, and none is any number but 1 to 31
        hart = self.machine._hart
        hart.last = 32 if last == "-" else int(last[1:])
        for entry in entries(registers):
            name, value = entry.split("=")
            if name == "x0":
                hart.x[0] = int(value, 16)
            else:
                self.machine.registers[int(name[1:])] = int(value, 16)

    @property
    def hart(self):
        machine = self.machine
        registers = [machine._hart.x[0], *machine.registers[1:]]
        listed_registers = listed([f"x{n}=0x{x:08x}" for n, x in enumerate(registers) if x])
        last = "-" if machine.last is None else f"x{machine.last}"
        return f" pc=0x{machine.pc:08x} last={last} regs={listed_registers}"

    def __str__(self):
        part = list(self.machine.memory)
        words = self.words[: self.first] + part + self.words[self.first + len(part) :]
        return f"{self.hart} mem={listed_words(words)}"


def told(fault):
    if fault is None:
        return "Ok"
    word = f" 0x{fault.word:08x}" if fault.kind == FaultKind.ILLEGAL_INSTRUCTION else ""
    extra = f" word={fault.word}" if fault.word and not word else ""
    return f"{NAMES[fault.kind]} 0x{fault.address:08x}{word}{extra}"


def told_end(end):
    if end.fault:
        return f"{end.steps} {told(end.fault)}" + (" stop" if end.at_stop else "")
    return f"{end.steps} {'stop' if end.at_stop else 'limit'}"


def told_record(record):
    def shown(name, value):
        if name == "insn":
            return f"0x{value:08x}" if record.fetched or value else "-"
        is_long = name[:2] == "pc" or name[-5:] == "rdata" or name[-5:] == "wdata"
        return f"0x{value:08x}" if is_long or name == "mem_addr" else str(value)

    fields = [(name, value) for name, value in record._asdict().items() if name != "fetched"]
    return "".join(f" {name}={shown(name, value)}" for name, value in fields)


def decoded(word):
    instruction = decode(word)
    if instruction is None or instruction.row > Row.EBREAK:
        return "none"
    return f"{instruction.row} {disassemble(word, 0).split(' ')[0]}"


def fields(word):
    instruction = decode(word)
    if instruction is None:
        return "none"
    named = [f"{name}={value}" for name, value in instruction._asdict().items() if name != "row"]
    return " ".join([str(instruction.row), *named])


def steps(count, *words):
    state = State(words)
    return ";".join(told(state.machine.step()) for _ in range(int(count))) + str(state)


def requested(word, *words):
    state = State(words)
    fault, access = state.machine.request(int(word, 16))
    if access is None:
        return ("none" if fault is None else told(fault)) + str(state)
    value = f" 0x{access.value:08x}" if access.kind == AccessKind.STORE or access.value else ""
    return f"{access.kind.name.lower()} 0x{access.address:08x} {access.size}{value}{state}"


def completed(word, given, *words):
    state = State(words)
    given = None if given == "-" else int(given, 16)
    return told(state.machine.complete(int(word, 16), given)) + str(state)


def retired(order, word, given, *words):
    state = State(words)
    given = None if given == "-" else int(given, 16)
    fault, record = state.machine.complete_rvfi(int(word, 16), given, int(order))
    return told(fault) + told_record(record) + str(state)


def name(kind, number):
    number = int(number)
    if kind != "fault":
        return getattr(rrs, f"{kind}_name")(number) or "none"
    if number == 0:
        return "no exception"  # a fault that there is not has no value here
    return Fault(FaultKind(number), 0, 0).name if number in NAMES else "none"


def cause(kind, pc, word):
    if int(kind) not in NAMES:
        return str(2**32 - 1)
    return str(Fault(FaultKind(int(kind)), 0, 0).cause(int(pc, 16), int(word, 16)))


def compared(by_words, *records):
    model, core = (Retired._make(map(int, record.split(","))) for record in records)
    found = rrs.compare(model, core, int(by_words) == 1)
    return f"{rrs.field_name(found.field)} 0x{found.model:x} 0x{found.core:x}" if found else "same"


def step(*words):
    state = State(words[2:], words[:2])
    return told(state.machine.step()) + str(state)


def record(order, *words):
    state = State(words[2:], words[:2])
    fault, retired = state.machine.step_rvfi(int(order))
    return told(fault) + told_record(retired) + str(state)


def record_ialign32(order, *words):
    state = State(words[2:], words[:2])
    fault, told_of = state.machine.step_rvfi_ialign32(int(order))
    return told(fault) + told_record(told_of) + str(state)


def run(limit, *words):
    state = State(words[2:], words[:2])
    return told_end(state.machine.run(int(limit))) + str(state)


def until(limit, stops, *words):
    state = State(words[2:], words[:2])
    return told_end(state.machine.run_until(words_of(stops), int(limit))) + str(state)


def cached(limits, writes, *words, stops=None):
    """Runs over one cache, in turn over the words and over others, which are these with bit 7 inverted,
    the lowest of rd. Behind each pair a word is written from outside."""
    state, other = (State(words[2:], words[:2]) for _ in range(2))
    machines = [state.machine, other.machine]
    other.machine.memory[:] = [word ^ 0x80 for word in state.machine.memory]
    cache = rrs._Cache()
    rrs.ctypes.memset(rrs.ctypes.byref(cache), 0xA5, rrs.ctypes.sizeof(cache))
    for machine in machines:
        machine._lend(cache)  # which no call of the face does: each machine has its own
    writes = entries(writes)
    ends = [], []
    for number, limit in enumerate(map(int, limits.split(","))):
        for machine, told_of in zip(machines, ends):
            end = machine.run(limit) if stops is None else machine.run_until(stops, limit)
            told_of.append(told_end(end))
        if number < len(writes):
            place, word = writes[number].split(":")
            state.machine.memory[int(place)] = int(word, 16)
    part = listed_words(other.machine.memory)
    return f"{';'.join(ends[1])}{other.hart} part={part} beside {';'.join(ends[0])}{state}"


def cached_until(limits, stops, writes, *words):
    return cached(limits, writes, *words, stops=words_of(stops))


def elf(file, base, count, address):
    try:
        program = rrs.Elf(bytes.fromhex(file))
    except rrs.ElfError as error:
        number = rrs._ElfRefusal[error.refusal].value
        return f"refused {number} {error.number} {error.other} none"
    told_of = [f"entry=0x{program.entry:08x}"]
    for index in range(program.count):
        s = program.segment(index)
        told_of.append(f"0x{s[0]:08x},{s[1]},{s[2]},{s[3]},{s[4]}" if s else "none")
    # the two lowest bits of a base are not looked at, and Machine refuses them
    machine = rrs.Machine([2**32 - 1] * int(count), int(base, 16) // 4 * 4)
    try:
        program.load(machine)
        told_of.append("loaded")
    except rrs.ElfError as error:
        told_of.append(f"refused {rrs._NOT_IN_WORDS} 0x{error.number:08x}")
    told_of.append(",".join(f"0x{word:08x}" for word in machine.memory))
    at = program.function_at(int(address, 16))
    told_of.append(f"{'in' if at.is_inside else 'behind'} {at.name}+{at.distance}" if at else "none")
    return " ".join(told_of)


# those of a question: a hart with machine mode alone
CSR_FIELDS = [name for name, _ in rrs._Csrs._fields_][:11]


def csrs_of(text):
    csrs = rrs.Csrs()
    for name, value in zip(CSR_FIELDS, text.split(","), strict=True):
        setattr(csrs, name, int(value))
    return csrs


def told_csrs(csrs):
    return ",".join(str(getattr(csrs, name)) for name in CSR_FIELDS)


def csr(number, mip, time, csrs):
    value = csrs_of(csrs).read(int(number, 16), int(mip, 16), int(time))
    return "none" if value is None else f"0x{value:08x}"


def write(number, value, csrs):
    file = csrs_of(csrs)
    return f"{int(file.write(int(number, 16), int(value, 16)))} {told_csrs(file)}"


def machine(order, mip, time, csrs, *words):
    state, file = State(words[2:], words[:2]), csrs_of(csrs)
    outcome, seen = state.machine.machine_step(file, int(mip, 16), int(time), int(order))
    cause = f" 0x{outcome.cause:08x}" if outcome.kind >= 2 or outcome.cause else ""
    value = f" 0x{outcome.value:08x}" if outcome.kind == 2 or outcome.value else ""
    access = " ".join(
        f"csr_{name}=0x{value:0{3 if name == 'addr' else 8}x}"
        for name, value in seen.csr._asdict().items()
    )
    return (
        f"{outcome.kind.name.lower()}{cause}{value}{told_record(seen.retired)} valid={seen.valid}"
        f" intr={seen.intr} mode={seen.mode} trapped={int(seen.cause is not None)}"
        f" cause=0x{seen.cause or 0:08x} {access} csrs={told_csrs(file)}{state}"
    )


def noted(*words):
    state = State(words[2:], words[:2])
    fault, change = state.machine.step_noted()
    after = f"{state.hart} part={listed_words(state.machine.memory)}"
    state.machine.undo(change)
    return f"{told(fault)} change={','.join(map(str, change))}{after} undone{state}"


def undo(change, *words):
    state = State(words[2:], words[:2])
    state.machine.undo([*map(int, change.split(","))])
    return f"undone{state}"


QUESTIONS = {
    "csr": csr,
    "write": write,
    "machine": machine,
    "noted": noted,
    "undo": undo,
    "decode": lambda word: decoded(int(word, 16)),
    "text": lambda pc, word: disassemble(int(word, 16), int(pc, 16)) or "none",
    "fields": lambda word: fields(int(word, 16)),
    "steps": steps,
    "request": requested,
    "complete": completed,
    "retire": retired,
    "name": name,
    "cause": cause,
    "compare": compared,
    "elf": elf,
    "step": step,
    "rvfi": record,
    "rvfi32": record_ialign32,
    "run": run,
    "until": until,
    "cached": cached,
    "cached_until": cached_until,
}


def main():
    for line in sys.stdin:
        name, *words = line.rstrip("\n").split(" ")
        if (name, words[0]) == ("steps", "0"):
            print("-", *words[1:])  # nothing is called
        else:
            print(QUESTIONS[name](*words))


if __name__ == "__main__":
    main()
