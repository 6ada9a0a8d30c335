"""What the module does beside the calls of the library, which replay.py compares:
`python3 test_rrs.py`."""

import array
import collections.abc
import copy
import doctest
import faulthandler
import inspect
import os
import pickle
import pydoc
import re
import shutil
import struct
import subprocess
import sys
import tempfile
import threading
import typing
import unittest
from pathlib import Path
from types import SimpleNamespace
from unittest import mock

import rrs
from core_check import PORTS, check_core
from rrs import Access, AccessKind, End, Fault, FaultKind, Machine
from rrs import HartLayer as LAYER


class Counted(unittest.TestCase):
    """Counts its comparisons, and check.sh compares how many they are with a stored count."""

    made = 0


def counted(name):
    """An assertion of unittest, by its name, which is counted."""
    assertion = getattr(unittest.TestCase, name)

    def compare(*arguments, **more):
        Counted.made += 1
        return assertion(*arguments, **more)

    return compare


for _name in "Equal In IsNone Raises Greater True".split():
    setattr(Counted, f"assert{_name}", counted(f"assert{_name}"))


class Board(Machine):
    """A machine of one's own, whose __init__ is another, with a device."""

    def __init__(self, *, sent=()):
        super().__init__([0x00108093], 64)
        self._sent = [*sent]


class Loaded(Machine):
    """A machine of one's own."""


class File(rrs.Csrs):
    """CSRs of one's own, whose __init__ is another."""

    def __init__(self, name, *, others=()):
        super().__init__()
        self.name, self.others = name, [*others]


class Signal:
    """A value of a port, as cocotb has it: a number only where it is asked for one."""

    def __init__(self, value):
        self.value = self
        self._number = value

    def __int__(self):
        return self._number


WORDS = [0x00108093, 0x0000A103]  # addi x1, x1, 1; lw x2, (x1)
# an executable: one segment that is not loaded, one of no bytes, and one of 13, of which the file has 8
HEAD = struct.pack("<16sHHIIIIIHHHHHH", b"\x7fELF\1\1\1", 2, 243, 1, 0x12F44, 52, 192, 0, 52, 32, 3, 40, 3, 0)
BODY = struct.pack("<16I", 4, 0, 0, 0, 0, 0, 4, 4, 1, 0, 0, 0, 0, 0, 4, 4)
BODY += struct.pack("<8I", 1, 148, 0x12F40, 0, 8, 13, 5, 4) + struct.pack("<2I", *WORDS)
# a function whose name is no UTF-8
BODY += struct.pack("<16xIIIBBH4s", 1, 0x12F44, 4, 0x12, 0, 1, b"\0f\xff")
BODY += struct.pack("<40x20I", 0, 2, 0, 0, 156, 32, 2, 1, 4, 16, 0, 3, 0, 0, 188, 4, 0, 0, 1, 0)


# what gcc with -march=rv32imac makes of `c.nop; _start: c.li a0, 5; c.j on; c.ebreak; on: c.addi a0, 1;
# c.ebreak`, linked to 0x80000000, but for the sections
SHORT = bytes.fromhex(
    "7f454c460101010000000000000000000200f3000100000002000080340000000000000001000000340020000100280000000000"
    "010000005400000000000080000000800c0000000c00000007000000020000000100154511a0029005050290")


class Faces(Counted):
    def test_faults_and_ends_are_shown(self):
        shown = {
            Fault(FaultKind.ILLEGAL_INSTRUCTION, 4, 5): (
                "Fault('ILLEGAL_INSTRUCTION', address=0x00000004, word=0x00000005)"
            ),
            Fault(FaultKind.ILLEGAL_INSTRUCTION, 8, 0): (
                "Fault('ILLEGAL_INSTRUCTION', address=0x00000008, word=0x00000000)"
            ),
            Fault(FaultKind.FETCH_FAULT, 2**31, 0): "Fault('FETCH_FAULT', address=0x80000000)",
            Fault(FaultKind.EBREAK, 8, 0): "Fault('EBREAK', address=0x00000008)",
            End(3, None, True): "End(steps=3, fault=None, at_stop=True)",
            Machine([1, 2], 16): "Machine(pc=0x00000010, 2 words from 0x00000010)",
        }
        self.assertEqual([repr(value) for value in shown], [*shown.values()])

    def test_registers_are_a_sequence(self):
        machine = Machine([0])
        machine._hart.x[0] = 5  # which no register is
        registers = machine.registers
        registers[0], registers[1], registers[-1] = 7, -1, 2**31
        self.assertEqual((len(registers), registers[0], registers[-32]), (32, 0, 0))
        self.assertEqual((registers[1], registers[31]), (2**32 - 1, 2**31))
        self.assertEqual(registers[-31], 2**32 - 1)
        self.assertEqual(registers[:3], [0, 2**32 - 1, 0])
        self.assertEqual(registers[30:], [0, 2**31])
        self.assertEqual((registers[::-10], registers[1:32:15]), ([2**31, 0, 0, 2**32 - 1], [2**32 - 1, 0, 2**31]))
        self.assertEqual((sum(registers), [*reversed(registers)][0]), (2**32 - 1 + 2**31, 2**31))
        self.assertEqual((2**31 in registers, 7 in registers), (True, False))
        self.assertEqual(repr(registers), repr([0, 2**32 - 1] + [0] * 29 + [2**31]))
        for index in (32, -33):
            self.assertRaises(IndexError, registers.__getitem__, index)
            self.assertRaises(IndexError, registers.__setitem__, index, 0)
        registers[-32] = 9  # x0
        self.assertEqual((registers[0], registers[1]), (0, 2**32 - 1))
        for value in (2**32, -(2**31) - 1):
            self.assertRaises(ValueError, registers.__setitem__, 1, value)
        self.assertEqual(registers[1], 2**32 - 1)

    def test_each_number_has_its_name_or_none(self):
        for kind in rrs.Row:
            self.assertEqual(rrs.row_name(kind), kind.name.lower().replace("_", "."))
        for kind in rrs.Field:
            self.assertEqual(rrs.field_name(kind), kind.name.lower())
        abi = ("zero ra sp gp tp t0 t1 t2 s0 s1 a0 a1 a2 a3 a4 a5 a6 a7 s2 s3 s4 s5 s6 s7 s8 s9 s10 s11 "
               "t3 t4 t5 t6").split()
        self.assertEqual([rrs.register_name(number) for number in range(32)], abi)
        faults = [Fault(kind, 0, 0).name for kind in FaultKind]
        self.assertEqual(faults, ["illegal instruction", "fetch access fault", "load access fault",
                                  "store access fault", "misaligned address", "environment call",
                                  "breakpoint"])
        for name in (rrs.row_name(0), rrs.row_name(108), rrs.register_name(32), rrs.register_name(-1),
                     rrs.field_name(17), Fault(8, 0, 0).name):
            self.assertIsNone(name)
        self.assertEqual((len(rrs.Row), len(rrs.Field), rrs.field_name(0)), (107, 16, "same"))

    def test_each_function_has_the_arguments_of_the_header(self):
        types = {"void": None, "uint32_t": rrs._u32, "uint64_t": rrs._u64, "size_t": rrs._size,
                 "uint32_t *": rrs._words, "char *": rrs.ctypes.c_char_p, "uint8_t *": rrs.ctypes.c_char_p}
        for name in vars(rrs):
            if isinstance(getattr(rrs, name), type(rrs.ctypes.Structure)) and name[0] == "_":
                named = "rrs" + re.sub("([A-Z])", lambda letter: "_" + letter[0].lower(), name[1:])
                types[named], types[f"{named} *"] = getattr(rrs, name), rrs.ctypes.POINTER(getattr(rrs, name))
        named = re.findall(r"(\w+) (rrs_\w+)\((.*)\)", (Path(__file__).parents[1] / "functions").read_text())
        used = {name: function for name, function in vars(rrs._lib).items() if name[:4] == "rrs_"}
        for result, name, arguments in named:
            kinds = [re.sub(r"^const |\w+$", "", each).strip() for each in arguments.split(", ")]
            wanted = (types[result], *(types[kind] for kind in kinds if kind))
            if name in used:
                function = used.pop(name)
                self.assertEqual((function.restype, *function.argtypes), wanted, name)
        self.assertEqual(used, {})

    def test_wrong_arguments_are_refused(self):
        for arguments in (([0], 2), ([0], -(2**40)), ([2**32], 0), ([1, 2], 0, 1), ([0], 2**32),
                          ([0], 0, 0)):
            self.assertRaises(ValueError, Machine, *arguments)
        machine = Machine([0x00108093] * 2)
        for call in (
            (machine.run_until, [2**32], 1),
            (machine.request, 2**32),
            (machine.complete, 2**32, 0),
            (machine.complete, 0, 2**32),
            (rrs.decode, 2**32),
            (rrs.disassemble, 0, 2**32),
            (rrs.disassemble, -(2**31) - 1),
            (setattr, machine, "pc", 2**32),
            (machine.complete_rvfi, 2**32, 0),
            (machine.complete_rvfi, 0x00008103, 2**32),
            (machine.complete_rvfi, 0x00108093, 0, 2**64),
            (machine.step_rvfi_ialign32, 2**64),
            (machine.machine_step, rrs.Csrs(), 0, 0, 2**64),
            (rrs.Csrs().read, 0x344, 2**32),
            (Fault(FaultKind.MISALIGNED, 0, 0).cause, 2**32, 0),
            (Fault(FaultKind.MISALIGNED, 0, 0).cause, 0, 2**32),
            (rrs.row_name, 2**32 + 1),
            (rrs.compare, [2**64] + [0] * 16, [0] * 17),
            (rrs.compare, [0] * 17, [0] * 16 + [2**32]),
        ):
            self.assertRaises(ValueError, *call)
        self.assertEqual((machine.pc, machine.registers[:]), (0, [0] * 32))
        for call, wanted in (
            (lambda: setattr(machine, "pc", 2**32), "4294967296 is no number of 32 bits"),
            (lambda: machine.run(-1), "limit -1 is no number of 64 bits"),
            (lambda: machine.step_rvfi(2**64), "order 18446744073709551616 is no number of 64 bits"),
            (lambda: Machine([1, 2], 0, 1), "a program of 2 words in 1 words of memory"),
            (lambda: Machine([1], 6), "base is misaligned"),
        ):
            with self.assertRaises(ValueError) as raised:
                call()
            self.assertEqual(str(raised.exception), wanted)
        for value, word in ((-(2**31), 2**31), (-1, 2**32 - 1), (2**32 - 1, 2**32 - 1), (0, 0)):
            self.assertEqual(Machine([value]).memory[0], word)

    def test_programs_are_words_or_bytes_and_have_a_size(self):
        for program in (b"\x93\x80\x10\x00\x73", [0x00108093, 0x73], (0x00108093, 0x73)):
            self.assertEqual(Machine(program).memory[:], [0x00108093, 0x73])
        for program in (bytearray(b"\1\2\3"), memoryview(b"\1\2\3\0")):
            self.assertEqual(Machine(program, size=3).memory[:], [0x00030201, 0, 0])
        words = array.array("I", [1, 2, 3, 4])
        for program, wanted in ((words, [1, 2, 3, 4]), (memoryview(words), [1, 2, 3, 4]),
                                (memoryview(words)[::2], [1, 3]), (range(3), [0, 1, 2]), (b"", []),
                                (memoryview(b"\1a\2a\3a\4a")[::2], [0x04030201])):
            self.assertEqual(Machine(program).memory[:], wanted)
        for count in range(9):
            self.assertEqual(len(Machine(bytes(count)).memory), (count + 3) // 4)
        self.assertEqual(Machine([-1], 2**32 - 4, 2).memory[:], [2**32 - 1, 0])
        self.assertEqual(Machine([], -4).base, 2**32 - 4)
        self.assertEqual(Machine([1]).base, 0)

    def test_defaults_are_0(self):
        machine = Machine([0x00108093])
        self.assertEqual((machine.pc, machine.last, machine.base), (0, None, 0))
        self.assertEqual(machine.step_rvfi()[1].order, 0)
        # a store of the byte 1, which the core tells of the word
        model, core = ([0] * 12 + [address, 0, mask, 0, 0] for address, mask in ((1, 1), (0, 2)))
        found = rrs.compare(model, core)
        self.assertEqual((found, rrs.compare(model, core, True)), ((rrs.Field.MEM_ADDR, 1, 0), None))
        self.assertEqual((rrs.compare(model, core, 2), rrs.compare(model, core, by_words="yes")), (None, None))
        self.assertEqual(type(found.field), rrs.Field)
        self.assertEqual(rrs.disassemble(0x0000006F), "jal x0, 0x00000000")
        self.assertEqual((rrs.decode(-1), rrs.disassemble(-1)), (None, None))
        self.assertEqual((rrs.disassemble(0x4515), rrs.expand(0), rrs.expand(0x14515)), (None, None, 0x00500513))

    def test_orders_and_limits_have_64_bits(self):
        machine = Machine([0x00108093] * 4)  # addi x1, x1, 1
        self.assertEqual(machine.step_rvfi(2**64 - 1)[1].order, 2**64 - 1)
        for number in (2**64, -1):
            self.assertRaises(ValueError, machine.step_rvfi, number)
            self.assertRaises(ValueError, machine.step_rvfi, order=number)
            self.assertRaises(ValueError, machine.run, number)
            self.assertRaises(ValueError, machine.run_until, [], number)
            self.assertRaises(ValueError, machine.run_hart, number, 0)
            self.assertRaises(ValueError, machine.step_hart_rvfi, 0, number)
        self.assertEqual((machine.pc, machine.registers[1]), (4, 1))

    def test_stops_are_any_iterable(self):
        for stops in ([8], (8,), {8}, iter([8]), (4 * n for n in (2, 9)), range(8, 9)):
            self.assertEqual(Machine([0x00108093] * 4).run_until(stops, 9), (2, None, True))

    def test_accesses_are_told_and_completed(self):
        machine = Machine([])
        machine.registers[1] = 0x10000000
        load, store = 0x00008103, 0x0010A223  # lb x2, 0(x1); sw x1, 4(x1)
        asked = (None, (AccessKind.STORE, 0x10000004, 4, 0x10000000))
        self.assertEqual(machine.request(store), asked)
        self.assertEqual(machine.request(load), (None, (AccessKind.LOAD, 0x10000000, 1, 0)))
        self.assertEqual(machine.request(0x00108093), (None, None))
        self.assertEqual(machine.request(-1), ((FaultKind.ILLEGAL_INSTRUCTION, 0, 2**32 - 1), None))
        refused = (FaultKind.LOAD_FAULT, 0x10000000, 0)
        self.assertEqual(machine.complete(load, None), refused)
        self.assertIsNone(machine.complete(load, 0))
        self.assertIsNone(machine.complete(load, -1))
        self.assertEqual((machine.registers[2], machine.pc, machine.last), (2**32 - 1, 8, 2))
        fault, record = machine.complete_rvfi(load, None, 9)
        self.assertEqual((fault, record.order, record.trap, record.mem_rmask), (refused, 9, 1, 0))
        fault, record = machine.complete_rvfi(load, 0xFE, order=2**64 - 1)
        self.assertEqual((fault, record.order, record.rd_wdata, record.mem_rdata),
                         (None, 2**64 - 1, 2**32 - 2, 0xFE))
        self.assertEqual(machine.complete_rvfi(store, 0)[1][12:], (0x10000004, 0, 15, 0, 0x10000000))

    def test_a_jump_aside_faults_itself_where_instructions_have_32_bits(self):
        for name, wanted in (("step_rvfi", None), ("step_rvfi_ialign32", (FaultKind.MISALIGNED, 2, 0))):
            machine = Machine([0x0020006F])  # j 2
            fault, record = getattr(machine, name)(3)
            self.assertEqual((fault, record.order, record.trap, machine.pc), (wanted, 3, int(bool(wanted)),
                                                                             0 if wanted else 2))
            self.assertEqual(type(fault), Fault if wanted else type(None))

    def test_a_hart_has_atomics_by_its_profile(self):
        # amoadd.w x4, x2, (x1); addi x3, x3, -1; bne x3, x0, -8; ebreak
        machine = Machine([0x0020A22F, 0xFFF18193, 0xFE019CE3, 0x00100073], 0x1000, 13)
        machine.registers[1], machine.registers[2], machine.registers[3] = 0x1030, 3, 10
        self.assertEqual(machine.run_hart(0, LAYER.A), (0, None, False))
        self.assertEqual(machine.pc, 0x1000)
        self.assertEqual(machine.run_hart(100, LAYER.A), (30, (FaultKind.EBREAK, 0x100C, 0), False))
        self.assertEqual((machine.memory[12], machine.registers[4]), (30, 27))
        machine.pc = 0x1000
        fault, record = machine.step_hart_rvfi(LAYER.A, 7)
        self.assertEqual((fault, record), (None, (7, 0x0020A22F, 1, 0, 0x1000, 0x1004, 1, 0x1030, 2, 3, 4,
                                                  30, 0x1030, 15, 15, 30, 33)))
        self.assertIsNone(rrs.compare(record, record, True))
        other = rrs.compare(record, record._replace(mem_wdata=34), True)
        self.assertEqual(other, (rrs.Field.MEM_WDATA, 33, 34))
        machine.pc = 0x1000
        refused = (FaultKind.ILLEGAL_INSTRUCTION, 0x1000, 0x0020A22F)
        for profile in (0, LAYER.ZIFENCEI | LAYER.MISALIGNED | LAYER.C, -2, 16):
            self.assertEqual((machine.step_hart(profile), machine.memory[12]), (refused, 33))
        machine.memory[0] = 0x0000100F  # fence.i
        self.assertEqual(machine.step_hart(~LAYER.ZIFENCEI & 15).kind, FaultKind.ILLEGAL_INSTRUCTION)
        self.assertIsNone(machine.step_hart(LAYER.ZIFENCEI))

    def test_a_hart_has_bit_manipulation_by_its_profile(self):
        # sh2add x3, x1, x2; max x3, x1, x2; bseti x3, x1, 31; clmul x3, x1, x2; packh x3, x1, x2;
        # czero.nez x3, x1, x2
        machine = Machine(
            [0x2020C1B3, 0x0A20E1B3, 0x29F09193, 0x0A2091B3, 0x0820F1B3, 0x0E20F1B3], 0)
        machine.registers[1], machine.registers[2] = 0x1030, 3
        for pc, layer, name, value in ((0, LAYER.ZBA, "sh2add x3, x1, x2", 0x40C3),
                                       (4, LAYER.ZBB, "max x3, x1, x2", 0x1030),
                                       (8, LAYER.ZBS, "bseti x3, x1, 31", 0x80001030),
                                       (12, LAYER.ZBC, "clmul x3, x1, x2", 0x3050),
                                       (16, LAYER.ZBKB, "packh x3, x1, x2", 0x330),
                                       (20, LAYER.ZICOND, "czero.nez x3, x1, x2", 0)):
            word = machine.memory[pc // 4]
            self.assertEqual(rrs.disassemble(word), name)
            self.assertEqual(machine.step_hart(2047 - layer),
                             (FaultKind.ILLEGAL_INSTRUCTION, pc, word))
            self.assertIsNone(machine.step_hart(layer))
            self.assertEqual((machine.pc, machine.registers[3]), (pc + 4, value))
        self.assertEqual(rrs.decode(0x29F09193), (rrs.Row.BSETI, 3, 1, 0, 31, 0))
        self.assertEqual(rrs.row_name(rrs.Row.BSETI), "bseti")

    def test_a_reservation_goes_from_a_step_to_the_next(self):
        machine = Machine([0x1000A2AF, 0x1820A32F], 0, 3)  # lr.w x5, (x1); sc.w x6, x2, (x1)
        machine.registers[1], machine.registers[2], machine.memory[2] = 8, 3, 40
        self.assertIsNone(machine.reservation)
        machine.step_hart(LAYER.A)
        self.assertEqual((machine.reservation, machine.registers[5]), (8, 40))
        for kept, given, word in ((True, 0, 3), (False, 1, 40)):
            for other in (copy.copy(machine), pickle.loads(pickle.dumps(machine))):
                self.assertEqual(other.reservation, 8)
                other.reservation = other.reservation if kept else None
                self.assertIsNone(other.step_hart(LAYER.A))
                self.assertEqual((other.registers[6], other.memory[2], other.reservation),
                                 (given, word, None))
        machine.registers[1] = machine.reservation = 9
        self.assertEqual(machine.step_hart(15), (FaultKind.MISALIGNED, 9, 0))
        self.assertIsNone(machine.reservation)
        machine.reservation = 0
        self.assertEqual(machine.reservation, 0)
        self.assertRaises(ValueError, setattr, machine, "reservation", 2**32)

    def test_a_hart_makes_misaligned_accesses_by_its_profile(self):
        machine = Machine([0x0010A403, 0x0020A323, 0x44332211, 0x88776655])  # lw x8, 1(x1); sw x2, 6(x1)
        machine.registers[1], machine.registers[2] = 8, 3
        self.assertEqual(machine.step_hart(11), (FaultKind.MISALIGNED, 9, 0))
        fault, record = machine.step_hart_rvfi(LAYER.MISALIGNED)
        self.assertEqual((fault, record.rd_addr), (None, 8))
        self.assertEqual(record[11:], (0x55443322, 9, 15, 0, 0x55443322, 0))
        machine.registers[1] = 4  # bytes 10 to 13
        self.assertEqual(machine.step_hart_rvfi(LAYER.MISALIGNED)[1][12:], (10, 0, 15, 0, 3))
        self.assertEqual(machine.memory[2:], [0x00032211, 0x88770000])

    def test_a_hart_has_short_instructions_by_its_profile(self):
        # c.addi x10, 5; c.jalr x11; c.ebreak; c.nop; c.lwsp x12, 4(x2)
        machine = Machine([0x95820515, 0x00019002, 0x4612, 7, 0x12345678])
        machine.registers[2], machine.registers[11] = 12, 8
        for insn, pc, after, register, value in (
            (0x0515, 0, 2, 10, 5), (0x9582, 2, 8, 1, 4), (0x4612, 8, 10, 12, 0x12345678),
        ):
            fault, record = machine.step_hart_rvfi(LAYER.C)
            self.assertEqual((fault, record.insn, record.pc_rdata, record.pc_wdata),
                             (None, insn, pc, after))
            self.assertEqual((record.rd_addr, record.rd_wdata, machine.last), (register, value, register))
        self.assertEqual(machine.step_hart(LAYER.C), (FaultKind.ILLEGAL_INSTRUCTION, 10, 0))
        for pc, profile in ((1, LAYER.C), (2, LAYER.A)):
            machine.pc = pc
            self.assertEqual(machine.run_hart(2, profile), (0, (FaultKind.MISALIGNED, pc, 0), False))
        self.assertEqual(machine.step_hart(LAYER.C), None)

    def test_a_step_of_machine_mode_tells_all(self):
        # csrrw x2, mtvec, x1; csrrs x3, timeh, x0; ecall; csrrwi x0, mepc, 9
        machine, csrs = Machine([0x30509173, 0xC81021F3, 0x00000073, 0x3414D073]), rrs.Csrs()
        machine.registers[1], csrs.mie = 12, 0x80
        kinds = rrs.OutcomeKind
        for outcome, told, csr in (
            ((kinds.RETIRED, 0, 0), (1, 0, 3, None), (0x305, 2**32 - 1, 2**32 - 3, 0, 12)),
            ((kinds.RETIRED, 0, 0), (1, 0, 3, None), (0xC81, 2**32 - 1, 0, 1, 0)),
            ((kinds.RAISED, 11, 0), (1, 0, 3, 11), (0, 0, 0, 0, 0)),
            ((kinds.RETIRED, 0, 0), (1, 1, 3, None), (0x341, 0, 2**32 - 4, 0, 8)),
        ):
            found, record = machine.machine_step(csrs, 0x80, 5_000_000_000, 7)
            self.assertEqual((found, record[1:5], record.csr), (outcome, told, csr))
            self.assertEqual((record.retired.order, type(found.kind)), (7, kinds))
        csrs.write(0x300, 8)
        found, record = machine.machine_step(csrs, mip=0x80)
        self.assertEqual((found, record[1:5], record.retired.insn),
                         ((kinds.INTERRUPTED, 2**31 + 7, 0), (0, 0, 3, 2**31 + 7), 0))

    def test_each_call_gives_what_its_types_say(self):
        def is_of(value, hint):
            parts, kind = typing.get_args(hint), typing.get_origin(hint)
            if kind is typing.Union:
                return any(is_of(value, part) for part in parts)
            if kind is tuple:
                return len(value) == len(parts) and all(map(is_of, value, parts))
            if kind is list:
                return isinstance(value, list) and all(is_of(each, parts[0]) for each in value)
            if kind is collections.abc.Callable:
                return callable(value)
            if hint in (int, bytes) or kind is None:
                return type(value) is hint or hint not in (int, bytes) and isinstance(value, hint)
            return isinstance(value, kind) and all(is_of(each, parts[0]) for each in value)

        machine, csrs = Machine([0x00108093] * 9), rrs.Csrs()
        aside, board = Machine([0]), rrs.Board([0x00108093])
        for call, *arguments in (
            (Machine, [1]), (Machine, b"1234", 4, 9), (Machine, bytearray(4)), (Machine, memoryview(b"1234")),
            (Machine, (1, 2)), (machine.step,), (aside.step,), (machine.step_rvfi, 1), (aside.step_rvfi,),
            (machine.step_rvfi_ialign32, 1), (aside.step_rvfi_ialign32,), (machine.step_noted,),
            (aside.step_noted,), (machine.undo, [0] * 7), (machine.run, 1), (aside.run, 1),
            (machine.run, 1, lambda access: 0), (machine.run_until, {8}, 1), (machine.request, 0x2003),
            (machine.step_hart, 0), (aside.step_hart, 0), (machine.run_hart, 1, 8), (aside.run_hart, 1, 0),
            (machine.step_hart_rvfi, 0, 1), (aside.step_hart_rvfi, 0),
            (machine.request, 0x13), (machine.request, 0), (machine.complete, 0x13, 0), (machine.complete, 0, None),
            (machine.complete_rvfi, 0x13, 0), (machine.complete_rvfi, 0, None), (machine.machine_step, csrs),
            (aside.machine_step, csrs), (csrs.read, 0x300), (csrs.read, 0), (csrs.write, 0x300, 0),
            (rrs.assemble, ""), (rrs.assemble, b"a: nop", 4), (rrs.decode, 0x13), (rrs.decode, 0),
            (rrs.disassemble, 0x13), (rrs.disassemble, 0, 4), (rrs.disassemble, 0x4515, 0, 8),
            (rrs.expand, 0x4515), (rrs.expand, 0), (rrs.row_name, 1), (rrs.row_name, 0),
            (rrs.register_name, 1), (rrs.register_name, 32), (rrs.field_name, 1), (rrs.field_name, 99),
            (rrs.compare, [0] * 17, [0] * 17), (rrs.compare, (0,) * 17, range(17), True),
            (Fault(FaultKind.ECALL, 0, 0).cause, 0, 0x73), (rrs.Board, [1], 4, 3), (board.run, 1),
            (board.receive, 1), (board.receive, 1),
        ):
            function = call.__init__ if inspect.isclass(call) else call
            hints = typing.get_type_hints(function)
            given = inspect.signature(call).bind(*arguments).arguments
            result = call(*arguments)
            for name, value in given.items():
                self.assertTrue(is_of(value, hints[name]), (call, name, value))
            self.assertTrue(inspect.isclass(call) or is_of(result, hints["return"]), (call, result))
        for value in (machine, aside, board):
            for name, member in vars(type(value)).items():
                if isinstance(member, property):
                    hint = typing.get_type_hints(member.fget)["return"]
                    self.assertTrue(name == "memory" or is_of(getattr(value, name), hint), name)

    def test_devices_are_asked_in_a_run(self):
        load, store, add = 0x00008103, 0x0020A223, 0x00108093  # lb x2, (x1); sw x2, 4(x1); addi
        loads = Access(AccessKind.LOAD, 0x10000000, 1, 0)
        stores = Access(AccessKind.STORE, 0x10000004, 4, 2**32 - 128)
        asked = []

        def access(made):
            asked.append(made)
            return None if len(asked) == refused else 0 if limit == 5 else 0x80

        for refused, limit, wanted in (
            (0, 5, (5, None, False)),  # the limit is reached behind an access
            (0, 4, (4, None, False)),
            (0, 2, (2, None, False)),
            (0, 9, (6, (FaultKind.FETCH_FAULT, 40, 0), False)),
            (1, 9, (1, (FaultKind.LOAD_FAULT, 0x10000000, 0), False)),
            (2, 9, (3, (FaultKind.STORE_FAULT, 0x10000004, 0), False)),
            (1, 1, (1, None, False)),
        ):
            asked.clear()
            machine = Machine([0x100000B7, load, 0x13, store, 0x13, 0x13], base=16)  # lui x1
            self.assertEqual(machine.run(limit, access), wanted)
            self.assertEqual(machine.pc, 16 + 4 * wanted[0])
            last = stores._replace(value=0) if limit == 5 else stores
            self.assertEqual(asked, [loads, last][: 2 if wanted[0] > 2 else int(limit > 1)])
        for limit, steps, fault in ((0, 0, None), (2**64 - 1, 2, (FaultKind.FETCH_FAULT, 8, 0))):
            asked.clear()
            machine = Machine([load, store])  # from address 0
            machine.registers[1], refused = 0x10000000, 0
            self.assertEqual(machine.run(limit, access), (steps, fault, False))
            self.assertEqual(len(asked), steps)
        # the instruction behind a load is written while it is made, and one that ran before
        machine = Machine([add, load, add, 0xFF5FF06F])  # .. j 0
        machine.registers[1] = 0x10000000

        def write(made):
            machine.memory[0], machine.memory[2] = 0x00110113, 0x00310113  # addi x2, x2, 1; addi x2, x2, 3
            return machine.pc

        self.assertEqual(machine.run(6, write), (6, None, False))
        self.assertEqual((machine.registers[1:3], machine.pc), ([0x10000001, 4], 8))
        machine = Machine([add, load], base=16)
        self.assertRaises(ZeroDivisionError, machine.run, 9, lambda made: 1 // 0)
        self.assertRaises(ValueError, machine.run, 9, lambda made: 2**32)
        self.assertEqual((machine.pc, machine.registers[1:3]), (20, [1, 0]))
        self.assertEqual(machine.run(9), (0, (FaultKind.LOAD_FAULT, 1, 0), False))

    def test_a_core_is_checked(self):
        # addi x1, x1, 1; ecall; -; div x2, x1, x1; sb x1, 0x55(x0)
        words = [0x00108093, 0x00000073, 0, 0x0210C133, 0x04100AA3, 0]
        core, ports = Machine(words, 64), dict.fromkeys(PORTS, 0)

        def records(handler, wrong):
            for order in range(4):
                yield {"valid": 0, **ports}
                record = core.step_rvfi_ialign32(order)[1]._asdict()
                if record["trap"]:
                    record["pc_wdata"] = core.pc = handler
                if order == 3:  # the core tells the word
                    self.assertEqual(record["mem_addr"], 0x55)
                    record.update(mem_addr=0x54, mem_wmask=2, mem_wdata=0x100)
                if order in wrong:
                    record[wrong[order]] += 1
                yield {"valid": 1, **record}

        for handler, wrong, wanted in (
            (76, {}, ""),
            (76, {2: "rd_wdata"}, "record 2, pc 0x0000004c: "
             "Difference(field=<Field.RD_WDATA: 11>, model=1, core=2)"),
            (76, {3: "order"}, "record 3, pc 0x00000050: "
             "Difference(field=<Field.ORDER: 1>, model=3, core=4)"),
            (80, {}, "record 1, pc 0x00000044: "
             "Difference(field=<Field.PC_WDATA: 5>, model=76, core=80)"),
        ):
            core.pc, core.registers[1], dut = 64, 0, SimpleNamespace()
            edges, csrs = records(handler, wrong), rrs.Csrs()
            csrs.mtvec = 76

            async def edge():
                values = next(edges)
                vars(dut).update((f"rvfi_{name}", Signal(number)) for name, number in values.items())

            try:
                check_core(dut, edge, Machine(words, 64), csrs, 4).send(None)
            except StopIteration:
                found = ""
            except AssertionError as error:
                found = str(error)
            self.assertEqual(found, wanted)

    def test_all_that_is_public_has_types_and_a_text(self):
        count = 0
        for name in rrs.__all__:
            public = getattr(rrs, name)
            help_of = pydoc.render_doc(public, renderer=pydoc.plaintext).replace("|", " ").split()
            self.assertIn(" ".join(public.__doc__.split()), " ".join(help_of))
            members = vars(public).values() if inspect.isclass(public) else [public]
            self.assertTrue(all(each.__doc__ for each in members if isinstance(each, property)))
            for member in members:
                function = member.fget if isinstance(member, property) else member
                if not inspect.isfunction(function) or function.__module__ != "rrs":
                    continue
                hints = typing.get_type_hints(function)
                parameters = inspect.signature(function).parameters
                wanted = [*parameters, "return"]
                given = [one.default for one in parameters.values() if one.default is not one.empty]
                self.assertEqual([value for value in given if value], [], (name, function.__name__))
                self.assertEqual([n for n in wanted if n != "self" and n not in hints], [],
                                 (name, function.__name__))
                self.assertTrue(function.__doc__ or function.__name__.startswith("__"))
                count += 1
        self.assertGreater(count, 20)
        own = [name for name, value in vars(rrs).items() if name[0] != "_" and (
            getattr(value, "__module__", None) == "rrs" or isinstance(value, type(rrs.Row)))]
        self.assertEqual(sorted(own), sorted(rrs.__all__))

    def test_a_machine_keeps_its_memory_and_its_base(self):
        machine = Machine([1, 2], base=8)
        for name, value in {"memory": [3, 4], "base": 0, "registers": [0] * 32, "last": 1}.items():
            self.assertRaises(AttributeError, setattr, machine, name, value)
        self.assertEqual((machine.memory[:], machine.base, machine.pc), ([1, 2], 8, 8))
        machine.memory[:] = [0x00108093, 4]
        self.assertIsNone(machine.step())

    def test_a_word_of_memory_has_32_bits(self):
        machine = Machine([1, 2, 3])
        for index, value in ((0, 2**32), (2, -(2**31) - 1), (slice(1, 3), [7, 2**32])):
            with self.assertRaises(ValueError):
                machine.memory[index] = value
        self.assertEqual(machine.memory[:], [1, 2, 3])
        machine.memory[0], machine.memory[1:] = -1, [2**32 - 1, 0]
        self.assertEqual(machine.memory[:], [2**32 - 1, 2**32 - 1, 0])
        self.assertEqual(bytes(machine.memory), bytes(8 * [255] + 4 * [0]))
        machine.memory[::2] = [5, -2]
        self.assertEqual(machine.memory[::-1], [2**32 - 2, 2**32 - 1, 5])
        self.assertEqual([*machine.memory], [5, 2**32 - 1, 2**32 - 2])
        machine.memory[-1] = 6
        for index, value in ((slice(0, 2), [1]), (slice(None), [1] * 4)):
            with self.assertRaises(ValueError):
                machine.memory[index] = value
        for index in (3, -4):
            with self.assertRaises(IndexError):
                machine.memory[index] = 0
        self.assertEqual(machine.memory[:], [5, 2**32 - 1, 6])
        # machines of one size share a type, so that many of them cost little
        self.assertTrue(type(machine.memory) is type(Machine([4], 8, 3).memory))

    def test_a_copy_shares_nothing(self):
        machine = Machine([0x00108093, 0x0000A103, 5], base=64)  # addi x1, x1, 1; lw x2, (x1)
        machine.registers[3] = 7
        machine.step()
        pickled = pickle.loads(pickle.dumps(machine))
        for other in (copy.copy(machine), copy.deepcopy(machine), pickled):
            state = (other.pc, other.last, other.registers[:4], other.memory[:], other.base)
            self.assertEqual(state, (68, 1, [0, 1, 0, 7], machine.memory[:], 64))
            other.registers[1], other.memory[2] = 72, 9
            self.assertIsNone(other.step())
            self.assertEqual((other.registers[2], other.pc), (9, 72))
        self.assertEqual((machine.pc, machine.registers[:4]), (68, [0, 1, 0, 7]))
        self.assertEqual(machine.memory[2], 5)
        board = Board(sent=[1])
        board.step()
        for other, shared in ((copy.copy(board), True), (copy.deepcopy(board), False),
                              (pickle.loads(pickle.dumps(board)), False)):
            self.assertEqual((type(other), other.pc, other.registers[1]), (Board, 68, 1))
            self.assertEqual((other._sent, other._sent is board._sent), ([1], shared))
            self.assertEqual((other.run(1).fault.address, board.pc), (68, 68))

    def test_a_copy_has_what_a_subclass_added(self):
        board, file = Board(sent=[1]), File("first", others=[2])
        board._csrs_of, board.run_limit, file.mcycle = file, 5, 2**40
        ways = [copy.copy, copy.deepcopy] + [
            lambda value, protocol=protocol: pickle.loads(pickle.dumps(value, protocol))
            for protocol in range(pickle.HIGHEST_PROTOCOL + 1)]
        for way in ways:
            is_shared = way is copy.copy
            other = way(file)
            self.assertEqual((type(other), other.name, other.others, other.mcycle),
                             (File, "first", [2], 2**40))
            self.assertEqual(other.others is file.others, is_shared)
            other.mcycle, other.name, other.more = 1, "second", 3
            self.assertEqual((file.mcycle, file.name, hasattr(file, "more")), (2**40, "first", False))
            self.assertEqual((other.write(0x340, 7), other.mscratch, file.mscratch), (True, 7, 0))
            other = way(board)
            self.assertEqual((type(other), other._sent, other.run_limit, other._csrs_of.mcycle),
                             (Board, [1], 5, 2**40))
            self.assertEqual(other._csrs_of is file, is_shared)
            self.assertEqual((other.machine_step(other._csrs_of)[0].kind, other.pc, board.pc),
                             (rrs.OutcomeKind.RETIRED, 68, 64))
            file.mcycle = 2**40
        # an attribute of its own leads back to it
        board.own = file.own = board
        self.assertTrue(copy.deepcopy(board).own is not board)
        other = pickle.loads(pickle.dumps([file, board]))
        self.assertTrue(other[0].own is other[1] and other[1]._csrs_of is other[0])

    def test_each_answer_may_be_copied(self):
        machine = Machine([0x00108093])
        answers = [machine.step_rvfi(), machine.step_noted(), machine.run(1), rrs.decode(0x13),
                   machine.machine_step(rrs.Csrs()), rrs.assemble("a: nop"), rrs.compare([0] * 17, [1] * 17)]
        for answer in answers:
            for other in (copy.deepcopy(answer), pickle.loads(pickle.dumps(answer))):
                self.assertEqual((repr(other), type(other)), (repr(answer), type(answer)))

    def test_an_error_may_be_pickled(self):
        for kind, arguments, text in (
            (rrs.ElfError, ("NOT_IN_WORDS", 4, 5), "NOT_IN_WORDS 4 5"),
            (rrs.AssemblyError, ([rrs.Mistake(1, 2, "a"), rrs.Mistake(3, 4, "b")],), "1:2: a; 3:4: b"),
        ):
            error = kind(*arguments)
            other = pickle.loads(pickle.dumps(error))
            self.assertEqual((type(other), str(other), other.args, vars(other)),
                             (kind, text, arguments, vars(error)))

    def test_each_machine_keeps_decoded_words_of_its_own(self):
        machine = Machine([0x00128293, 0xFFDFF06F])  # addi t0, t0, 1; j -4
        other = copy.copy(machine)
        machines = (machine, other, pickle.loads(pickle.dumps(machine)))
        self.assertEqual(len({id(m._cached[1]._obj) for m in machines}), 3)
        for word, sums in ((0x00128293, (50, 50)), (0x00A28293, (550, 100)), (0, (550, 150))):
            machine.memory[0] = word
            ends = [m.run_until([], 100) if word else m.run(100) for m in (machine, other)]
            self.assertEqual([end.steps for end in ends], [100 if word else 0, 100])
            self.assertEqual((machine.registers[5], other.registers[5]), sums)
        self.assertEqual(machine.run(1).fault, Fault(FaultKind.ILLEGAL_INSTRUCTION, 0, 0))

    def test_two_machines_may_be_stepped_at_the_same_time(self):
        # addi x1, x1, 1; addi x2, x2, 2
        one, other = Machine([0x00108093] * 9), Machine([0x00210113] * 9)
        for name, words in (("step_rvfi", ()), ("step_rvfi_ialign32", ()),
                            ("complete_rvfi", (0x00108093, 0))):
            call = getattr(rrs, f"_{name}")

            def beside(*arguments, call=call):
                fault = call(*arguments)
                # as another thread may, before the record is read
                if arguments[0]._obj is one._hart:
                    other.step_rvfi(7)
                return fault

            with mock.patch.object(rrs, f"_{name}", beside):
                record = getattr(one, name)(*words, order=5)[1]
            self.assertEqual((record.order, record.insn), (5, 0x00108093))

    def test_an_executable_is_loaded_where_it_says(self):
        words, head, body = WORDS, HEAD, BODY
        with tempfile.NamedTemporaryFile() as file:
            file.write(head + body)
            file.flush()
            machine = Machine.from_elf(file.name)
            larger = Machine.from_elf(file.name, size=4096)
            smaller = Loaded.from_elf(Path(file.name), size=1)
            sizes = [len(Machine.from_elf(file.name.encode(), size).memory) for size in (0, 979, 980, 981)]
        self.assertEqual((machine.base, machine.pc, len(machine.memory)), (0x12000, 0x12F44, 980))
        self.assertEqual(machine.memory[976:], [*words, 0, 0])
        self.assertEqual((len(larger.memory), sum(machine.memory)), (4096, sum(words)))
        self.assertEqual(sizes, [980, 980, 980, 981])
        self.assertRaises(FileNotFoundError, Machine.from_elf, file.name)
        # the segments stand in the file in another order than in memory, and the last ends a page
        two = head[:44] + struct.pack("<H", 2) + head[46:] + struct.pack(
            "<16I", 1, 148, 0x13000, 0, 8, 4096, 4, 4, 1, 148, 0x12F44, 0, 8, 8, 5, 4)
        with tempfile.NamedTemporaryFile() as file:
            file.write(two + body[64:])
            file.flush()
            other = Machine.from_elf(file.name)
        self.assertEqual((other.base, len(other.memory), other.memory[0x3D1:0x403]),
                         (0x12000, 2048, [*words, *[0] * 45, *words, 0]))
        self.assertEqual(other.elf.function_at(0x12F44), ("f\udcff", 0, True))
        self.assertEqual(smaller.memory[:], machine.memory[:])
        self.assertIsNone(machine.elf.function_at(0x12F40))
        self.assertEqual(machine.elf.function_at(0x12F47), ("f\udcff", 3, True))
        self.assertEqual(machine.elf.function_at(0x12F48), ("f\udcff", 4, False))
        self.assertEqual(machine.elf.segments, [
            rrs.Segment(0, 0, 0, 0, 4), rrs.Segment(0x12F40, 13, 148, 8, 5)])
        self.assertEqual((type(smaller), copy.copy(smaller).elf is smaller.elf), (Loaded, True))
        # the names are moved to the end of the file, and one has more bytes than any buffer
        file = bytearray(head + body[:-24] + struct.pack("<2I", len(head + body), 302) + body[-16:])
        file += b"\0" + b"f" * 300 + b"\0"
        for given in (bytes(file), file, memoryview(file)):
            self.assertEqual(rrs.Elf(given).function_at(0x12F44), ("f" * 300, 0, True))
        for call in (machine.elf.segment, machine.elf.function_at):
            self.assertRaises(ValueError, call, 2**32)
        with self.assertRaises(rrs.ElfError) as caught:
            rrs.Elf(b"none")
        self.assertEqual(caught.exception.refusal, "NOT_ELF")
        with self.assertRaises(rrs.ElfError) as caught:
            machine.elf.load(Machine([0], base=0x12F40))
        self.assertEqual((caught.exception.refusal, caught.exception.number), ("NOT_IN_WORDS", 0x12F44))

    def test_an_executable_with_compressed_code_is_for_a_hart_that_has_it(self):
        with tempfile.NamedTemporaryFile() as file:
            file.write(SHORT)
            file.flush()
            machine = Machine.from_elf(file.name, profile=LAYER.C | LAYER.A)
            with self.assertRaises(rrs.ElfError) as caught:
                Machine.from_elf(file.name)
        self.assertEqual((machine.base, machine.pc, len(machine.memory)), (2**31, 2**31 + 2, 3))
        end = machine.run_hart(9, machine.elf.profile)
        self.assertEqual((end.steps, machine.registers[10]), (3, 6))
        self.assertEqual(end.fault, Fault(FaultKind.EBREAK, 2**31 + 10, 0))
        self.assertEqual((caught.exception.refusal, machine.elf.segments),
                         ("COMPRESSED_CODE", [rrs.Segment(2**31, 12, 84, 12, 7)]))
        file = bytearray(HEAD + BODY)
        file[24], file[36] = 0x46, 1
        self.assertEqual(rrs.Elf(file, LAYER.C).function_at(0x12F46), ("f\udcff", 2, True))
        for at, value, profile, refusal in ((24, 0x45, LAYER.C, "ENTRY_MISALIGNED"),
                                            (36, 3, 15, "FLOATING_POINT"), (36, 1, 7, "COMPRESSED_CODE")):
            with self.assertRaises(rrs.ElfError) as caught:
                rrs.Elf(file[:at] + bytes([value]) + file[at + 1:], profile)
            self.assertEqual(caught.exception.refusal, refusal)
        self.assertRaises(ValueError, rrs.Elf, SHORT, 2**32)
        board = rrs.Board([], 4, rrs.MachineLayer.C)
        board.load(SHORT)
        self.assertEqual((board.pc, board.run(3).steps, board.pc, board.registers[10]),
                         (2**31 + 2, 3, 2**31 + 10, 6))
        with self.assertRaises(rrs.ElfError) as caught:
            rrs.Board([], 4, 31 - rrs.MachineLayer.C).load(SHORT)
        self.assertEqual(caught.exception.refusal, "COMPRESSED_CODE")

    def test_each_refusal_of_an_executable_is_told(self):
        cut, named = len(HEAD + BODY), set()
        for at, size, value, *wanted in (
            (0, 1, 0, "NOT_ELF"), (4, 1, 2, "CLASS", 2), (5, 1, 2, "BYTE_ORDER", 2),
            (6, 1, 9, "IDENT_VERSION", 9), (16, 2, 3, "POSITION_INDEPENDENT"), (16, 2, 1, "NOT_EXECUTABLE", 1),
            (18, 2, 62, "MACHINE", 62), (20, 4, 2, "VERSION", 2), (36, 4, 1, "COMPRESSED_CODE"),
            (36, 4, 2, "FLOATING_POINT"), (36, 4, 8, "EMBEDDED"), (42, 2, 31, "PROGRAM_HEADER_SIZE", 31),
            (44, 2, 257, "TOO_MANY_PROGRAM_HEADERS"), (28, 4, cut - 95, "PROGRAM_HEADERS_CUT_SHORT"),
            (84, 4, 3, "INTERPRETER", 1), (120, 4, cut - 7, "SEGMENT_CUT_SHORT", 2),
            (136, 4, 7, "SEGMENT_SIZES", 2), (124, 4, 2**32 - 12, "SEGMENT_PAST_LAST_ADDRESS", 2),
            (104, 4, 2**17, "SEGMENTS_OVERLAP", 1, 2), (24, 4, 0x12F46, "ENTRY_MISALIGNED", 0x12F46),
            (24, 4, 0x12F50, "ENTRY_OUTSIDE", 0x12F50), (51, 1, None, "HEADER_CUT_SHORT"),
        ):
            file = bytearray(HEAD + BODY)
            file[at:at + size if value is not None else cut] = (value or 0).to_bytes(
                size if value is not None else 0, "little")
            with self.assertRaises(rrs.ElfError) as caught:
                rrs.Elf(file)
            refusal, number, other = (*wanted, 0, 0)[:3]
            error = caught.exception
            self.assertEqual((error.refusal, error.number, error.other, str(error)),
                             (refusal, number, other, f"{refusal} {number} {other}"))
            named.add(refusal)
        self.assertEqual(named, {refusal.name for refusal in rrs._ElfRefusal})

    def test_csrs_begin_at_reset_and_a_copy_shares_nothing(self):
        csrs = rrs.Csrs()
        names = [name for name, _ in rrs._Csrs._fields_]
        self.assertEqual([getattr(csrs, name) for name in names], [0] * 16)
        csrs.mtvec, csrs.mcycle, csrs.trapped = -1, 2**64 - 1, 1
        self.assertEqual((csrs.read(0x305), csrs.read(0xC80), csrs.read(0x306)),
                         (0xFFFFFFFD, 2**32 - 1, None))
        self.assertEqual((csrs.read(0x344, mip=-1), csrs.read(0xC81, time=2**32)), (0x888, 1))
        self.assertEqual((csrs.write(0xC00, 1), csrs.write(0xB00, 1)), (False, True))
        self.assertEqual((csrs.read(0x344), csrs.read(0xC01), csrs.read(0x342)), (0, 0, 0))
        self.assertEqual(repr(csrs.write(0xB00, 1)), "True")
        for other in (copy.copy(csrs), copy.deepcopy(csrs), pickle.loads(pickle.dumps(csrs))):
            self.assertEqual(repr(other), repr(csrs))
            other.mie = 8
            self.assertEqual((other.mie, csrs.mie, csrs.mcycle), (8, 0, 0xFFFFFFFF00000001))
        self.assertIn("mtvec=0xffffffff", repr(csrs))

    def test_csrs_with_user_mode(self):
        machine, csrs = Machine([0x00000073]), rrs.Csrs()
        csrs.profile, csrs.user, csrs.mcounteren = 2, 1, -1
        self.assertEqual((csrs.read(0x301), csrs.read(0x306), csrs.read(0x30A)), (0x40101100, 7, 0))
        outcome, seen = machine.machine_step(csrs)
        self.assertEqual((outcome.cause, seen.mode, csrs.user, csrs.profile), (8, 0, 0, 2))
        self.assertEqual((csrs.write(0x300, 0x1800), csrs.read(0x300)), (True, 0x1800))
        self.assertEqual((csrs.write(0x300, 0x0800), csrs.read(0x300)), (True, 0x1800))

    def test_csrs_keep_each_profile(self):
        csrs = rrs.Csrs()
        for profile in range(32):
            csrs.profile = profile
            self.assertTrue(csrs.write(0x340, profile))
            misa = 0x40001100 + (profile & 5) + (0x100000 if profile & rrs.MachineLayer.USER_MODE else 0)
            self.assertEqual((csrs.profile, csrs.read(0x301), csrs.mscratch), (profile, misa, profile))

    def test_csrs_with_extension_a(self):
        # amoadd.w x5, x6, (x7); lr.w x5, (x7); sc.w x5, x6, (x7); sc.w x5, x6, (x7)
        program = [0x0063A2AF, 0x1003A2AF, 0x1863A2AF, 0x1863A2AF, 40]
        machine, csrs = Machine(program), rrs.Csrs()
        outcome, seen = machine.machine_step(csrs)
        self.assertEqual((outcome.cause, outcome.value), (2, program[0]))
        machine, csrs.profile = Machine(program), 1
        machine.registers[6], machine.registers[7] = 2, 16
        self.assertEqual(csrs.read(0x301), 0x40001101)
        for value, memory, reserved, access in (
            (40, 42, 0, (16, 15, 15, 40, 42)),
            (42, 42, 1, (16, 15, 0, 42, 0)),
            (0, 2, 0, (16, 0, 15, 0, 2)),
            (1, 2, 0, (0, 0, 0, 0, 0)),
        ):
            outcome, seen = machine.machine_step(csrs)
            self.assertEqual((outcome.kind, machine.registers[5]), (rrs.OutcomeKind.RETIRED, value))
            self.assertEqual((machine.memory[4], csrs.reserved), (memory, reserved))
            record = seen.retired
            self.assertEqual((record.mem_addr, record.mem_rmask, record.mem_wmask,
                              record.mem_rdata, record.mem_wdata), access)
        machine = Machine([0x13])
        for call in (lambda: setattr(csrs, "mie", 2**32), lambda: setattr(csrs, "mcycle", -1),
                     lambda: csrs.read(2**32), lambda: csrs.write(0, 2**32),
                     lambda: csrs.read(0, time=2**64), lambda: machine.machine_step(csrs, 2**32),
                     lambda: machine.machine_step(csrs, 0, -1), lambda: machine.undo([2**32] * 7)):
            self.assertRaises(ValueError, call)

    def test_a_board_transmits_looks_receives_and_ends(self):
        # transmits A, waits for a byte, transmits it, and ends with status 5
        board = rrs.Board([
            0x100000B7, 0x04100113, 0x00208023, 0x0050C203, 0x00127213, 0xFE020CE3, 0x0000C303,
            0x00608023, 0x001003B7, 0x00053437, 0x33340413, 0x0083A023], 64)
        self.assertEqual(repr(board), "Board(pc=0x80000000, time=0, 64 words)")
        self.assertEqual(board.run(2), (2, rrs.BoardEvent.LIMIT, 0))
        self.assertEqual(board.run(9), (1, rrs.BoardEvent.TRANSMITTED, 65))
        self.assertEqual(board.run(9), (1, rrs.BoardEvent.LOOKED, 0))
        self.assertEqual((board.run(0), board.registers[4]), ((0, rrs.BoardEvent.LIMIT, 0), 0x60))
        for other in (copy.copy(board), copy.deepcopy(board), pickle.loads(pickle.dumps(board))):
            self.assertEqual((other.run(3), other.time), ((3, rrs.BoardEvent.LOOKED, 0), 7))
            other.memory[0] = 7
        self.assertEqual((board.memory[0], board.time, board.pc), (0x100000B7, 4, 0x80000010))
        self.assertEqual((board.receive(66), board.receive(67)), (True, False))
        self.assertEqual(board.run(9), (7, rrs.BoardEvent.TRANSMITTED, 66))
        self.assertEqual(board.run(9), (4, rrs.BoardEvent.FINISHED, 5))
        self.assertEqual((board.registers[4], board.time, board.receive(0)), (1, 15, True))

    def test_a_board_is_loaded_at_physical_addresses(self):
        segments = ((0x80000010, 0x80000000), (0x20000000, 0x80000010), (0x80000010, 0x80000020))
        words = (0x100000B7, 0x04100113, 0x00208023)  # transmits A
        def file_of(*segments):
            head = HEAD[:24] + struct.pack("<I", 0x80000010) + HEAD[28:44] + struct.pack("<H", len(segments))
            each = (struct.pack("<8I", 1, 148, *segment, 12, 16, 5, 4) for segment in segments)
            return (head + HEAD[46:] + b"".join(each)).ljust(148, b"\0") + struct.pack("<3I", *words)
        board = rrs.Board([7] * 12)
        board.load(file_of(*segments))
        self.assertEqual((board.pc, board.memory[:]), (0x80000010, [*words, 0] * 3))
        self.assertEqual(board.run(9), (3, rrs.BoardEvent.TRANSMITTED, 65))
        for second, *wanted in (
            ((0x80000020, 0x8000000C), "SEGMENTS_OVERLAP", 0),
            ((0x80000020, 0xFFFFFFF4), "SEGMENT_PAST_LAST_ADDRESS", 0),
            ((0x80000020, 0x80000024), "NOT_IN_WORDS", 0x80000030),
            ((0x80000020, 0x20000000), "NOT_IN_WORDS", 0x20000000),
        ):
            with self.assertRaises(rrs.ElfError) as caught:
                board.load(file_of(segments[0], second))
            self.assertEqual((caught.exception.refusal, caught.exception.number), tuple(wanted))
            self.assertEqual(board.pc, 0x8000001C)

    def test_a_board_tells_that_it_is_dead_and_that_it_restarts(self):
        events = rrs.BoardEvent
        for words, end in (([0x6F], (1, events.SPINS, 0)), ([0x63], (1, events.SPINS, 0)),
                           ([0], (2, events.LACKS_HANDLER, 0)),
                           ([0x13, 0xFFDFF06F], (9, events.LIMIT, 0)),
                           ([0x001000B7, 0x00007137, 0x77710113, 0x0020A023],
                            (4, events.RESTARTS, 0))):
            self.assertEqual(rrs.Board(words).run(9), end)
        board = rrs.Board([0x6F])
        board.csrs.mie, board.csrs.mstatus = 0x80, 8
        self.assertEqual(board.run(9), (9, events.LIMIT, 0))

    def test_a_board_waits_for_its_alarm_and_for_input(self):
        wfi, enable = 0x10500073, [0x100000B7, 0x00100113, 0x002080A3]  # sb x2, 1(x1), for IER
        board = rrs.Board([wfi, wfi, *enable])
        self.assertEqual((board.run(9), board.time), ((1, rrs.BoardEvent.NOTHING_WAKES, 0), 1))
        board.csrs.mie, board.alarm = 0x80, 1000
        self.assertEqual((board.run(9), board.time), ((1, rrs.BoardEvent.WAITS, 0), 1000))
        self.assertEqual((board.csrs.read(0x304), board.waits_for_input), (0x80, False))
        self.assertEqual((board.run(3), board.waits_for_input), ((3, rrs.BoardEvent.LIMIT, 0), True))
        self.assertEqual((board.receive(0), board.waits_for_input), (True, False))
        board.csrs.mtvec, board.csrs.mstatus = 0x80000004, 8
        self.assertEqual((board.run(1).steps, board.pc, board.csrs.mcause), (1, 0x80000004, 2**31 + 7))
        self.assertEqual((board.csrs.trapped, board.time), (1, 1003))
        board.time, board.software, board.pc = 5, 1, 0x80000000
        self.assertEqual((board.time, board.software, board.alarm), (5, 1, 1000))
        # amoadd.w x5, x6, (x7) where the profile has it
        for profile, cause in ((0, 2), (1, 0)):
            board = rrs.Board([0x0063A2AF], profile=profile)
            board.registers[7] = 0x80000000
            board.run(1)
            self.assertEqual((board.csrs.mcause, board.csrs.profile), (cause, profile))
        for call in (lambda: board.receive(256), lambda: board.receive(-1), lambda: board.run(2**64),
                     lambda: rrs.Board([0], profile=2**32), lambda: setattr(board, "pc", 2**32),
                     lambda: setattr(board, "time", 2**64), lambda: setattr(board, "alarm", -1),
                     lambda: setattr(board, "software", 2**32), lambda: rrs.Board([1, 2], 1)):
            self.assertRaises(ValueError, call)

    def test_steps_are_taken_back(self):
        machine = Machine([0x00108093, 0x0010A223, 0x00000073, 7])  # addi x1, x1, 1; sw x1, 4(x1)
        machine.registers[1] = 7
        states, changes = [], []
        for fault in (None, None, FaultKind.ECALL):
            states.append((machine.pc, machine.last, machine.registers[:], machine.memory[:]))
            found, change = machine.step_noted()
            self.assertEqual(found and found.kind, fault)
            changes.append(change)
        self.assertEqual(changes[1], rrs.Change(4, 1, 0, 0, 12, 4, 7))
        while changes:
            machine.undo(changes.pop())
            state = (machine.pc, machine.last, machine.registers[:], machine.memory[:])
            self.assertEqual(state, states.pop())

    def test_threads_are_told_of(self):
        for text in (rrs.__doc__, Machine.__doc__):
            self.assertIn("Only one thread at a time may use a machine", " ".join(text.split()))


SOURCE = """.macro twice register
    add \\register, \\register, \\register
.endm
_start: li a0, 0x12345678
loop:   twice a0
    bnez a0, loop
    ecall
.data
text:   .asciz "end"
"""


class Assembling(Counted):
    def test_a_program_has_bytes_statements_and_labels(self):
        program = rrs.assemble(SOURCE, 0x1000)
        self.assertEqual((program.start, program.entry, len(program.bytes)), (0x1000, 0x1000, 24))
        self.assertEqual(program.bytes[:4] + program.bytes[20:], b"\x37\x55\x34\x12end\0")
        self.assertEqual([tuple(each) for each in program.statements], [
            (4, 0x1000, 8), (2, 0x1008, 4), (6, 0x100C, 4), (7, 0x1010, 4), (9, 0x1014, 4)])
        self.assertEqual([tuple(each) for each in program.symbols], [
            ("_start", 4, 0x1000), ("loop", 5, 0x1008), ("text", 9, 0x1014)])
        self.assertEqual(rrs.assemble(SOURCE.encode(), 0x1000), program)
        self.assertEqual(rrs.assemble(""), rrs.Program(0, 0, b"", [], []))
        self.assertEqual(rrs.assemble("", 8), rrs.Program(8, 8, b"", [], []))
        self.assertEqual(rrs.assemble("nop\r\nmain: nop\r\n", 64)[:2], (64, 68))
        self.assertEqual(rrs.assemble("nop\n_start: nop")[:2], (0, 4))

    def test_a_source_is_a_text_or_bytes(self):
        source, start = 'a: b: .ascii "é"', 2**32 - 4
        data = source.encode()
        wanted = (start, start, "é".encode(), [(1, start, 2)], [("a", 1, start), ("b", 1, start)])
        for given in (source, data, bytearray(data), memoryview(data)):
            self.assertEqual(rrs.assemble(given, -4), wanted)

    def test_what_is_too_small_grows(self):
        program = rrs.assemble(".zero 1000000\n.rept 20000\n1: .byte 1, 2\n.endr")
        self.assertEqual((len(program.bytes), len(program.statements)), (1040000, 20001))
        self.assertEqual(program.bytes[999999:1000003], b"\0\1\2\1")
        # each of what is lent is exceeded alone, or by more than another
        for source, wanted in (
            (".rept 1000\nnop\n.endr", (4000, 1000, 0)),
            (".rept 1000\n1:\n.endr", (0, 0, 1000)),
            (".zero 100000", (100000, 1, 0)),
            ("\n".join(f"{'a' * 99}{n}:" for n in range(99)), (0, 0, 99)),
        ):
            program = rrs.assemble(source)
            self.assertEqual(tuple(map(len, program[2:])), wanted)
        self.assertEqual(program.symbols[98], ("a" * 99 + "98", 99, 0))

    def test_what_is_lent_is_there(self):
        lent = []
        call = rrs._assemble

        def look(*arguments):
            lent.append(arguments)
            return call(*arguments)

        buffers = []
        make = rrs.ctypes.create_string_buffer
        def behind(size):
            """A buffer that begins so many bytes behind an address that is a multiple of 16."""
            whole = make(size + 31)
            begin = -rrs.ctypes.addressof(whole) % 16 + aside
            buffers.append((rrs.ctypes.c_char * size).from_buffer(whole, begin))
            return buffers[-1]

        for aside in (0, 1, 8, 15):
            lent.clear()
            buffers.clear()
            with mock.patch.object(rrs, "_assemble", look), mock.patch.object(
                rrs.ctypes, "create_string_buffer", behind
            ):
                rrs.assemble(SOURCE)
            room, memory = lent[0][3]._obj, buffers[0]
            first = rrs.ctypes.addressof(memory)
            self.assertEqual((len(lent), first % 16, room.start % 16), (1, aside, 0))
            self.assertTrue(first <= room.start and room.start + room.size <= first + len(memory))
        self.assertEqual([len(part) for part in lent[0][4::2]], [*lent[0][5::2]])

    def test_mistakes_are_an_error(self):
        with self.assertRaises(rrs.AssemblyError) as raised:
            rrs.assemble("    addi a0, a0, 5000\n    j lop\nloop:\n")
        first, second = raised.exception.mistakes
        self.assertEqual(first[:2] + second[:2], (1, 18, 2, 7))
        self.assertEqual(second.text, "symbol is not defined: lop; is loop meant?")
        self.assertEqual(str(raised.exception), f"1:18: {first.text}; 2:7: {second.text}")
        self.assertRaises(ValueError, rrs.assemble, "nop", 2**32)
        for count in (19, 20, 21):
            with self.assertRaises(rrs.AssemblyError) as raised:
                rrs.assemble(b"\n".join(b"j " + b"\xff" * 400 for _ in range(count)))
            lines = [mistake.line for mistake in raised.exception.mistakes]
            self.assertEqual(lines, [*range(1, min(count, 20) + 1)])


class Libraries(Counted):
    """The way to the library, and the libraries that are refused: RRS_REFUSED is the folder where
    check.sh puts them."""

    def run_over(self, library, lines):
        """The status of a program over a library, what it prints, and what it says."""
        environment = {**os.environ, "RRS_LIBRARY": library}
        if library is None:
            del environment["RRS_LIBRARY"]
        run = subprocess.run([sys.executable, "-c", lines], env=environment, capture_output=True,
                             text=True, check=False)
        return run.returncode, run.stdout, run.stderr

    def test_refused_libraries_are_an_import_error(self):
        folder = os.environ["RRS_REFUSED"]
        for library, wanted in {
            "version.so": f"rrs.py is for version 512 of {folder}/version.so, which has 768",
            "older.so": f"rrs.py is for version 512 of {folder}/older.so, which has 256",
            "patch.so": f"rrs.py is for version 512 of {folder}/patch.so, which has 513",
            "old.so": f"the kit's library has no rrs_request: {folder}/old.so",
            "none.so": "rrs.py can't load the kit's library: ",
        }.items():
            status, _, said = self.run_over(f"{folder}/{library}", "import rrs")
            self.assertEqual(status, 1)
            self.assertIn(f"\nImportError: {wanted}", said)

    def test_the_library_of_the_repository_is_the_default(self):
        lines = "try:\n import rrs\n print(rrs._lib._name)\nexcept ImportError as e: print(e)"
        default = Path(rrs.__file__).resolve().parents[2] / "crates/rrs_c/out/librrs.so"
        for library in (None, ""):
            status, printed, _ = self.run_over(library, lines)
            self.assertEqual(status, 0)
            self.assertIn(str(default) if default.exists() else "librrs.so.0", printed)

    def test_a_library_beside_the_module_is_taken_but_for_the_one_that_is_named(self):
        with tempfile.TemporaryDirectory(prefix="a b") as folder:
            shutil.copy(rrs.__file__, folder)
            shutil.copy(os.environ["RRS_LIBRARY"], f"{folder}/librrs.so")
            os.mkdir(f"{folder}/links")
            os.symlink(f"{folder}/rrs.py", f"{folder}/links/rrs.py")  # beside which there is none
            for place in (folder, f"{folder}/links"):
                lines = (f"import sys\nsys.path.insert(0, {place!r})\nimport rrs\n"
                         "print(rrs._lib._name)")
                for library in (None, os.environ["RRS_LIBRARY"]):
                    printed = self.run_over(library, lines)[1]
                    self.assertEqual(printed, f"{library or folder + '/librrs.so'}\n")

    def test_it_is_the_same_for_each_user(self):
        lines = ("import sys; sys.path.insert(0, '.')\nimport rrs, core_check\n"
                 "machine = rrs.Machine(rrs.assemble('main: addi a0, a0, 1 # \\xe9\\n j main').bytes)\n"
                 "machine.registers[10], csrs = 7, rrs.Csrs()\n"
                 "class Port:\n value = 0\n"
                 "class Dut:\n rvfi_valid = type('', (), {'value': 1})\n"
                 " def __getattr__(self, name): return Port\n"
                 "async def edge(): pass\n"
                 "try: core_check.check_core(Dut(), edge, machine, csrs, 1).send(None)\n"
                 "except AssertionError as error: print(machine.run(9).steps, machine.pc, error)\n")
        wanted = ("9 0 record 0, pc 0x00000000: "
                  "Difference(field=<Field.INSN: 2>, model=1377555, core=0)\n")
        for flags in ((), ("-O",), ("-OO",), ("-I",), ("-X", "dev"), ("-X", "utf8=0"), ("-S", "-E")):
            for more in ({}, {"LC_ALL": "C", "PYTHONIOENCODING": "ascii", "HOME": "/none"}):
                run = subprocess.run([sys.executable, "-B", *flags, "-c", lines], capture_output=True, text=True,
                                     env={**os.environ, **more}, check=False)
                self.assertEqual((run.returncode, run.stdout, run.stderr), (0, wanted, ""))

    def test_too_little_memory_is_an_error(self):
        lines = ("import resource, rrs\n"
                 "with open('/proc/self/statm') as file: most = int(file.read().split()[0]) * 4096 + 2**25\n"
                 "resource.setrlimit(resource.RLIMIT_AS, (most, most))\n"
                 "try: rrs.assemble('.zero 60000000')\n"
                 "except MemoryError: print(len(rrs.assemble('.zero 1000').bytes))")
        self.assertEqual(self.run_over(os.environ["RRS_LIBRARY"], lines), (0, "1000\n", ""))

    def test_an_unknown_kind_is_an_error(self):
        folder = os.environ["RRS_REFUSED"]
        for call in ("step()", "run(1)", "run_until([], 1)", "step_rvfi()", "complete(0, 0)",
                     "step_rvfi_ialign32()", "complete_rvfi(0, 0)", "step_noted()", "step_hart(0)",
                     "run_hart(1, 0)", "step_hart_rvfi(0)"):
            lines = f"import rrs\nrrs.Machine([0]).{call}"
            status, _, said = self.run_over(f"{folder}/kind.so", lines)
            self.assertIn("ValueError: 9 is not a valid FaultKind", said)
            self.assertEqual(status, 1)
        _, _, said = self.run_over(f"{folder}/kind.so", "import rrs\nrrs.Machine([0]).request(0)")
        self.assertIn("ValueError: 9 is not a valid AccessKind", said)
        _, _, said = self.run_over(f"{folder}/kind.so",
                                   "import rrs\nrrs.Machine([0]).machine_step(rrs.Csrs())")
        self.assertIn("ValueError: 9 is not a valid OutcomeKind", said)
        _, _, said = self.run_over(f"{folder}/kind.so", "import rrs\nrrs.assemble('')")
        self.assertIn("ValueError: 9 is not a valid _AssemblyEnd", said)


def load_tests(loader, tests, pattern):
    tests.addTests(doctest.DocTestSuite(rrs))
    return tests


if __name__ == "__main__":
    faulthandler.dump_traceback_later(300, exit=True)  # what hangs is told, and fails
    lost = []  # a file that is not closed, say, which no test sees
    sys.unraisablehook = lambda seen: lost.append(seen) or sys.__unraisablehook__(seen)
    run = unittest.main(exit=False)
    examples = sum(len(test.examples) for test in doctest.DocTestFinder().find(rrs))
    print(f"{Counted.made} comparisons, {examples} examples")
    sys.exit(bool(lost) or not run.result.wasSuccessful())
