"""A RISC-V simulator kit, RV32I with multiply and divide, whose steps are proved to be those of its
table: a face of ``librrs.so`` by ctypes.

>>> machine = Machine([0x1234b137, 0xf387e1b7, 0x003100b3])
>>> machine.run(10)
End(steps=3, fault=Fault('FETCH_FAULT', address=0x0000000c), at_stop=False)
>>> hex(machine.registers[1])
'0x5bc9000'
>>> disassemble(0x003100b3)
'add x1, x2, x3'

The library is the file that the environment's RRS_LIBRARY names; or ``librrs.so`` beside this module,
as the wheel has it; or ``crates/rrs_c/out/librrs.so`` of the repository that it stands in; or the
``librrs.so.0`` that the system has. The import is an ImportError where it can't be loaded, or has
another version than this module.

Only one thread at a time may use a machine, its registers and its memory: a call lets other threads
go on, and nothing checks this. Different machines may be used at the same time.
"""

from __future__ import annotations

import ctypes
import enum
import functools
import os
import struct
from collections.abc import Callable, Iterable, Iterator, MutableSequence, Sequence
from pathlib import Path
from typing import NamedTuple, Optional, Tuple, Union, overload

__all__ = [
    "Machine",
    "Board",
    "BoardEnd",
    "BoardEvent",
    "Fault",
    "FaultKind",
    "End",
    "Retired",
    "Access",
    "AccessKind",
    "Change",
    "HartLayer",
    "MachineLayer",
    "Csrs",
    "CsrAccess",
    "MachineRetired",
    "Outcome",
    "OutcomeKind",
    "Instruction",
    "Row",
    "Field",
    "Difference",
    "compare",
    "decode",
    "disassemble",
    "expand",
    "row_name",
    "register_name",
    "field_name",
    "Elf",
    "ElfError",
    "Location",
    "Segment",
    "assemble",
    "AssemblyError",
    "Program",
    "Statement",
    "Symbol",
    "Mistake",
]

_u32, _u64, _size = ctypes.c_uint32, ctypes.c_uint64, ctypes.c_size_t
_words = ctypes.POINTER(_u32)


class _Hart(ctypes.Structure):
    _fields_ = [("x", _u32 * 32), ("pc", _u32), ("last", _u32)]


class _Fault(ctypes.Structure):
    _fields_ = [("kind", _u32), ("address", _u32), ("word", _u32)]


class _End(ctypes.Structure):
    _fields_ = [("steps", _u64), ("fault", _Fault), ("at_stop", _u32)]


class _Cache(ctypes.Structure):
    _fields_ = [("contents", _u32 * 5120)]


class _Retired(ctypes.Structure):
    _fields_ = [("order", _u64)] + [
        (name, _u32)
        for name in (
            "insn fetched trap pc_rdata pc_wdata rs1_addr rs1_rdata rs2_addr rs2_rdata rd_addr "
            "rd_wdata mem_addr mem_rmask mem_wmask mem_rdata mem_wdata"
        ).split()
    ]


class _Difference(ctypes.Structure):
    _fields_ = [("model", _u64), ("core", _u64), ("field", _u32)]


class _Instruction(ctypes.Structure):
    _fields_ = [(name, _u32) for name in "row rd rs1 rs2 shamt".split()] + [("imm", ctypes.c_int32)]


class _Access(ctypes.Structure):
    _fields_ = [("fault", _Fault)] + [(name, _u32) for name in "kind address size value".split()]


class _Change(ctypes.Structure):
    _fields_ = [(name, _u32) for name in "pc last rd value address size bytes".split()]


class _Csrs(ctypes.Structure):
    _fields_ = [
        *(
            (name, _u32)
            for name in "mstatus mie mtvec mscratch mepc mcause mtval mcountinhibit".split()
        ),
        ("mcycle", _u64),
        ("minstret", _u64),
        *((name, _u32) for name in "trapped profile user mcounteren reserved reservation".split()),
    ]


class _Reservation(ctypes.Structure):
    _fields_ = [("reserved", _u32), ("address", _u32)]


class _Outcome(ctypes.Structure):
    _fields_ = [(name, _u32) for name in "kind cause value".split()]


class _MachineRetired(ctypes.Structure):
    _fields_ = [("retired", _Retired)] + [
        (name, _u32)
        for name in (
            "valid intr mode trapped cause csr_addr csr_rmask csr_wmask csr_rdata csr_wdata"
        ).split()
    ]


class _Csr(ctypes.Structure):
    _fields_ = [("found", _u32), ("value", _u32)]


class _Uart(ctypes.Structure):
    _fields_ = [
        (name, _u32)
        for name in (
            "holds received interrupt_enable has_fifos line_control modem_control scratch "
            "divisor_low divisor_high is_emptied"
        ).split()
    ]


class _Board(ctypes.Structure):
    _fields_ = [
        *(("hart", _Hart), ("csrs", _Csrs), ("alarm", _u64), ("time", _u64)),
        *(("software", _u32), ("uart", _Uart)),
    ]


class _BoardEnd(ctypes.Structure):
    _fields_ = [("steps", _u64), ("event", _u32), ("value", _u32)]


class _Elf(ctypes.Structure):
    _fields_ = [(name, _u32) for name in "refusal number other entry segments".split()]


class _Segment(ctypes.Structure):
    _fields_ = [
        (name, _u32) for name in "loaded address memory_size offset file_size flags".split()
    ]


class _Loaded(ctypes.Structure):
    _fields_ = [("refusal", _u32), ("address", _u32)]


class _Location(ctypes.Structure):
    _fields_ = [("found", _u32), ("distance", _u32), ("length", _size)]


class _Room(ctypes.Structure):
    _fields_ = [("start", ctypes.c_void_p), ("size", _size)]


class _Statement(ctypes.Structure):
    _fields_ = [("line", _size), ("address", _u32), ("size", _u32)]


class _Symbol(ctypes.Structure):
    _fields_ = [("line", _size), ("name", _size), ("length", _size), ("address", _u32)]


class _Mistake(ctypes.Structure):
    _fields_ = [(name, _size) for name in "line column text length".split()]


class _Assembled(ctypes.Structure):
    _fields_ = [("end", _u32), ("entry", _u32)] + [
        (name, _size) for name in "bytes statements symbols mistakes texts room".split()
    ]


def _library():
    here = Path(__file__).resolve().parent
    paths = here / "librrs.so", (here / "../../crates/rrs_c/out/librrs.so").resolve()
    found = next((str(path) for path in paths if path.exists()), "librrs.so.0")
    try:
        return ctypes.CDLL(os.environ.get("RRS_LIBRARY") or found)
    except OSError as error:
        raise ImportError(f"rrs.py can't load the kit's library: {error}") from error


_lib = _library()


def _function(name, result, *arguments):
    try:
        function = getattr(_lib, name)
    except AttributeError as error:
        raise ImportError(f"the kit's library has no {name}: {_lib._name}") from error
    function.restype, function.argtypes = result, arguments
    return function


# The version of rrs.h that this module is written for: the numbers of RRS_VERSION.
_VERSION = 0x00_02_00
__version__ = ".".join(map(str, _VERSION.to_bytes(3, "big")))
_version = _function("rrs_version", _u32)
if _version() != _VERSION:
    raise ImportError(f"rrs.py is for version {_VERSION} of {_lib._name}, which has {_version()}")

_memory = (ctypes.POINTER(_Hart), _words, _size, _u32)
_step = _function("rrs_step", _Fault, *_memory)
_cached = (_memory[0], ctypes.POINTER(_Cache), *_memory[1:])
_cache_clear = _function("rrs_cache_clear", None, ctypes.POINTER(_Cache))
_run = _function("rrs_run_cached", _End, *_cached, _u64)
_run_until = _function("rrs_run_until_cached", _End, *_cached, _u64, _words, _size)
_step_rvfi = _function("rrs_step_rvfi", _Fault, *_memory, _u64, ctypes.POINTER(_Retired))
_step_rvfi_ialign32 = _function(
    "rrs_step_rvfi_ialign32", _Fault, *_memory, _u64, ctypes.POINTER(_Retired)
)
_compare = _function(
    "rrs_compare", _Difference, ctypes.POINTER(_Retired), ctypes.POINTER(_Retired), _u32
)
_cause = _function("rrs_cause", _u32, ctypes.POINTER(_Fault), _u32, _u32)
_decode = _function("rrs_decode", _Instruction, _u32)
_disassemble_hart = _function(
    "rrs_disassemble_hart", _size, _u32, _u32, _u32, ctypes.c_char_p, _size
)
_expand = _function("rrs_expand", _u32, _u32)
_request = _function("rrs_request", _Access, ctypes.POINTER(_Hart), _u32)
_complete = _function("rrs_complete", _Fault, ctypes.POINTER(_Hart), _u32, _u32, _u32)

_complete_rvfi = _function(
    "rrs_complete_rvfi",
    _Fault,
    ctypes.POINTER(_Hart),
    *(_u32, _u32, _u32, _u64),
    ctypes.POINTER(_Retired),
)
_step_noted = _function("rrs_step_noted", _Fault, *_memory, ctypes.POINTER(_Change))
_undo = _function("rrs_undo", None, *_memory, ctypes.POINTER(_Change))
_profiled = (*_memory, _u32, ctypes.POINTER(_Reservation))
_step_hart = _function("rrs_step_hart", _Fault, *_profiled)
_run_hart = _function("rrs_run_hart", _End, *_profiled, _u64)
_step_hart_rvfi = _function(
    "rrs_step_hart_rvfi", _Fault, *_profiled, _u64, ctypes.POINTER(_Retired)
)
_csrs_reset = _function("rrs_csrs_reset", None, ctypes.POINTER(_Csrs))
_machine_step = _function(
    "rrs_machine_step",
    _Outcome,
    ctypes.POINTER(_Hart),
    ctypes.POINTER(_Csrs),
    *(_words, _size, _u32, _u32, _u64, _u64),
    ctypes.POINTER(_MachineRetired),
)
_csr_read = _function("rrs_csr_read", _Csr, ctypes.POINTER(_Csrs), _u32, _u32, _u64)
_csr_write = _function("rrs_csr_write", _u32, ctypes.POINTER(_Csrs), _u32, _u32)
_board_reset = _function("rrs_board_reset", None, ctypes.POINTER(_Board), _u32, _u32)
_board_run = _function("rrs_board_run", _BoardEnd, ctypes.POINTER(_Board), _words, _size, _u64)
_board_receive = _function("rrs_board_receive", _u32, ctypes.POINTER(_Board), _u32)
_board_waits_for_input = _function("rrs_board_waits_for_input", _u32, ctypes.POINTER(_Board))
_elf_parse_hart = _function("rrs_elf_parse_hart", _Elf, ctypes.c_char_p, _size, _u32)
_elf_segment = _function("rrs_elf_segment", _Segment, ctypes.c_char_p, _size, _u32)
_elf_load_hart = _function(
    "rrs_elf_load_hart", _Loaded, ctypes.c_char_p, _size, _words, _size, _u32, _u32
)
_board_load = _function(
    "rrs_board_load", _Loaded, ctypes.POINTER(_Board), ctypes.c_char_p, _size, _words, _size
)
_elf_function_at = _function(
    "rrs_elf_function_at", _Location, ctypes.c_char_p, _size, _u32, ctypes.c_char_p, _size
)
_assemble = _function(
    "rrs_assemble",
    _Assembled,
    *(ctypes.c_char_p, _size, _u32, ctypes.POINTER(_Room), ctypes.c_char_p, _size),
    *(ctypes.POINTER(_Statement), _size, ctypes.POINTER(_Symbol), _size),
    *(ctypes.POINTER(_Mistake), _size, ctypes.c_char_p, _size),
)
_names = {
    kind: _function(f"rrs_{kind}_name", _size, _u32, ctypes.c_char_p, _size)
    for kind in ("row", "fault", "register", "field")
}

_TEXT_SIZE = 89
_NAME_SIZE = 20
_NO_CAUSE = 0xFFFFFFFF


def _name(kind: str, number: int) -> Optional[str]:
    """The name of a number, and None where it has none."""
    text = ctypes.create_string_buffer(_NAME_SIZE)
    length = _names[kind](_word_of(number), text, _NAME_SIZE)
    return text.raw[:length].decode("ascii") if length else None


class FaultKind(enum.IntEnum):
    """Why a step could not be made."""

    ILLEGAL_INSTRUCTION = 1
    FETCH_FAULT = 2
    LOAD_FAULT = 3
    STORE_FAULT = 4
    MISALIGNED = 5
    ECALL = 6
    EBREAK = 7


class Fault(NamedTuple):
    """A fault: its FaultKind, the pc or the data address, and the word of ILLEGAL_INSTRUCTION.

    It leaves the registers, the pc and memory as they were.
    """

    kind: FaultKind
    address: int
    word: int

    def cause(self, pc: int, word: int) -> int:
        """The exception code that mcause has for this fault of ``word``, the word at the pc. Of
        MISALIGNED it is 4 of a load, 6 of a store, and 0 of the pc, a jump or a branch."""
        return _cause(ctypes.byref(_Fault(*self)), _word_of(pc), _word_of(word))

    @property
    def name(self) -> Optional[str]:
        """The name of the fault's kind, such as "illegal instruction"."""
        return _name("fault", self.kind)

    def __repr__(self) -> str:
        word = f", word=0x{self.word:08x}" if self.kind == FaultKind.ILLEGAL_INSTRUCTION else ""
        return f"Fault({self.kind.name!r}, address=0x{self.address:08x}{word})"


class End(NamedTuple):
    """How a run ended: the steps, the Fault or None, and whether it is at a stop."""

    steps: int
    fault: Optional[Fault]
    at_stop: bool


class Retired(NamedTuple):
    """What a step retired, under the names of RVFI: rrs.h says of each what it is."""

    order: int
    insn: int
    fetched: int
    trap: int
    pc_rdata: int
    pc_wdata: int
    rs1_addr: int
    rs1_rdata: int
    rs2_addr: int
    rs2_rdata: int
    rd_addr: int
    rd_wdata: int
    mem_addr: int
    mem_rmask: int
    mem_wmask: int
    mem_rdata: int
    mem_wdata: int


class Field(enum.IntEnum):
    """The fields of a record, in the order in which they are compared."""

    ORDER = 1
    INSN = 2
    TRAP = 3
    PC_RDATA = 4
    PC_WDATA = 5
    RS1_ADDR = 6
    RS1_RDATA = 7
    RS2_ADDR = 8
    RS2_RDATA = 9
    RD_ADDR = 10
    RD_WDATA = 11
    MEM_ADDR = 12
    MEM_RMASK = 13
    MEM_WMASK = 14
    MEM_RDATA = 15
    MEM_WDATA = 16


class Difference(NamedTuple):
    """A Field in which two records differ, and what the model and the core have. The address and the
    masks of the model are as the core tells them, and of data these are the bytes of the mask,
    lowest first."""

    field: Field
    model: int
    core: int


def compare(
    model: Sequence[int], core: Sequence[int], by_words: bool = False
) -> Optional[Difference]:
    """The first Difference of a core's Retired from the model's, and None where none differs.

    ``by_words`` says that the core tells the address of the word that it accesses, and shifts masks
    and data within the word. docs/CORES.md says which fields are compared.
    """
    records = [_Retired(_long_of(r[0], "order"), *map(_word_of, r[1:])) for r in (model, core)]
    found = _compare(*map(ctypes.byref, records), bool(by_words))
    return Difference(Field(found.field), found.model, found.core) if found.field else None


Row = enum.IntEnum(
    "Row",
    "ADD SUB SLL SLT SLTU XOR SRL SRA OR AND ADDI SLLI SLTI SLTIU XORI SRLI SRAI ORI ANDI LUI AUIPC "
    "BEQ BNE BLT BLTU BGE BGEU LB LBU LH LHU LW SB SH SW JAL JALR MUL MULH MULHU MULHSU DIV DIVU REM "
    "REMU FENCE ECALL EBREAK "
    # the layers, as docs/check --write writes them
    "CSRRW CSRRS CSRRC CSRRWI CSRRSI CSRRCI MRET WFI FENCE_I LR_W SC_W AMOSWAP_W AMOADD_W AMOXOR_W "
    "AMOAND_W AMOOR_W AMOMIN_W AMOMAX_W AMOMINU_W AMOMAXU_W SH1ADD SH2ADD SH3ADD ANDN ORN XNOR CLZ "
    "CTZ CPOP MAX MAXU MIN MINU SEXT_B SEXT_H ZEXT_H ROL ROR RORI ORC_B REV8 BCLR BCLRI BEXT BEXTI "
    "BINV BINVI BSET BSETI CLMUL CLMULH CLMULR PACK PACKH BREV8 ZIP UNZIP CZERO_EQZ CZERO_NEZ",
)
Row.__doc__ = """The rows of the table, 1 to 48, as decode() numbers them, and the instructions above it:
those on CSRs, mret, wfi and fence.i, extension A, and Zba to Zicond."""


class AccessKind(enum.IntEnum):
    """What an instruction does with memory."""

    LOAD = 1
    STORE = 2


class Access(NamedTuple):
    """A load or a store: its AccessKind, the address of the first byte, how many bytes, and of a
    store the register's value, whose low bytes are stored."""

    kind: AccessKind
    address: int
    size: int
    value: int


class Instruction(NamedTuple):
    """The number of a row, one of Row, and its fields, 0 where its format has none. The immediate of
    ecall is 0 and of ebreak 1, and fence has any. That of an instruction on a CSR is the number of the
    CSR, and that of one of extension A is 2 for aq and 1 for rl. An amount is shamt."""

    row: int
    rd: int
    rs1: int
    rs2: int
    shamt: int
    imm: int


class Change(NamedTuple):
    """What takes a step back: the pc and the last written register before it (0 for none), the
    register that it wrote (0 for none) and what that was, and the bytes that it stored: their
    address, how many (0 for none), and what they were, lowest byte first."""

    pc: int
    last: int
    rd: int
    value: int
    address: int
    size: int
    bytes: int


class HartLayer(enum.IntFlag):
    """What a hart has beside RV32IM, as the profile of Machine.step_hart: extension A; fence.i, which
    does nothing, since each fetch reads what was stored; loads and stores at misaligned addresses;
    extension C, instructions of 16 bits; Zba, Zbb, Zbs, Zbc and Zbkb, of bit manipulation; and
    Zicond, conditional zeros.
    ``HartLayer.A + HartLayer.C`` is a profile."""

    A = 1
    ZIFENCEI = 2
    MISALIGNED = 4
    C = 8
    ZBA = 32
    ZBB = 64
    ZBS = 128
    ZBC = 256
    ZBKB = 512
    ZICOND = 1024


class MachineLayer(enum.IntFlag):
    """What a hart with machine mode has beside RV32IM, as the profile of Csrs and Board: extension
    A; user mode; extension C; loads and stores at misaligned addresses; that it lacks fence.i; and
    Zba to Zicond.
    """

    A = 1
    USER_MODE = 2
    C = 4
    MISALIGNED = 8
    NO_FENCE_I = 16
    ZBA = 32
    ZBB = 64
    ZBS = 128
    ZBC = 256
    ZBKB = 512
    ZICOND = 1024


class OutcomeKind(enum.IntEnum):
    """How a step of a hart with machine mode ended: an instruction retired; a wfi did, and no
    interrupt is pending that mie enables; an exception was raised; an interrupt was taken."""

    RETIRED = 0
    WAITING = 1
    RAISED = 2
    INTERRUPTED = 3


class Outcome(NamedTuple):
    """How a step of a hart with machine mode ended: its OutcomeKind, and of RAISED and INTERRUPTED
    what mcause has, and of RAISED what mtval has; else 0."""

    kind: OutcomeKind
    cause: int
    value: int


class BoardEvent(enum.IntEnum):
    """What the last step of a run of a board has for the caller: nothing, since the limit was
    reached; a byte that was transmitted; a look at LSR or IIR that found none received; the
    program's end; a wfi that waits for the alarm, to which the time went forward; a wfi that
    nothing wakes; a hart that is dead, since it jumps to itself and takes no interrupt, or since a
    trap went to a handler that can't be fetched; that the board is to start anew."""

    LIMIT = 0
    TRANSMITTED = 1
    LOOKED = 2
    FINISHED = 3
    WAITS = 4
    NOTHING_WAKES = 5
    SPINS = 6
    LACKS_HANDLER = 7
    RESTARTS = 8


class BoardEnd(NamedTuple):
    """How a run of a board ended: how many steps were made, the BoardEvent of the last one, and the
    byte of TRANSMITTED or the status of FINISHED, else 0."""

    steps: int
    event: BoardEvent
    value: int


class CsrAccess(NamedTuple):
    """The CSR that an instruction read and wrote, by its number, with the bits that were read and
    written and their values. All are 0 where there was none."""

    addr: int
    rmask: int
    wmask: int
    rdata: int
    wdata: int


class MachineRetired(NamedTuple):
    """What a step of a hart with machine mode retired: the Retired of the instruction; whether one
    was executed (0 where an interrupt was taken); whether it is the first one of a handler; the mode
    before it, 3 for machine and 0 for user mode; what mcause has after a trap, or None; and the CsrAccess."""

    retired: Retired
    valid: int
    intr: int
    mode: int
    cause: Optional[int]
    csr: CsrAccess


class Csrs:
    """The CSRs of a hart that has machine mode alone, as they are at reset.

    Each field of ``rrs_csrs`` is an attribute: ``csrs.mtvec = 0x80000100``. ``trapped`` is no CSR: it
    is 1 where the latest step took a trap. ``profile`` is the sum of some MachineLayer: with
    ``MachineLayer.USER_MODE`` the hart has user mode, and ``user`` is 1 where it is in it. A copy
    has CSRs of its own, and the attributes that a subclass added.
    """

    mstatus: int
    mie: int
    mtvec: int
    mscratch: int
    mepc: int
    mcause: int
    mtval: int
    mcountinhibit: int
    mcycle: int
    minstret: int
    trapped: int
    profile: int
    user: int
    mcounteren: int
    reserved: int
    reservation: int

    def __init__(self) -> None:
        self._over(_Csrs())
        _csrs_reset(self._pointer)

    def _over(self, csrs: _Csrs) -> Csrs:
        """Has these be the CSRs."""
        self._csrs = csrs
        self._pointer = ctypes.byref(csrs)
        return self

    def read(self, number: int, mip: int = 0, time: int = 0) -> Optional[int]:
        """The value of the CSR with this number, as an instruction in machine mode reads it, and None
        where there is none. ``mip`` and ``time`` are what those CSRs have from outside."""
        csr = _csr_read(self._pointer, _word_of(number), _word_of(mip), _long_of(time, "time"))
        return csr.value if csr.found else None

    def write(self, number: int, value: int) -> bool:
        """Writes the CSR with this number as an instruction does. Returns whether it can be written:
        otherwise there is none or it is read only, and nothing changes."""
        return bool(_csr_write(self._pointer, _word_of(number), _word_of(value)))

    def __reduce__(self) -> tuple:
        return _restored_csrs, (type(self), bytes(self._csrs)), _added(self, "_csrs", "_pointer")

    def __repr__(self) -> str:
        return f"Csrs({', '.join(f'{name}=0x{getattr(self, name):x}' for name, _ in _Csrs._fields_)})"


def _restored_csrs(kind, data):
    """The CSRs that were copied, or pickled, of a class whose __init__ may be another."""
    csrs = kind.__new__(kind)
    Csrs.__init__(csrs)
    ctypes.memmove(csrs._pointer, data, len(data))
    return csrs


def _added(value, *own):
    """The attributes of a value that a copy does not make itself."""
    return {name: each for name, each in vars(value).items() if name not in own}


def _csr_field(name, kind):
    """A field of the CSRs as an attribute, which refuses numbers that have more bits."""

    def read(csrs: Csrs) -> int:
        """The field."""
        return getattr(csrs._csrs, name)

    def write(csrs: Csrs, value: int) -> None:
        setattr(csrs._csrs, name, _long_of(value, name) if kind is _u64 else _word_of(value))

    return property(read, write, doc=f"The field {name} of rrs_csrs.")


for _name_of_field, _kind_of_field in _Csrs._fields_:
    setattr(Csrs, _name_of_field, _csr_field(_name_of_field, _kind_of_field))

# Each struct is read in one copy.
_record = struct.Struct("=Q16I").unpack_from
_fields = struct.Struct("=5Ii").unpack_from
_access = struct.Struct("=12x4I").unpack_from
_change = struct.Struct("=7I").unpack_from
_machine_record = struct.Struct("=72x10I").unpack_from

_new = tuple.__new__
_access_kinds = {int(kind): kind for kind in AccessKind}


def _fault_of(fault):
    kind = fault.kind
    return Fault(FaultKind(kind), fault.address, fault.word) if kind else None


def _end_of(end):
    return End(end.steps, _fault_of(end.fault), bool(end.at_stop))


def _word_of(value: int) -> int:
    """A number of 32 bits; negative ones are meant in two's complement."""
    if not -(2**31) <= value < 2**32:
        raise ValueError(f"{value} is no number of 32 bits")
    return value % 2**32


def _long_of(value: int, name: str) -> int:
    """A number of 64 bits, which is not negative."""
    if not 0 <= value < 2**64:
        raise ValueError(f"{name} {value} is no number of 64 bits")
    return value


@functools.lru_cache
def _words_type(count):
    """An array of words, which refuses numbers that have more than 32 bits."""

    class Words(_u32 * count):
        def __setitem__(self, index, value):
            is_slice = isinstance(index, slice)
            super().__setitem__(index, [*map(_word_of, value)] if is_slice else _word_of(value))

    return Words


class _Registers:
    """The registers x0 to x31 of a machine, as a sequence. x0 is 0, and a write to it is none."""

    def __init__(self, hart: _Hart) -> None:
        self._hart = hart

    def __len__(self) -> int:
        return 32

    @overload
    def __getitem__(self, index: int) -> int: ...

    @overload
    def __getitem__(self, index: slice) -> list[int]: ...

    def __getitem__(self, index):
        if isinstance(index, slice):
            return [self[i] for i in range(*index.indices(32))]
        if not -32 <= index < 32:
            raise IndexError(index)
        return self._hart.x[index % 32] if index % 32 else 0

    def __setitem__(self, index: int, value: int) -> None:
        if not -32 <= index < 32:
            raise IndexError(index)
        if index % 32:
            self._hart.x[index % 32] = _word_of(value)

    def __iter__(self) -> Iterator[int]:
        return iter(self[:])

    def __repr__(self) -> str:
        return repr(self[:])


_ElfRefusal = enum.IntEnum(
    "_ElfRefusal",
    "NOT_ELF HEADER_CUT_SHORT CLASS BYTE_ORDER IDENT_VERSION POSITION_INDEPENDENT NOT_EXECUTABLE "
    "MACHINE VERSION COMPRESSED_CODE FLOATING_POINT EMBEDDED PROGRAM_HEADER_SIZE "
    "TOO_MANY_PROGRAM_HEADERS PROGRAM_HEADERS_CUT_SHORT INTERPRETER SEGMENT_CUT_SHORT "
    "SEGMENT_SIZES SEGMENT_PAST_LAST_ADDRESS SEGMENTS_OVERLAP ENTRY_MISALIGNED ENTRY_OUTSIDE",
)
_NOT_IN_WORDS = 31
_IN_FUNCTION = 1


class ElfError(ValueError):
    """Bytes that are no executable for this hart: ``refusal`` names why, as rrs.h has it, and
    ``number`` and ``other`` are the numbers that it tells, or 0. ``"NOT_IN_WORDS"`` is the refusal
    of a load, whose number is the address that is not in the words."""

    def __init__(self, refusal: str, number: int = 0, other: int = 0) -> None:
        self.refusal, self.number, self.other = refusal, number, other
        super().__init__(refusal, number, other)

    def __str__(self) -> str:
        return f"{self.refusal} {self.number} {self.other}"


class Segment(NamedTuple):
    """A segment that is loaded: its address and size in memory, where its bytes are in the file and
    how many, and what may be done there: 4 to read, 2 to write, 1 to execute."""

    address: int
    memory_size: int
    offset: int
    file_size: int
    flags: int


class Location(NamedTuple):
    """Where an address lies: the name of a function or label, how far the address is behind it, and
    whether it is one of the function's."""

    name: str
    distance: int
    is_inside: bool


class Elf:
    """An executable in the ELF format, of the bytes of its file, for a hart with a profile, the sum
    of some HartLayer: with ``HartLayer.C`` it may have compressed code.

    An ElfError is raised where they are none for this hart.
    """

    def __init__(self, file: bytes, profile: int = 0) -> None:
        self._file = bytes(file)
        self._arguments = (self._file, len(self._file))
        self.profile = _word_of(profile)
        elf = _elf_parse_hart(*self._arguments, self.profile)
        if elf.refusal:
            raise ElfError(_ElfRefusal(elf.refusal).name, elf.number, elf.other)
        self.entry, self.count = elf.entry, elf.segments

    def segment(self, index: int) -> Optional[Segment]:
        """The Segment of a program header, 0 to ``count`` - 1, and None where it is not loaded."""
        s = _elf_segment(*self._arguments, _word_of(index))
        if not s.loaded:
            return None
        return Segment(s.address, s.memory_size, s.offset, s.file_size, s.flags)

    @property
    def segments(self) -> list[Segment]:
        """The segments that are loaded."""
        return [s for s in map(self.segment, range(self.count)) if s]

    def load(self, machine: Machine) -> None:
        """Loads the segments into a machine's memory. An ElfError ``"NOT_IN_WORDS"`` is raised at an
        address that is not in its words; the bytes before it are loaded."""
        loaded = _elf_load_hart(*self._arguments, *machine._arguments[1:], self.profile)
        if loaded.refusal:
            raise ElfError("NOT_IN_WORDS", loaded.address)

    def function_at(self, address: int) -> Optional[Location]:
        """The Location of an address, by the symbols, and None where none tells it."""
        address = _word_of(address)
        at = _elf_function_at(*self._arguments, address, ctypes.create_string_buffer(1), 1)
        if not at.found:
            return None
        text = ctypes.create_string_buffer(at.length + 1)
        _elf_function_at(*self._arguments, address, text, len(text))
        name = text.raw[: at.length].decode("utf-8", "surrogateescape")
        return Location(name, at.distance, at.found == _IN_FUNCTION)


class _AssemblyEnd(enum.IntEnum):
    """How an assembly ended."""

    ASSEMBLED = 0
    MISTAKES = 1
    SMALL_ROOM = 2
    SMALL_BUFFER = 3


_Lent = NamedTuple("_Lent", [(name, int) for name in "room bytes statements symbols texts".split()])


class Statement(NamedTuple):
    """A statement that was assembled: its line, counted from 1, the address of its first byte, and
    how many bytes it has."""

    line: int
    address: int
    size: int


class Symbol(NamedTuple):
    """A label: its name, its line, counted from 1, and the address of what stands behind it."""

    name: str
    line: int
    address: int


class Mistake(NamedTuple):
    """A mistake in a source: the line and the byte of it, counted from 1, and what is wrong."""

    line: int
    column: int
    text: str


class Program(NamedTuple):
    """A source that was assembled: where it begins, its bytes from the address ``start`` on, its
    statements in the order of their addresses, and its labels."""

    start: int
    entry: int
    bytes: bytes
    statements: list[Statement]
    symbols: list[Symbol]


class AssemblyError(ValueError):
    """A source with mistakes: ``mistakes`` are the first 20, as ``rrs as`` tells them."""

    def __init__(self, mistakes: list[Mistake]) -> None:
        self.mistakes = mistakes
        super().__init__(mistakes)

    def __str__(self) -> str:
        return "; ".join(f"{m.line}:{m.column}: {m.text}" for m in self.mistakes)


def assemble(source: Union[str, bytes], start: int = 0) -> Program:
    """Assembles a source of RISC-V assembly, as ``rrs as`` does, its sections one behind the other
    from the address ``start`` on. A text is taken as UTF-8.

    >>> program = assemble("loop: addi x1, x1, 1\\n j loop")
    >>> Machine(program.bytes).run(4).steps
    4
    >>> program.symbols
    [Symbol(name='loop', line=1, address=0)]

    An AssemblyError is raised where the source has mistakes, and a MemoryError where it asks for
    more memory than there is.
    """
    data = source.encode() if isinstance(source, str) else bytes(source)
    lent = _Lent(64 * len(data) + (1 << 16), 4 * len(data) + 64, len(data) + 8, len(data) + 8, 4096)
    while True:
        made, parts = _assembled(data, _word_of(start), lent)
        if made.end == _AssemblyEnd.SMALL_ROOM:
            lent = lent._replace(room=made.room)
        elif made.end == _AssemblyEnd.SMALL_BUFFER:
            lent = _Lent(lent.room, made.bytes, made.statements, made.symbols, made.texts)
        else:
            return _program_of(start, made, *parts)


def _assembled(data: bytes, start: int, lent: _Lent):
    """How an assembly in so much memory ended, and the buffers that were lent."""
    memory = ctypes.create_string_buffer(lent.room + 16)
    place = ctypes.addressof(memory)
    room = _Room(place + -place % 16, lent.room)
    parts = (
        ctypes.create_string_buffer(lent.bytes + 1),
        (_Statement * (lent.statements + 1))(),
        (_Symbol * (lent.symbols + 1))(),
        (_Mistake * 20)(),
        ctypes.create_string_buffer(lent.texts + 1),
    )
    sized = [part for each in parts for part in (each, len(each))]
    made = _assemble(data, len(data), start, ctypes.byref(room), *sized)
    return made, parts


def _program_of(start, made, into, statements, symbols, mistakes, texts) -> Program:
    """The program, or its mistakes, in the buffers."""

    def text_of(first: int, length: int) -> str:
        return texts.raw[first : first + length].decode("utf-8", "surrogateescape")

    if _AssemblyEnd(made.end) is _AssemblyEnd.MISTAKES:
        raise AssemblyError(
            [Mistake(m.line, m.column, text_of(m.text, m.length)) for m in mistakes[: made.mistakes]]
        )
    return Program(
        _word_of(start),
        made.entry,
        into.raw[: made.bytes],
        [Statement(s.line, s.address, s.size) for s in statements[: made.statements]],
        [Symbol(text_of(s.name, s.length), s.line, s.address) for s in symbols[: made.symbols]],
    )


class Machine:
    """A hart, and words of memory from the address ``base`` on.

    ``program`` is bytes, or a sequence of words. ``size`` is the number of words of memory, at
    least those of the program; the others are 0. The pc begins at ``base``, a multiple of 4. A copy
    has a hart and words of its own, and the attributes that a subclass added. Only one thread at a
    time may use a machine. Its runs keep decoded words from one to the next, in 20 KiB; the memory
    may be written between two of them.
    """

    def __init__(
        self,
        program: Union[bytes, bytearray, memoryview, Sequence[int]],
        base: int = 0,
        size: Optional[int] = None,
    ) -> None:
        if _word_of(base) % 4:
            raise ValueError("base is misaligned")
        if isinstance(program, (bytes, bytearray, memoryview)):
            data = bytes(program)
            data += bytes(-len(data) % 4)
            program = [int.from_bytes(data[i : i + 4], "little") for i in range(0, len(data), 4)]
        count = len(program) if size is None else size
        if count < len(program):
            raise ValueError(f"a program of {len(program)} words in {count} words of memory")
        self._memory = _words_type(count)(*map(_word_of, program))
        self._base = _word_of(base)
        self._hart = _Hart(pc=self._base)
        self._arguments = (
            ctypes.byref(self._hart),
            ctypes.cast(self._memory, _words),
            count,
            self._base,
        )
        self._lend(_Cache())
        self._reserved = _Reservation()
        self._record = _Retired()
        self._recorded = ctypes.byref(self._record)

    def _lend(self, cache: _Cache) -> None:
        """Has the runs go over this cache, whatever its bytes are."""
        _cache_clear(ctypes.byref(cache))
        hart, *words = self._arguments
        self._cached = (hart, ctypes.byref(cache), *words)

    @classmethod
    def from_elf(cls, path: str, size: Optional[int] = None, profile: int = 0) -> Machine:
        """The machine of an executable in the ELF format: its memory begins with the page of its
        first address, 4,096 bytes, and its segments stand there; the pc is its entry. ``size`` is
        the number of words of memory, at least those up to its last segment's end, which is what it
        is without it. ``elf`` is the Elf, with the symbols: ``machine.elf.function_at(machine.pc)``.
        With ``HartLayer.C`` in ``profile`` the file may have compressed code, which step_hart and
        run_hart execute by ``machine.elf.profile``.

        An ElfError is raised where the file is no executable for this hart. The stack pointer is
        0, and the caller sets it.
        """
        with open(path, "rb") as file:
            elf = Elf(file.read(), profile)
        segments = [segment for segment in elf.segments if segment.memory_size]
        base = min(segment.address for segment in segments)
        base -= base % 4096
        end = max(segment.address + segment.memory_size for segment in segments)
        needed = (end - base + 3) // 4
        machine = cls([], base, needed if size is None else max(size, needed))
        elf.load(machine)
        machine.pc = elf.entry
        machine.elf = elf
        return machine

    @property
    def memory(self) -> MutableSequence[int]:
        """The words of memory, which may be read and written."""
        return self._memory

    @property
    def base(self) -> int:
        """The address of the first word."""
        return self._base

    @property
    def registers(self) -> _Registers:
        """The registers x0 to x31."""
        return _Registers(self._hart)

    @property
    def pc(self) -> int:
        """The address of the next instruction."""
        return self._hart.pc

    @pc.setter
    def pc(self, value: int) -> None:
        self._hart.pc = _word_of(value)

    @property
    def last(self) -> Optional[int]:
        """The number of the register that the latest step wrote, or None."""
        return self._hart.last if 0 < self._hart.last < 32 else None

    @property
    def reservation(self) -> Optional[int]:
        """The address that the hart has reserved by lr.w, or None. Steps by a profile change it."""
        return self._reserved.address if self._reserved.reserved == 1 else None

    @reservation.setter
    def reservation(self, value: Optional[int]) -> None:
        self._reserved.address = 0 if value is None else _word_of(value)
        self._reserved.reserved = value is not None

    def step(self) -> Optional[Fault]:
        """Executes the instruction at the pc. Returns the Fault, or None."""
        return _fault_of(_step(*self._arguments))

    def step_rvfi(self, order: int = 0) -> Tuple[Optional[Fault], Retired]:
        """Executes the instruction at the pc. Returns the Fault or None, and what it Retired."""
        fault = _step_rvfi(*self._arguments, _long_of(order, "order"), self._recorded)
        return _fault_of(fault), _new(Retired, _record(self._record))

    def step_rvfi_ialign32(self, order: int = 0) -> Tuple[Optional[Fault], Retired]:
        """Does what step_rvfi does, but that a jump or a taken branch to an address that is no
        multiple of 4 faults itself, as in a core whose IALIGN is 32."""
        fault = _step_rvfi_ialign32(*self._arguments, _long_of(order, "order"), self._recorded)
        return _fault_of(fault), _new(Retired, _record(self._record))

    def step_hart(self, profile: int) -> Optional[Fault]:
        """Executes the instruction at the pc as a hart with a profile does, the sum of some
        HartLayer. Returns the Fault, or None. ``reservation`` goes from one step to the next.

        >>> machine = Machine([0x0000_0515])  # c.addi x10, 5
        >>> machine.step_hart(HartLayer.C), machine.registers[10], machine.pc
        (None, 5, 2)
        """
        return _fault_of(_step_hart(*self._profiled(profile)))

    def run_hart(self, limit: int, profile: int) -> End:
        """Makes steps of a hart with a profile until ``limit`` were made, or one faults. Returns
        the End."""
        return _end_of(_run_hart(*self._profiled(profile), _long_of(limit, "limit")))

    def step_hart_rvfi(self, profile: int, order: int = 0) -> Tuple[Optional[Fault], Retired]:
        """Does what step_hart does. Returns the Fault or None, and what the step Retired: a short
        instruction has its 16 bits as ``insn``, an AMO has both masks, and a misaligned load or
        store is one access of all its bytes."""
        order = _long_of(order, "order")
        fault = _step_hart_rvfi(*self._profiled(profile), order, self._recorded)
        return _fault_of(fault), _new(Retired, _record(self._record))

    def _profiled(self, profile: int) -> tuple:
        """The arguments of a call for a hart with a profile."""
        return (*self._arguments, _word_of(profile), ctypes.byref(self._reserved))

    def step_noted(self) -> Tuple[Optional[Fault], Change]:
        """Executes the instruction at the pc. Returns the Fault or None, and the Change that takes
        the step back."""
        change = _Change()
        fault = _step_noted(*self._arguments, ctypes.byref(change))
        return _fault_of(fault), _new(Change, _change(change))

    def undo(self, change: Sequence[int]) -> None:
        """Takes a step back by its Change. After the steps since then were taken back, the latest
        first, the machine is what it was before the step."""
        _undo(*self._arguments, ctypes.byref(_Change(*map(_word_of, change))))

    def machine_step(
        self, csrs: Csrs, mip: int = 0, time: int = 0, order: int = 0
    ) -> Tuple[Outcome, MachineRetired]:
        """Makes a step of a hart with machine mode, whose CSRs these are: takes an interrupt that is
        pending in ``mip``, or else executes the instruction at the pc, which may raise an exception.
        ``time`` is what the CSR reads. Returns the Outcome, and what the step retired. A load or a
        store past the words is an access fault.

        >>> machine, csrs = Machine([0x30529073, 0x00000073]), Csrs()  # csrw mtvec, t0; ecall
        >>> machine.registers[5] = 0x80
        >>> machine.machine_step(csrs)[0].kind.name, csrs.mtvec
        ('RETIRED', 128)
        >>> machine.machine_step(csrs)[0], machine.pc, csrs.mepc
        (Outcome(kind=<OutcomeKind.RAISED: 2>, cause=11, value=0), 128, 4)
        """
        record = _MachineRetired()
        hart, words, count, base = self._arguments
        outcome = _machine_step(
            hart,
            csrs._pointer,
            *(words, count, base),
            *(_word_of(mip), _long_of(time, "time"), _long_of(order, "order")),
            ctypes.byref(record),
        )
        valid, intr, mode, trapped, cause, *csr = _machine_record(record)
        told = (
            *(_new(Retired, _record(record)), valid, intr, mode),
            *(cause if trapped else None, _new(CsrAccess, csr)),
        )
        kind = OutcomeKind(outcome.kind)
        return Outcome(kind, outcome.cause, outcome.value), _new(MachineRetired, told)

    def run(
        self, limit: int, access: Optional[Callable[[Access], Optional[int]]] = None
    ) -> End:
        """Makes steps until ``limit`` were made, or one faults. Returns the End.

        ``access`` is for devices. It is called with each Access that the words of memory refuse, in
        the order of the program, and answers what complete calls ``given``: the value that a load
        reads, of a store any number, and None where it refuses too, which ends the run with the
        fault. The pc is then that of the instruction, and an exception that ``access`` raises leaves
        the machine so too. It may read the machine, and write its memory.

        >>> machine = Machine([0x0000_a103, 0x0020_a223])  # lw x2, 0(x1); sw x2, 4(x1)
        >>> machine.registers[1] = 0x1000_0000
        >>> machine.run(2, access=lambda asked: print(asked) or 7)
        Access(kind=<AccessKind.LOAD: 1>, address=268435456, size=4, value=0)
        Access(kind=<AccessKind.STORE: 2>, address=268435460, size=4, value=7)
        End(steps=2, fault=None, at_stop=False)
        """
        end = _end_of(_run(*self._cached, _long_of(limit, "limit")))
        if access is None:
            return end
        made = end.steps
        while end.fault and end.fault.kind in (FaultKind.LOAD_FAULT, FaultKind.STORE_FAULT):
            word = self._memory[(self._hart.pc - self._base) // 4]
            given = access(self.request(word)[1])
            if given is None:
                break
            self.complete(word, given)
            end = _end_of(_run(*self._cached, limit - made - 1))
            made += 1 + end.steps
        return end._replace(steps=made)

    def run_until(self, stops: Iterable[int], limit: int) -> End:
        """Makes steps until the pc is one of the addresses ``stops``, ``limit`` were made, or one
        faults. The first step is made wherever the pc is. Returns the End."""
        words = [*map(_word_of, stops)]
        addresses = (_u32 * len(words))(*words)
        limit = _long_of(limit, "limit")
        return _end_of(_run_until(*self._cached, limit, addresses, len(words)))

    def request(self, word: int) -> Tuple[Optional[Fault], Optional[Access]]:
        """The access that ``word``, the word at the pc, asks for. Returns the Fault before any
        access or None, and the Access or None. Nothing changes, and the memory isn't looked at."""
        asked = _request(self._arguments[0], _word_of(word))
        kind, address, size, value = _access(asked)
        if not kind:
            return _fault_of(asked.fault), None
        known = _access_kinds.get(kind) or AccessKind(kind)
        return None, _new(Access, (known, address, size, value))

    def complete(self, word: int, given: Optional[int]) -> Optional[Fault]:
        """Executes ``word``, the word at the pc, whose access the caller made: ``given`` is the
        value that a load read, of a store any number, and None where the access is refused. The
        memory isn't looked at. Returns the Fault, or None."""
        value = 0 if given is None else _word_of(given)
        return _fault_of(_complete(self._arguments[0], _word_of(word), given is not None, value))

    def complete_rvfi(
        self, word: int, given: Optional[int], order: int = 0
    ) -> Tuple[Optional[Fault], Retired]:
        """Does what complete does. Returns the Fault or None, and what the step Retired."""
        value = 0 if given is None else _word_of(given)
        fault = _complete_rvfi(
            self._arguments[0],
            _word_of(word),
            given is not None,
            value,
            _long_of(order, "order"),
            self._recorded,
        )
        return _fault_of(fault), _new(Retired, _record(self._record))

    def __reduce__(self) -> tuple:
        own = (bytes(self._memory), self._base, bytes(self._hart), self.reservation)
        return _restored, (type(self), *own), _added(self, *_OWN)

    def __repr__(self) -> str:
        return f"Machine(pc=0x{self.pc:08x}, {len(self.memory)} words from 0x{self.base:08x})"


_OWN = frozenset(vars(Machine([])))  # the attributes that a copy has of its own


def _restored(kind, memory, base, hart, reservation):
    """The machine that was copied, or pickled, of a class whose __init__ may be another."""
    machine = kind.__new__(kind)
    Machine.__init__(machine, memory, base)
    ctypes.memmove(machine._arguments[0], hart, len(hart))
    machine.reservation = reservation
    return machine


def decode(word: int) -> Optional[Instruction]:
    """The Instruction that a word is, and None for an illegal instruction."""
    fields = _fields(_decode(_word_of(word)))
    return _new(Instruction, fields) if fields[0] else None


def disassemble(word: int, pc: int = 0, profile: int = 0) -> Optional[str]:
    """The text of the instruction that a word is at the address ``pc``, and None for an illegal
    instruction. One above the table, as csrrw and lr.w, has its text too. With ``HartLayer.C`` in
    ``profile`` it is that of the half-word in the low bits, where the lowest two are not 11.

    >>> disassemble(0x4515, 0, HartLayer.C)
    'c.li x10, 5'
    """
    text = ctypes.create_string_buffer(_TEXT_SIZE)
    length = _disassemble_hart(_word_of(word), _word_of(pc), _word_of(profile), text, _TEXT_SIZE)
    return text.raw[:length].decode("ascii") if length else None


def expand(half: int) -> Optional[int]:
    """The word that a compressed instruction of 16 bits stands for, and None where it is none.

    >>> disassemble(expand(0x4515))
    'addi x10, x0, 5'
    """
    return _expand(_word_of(half)) or None


def row_name(row: int) -> Optional[str]:
    """The name of a Row, such as "addi" and "fence.i", and None for another number."""
    return _name("row", row)


def register_name(number: int) -> Optional[str]:
    """The name of a register 0 to 31 in the ABI, such as "a0", and None for another number."""
    return _name("register", number)


def field_name(field: int) -> Optional[str]:
    """The name of a Field, such as "rd_wdata", "same" for 0, and None for another number."""
    return _name("field", field)


class Board:
    """A board at reset: a hart with machine mode, and the devices of QEMU's ``virt`` at its
    addresses, a UART, a CLINT and a finisher. RAM is words from 0x80000000 on, and begins with an
    image, bytes or words. ``size`` is the number of its words, at least those of the image; the
    others are 0. ``profile`` says what the hart has more, the sum of some MachineLayer.

    >>> board = Board(assemble("lui x1, 0x10000\\n li x2, 65\\n sb x2, 0(x1)").bytes)
    >>> board.run(10)
    BoardEnd(steps=3, event=<BoardEvent.TRANSMITTED: 1>, value=65)

    The hart starts at the image, at 0x80000000. A copy has a board and words of its own.
    """

    def __init__(
        self,
        image: Union[bytes, bytearray, memoryview, Sequence[int]],
        size: Optional[int] = None,
        profile: int = 0,
    ) -> None:
        machine = Machine(image, 0x80000000, size)
        self._memory = machine._memory
        self._board = _Board()
        self._aim()
        _board_reset(self._pointer, _word_of(profile), machine.base)

    def _aim(self) -> None:
        """Notes where the board and its words lie."""
        self._pointer = ctypes.byref(self._board)
        self._words = (ctypes.cast(self._memory, _words), len(self._memory))

    @property
    def memory(self) -> MutableSequence[int]:
        """The words of RAM, which may be read and written."""
        return self._memory

    @property
    def registers(self) -> _Registers:
        """The registers x0 to x31."""
        return _Registers(self._board.hart)

    @property
    def pc(self) -> int:
        """The address of the next instruction."""
        return self._board.hart.pc

    @pc.setter
    def pc(self, value: int) -> None:
        self._board.hart.pc = _word_of(value)

    @property
    def csrs(self) -> Csrs:
        """The CSRs, which may be read and written: they are the board's own."""
        return Csrs.__new__(Csrs)._over(self._board.csrs)

    @property
    def time(self) -> int:
        """``mtime``, one more with each instruction that retires."""
        return self._board.time

    @time.setter
    def time(self, value: int) -> None:
        self._board.time = _long_of(value, "time")

    @property
    def alarm(self) -> int:
        """``mtimecmp``: from this time on a timer interrupt is pending."""
        return self._board.alarm

    @alarm.setter
    def alarm(self, value: int) -> None:
        self._board.alarm = _long_of(value, "alarm")

    @property
    def software(self) -> int:
        """``msip``, whose bit 0 says that a software interrupt is pending."""
        return self._board.software

    @software.setter
    def software(self, value: int) -> None:
        self._board.software = _word_of(value)

    def load(self, file: bytes) -> None:
        """Loads an executable in the ELF format, of the bytes of its file: each segment at its
        physical address. The hart is then at its entry. With ``MachineLayer.C`` in the profile of
        the board the file may have compressed code.

        An ElfError is raised where the file is refused, and one ``"NOT_IN_WORDS"`` at an address
        that is not in RAM. The hart stays then.
        """
        file = bytes(file)
        loaded = _board_load(self._pointer, file, len(file), *self._words)
        if loaded.refusal == _NOT_IN_WORDS:
            raise ElfError("NOT_IN_WORDS", loaded.address)
        if loaded.refusal:
            raise ElfError(_ElfRefusal(loaded.refusal).name)

    def run(self, limit: int) -> BoardEnd:
        """Makes steps until ``limit`` were made, or one has something for the caller. A further call
        goes on from there, after each event."""
        end = _board_run(self._pointer, *self._words, _long_of(limit, "limit"))
        return BoardEnd(end.steps, BoardEvent(end.event), end.value)

    def receive(self, byte: int) -> bool:
        """Hands the UART a byte that arrives, and returns whether it took it: where it holds one that
        the program has not read, nothing changes."""
        if not 0 <= byte < 256:
            raise ValueError(f"{byte} is no byte")
        return bool(_board_receive(self._pointer, byte))

    @property
    def waits_for_input(self) -> bool:
        """Whether the UART asks for received data, and holds none."""
        return bool(_board_waits_for_input(self._pointer))

    def __repr__(self) -> str:
        return f"Board(pc=0x{self.pc:08x}, time={self.time}, {len(self.memory)} words)"

    def __reduce__(self) -> tuple:
        own = ("_board", "_memory", "_pointer", "_words")
        return _restored_board, (type(self), bytes(self._board), self._memory[:]), _added(self, *own)


def _restored_board(kind, board, words):
    """The board that was copied, or pickled, of a class whose __init__ may be another."""
    copied = kind.__new__(kind)
    copied._memory = _words_type(len(words))(*words)
    copied._board = _Board.from_buffer_copy(board)
    copied._aim()
    return copied
