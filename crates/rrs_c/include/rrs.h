/* rrs.h: a RISC-V simulator kit, RV32I with multiply and divide, proved against its table.
 *
 * Link librrs_c.a, which `rt lib` in crates/rrs_c of the kit builds, for x86-64. It needs memset,
 * memcpy and memmove of the C library and nothing else. docs/C.md of the kit says how to take it,
 * and what is proved of each function.
 *
 * What holds of all functions:
 *
 * - Ownership. The caller owns every value, and no function keeps a pointer after it returns. None
 *   prints, calls back, or ends the process. None allocates but rrs_assemble, in memory that it is
 *   lent for the call.
 * - Pointers. Each is aligned for its type and points to a value of the caller. None may be NULL,
 *   also not one to an array of length 0. What two of them point to must not overlap. Nothing
 *   checks this. Every hart, word, address and limit is allowed.
 * - Threads. There is no state but the caller's, so calls on different values may run at the same
 *   time. Two calls on the same hart, the same words or the same cache must not.
 *
 * Memory is `count` words, which lie one after another from the address `base` on, each as four
 * bytes, lowest first. All of them can be read and written. `base` is a multiple of 4; its two
 * lowest bits are not looked at. Addresses end at 0xffffffff: words that would lie past it have
 * none.
 * On a machine that stores the lowest byte first, as x86-64 does, the words are the bytes of a
 * program as its file has them.
 */
#ifndef RRS_H
#define RRS_H

#include <stddef.h>
#include <stdint.h>

#ifdef __cplusplus
extern "C" {
#endif

/* The version of this interface. rrs_version() gives that of the library that is linked: the two
 * are equal where the header belongs to it. */
#define RRS_VERSION_MAJOR 0
#define RRS_VERSION_MINOR 2
#define RRS_VERSION_PATCH 0
#define RRS_VERSION (65536u * RRS_VERSION_MAJOR + 256u * RRS_VERSION_MINOR + RRS_VERSION_PATCH)

uint32_t rrs_version(void);

/* A hart. {0} is one with all registers 0, at address 0. */
typedef struct rrs_hart {
    uint32_t x[32]; /* x1 to x31. x[0] is never read or changed: register x0 is 0. */
    uint32_t pc;    /* The address of the next instruction, in bytes. */
    uint32_t last;  /* The register that the latest step wrote, 1 to 31, and 0 where it wrote none.
                     * As input any other number says none too. */
} rrs_hart;

/* The exception that ended a step or a run. */
enum rrs_fault_kind {
    RRS_OK = 0,                  /* No exception. */
    RRS_ILLEGAL_INSTRUCTION = 1, /* The word at the pc is not implemented. */
    RRS_FETCH_FAULT = 2,         /* The pc is past the words. */
    RRS_LOAD_FAULT = 3,          /* A load's bytes are past the words. */
    RRS_STORE_FAULT = 4,         /* A store's bytes are past the words. */
    RRS_MISALIGNED = 5,          /* The pc, or the address of a load or a store, is misaligned. */
    RRS_ECALL = 6,               /* The instruction is ecall: C serves it, and sets the pc. */
    RRS_EBREAK = 7               /* The instruction is ebreak. */
};

/* After an exception the registers, the pc and memory are as before the step, and `last` is 0. */
typedef struct rrs_fault {
    uint32_t kind;    /* One of enum rrs_fault_kind. */
    uint32_t address; /* The pc, or of a load or a store the data address; 0 for RRS_OK. */
    uint32_t word;    /* The word of RRS_ILLEGAL_INSTRUCTION, else 0. */
} rrs_fault;

/* How a run ended. Where fault.kind and at_stop are 0, it made as many steps as its limit. */
typedef struct rrs_end {
    uint64_t steps;   /* How many steps were made, without one that raised an exception. */
    rrs_fault fault;  /* The exception that ended the run, if one did. */
    uint32_t at_stop; /* 1 where the run ended at a stop, else 0. rrs_run always gives 0. */
} rrs_end;

/* Executes the instruction at the pc, and returns its exception, or kind RRS_OK. */
rrs_fault rrs_step(rrs_hart *hart, uint32_t *words, size_t count, uint32_t base);

/* Makes steps until `limit` were made, or one raises an exception. With a limit of 2,000 or more it
 * makes a table of 20 KiB on the stack, and takes 21 KiB of it. */
rrs_end rrs_run(rrs_hart *hart, uint32_t *words, size_t count, uint32_t base, uint64_t limit);

/* Makes steps until the pc is one of the `stop_count` addresses at `stops`, `limit` were made, or
 * one raises an exception. It ends before the instruction at a stop. The first step is made even at
 * a stop, so the same call goes on from there. */
rrs_end rrs_run_until(rrs_hart *hart, uint32_t *words, size_t count, uint32_t base, uint64_t limit,
                      const uint32_t *stops, size_t stop_count);

/* Room for 1,024 decoded words, so that many short runs need not decode each word in each of them.
 * rrs_cache_clear makes any bytes of this size and alignment a cache. From then on the functions
 * below alone change it: what else is written there makes it none, until it is cleared again, and a
 * run over no cache does what no one knows. A copy of a cache is a cache. */
typedef struct rrs_cache {
    uint32_t contents[5120]; /* Of the library alone. */
} rrs_cache;

void rrs_cache_clear(rrs_cache *cache);

/* Do what rrs_run and rrs_run_until do, over a cache, with less than 4 KiB of stack. The cache is
 * keyed by the words, and the word at the pc is read at each step. So a cache may be lent to runs of
 * any harts over any words, one after another, and what C writes to the words in between needs no
 * notice: the run is always that of rrs_run, or of rrs_run_until. */
rrs_end rrs_run_cached(rrs_hart *hart, rrs_cache *cache, uint32_t *words, size_t count,
                       uint32_t base, uint64_t limit);
rrs_end rrs_run_until_cached(rrs_hart *hart, rrs_cache *cache, uint32_t *words, size_t count,
                             uint32_t base, uint64_t limit, const uint32_t *stops,
                             size_t stop_count);

/* What a step retired, in the shape of RVFI, the RISC-V Formal Interface (NRET 1, ILEN and XLEN
 * 32). A step that raised an exception has a record too, with trap 1. The interface's halt, intr,
 * mode and ixl are the same in each step of this machine: 0, 0, 3 and 1. docs/C.md says what else
 * differs. */
typedef struct rrs_retired {
    uint64_t order;     /* The number that the caller gave. */
    uint32_t insn;      /* The word at the pc, or 0 where none was fetched. */
    uint32_t fetched;   /* 1 where a word was fetched, else 0. */
    uint32_t trap;      /* 1 where the step raised an exception, else 0. */
    uint32_t pc_rdata;  /* The pc before. */
    uint32_t pc_wdata;  /* The pc after. */
    uint32_t rs1_addr;  /* The first source register, 0 where the word's format has none. */
    uint32_t rs1_rdata; /* Its value before. */
    uint32_t rs2_addr;  /* The second source register, 0 where the word's format has none. */
    uint32_t rs2_rdata; /* Its value before. */
    uint32_t rd_addr;   /* The register that was written, 0 where none was. */
    uint32_t rd_wdata;  /* Its value after, 0 where none was written. */
    uint32_t mem_addr;  /* The address of the first byte that was loaded or stored, or 0. */
    uint32_t mem_rmask; /* Bit i: the byte at mem_addr + i was loaded. 0, 1, 3 or 15. */
    uint32_t mem_wmask; /* Bit i: the byte at mem_addr + i was stored. 0, 1, 3 or 15. */
    uint32_t mem_rdata; /* The value that was loaded, not extended. */
    uint32_t mem_wdata; /* The value that was stored, the bytes of the mask alone. */
} rrs_retired;

/* Does what rrs_step does, and says in *retired what it retired, under the number `order`. */
rrs_fault rrs_step_rvfi(rrs_hart *hart, uint32_t *words, size_t count, uint32_t base,
                        uint64_t order, rrs_retired *retired);

/* Does what rrs_step_rvfi does, for a core whose IALIGN is 32, one without instructions of 16 bits: a
 * jump or a taken branch to an address that is no multiple of 4 raises RRS_MISALIGNED itself, with
 * that address, and the hart stays at it. rrs_step_rvfi has the jump succeed, and the next step
 * raise the exception. */
rrs_fault rrs_step_rvfi_ialign32(rrs_hart *hart, uint32_t *words, size_t count, uint32_t base,
                                 uint64_t order, rrs_retired *retired);

/* The fields of a record that rrs_compare compares, in its order. */
enum rrs_field {
    RRS_SAME = 0, /* No field differs. */
    RRS_FIELD_ORDER = 1,
    RRS_FIELD_INSN = 2,
    RRS_FIELD_TRAP = 3,
    RRS_FIELD_PC_RDATA = 4,
    RRS_FIELD_PC_WDATA = 5,
    RRS_FIELD_RS1_ADDR = 6,
    RRS_FIELD_RS1_RDATA = 7,
    RRS_FIELD_RS2_ADDR = 8,
    RRS_FIELD_RS2_RDATA = 9,
    RRS_FIELD_RD_ADDR = 10,
    RRS_FIELD_RD_WDATA = 11,
    RRS_FIELD_MEM_ADDR = 12,
    RRS_FIELD_MEM_RMASK = 13,
    RRS_FIELD_MEM_WMASK = 14,
    RRS_FIELD_MEM_RDATA = 15,
    RRS_FIELD_MEM_WDATA = 16
};

/* A field in which the records of the model and of a core differ. */
typedef struct rrs_difference {
    uint64_t model; /* What the model has, with the address and the masks as the core tells them. */
    uint64_t core;  /* What the core has; of data the bytes of the mask, lowest first. */
    uint32_t field; /* One of enum rrs_field, RRS_SAME where none differs; then both are 0. */
} rrs_difference;

/* The first field in which a core's record differs from the model's. `by_words` is 1 where the core
 * tells the address of the word that it accesses, and shifts masks and data within the word. Any
 * other number says that it tells the first byte's address. `fetched` of the core is not looked at.
 * docs/C.md has the table of what is compared: a source register may be left out by 0 in a step that
 * traps and in fence; mem_addr is compared where the model accesses memory, and data by the bytes of
 * the model's mask. */
rrs_difference rrs_compare(const rrs_retired *model, const rrs_retired *core, uint32_t by_words);

/* Where rrs_cause has no exception. */
#define RRS_NO_CAUSE 0xffffffffu

/* The exception code that mcause has for a fault of the instruction `word`, the word at the pc that
 * is given: 0 to 7 or 11, and RRS_NO_CAUSE for RRS_OK. RRS_MISALIGNED is 4 of a load, 6 of a store,
 * and 0 of a misaligned pc, a jump or a branch. */
uint32_t rrs_cause(const rrs_fault *fault, uint32_t pc, uint32_t word);

/* The rows of the table, as rrs_decode numbers them, and behind them the instructions above it: those
 * on CSRs, mret, wfi and fence.i, extension A, and Zba to Zicond. */
enum rrs_row {
    RRS_ROW_ILLEGAL = 0,
    RRS_ROW_ADD = 1,
    RRS_ROW_SUB = 2,
    RRS_ROW_SLL = 3,
    RRS_ROW_SLT = 4,
    RRS_ROW_SLTU = 5,
    RRS_ROW_XOR = 6,
    RRS_ROW_SRL = 7,
    RRS_ROW_SRA = 8,
    RRS_ROW_OR = 9,
    RRS_ROW_AND = 10,
    RRS_ROW_ADDI = 11,
    RRS_ROW_SLLI = 12,
    RRS_ROW_SLTI = 13,
    RRS_ROW_SLTIU = 14,
    RRS_ROW_XORI = 15,
    RRS_ROW_SRLI = 16,
    RRS_ROW_SRAI = 17,
    RRS_ROW_ORI = 18,
    RRS_ROW_ANDI = 19,
    RRS_ROW_LUI = 20,
    RRS_ROW_AUIPC = 21,
    RRS_ROW_BEQ = 22,
    RRS_ROW_BNE = 23,
    RRS_ROW_BLT = 24,
    RRS_ROW_BLTU = 25,
    RRS_ROW_BGE = 26,
    RRS_ROW_BGEU = 27,
    RRS_ROW_LB = 28,
    RRS_ROW_LBU = 29,
    RRS_ROW_LH = 30,
    RRS_ROW_LHU = 31,
    RRS_ROW_LW = 32,
    RRS_ROW_SB = 33,
    RRS_ROW_SH = 34,
    RRS_ROW_SW = 35,
    RRS_ROW_JAL = 36,
    RRS_ROW_JALR = 37,
    RRS_ROW_MUL = 38,
    RRS_ROW_MULH = 39,
    RRS_ROW_MULHU = 40,
    RRS_ROW_MULHSU = 41,
    RRS_ROW_DIV = 42,
    RRS_ROW_DIVU = 43,
    RRS_ROW_REM = 44,
    RRS_ROW_REMU = 45,
    RRS_ROW_FENCE = 46,
    RRS_ROW_ECALL = 47,
    RRS_ROW_EBREAK = 48,
    RRS_ROW_CSRRW = 49,
    RRS_ROW_CSRRS = 50,
    RRS_ROW_CSRRC = 51,
    RRS_ROW_CSRRWI = 52,
    RRS_ROW_CSRRSI = 53,
    RRS_ROW_CSRRCI = 54,
    RRS_ROW_MRET = 55,
    RRS_ROW_WFI = 56,
    RRS_ROW_FENCE_I = 57,
    RRS_ROW_LR_W = 58,
    RRS_ROW_SC_W = 59,
    RRS_ROW_AMOSWAP_W = 60,
    RRS_ROW_AMOADD_W = 61,
    RRS_ROW_AMOXOR_W = 62,
    RRS_ROW_AMOAND_W = 63,
    RRS_ROW_AMOOR_W = 64,
    RRS_ROW_AMOMIN_W = 65,
    RRS_ROW_AMOMAX_W = 66,
    RRS_ROW_AMOMINU_W = 67,
    RRS_ROW_AMOMAXU_W = 68,
    RRS_ROW_SH1ADD = 69,
    RRS_ROW_SH2ADD = 70,
    RRS_ROW_SH3ADD = 71,
    RRS_ROW_ANDN = 72,
    RRS_ROW_ORN = 73,
    RRS_ROW_XNOR = 74,
    RRS_ROW_CLZ = 75,
    RRS_ROW_CTZ = 76,
    RRS_ROW_CPOP = 77,
    RRS_ROW_MAX = 78,
    RRS_ROW_MAXU = 79,
    RRS_ROW_MIN = 80,
    RRS_ROW_MINU = 81,
    RRS_ROW_SEXT_B = 82,
    RRS_ROW_SEXT_H = 83,
    RRS_ROW_ZEXT_H = 84,
    RRS_ROW_ROL = 85,
    RRS_ROW_ROR = 86,
    RRS_ROW_RORI = 87,
    RRS_ROW_ORC_B = 88,
    RRS_ROW_REV8 = 89,
    RRS_ROW_BCLR = 90,
    RRS_ROW_BCLRI = 91,
    RRS_ROW_BEXT = 92,
    RRS_ROW_BEXTI = 93,
    RRS_ROW_BINV = 94,
    RRS_ROW_BINVI = 95,
    RRS_ROW_BSET = 96,
    RRS_ROW_BSETI = 97,
    RRS_ROW_CLMUL = 98,
    RRS_ROW_CLMULH = 99,
    RRS_ROW_CLMULR = 100,
    RRS_ROW_PACK = 101,
    RRS_ROW_PACKH = 102,
    RRS_ROW_BREV8 = 103,
    RRS_ROW_ZIP = 104,
    RRS_ROW_UNZIP = 105,
    RRS_ROW_CZERO_EQZ = 106,
    RRS_ROW_CZERO_NEZ = 107
};

/* An instruction. A field that its format does not have is 0. The format of fence, ecall and ebreak
 * is I: the imm of ecall is 0 and of ebreak 1, and fence has any rd, rs1 and imm. Above the table the
 * imm of an instruction on a CSR is the number of the CSR, 0 to 4095, and its rs1 may be a number; and
 * the imm of one of extension A is 2 for aq and 1 for rl. Of Zba to Zicond an amount is shamt. */
typedef struct rrs_instruction {
    uint32_t row;   /* One of enum rrs_row: its number in the table, 1 (add) to 48 (ebreak), a number
                     * from 49 (csrrw) to 107 (czero.nez) above it, or 0 for a word that is none. */
    uint32_t rd;    /* The register that is written, by the format. */
    uint32_t rs1;   /* The first register that is read. */
    uint32_t rs2;   /* The second register that is read. */
    uint32_t shamt; /* The amount of slli, srli and srai, and of rori, bclri, bexti, binvi and bseti. */
    int32_t imm;    /* The immediate: of branches and jal in bytes, of lui and auipc with its 12 low
                     * bits 0. */
} rrs_instruction;

/* The instruction that a word is. */
rrs_instruction rrs_decode(uint32_t word);

/* Room for the text of every word, with the 0 that ends it. */
#define RRS_TEXT_SIZE 89

/* Writes the text of the instruction that a word is at the address `pc`, and a 0 after it, as
 * "addi x1, x2, -3", where the `size` bytes at `text` have room for both, and else nothing. Returns
 * the length of the text without the 0, whether it had room or not: at most RRS_TEXT_SIZE - 1, and
 * 0 for an illegal instruction. An instruction above the table, as csrrw and lr.w, has its text too.
 * What follows the 0 in the buffer is left as it was. */
size_t rrs_disassemble(uint32_t word, uint32_t pc, char *text, size_t size);

/* Writes the text of what the hart of a profile executes of the four bytes at the address `pc`, the
 * lowest first in `word`, as rrs_disassemble does. With RRS_HART_C that is the text of the half-word
 * in the low bits, as "c.addi x1, -3", where the lowest two are not 11. */
size_t rrs_disassemble_hart(uint32_t word, uint32_t pc, uint32_t profile, char *text, size_t size);

/* The word of 32 bits that a compressed instruction stands for, and 0 for a half-word that is none.
 * The two differ in the next pc and in the link. No higher bit of `half` is looked at. */
uint32_t rrs_expand(uint32_t half);

/* Room for every name below, with the 0 that ends it. */
#define RRS_NAME_SIZE 20

/* Each writes a name, and a 0 after it, where the `size` bytes at `text` have room for both, and
 * else nothing. It returns the length of the name without the 0, whether it had room or not, and 0
 * where the number has no name.
 * - rrs_row_name: of enum rrs_row, as in the text of an instruction: "addi", "fence.i"
 * - rrs_fault_name: of enum rrs_fault_kind: "illegal instruction"
 * - rrs_register_name: of a register 0 to 31, in the ABI: "zero", "ra", .. "t6"
 * - rrs_field_name: of enum rrs_field: "rd_wdata", and "same" of RRS_SAME */
size_t rrs_row_name(uint32_t row, char *text, size_t size);
size_t rrs_fault_name(uint32_t kind, char *text, size_t size);
size_t rrs_register_name(uint32_t number, char *text, size_t size);
size_t rrs_field_name(uint32_t field, char *text, size_t size);

/* Memory and devices that the caller keeps, in place of words: C reads the word at the pc, asks
 * which access its instruction makes, makes it, and completes the step with what came of it. No
 * function is called back. A word that C can't fetch is RRS_FETCH_FAULT, which C reports itself. */
enum rrs_access_kind {
    RRS_NO_ACCESS = 0,
    RRS_LOAD = 1,
    RRS_STORE = 2
};

typedef struct rrs_access {
    rrs_fault fault;  /* The exception before any access, or RRS_OK. rrs_complete gives the same. */
    uint32_t kind;    /* One of enum rrs_access_kind. */
    uint32_t address; /* The address of the first byte, a multiple of the size. */
    uint32_t size;    /* 1, 2 or 4 bytes, and 0 where there is no access. */
    uint32_t value;   /* Of a store the register's value, whose `size` low bytes count; else 0. */
} rrs_access;

/* The access that `word` makes, which is the word at the pc. Nothing changes. */
rrs_access rrs_request(const rrs_hart *hart, uint32_t word);

/* Executes `word`, the word at the pc, and returns its exception, or kind RRS_OK. `granted` is 0
 * where the access is refused, which is RRS_LOAD_FAULT or RRS_STORE_FAULT, and any other number
 * where it was made.
 * `value` is what a load read, lowest byte first: its `size` low bytes count, and they are extended
 * here. Of a store, and where there is no access, `value` is not looked at; where there is none
 * `granted` isn't either. */
rrs_fault rrs_complete(rrs_hart *hart, uint32_t word, uint32_t granted, uint32_t value);

/* Does what rrs_complete does, and says in *retired what the step retired, under the number
 * `order`. mem_rdata is what was loaded, the bytes of the mask alone, not extended; an access that
 * is refused is none in the record. */
rrs_fault rrs_complete_rvfi(rrs_hart *hart, uint32_t word, uint32_t granted, uint32_t value,
                            uint64_t order, rrs_retired *retired);

/* What takes a step back: what the step wrote, as it was before. */
typedef struct rrs_change {
    uint32_t pc;      /* The pc before: the address of the instruction. */
    uint32_t last;    /* The register that was the last written one before, 1 to 31, or 0. */
    uint32_t rd;      /* The register that was written, 1 to 31, or 0 where none was. */
    uint32_t value;   /* What it was before, 0 where none was written. */
    uint32_t address; /* The address of the first byte that was stored, or 0. */
    uint32_t size;    /* How many bytes were stored: 1, 2 or 4, or 0 where none were. */
    uint32_t bytes;   /* What they were before, lowest byte first, or 0. */
} rrs_change;

/* Does what rrs_step does, and says in *change what takes the step back, also one that raised an
 * exception. */
rrs_fault rrs_step_noted(rrs_hart *hart, uint32_t *words, size_t count, uint32_t base,
                         rrs_change *change);

/* Takes a step back by its change: the register and the bytes that it wrote are what they were, and so
 * are the pc and `last`. After the steps since then were taken back, the latest first, the hart and
 * the words are what they were before the step. Every change is allowed: an rd past 31 is none, a
 * size that is not 0, 1 or 2 is 4, and bytes at a misaligned address or outside the words stay. */
void rrs_undo(rrs_hart *hart, uint32_t *words, size_t count, uint32_t base,
              const rrs_change *change);

/* What a hart has beside the 48 rows of the table: the bits of a profile. No other bit is looked
 * at. */
enum rrs_hart_layer {
    RRS_HART_A = 1,          /* Extension A: lr.w, sc.w and the AMOs. */
    RRS_HART_ZIFENCEI = 2,   /* fence.i, which does nothing: each fetch reads what was stored. */
    RRS_HART_MISALIGNED = 4, /* Loads and stores at misaligned addresses are carried out. */
    RRS_HART_C = 8,          /* Extension C: instructions of 16 bits, at even addresses. */
    RRS_HART_ZBA = 32,       /* Zba: sums of shifted numbers. */
    RRS_HART_ZBB = 64,       /* Zbb: operations on bits and bytes. */
    RRS_HART_ZBS = 128,      /* Zbs: operations on one bit. */
    RRS_HART_ZBC = 256,      /* Zbc: products without carries. */
    RRS_HART_ZBKB = 512,     /* Zbkb: bit manipulation for cryptography. */
    RRS_HART_ZICOND = 1024   /* Zicond: conditional zeros. */
};

/* The address that a hart has reserved by lr.w. {0} is none. */
typedef struct rrs_reservation {
    uint32_t reserved; /* 1 where an address is reserved, else 0. Any other number is as 0. */
    uint32_t address;  /* That address, in bytes, and 0 where none is reserved. */
} rrs_reservation;

/* Do what rrs_step and rrs_run do, for a hart that has the layers of `profile`, the sum of some
 * bits of enum rrs_hart_layer. With 0 it is the hart of rrs_step. An instruction of a layer that it
 * does not have is RRS_ILLEGAL_INSTRUCTION, whose `word` is the 16 bits of a short one.
 * - *reservation goes from one call to the next. lr.w reserves its address. sc.w stores and gives 0
 *   where its address is reserved, and else stores nothing and gives 1. Each sc.w takes the
 *   reservation away, also one that raises an exception. Nothing else changes it.
 * - The address of lr.w, sc.w and an AMO is a multiple of 4, or it is RRS_MISALIGNED. An AMO that
 *   is refused is RRS_STORE_FAULT.
 * - With RRS_HART_MISALIGNED a load or a store whose bytes are among the words is carried out
 *   wherever they lie. One that is refused is RRS_LOAD_FAULT or RRS_STORE_FAULT, and stores none.
 * - With RRS_HART_C the pc is a multiple of 2, and an odd one is RRS_MISALIGNED. A jump links the
 *   address behind its own bytes.
 * rrs_cause knows no layer: of RRS_MISALIGNED it gives 0 for lr.w, sc.w, an AMO and a short one.
 * A run keeps no decoded words. */
rrs_fault rrs_step_hart(rrs_hart *hart, uint32_t *words, size_t count, uint32_t base,
                        uint32_t profile, rrs_reservation *reservation);
rrs_end rrs_run_hart(rrs_hart *hart, uint32_t *words, size_t count, uint32_t base,
                     uint32_t profile, rrs_reservation *reservation, uint64_t limit);

/* Does what rrs_step_hart does, and says in *retired what it retired, under the number `order`, for
 * rrs_compare. A short instruction has its 16 bits as `insn`, and the registers of the instruction
 * that it stands for. An AMO is one record: it has both masks, the word that it read and the one
 * that it stored. A misaligned load or store is one access of all its bytes. */
rrs_fault rrs_step_hart_rvfi(rrs_hart *hart, uint32_t *words, size_t count, uint32_t base,
                             uint32_t profile, rrs_reservation *reservation, uint64_t order,
                             rrs_retired *retired);

/* What a hart with machine mode has beside RV32IM: the bits of the profile in rrs_csrs. No other
 * bit is looked at. */
enum rrs_machine_layer {
    RRS_MACHINE_A = 1,          /* Extension A. */
    RRS_MACHINE_USER_MODE = 2,  /* User mode. */
    RRS_MACHINE_C = 4,          /* Extension C: instructions of 16 bits, at even addresses. */
    RRS_MACHINE_MISALIGNED = 8, /* Loads and stores at misaligned addresses are carried out. */
    RRS_MACHINE_NO_FENCE_I = 16, /* It has no fence.i. */
    RRS_MACHINE_ZBA = 32,        /* Zba to Zicond, as in enum rrs_hart_layer. */
    RRS_MACHINE_ZBB = 64,
    RRS_MACHINE_ZBS = 128,
    RRS_MACHINE_ZBC = 256,
    RRS_MACHINE_ZBKB = 512,
    RRS_MACHINE_ZICOND = 1024
};

/* The CSRs of a hart that has machine mode, with more by its profile: RV32IM with Zicsr, Zifencei and
 * Zicntr, by the privileged specification 1.12. docs/MACHINE.md of the kit has the table of the CSRs.
 * {0}, which rrs_csrs_reset gives too, is a hart with machine mode alone at reset; one with more has
 * its bits in profile. A bit that is not written has no meaning here: rrs_csr_read gives it as it
 * always is. */
typedef struct rrs_csrs {
    uint32_t mstatus;       /* MIE is bit 3 and MPIE bit 7. With user mode MPP is bits 12 and 11,
                             * MPRV bit 17 and TW bit 21; without it MPP always reads 3. */
    uint32_t mie;           /* MSIE is bit 3, MTIE bit 7 and MEIE bit 11. */
    uint32_t mtvec;         /* The base of the handlers, and in bit 0 whether it is vectored. */
    uint32_t mscratch;      /* A word for the handler. */
    uint32_t mepc;          /* The pc at the trap. */
    uint32_t mcause;        /* Bit 31 for an interrupt, and the code. */
    uint32_t mtval;         /* An address, a word, or 0. */
    uint32_t mcountinhibit; /* CY, bit 0, stops mcycle, and IR, bit 2, stops minstret. */
    uint64_t mcycle;        /* The steps, traps among them. */
    uint64_t minstret;      /* The instructions that retired. */
    uint32_t trapped;       /* 1 where the latest step took a trap, else 0. No CSR: the next
                             * instruction is the first of a handler. Any other number is as 0. */
    uint32_t profile;       /* What the hart has, no CSR: the sum of some bits of enum
                             * rrs_machine_layer. No call changes it. */
    uint32_t user;          /* 1 in user mode, any other number in machine mode. No CSR. Without user
                             * mode it is machine mode, whatever stands here. */
    uint32_t mcounteren;    /* CY, TM and IR, bits 0 to 2, show the counters to user mode. */
    uint32_t reserved;      /* 1 where an address is reserved, any other number where none is. */
    uint32_t reservation;   /* The address that the last lr.w reserved. */
} rrs_csrs;

/* Makes the CSRs those of a hart with machine mode alone, at reset. */
void rrs_csrs_reset(rrs_csrs *csrs);

/* How a step of a hart with machine mode ended. */
enum rrs_outcome_kind {
    RRS_RETIRED = 0,    /* An instruction retired. */
    RRS_WAITING = 1,    /* A wfi retired, and no interrupt is pending that mie enables. */
    RRS_RAISED = 2,     /* An instruction raised an exception, and the hart is at the handler. */
    RRS_INTERRUPTED = 3 /* An interrupt was taken, and the hart is at the handler. */
};

typedef struct rrs_outcome {
    uint32_t kind;  /* One of enum rrs_outcome_kind. */
    uint32_t cause; /* What mcause has after RRS_RAISED and RRS_INTERRUPTED, else 0. */
    uint32_t value; /* What mtval has after RRS_RAISED, else 0. */
} rrs_outcome;

/* What a step of a hart with machine mode retired: the record of RVFI, with its valid, intr and mode
 * and the CSR that was read and written (rvfi_csr_*). In `retired` trap is 1 at an exception, and
 * pc_wdata is the handler after a trap. Where an interrupt was taken there is no word, register,
 * access or CSR. */
typedef struct rrs_machine_retired {
    rrs_retired retired; /* As rrs_step_rvfi has it. */
    uint32_t valid;      /* 1 where an instruction was executed, 0 where an interrupt was taken. */
    uint32_t intr;       /* 1 where it is the first instruction of a handler, else 0. */
    uint32_t mode;       /* The mode before the step: 3 is machine mode, and 0 user mode. */
    uint32_t trapped;    /* 1 where the step took a trap, an exception or an interrupt, else 0. */
    uint32_t cause;      /* What mcause has after the trap, or 0. */
    uint32_t csr_addr;   /* The number of the CSR that an instruction read or wrote, or 0. */
    uint32_t csr_rmask;  /* The bits that were read: all, or none. */
    uint32_t csr_wmask;  /* The bits that were written: those that a write changes, or none. */
    uint32_t csr_rdata;  /* The value that was read, or 0. */
    uint32_t csr_wdata;  /* The value of the bits that were written, or 0. */
} rrs_machine_retired;

/* Makes a step of a hart with machine mode, and says in *retired what it retired, under the number
 * `order`. An interrupt is taken where its bit is set in `mip` (MSIP is bit 3, MTIP bit 7, MEIP bit
 * 11; no other is looked at), mie enables it, and MIE is 1 or the hart is in user mode. Else the
 * instruction at the pc is executed, one on a CSR, mret, wfi and fence.i among them, and where it raises an exception the
 * hart goes to the handler. A jump to an address that is no multiple of 4 raises its exception
 * itself. `time` is what the CSRs time and timeh read. A load or a store past the words is an access
 * fault. */
rrs_outcome rrs_machine_step(rrs_hart *hart, rrs_csrs *csrs, uint32_t *words, size_t count,
                             uint32_t base, uint32_t mip, uint64_t time, uint64_t order,
                             rrs_machine_retired *retired);

/* A CSR by its number. */
typedef struct rrs_csr {
    uint32_t found; /* 1 where there is one with this number, else 0. */
    uint32_t value; /* Its value, or 0. */
} rrs_csr;

/* The value of the CSR with this number, as an instruction in machine mode reads it. */
rrs_csr rrs_csr_read(const rrs_csrs *csrs, uint32_t number, uint32_t mip, uint64_t time);

/* Writes the CSR with this number as an instruction in machine mode does: the bits that a write does
 * not change stay. Returns 1, or 0 where there is no such CSR or it is read only, and then nothing changes. */
uint32_t rrs_csr_write(rrs_csrs *csrs, uint32_t number, uint32_t value);

/* What the UART of a board keeps, a 16550. Of each register the lowest byte counts. A flag is 1, and
 * any other number is as 0. */
typedef struct rrs_uart {
    uint32_t holds;            /* 1 where a byte was received that the program has not read. */
    uint32_t received;         /* That byte. */
    uint32_t interrupt_enable; /* IER. */
    uint32_t has_fifos;        /* 1 where the FIFOs are enabled, by bit 0 of FCR. */
    uint32_t line_control;     /* LCR. */
    uint32_t modem_control;    /* MCR. */
    uint32_t scratch;          /* SCR. */
    uint32_t divisor_low;      /* DLL. */
    uint32_t divisor_high;     /* DLM. */
    uint32_t is_emptied;       /* 1 where THR became empty, and no look at IIR told so since. */
} rrs_uart;

/* A board: a hart with machine mode, and the devices of QEMU's `virt` at its addresses. RAM is words
 * from 0x80000000 on, a UART is at 0x10000000, a CLINT at 0x2000000 (msip, and mtimecmp at 0x2004000
 * and mtime at 0x200bff8), and a finisher at 0x100000. Whatever its bits are, it is a board. */
typedef struct rrs_board {
    rrs_hart hart;
    rrs_csrs csrs;
    uint64_t alarm;    /* mtimecmp: from this time on a timer interrupt is pending. */
    uint64_t time;     /* mtime: one more with each instruction that retires. */
    uint32_t software; /* msip: bit 0 says that a software interrupt is pending. */
    rrs_uart uart;
} rrs_board;

/* Makes a board one at reset, whose hart has the extensions of a profile, as in rrs_csrs, and starts
 * at `pc`. All registers are 0, and there is no alarm. */
void rrs_board_reset(rrs_board *board, uint32_t profile, uint32_t pc);

/* What the last step of a run has for the caller. */
enum rrs_board_event {
    RRS_BOARD_LIMIT = 0,        /* Nothing: the limit was reached. */
    RRS_BOARD_TRANSMITTED = 1,  /* The program transmitted a byte, the value. */
    RRS_BOARD_LOOKED = 2,       /* It looked at LSR or IIR, and the UART held no byte. */
    RRS_BOARD_FINISHED = 3,     /* It ended by the finisher. The value is its status. */
    RRS_BOARD_WAITS = 4,        /* A wfi waits for the alarm, and the time went forward to it. */
    RRS_BOARD_NOTHING_WAKES = 5, /* A wfi waits, and no alarm can end that. */
    RRS_BOARD_SPINS = 6,        /* The hart is dead: it jumps to itself, and takes no interrupt. */
    RRS_BOARD_LACKS_HANDLER = 7, /* It is dead: a trap went to a handler that can't be fetched. */
    RRS_BOARD_RESTARTS = 8      /* The program asked that the board starts anew. */
};

typedef struct rrs_board_end {
    uint64_t steps; /* How many steps were made: instructions that retired, exceptions, interrupts. */
    uint32_t event; /* One of enum rrs_board_event. */
    uint32_t value; /* The byte or the status, else 0. */
} rrs_board_end;

/* Makes steps of a board whose RAM is `count` words, until `limit` were made or one has something for
 * the caller. A further call goes on from there, after each event. */
rrs_board_end rrs_board_run(rrs_board *board, uint32_t *words, size_t count, uint64_t limit);

/* Hands the UART a byte that arrives, the lowest of `byte`. Returns 1, or 0 where it holds one that
 * the program has not read, and then nothing changes. A byte may arrive after any run. */
uint32_t rrs_board_receive(rrs_board *board, uint32_t byte);

/* 1 where the UART asks for received data, by IER, and holds none, else 0. */
uint32_t rrs_board_waits_for_input(const rrs_board *board);

/* An executable in the ELF format: the bytes of its file, which each function reads anew. It is
 * accepted exactly where it is an executable for RV32IM that is linked to fixed addresses, and else
 * refused for the first of these that holds. The header is checked first, for 1 to 15, then one
 * segment after another, each for 16 to 20, and then the entry, for 21 and 22; each of the three in
 * this order. A segment is compared with those before it. An executable with compressed code, by
 * e_flags, is accepted where the profile of the hart has extension C. rrs_elf_segment and
 * rrs_elf_function_at read one with or without such code. */
enum rrs_elf_refusal {
    RRS_ELF_OK = 0,
    RRS_ELF_NOT_ELF = 1,               /* It does not begin with 0x7f and "ELF". */
    RRS_ELF_HEADER_CUT_SHORT = 2,      /* It ends within the ELF header. */
    RRS_ELF_CLASS = 3,                 /* e_ident[EI_CLASS] is this number, and not 1. */
    RRS_ELF_BYTE_ORDER = 4,            /* e_ident[EI_DATA] is this number, and not 1. */
    RRS_ELF_IDENT_VERSION = 5,         /* e_ident[EI_VERSION] is this number, and not 1. */
    RRS_ELF_POSITION_INDEPENDENT = 6,  /* e_type is 3. */
    RRS_ELF_NOT_EXECUTABLE = 7,        /* e_type is this number, and not 2. */
    RRS_ELF_MACHINE = 8,               /* e_machine is this number, and not 243. */
    RRS_ELF_VERSION = 9,               /* e_version is this number, and not 1. */
    RRS_ELF_COMPRESSED_CODE = 10,      /* e_flags has RVC, and the hart has no extension C. */
    RRS_ELF_FLOATING_POINT = 11,       /* e_flags has a floating-point ABI. */
    RRS_ELF_EMBEDDED = 12,             /* e_flags has RVE. */
    RRS_ELF_PROGRAM_HEADER_SIZE = 13,  /* e_phentsize is this number, and not 32. */
    RRS_ELF_TOO_MANY_PROGRAM_HEADERS = 14, /* e_phnum is above 256. */
    RRS_ELF_PROGRAM_HEADERS_CUT_SHORT = 15, /* It ends within the program headers. */
    RRS_ELF_INTERPRETER = 16,          /* The segment of this number names a dynamic linker. */
    RRS_ELF_SEGMENT_CUT_SHORT = 17,    /* It ends within the segment of this number. */
    RRS_ELF_SEGMENT_SIZES = 18,        /* p_filesz of this segment is above p_memsz. */
    RRS_ELF_SEGMENT_PAST_LAST_ADDRESS = 19, /* This segment ends past the last address. */
    RRS_ELF_SEGMENTS_OVERLAP = 20,     /* Two segments, of these numbers, share an address. */
    RRS_ELF_ENTRY_MISALIGNED = 21,     /* e_entry is this number, no multiple of 4, or, of a hart
                                        * with extension C, odd. */
    RRS_ELF_ENTRY_OUTSIDE = 22,        /* e_entry is this number, in no segment. */
    RRS_ELF_NOT_IN_WORDS = 31          /* Of a load: this address is not in the words. */
};

typedef struct rrs_elf {
    uint32_t refusal;  /* One of enum rrs_elf_refusal: RRS_ELF_OK for an executable. */
    uint32_t number;   /* The number that the refusal tells, or 0. */
    uint32_t other;    /* The other number that the refusal tells, or 0. */
    uint32_t entry;    /* The address of the first instruction, or 0 where it is refused. */
    uint32_t segments; /* How many program headers there are, or 0 where it is refused. */
} rrs_elf;

typedef struct rrs_segment {
    uint32_t loaded;      /* 1 for a segment that is loaded. Else all fields are 0. */
    uint32_t address;     /* The address of its first byte. */
    uint32_t memory_size; /* How many bytes it has in memory. */
    uint32_t offset;      /* Where its bytes begin in the file. */
    uint32_t file_size;   /* How many bytes it has in the file. Behind them are zeros. */
    uint32_t flags;       /* What may be done there: 4 to read, 2 to write, 1 to execute. */
} rrs_segment;

typedef struct rrs_loaded {
    uint32_t refusal; /* One of enum rrs_elf_refusal: RRS_ELF_OK where all is loaded. */
    uint32_t address; /* Of RRS_ELF_NOT_IN_WORDS the address, and else 0. */
} rrs_loaded;

enum rrs_location_kind {
    RRS_NOWHERE = 0,     /* No symbol tells where the address lies. */
    RRS_IN_FUNCTION = 1, /* The address is one of a function's. */
    RRS_BEHIND = 2       /* It is behind this function or label, the nearest before it. */
};

typedef struct rrs_location {
    uint32_t found;    /* One of enum rrs_location_kind. */
    uint32_t distance; /* How far the address is behind the function's or the label's. */
    size_t length;     /* How many bytes its name has. */
} rrs_location;

/* What the `size` bytes at `file` are, for a hart without extension C, as that of rrs_step. */
rrs_elf rrs_elf_parse(const uint8_t *file, size_t size);

/* The same for the hart of rrs_step_hart that has this profile: with RRS_HART_C a file is accepted
 * that has compressed code. No other bit is looked at. */
rrs_elf rrs_elf_parse_hart(const uint8_t *file, size_t size, uint32_t profile);

/* The segment of this number, if the file is an executable that has it and it is loaded. */
rrs_segment rrs_elf_segment(const uint8_t *file, size_t size, uint32_t index);

/* Loads an executable into the words: of each segment, in their order, at its virtual address the
 * bytes of the file and then zeros. All other bytes stay. A file that is refused changes nothing. At
 * an address that is not in the words the load ends, and the bytes before it are loaded. */
rrs_loaded rrs_elf_load(const uint8_t *file, size_t size, uint32_t *words, size_t count,
                        uint32_t base);

/* The same for the hart of rrs_step_hart that has this profile, whose files are those that
 * rrs_elf_parse_hart accepts. */
rrs_loaded rrs_elf_load_hart(const uint8_t *file, size_t size, uint32_t *words, size_t count,
                             uint32_t base, uint32_t profile);

/* Loads an executable into the words, which are the RAM of a board, as rrs_elf_load does, but each
 * segment at its physical address, and puts the hart at the entry. That the segments lie apart, and
 * before the last address, is asked of their physical addresses. It may have compressed code where
 * the profile of the board has RRS_MACHINE_C. Where not all is loaded the board stays as it is. */
rrs_loaded rrs_board_load(rrs_board *board, const uint8_t *file, size_t size, uint32_t *words,
                          size_t count);

/* The function that an address lies in, or else the nearest function or label before it in its
 * segment: of several at one address the one with the most bytes, and of those the first. Writes its
 * name, and a 0 after it, where the `room` bytes at `text` have room for both, and else nothing. The
 * name may have any bytes but 0. */
rrs_location rrs_elf_function_at(const uint8_t *file, size_t size, uint32_t address, char *text,
                                 size_t room);

/* Memory that is lent for a call. The bytes from `start` on are the callee's while it runs: nobody
 * else reads or writes them, and no other argument points there. `start` is a multiple of 16. Of
 * `size` a rest below 16 is not used, and where it is below 16 `start` may be NULL. */
typedef struct rrs_room {
    uint8_t *start;
    size_t size; /* In bytes. */
} rrs_room;

/* How rrs_assemble ended. */
enum rrs_assembly_end {
    RRS_ASSEMBLED = 0,   /* The source was assembled. */
    RRS_MISTAKES = 1,    /* It has mistakes. */
    RRS_SMALL_ROOM = 2,  /* The room is too small. */
    RRS_SMALL_BUFFER = 3 /* A buffer is too small: that of a count which is above its length. */
};

/* A statement that has an address: an instruction, or a directive that lays out bytes. Of a macro
 * or a repetition each statement in it is one, at its line in the body. */
typedef struct rrs_statement {
    size_t line;      /* The line of the source, counted from 1. */
    uint32_t address; /* The address of its first byte. */
    uint32_t size;    /* How many bytes it has, which may be 0. */
} rrs_statement;

/* A label, a local one too, whose name is its digit. */
typedef struct rrs_symbol {
    size_t line;      /* The line of the source, counted from 1. */
    size_t name;      /* Where its name begins in the texts. */
    size_t length;    /* How many bytes its name has. No 0 ends it. */
    uint32_t address; /* The address of what stands behind it. Behind the last address that is 0. */
} rrs_symbol;

/* A mistake. */
typedef struct rrs_mistake {
    size_t line;   /* The line of the source, counted from 1. */
    size_t column; /* The byte of the line, counted from 1, or one past its last. */
    size_t text;   /* Where what is told of it begins in the texts: what is wrong there, what is
                    * wanted, and what was probably meant. */
    size_t length; /* How many bytes that has. No 0 ends it. */
} rrs_mistake;

/* What rrs_assemble tells: how it ended, and how many of each there are. */
typedef struct rrs_assembled {
    uint32_t end;      /* One of enum rrs_assembly_end. */
    uint32_t entry;    /* Where the program begins: at _start, else at main, else at the first byte;
                        * the `start` where there is no byte, and 0 where there is no program. */
    size_t bytes;      /* How many bytes there are, from the address `start` on. */
    size_t statements; /* How many statements. */
    size_t symbols;    /* How many labels. */
    size_t mistakes;   /* How many mistakes, at most 20. */
    size_t texts;      /* How many bytes the labels' names have, or the texts of the mistakes. */
    size_t room;       /* Of RRS_SMALL_ROOM how large a room to lend the next time, at least twice
                        * as large, less than 512 MiB, and else 0. */
} rrs_assembled;

/* Assembles the `source_length` bytes at `source`, as `rrs as` does: RV32I with multiply and
 * divide, with sections, pseudo-instructions, directives, macros, conditions and repetitions.
 * docs/ASSEMBLY.md of the kit has the syntax. The first section lies at the address `start`, and
 * each other behind the one before it.
 *
 * It allocates in `room` alone, and after the call *room is what it was. It writes to the front of
 * the buffers, each of which has room for so many as its length says:
 * - RRS_ASSEMBLED: the bytes from `start` on, with zeros between sections, the statements and the
 *   labels, section by section in the order of their addresses, and in `texts` the labels' names.
 * - RRS_MISTAKES: the mistakes, and in `texts` what is told of each. There are 20 at most, and none
 *   that only follows from another.
 * - RRS_SMALL_ROOM: nothing. All counts are 0. A source for which a room of 256 MiB or more is too
 *   small has a mistake instead, at line 1. What is freed in a room is not used again.
 * - RRS_SMALL_BUFFER: nothing. The counts say how many of each there are.
 * What is behind the counts stays as it is. Texts lie one behind the other. */
rrs_assembled rrs_assemble(const uint8_t *source, size_t source_length, uint32_t start,
                           rrs_room *room, uint8_t *bytes, size_t bytes_length,
                           rrs_statement *statements, size_t statements_length,
                           rrs_symbol *symbols, size_t symbols_length, rrs_mistake *mistakes,
                           size_t mistakes_length, uint8_t *texts, size_t texts_length);

/* The layout that the library has been built with. */
#if defined(__cplusplus) && __cplusplus >= 201103L
#define RRS_ASSERT(name, condition) static_assert(condition, #name)
#elif defined(__STDC_VERSION__) && __STDC_VERSION__ >= 201112L
#define RRS_ASSERT(name, condition) _Static_assert(condition, #name)
#else
#define RRS_ASSERT(name, condition) typedef char rrs_assert_##name[(condition) ? 1 : -1]
#endif

RRS_ASSERT(size_of_hart, sizeof(rrs_hart) == 136);
RRS_ASSERT(hart_x, offsetof(rrs_hart, x) == 0);
RRS_ASSERT(hart_pc, offsetof(rrs_hart, pc) == 128);
RRS_ASSERT(hart_last, offsetof(rrs_hart, last) == 132);
RRS_ASSERT(size_of_fault, sizeof(rrs_fault) == 12);
RRS_ASSERT(fault_kind, offsetof(rrs_fault, kind) == 0);
RRS_ASSERT(fault_address, offsetof(rrs_fault, address) == 4);
RRS_ASSERT(fault_word, offsetof(rrs_fault, word) == 8);
RRS_ASSERT(size_of_end, sizeof(rrs_end) == 24);
RRS_ASSERT(end_steps, offsetof(rrs_end, steps) == 0);
RRS_ASSERT(end_fault, offsetof(rrs_end, fault) == 8);
RRS_ASSERT(end_at_stop, offsetof(rrs_end, at_stop) == 20);
RRS_ASSERT(size_of_cache, sizeof(rrs_cache) == 20480);
RRS_ASSERT(cache_contents, offsetof(rrs_cache, contents) == 0);
RRS_ASSERT(size_of_retired, sizeof(rrs_retired) == 72);
RRS_ASSERT(retired_order, offsetof(rrs_retired, order) == 0);
RRS_ASSERT(retired_insn, offsetof(rrs_retired, insn) == 8);
RRS_ASSERT(retired_fetched, offsetof(rrs_retired, fetched) == 12);
RRS_ASSERT(retired_trap, offsetof(rrs_retired, trap) == 16);
RRS_ASSERT(retired_pc_rdata, offsetof(rrs_retired, pc_rdata) == 20);
RRS_ASSERT(retired_pc_wdata, offsetof(rrs_retired, pc_wdata) == 24);
RRS_ASSERT(retired_rs1_addr, offsetof(rrs_retired, rs1_addr) == 28);
RRS_ASSERT(retired_rs1_rdata, offsetof(rrs_retired, rs1_rdata) == 32);
RRS_ASSERT(retired_rs2_addr, offsetof(rrs_retired, rs2_addr) == 36);
RRS_ASSERT(retired_rs2_rdata, offsetof(rrs_retired, rs2_rdata) == 40);
RRS_ASSERT(retired_rd_addr, offsetof(rrs_retired, rd_addr) == 44);
RRS_ASSERT(retired_rd_wdata, offsetof(rrs_retired, rd_wdata) == 48);
RRS_ASSERT(retired_mem_addr, offsetof(rrs_retired, mem_addr) == 52);
RRS_ASSERT(retired_mem_rmask, offsetof(rrs_retired, mem_rmask) == 56);
RRS_ASSERT(retired_mem_wmask, offsetof(rrs_retired, mem_wmask) == 60);
RRS_ASSERT(retired_mem_rdata, offsetof(rrs_retired, mem_rdata) == 64);
RRS_ASSERT(retired_mem_wdata, offsetof(rrs_retired, mem_wdata) == 68);
RRS_ASSERT(size_of_difference, sizeof(rrs_difference) == 24);
RRS_ASSERT(difference_model, offsetof(rrs_difference, model) == 0);
RRS_ASSERT(difference_core, offsetof(rrs_difference, core) == 8);
RRS_ASSERT(difference_field, offsetof(rrs_difference, field) == 16);
RRS_ASSERT(size_of_instruction, sizeof(rrs_instruction) == 24);
RRS_ASSERT(instruction_row, offsetof(rrs_instruction, row) == 0);
RRS_ASSERT(instruction_rd, offsetof(rrs_instruction, rd) == 4);
RRS_ASSERT(instruction_rs1, offsetof(rrs_instruction, rs1) == 8);
RRS_ASSERT(instruction_rs2, offsetof(rrs_instruction, rs2) == 12);
RRS_ASSERT(instruction_shamt, offsetof(rrs_instruction, shamt) == 16);
RRS_ASSERT(instruction_imm, offsetof(rrs_instruction, imm) == 20);
RRS_ASSERT(size_of_access, sizeof(rrs_access) == 28);
RRS_ASSERT(access_fault, offsetof(rrs_access, fault) == 0);
RRS_ASSERT(access_kind, offsetof(rrs_access, kind) == 12);
RRS_ASSERT(access_address, offsetof(rrs_access, address) == 16);
RRS_ASSERT(access_size, offsetof(rrs_access, size) == 20);
RRS_ASSERT(access_value, offsetof(rrs_access, value) == 24);
RRS_ASSERT(size_of_change, sizeof(rrs_change) == 28);
RRS_ASSERT(change_pc, offsetof(rrs_change, pc) == 0);
RRS_ASSERT(change_last, offsetof(rrs_change, last) == 4);
RRS_ASSERT(change_rd, offsetof(rrs_change, rd) == 8);
RRS_ASSERT(change_value, offsetof(rrs_change, value) == 12);
RRS_ASSERT(change_address, offsetof(rrs_change, address) == 16);
RRS_ASSERT(change_size, offsetof(rrs_change, size) == 20);
RRS_ASSERT(change_bytes, offsetof(rrs_change, bytes) == 24);
RRS_ASSERT(size_of_reservation, sizeof(rrs_reservation) == 8);
RRS_ASSERT(reservation_reserved, offsetof(rrs_reservation, reserved) == 0);
RRS_ASSERT(reservation_address, offsetof(rrs_reservation, address) == 4);
RRS_ASSERT(size_of_csrs, sizeof(rrs_csrs) == 72);
RRS_ASSERT(csrs_mstatus, offsetof(rrs_csrs, mstatus) == 0);
RRS_ASSERT(csrs_mie, offsetof(rrs_csrs, mie) == 4);
RRS_ASSERT(csrs_mtvec, offsetof(rrs_csrs, mtvec) == 8);
RRS_ASSERT(csrs_mscratch, offsetof(rrs_csrs, mscratch) == 12);
RRS_ASSERT(csrs_mepc, offsetof(rrs_csrs, mepc) == 16);
RRS_ASSERT(csrs_mcause, offsetof(rrs_csrs, mcause) == 20);
RRS_ASSERT(csrs_mtval, offsetof(rrs_csrs, mtval) == 24);
RRS_ASSERT(csrs_mcountinhibit, offsetof(rrs_csrs, mcountinhibit) == 28);
RRS_ASSERT(csrs_mcycle, offsetof(rrs_csrs, mcycle) == 32);
RRS_ASSERT(csrs_minstret, offsetof(rrs_csrs, minstret) == 40);
RRS_ASSERT(csrs_trapped, offsetof(rrs_csrs, trapped) == 48);
RRS_ASSERT(csrs_profile, offsetof(rrs_csrs, profile) == 52);
RRS_ASSERT(csrs_user, offsetof(rrs_csrs, user) == 56);
RRS_ASSERT(csrs_mcounteren, offsetof(rrs_csrs, mcounteren) == 60);
RRS_ASSERT(csrs_reserved, offsetof(rrs_csrs, reserved) == 64);
RRS_ASSERT(csrs_reservation, offsetof(rrs_csrs, reservation) == 68);
RRS_ASSERT(size_of_outcome, sizeof(rrs_outcome) == 12);
RRS_ASSERT(outcome_kind, offsetof(rrs_outcome, kind) == 0);
RRS_ASSERT(outcome_cause, offsetof(rrs_outcome, cause) == 4);
RRS_ASSERT(outcome_value, offsetof(rrs_outcome, value) == 8);
RRS_ASSERT(size_of_machine_retired, sizeof(rrs_machine_retired) == 112);
RRS_ASSERT(machine_retired_retired, offsetof(rrs_machine_retired, retired) == 0);
RRS_ASSERT(machine_retired_valid, offsetof(rrs_machine_retired, valid) == 72);
RRS_ASSERT(machine_retired_intr, offsetof(rrs_machine_retired, intr) == 76);
RRS_ASSERT(machine_retired_mode, offsetof(rrs_machine_retired, mode) == 80);
RRS_ASSERT(machine_retired_trapped, offsetof(rrs_machine_retired, trapped) == 84);
RRS_ASSERT(machine_retired_cause, offsetof(rrs_machine_retired, cause) == 88);
RRS_ASSERT(machine_retired_csr_addr, offsetof(rrs_machine_retired, csr_addr) == 92);
RRS_ASSERT(machine_retired_csr_rmask, offsetof(rrs_machine_retired, csr_rmask) == 96);
RRS_ASSERT(machine_retired_csr_wmask, offsetof(rrs_machine_retired, csr_wmask) == 100);
RRS_ASSERT(machine_retired_csr_rdata, offsetof(rrs_machine_retired, csr_rdata) == 104);
RRS_ASSERT(machine_retired_csr_wdata, offsetof(rrs_machine_retired, csr_wdata) == 108);
RRS_ASSERT(size_of_csr, sizeof(rrs_csr) == 8);
RRS_ASSERT(csr_found, offsetof(rrs_csr, found) == 0);
RRS_ASSERT(csr_value, offsetof(rrs_csr, value) == 4);
RRS_ASSERT(size_of_uart, sizeof(rrs_uart) == 40);
RRS_ASSERT(uart_holds, offsetof(rrs_uart, holds) == 0);
RRS_ASSERT(uart_received, offsetof(rrs_uart, received) == 4);
RRS_ASSERT(uart_interrupt_enable, offsetof(rrs_uart, interrupt_enable) == 8);
RRS_ASSERT(uart_has_fifos, offsetof(rrs_uart, has_fifos) == 12);
RRS_ASSERT(uart_line_control, offsetof(rrs_uart, line_control) == 16);
RRS_ASSERT(uart_modem_control, offsetof(rrs_uart, modem_control) == 20);
RRS_ASSERT(uart_scratch, offsetof(rrs_uart, scratch) == 24);
RRS_ASSERT(uart_divisor_low, offsetof(rrs_uart, divisor_low) == 28);
RRS_ASSERT(uart_divisor_high, offsetof(rrs_uart, divisor_high) == 32);
RRS_ASSERT(uart_is_emptied, offsetof(rrs_uart, is_emptied) == 36);
RRS_ASSERT(size_of_board, sizeof(rrs_board) == 272);
RRS_ASSERT(board_hart, offsetof(rrs_board, hart) == 0);
RRS_ASSERT(board_csrs, offsetof(rrs_board, csrs) == 136);
RRS_ASSERT(board_alarm, offsetof(rrs_board, alarm) == 208);
RRS_ASSERT(board_time, offsetof(rrs_board, time) == 216);
RRS_ASSERT(board_software, offsetof(rrs_board, software) == 224);
RRS_ASSERT(board_uart, offsetof(rrs_board, uart) == 228);
RRS_ASSERT(size_of_board_end, sizeof(rrs_board_end) == 16);
RRS_ASSERT(board_end_steps, offsetof(rrs_board_end, steps) == 0);
RRS_ASSERT(board_end_event, offsetof(rrs_board_end, event) == 8);
RRS_ASSERT(board_end_value, offsetof(rrs_board_end, value) == 12);
RRS_ASSERT(size_of_elf, sizeof(rrs_elf) == 20);
RRS_ASSERT(elf_refusal, offsetof(rrs_elf, refusal) == 0);
RRS_ASSERT(elf_number, offsetof(rrs_elf, number) == 4);
RRS_ASSERT(elf_other, offsetof(rrs_elf, other) == 8);
RRS_ASSERT(elf_entry, offsetof(rrs_elf, entry) == 12);
RRS_ASSERT(elf_segments, offsetof(rrs_elf, segments) == 16);
RRS_ASSERT(size_of_segment, sizeof(rrs_segment) == 24);
RRS_ASSERT(segment_loaded, offsetof(rrs_segment, loaded) == 0);
RRS_ASSERT(segment_address, offsetof(rrs_segment, address) == 4);
RRS_ASSERT(segment_memory_size, offsetof(rrs_segment, memory_size) == 8);
RRS_ASSERT(segment_offset, offsetof(rrs_segment, offset) == 12);
RRS_ASSERT(segment_file_size, offsetof(rrs_segment, file_size) == 16);
RRS_ASSERT(segment_flags, offsetof(rrs_segment, flags) == 20);
RRS_ASSERT(size_of_loaded, sizeof(rrs_loaded) == 8);
RRS_ASSERT(loaded_refusal, offsetof(rrs_loaded, refusal) == 0);
RRS_ASSERT(loaded_address, offsetof(rrs_loaded, address) == 4);
RRS_ASSERT(size_of_location, sizeof(rrs_location) == 16);
RRS_ASSERT(location_found, offsetof(rrs_location, found) == 0);
RRS_ASSERT(location_distance, offsetof(rrs_location, distance) == 4);
RRS_ASSERT(location_length, offsetof(rrs_location, length) == 8);
RRS_ASSERT(size_of_room, sizeof(rrs_room) == 16);
RRS_ASSERT(room_start, offsetof(rrs_room, start) == 0);
RRS_ASSERT(room_size, offsetof(rrs_room, size) == 8);
RRS_ASSERT(size_of_statement, sizeof(rrs_statement) == 16);
RRS_ASSERT(statement_line, offsetof(rrs_statement, line) == 0);
RRS_ASSERT(statement_address, offsetof(rrs_statement, address) == 8);
RRS_ASSERT(statement_size, offsetof(rrs_statement, size) == 12);
RRS_ASSERT(size_of_symbol, sizeof(rrs_symbol) == 32);
RRS_ASSERT(symbol_line, offsetof(rrs_symbol, line) == 0);
RRS_ASSERT(symbol_name, offsetof(rrs_symbol, name) == 8);
RRS_ASSERT(symbol_length, offsetof(rrs_symbol, length) == 16);
RRS_ASSERT(symbol_address, offsetof(rrs_symbol, address) == 24);
RRS_ASSERT(size_of_mistake, sizeof(rrs_mistake) == 32);
RRS_ASSERT(mistake_line, offsetof(rrs_mistake, line) == 0);
RRS_ASSERT(mistake_column, offsetof(rrs_mistake, column) == 8);
RRS_ASSERT(mistake_text, offsetof(rrs_mistake, text) == 16);
RRS_ASSERT(mistake_length, offsetof(rrs_mistake, length) == 24);
RRS_ASSERT(size_of_assembled, sizeof(rrs_assembled) == 56);
RRS_ASSERT(assembled_end, offsetof(rrs_assembled, end) == 0);
RRS_ASSERT(assembled_entry, offsetof(rrs_assembled, entry) == 4);
RRS_ASSERT(assembled_bytes, offsetof(rrs_assembled, bytes) == 8);
RRS_ASSERT(assembled_statements, offsetof(rrs_assembled, statements) == 16);
RRS_ASSERT(assembled_symbols, offsetof(rrs_assembled, symbols) == 24);
RRS_ASSERT(assembled_mistakes, offsetof(rrs_assembled, mistakes) == 32);
RRS_ASSERT(assembled_texts, offsetof(rrs_assembled, texts) == 40);
RRS_ASSERT(assembled_room, offsetof(rrs_assembled, room) == 48);

#undef RRS_ASSERT

#ifdef __cplusplus
}
#endif

#endif
