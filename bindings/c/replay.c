/* Answers questions about the kit, one a line, from standard input, over rrs.h alone. bindings/answers
 * has the forms in its README.md; those of rrs-replay are answered as it does. */
#include <stdio.h>
#include <stdlib.h>
#include <string.h>

#include "rrs.h"

#define LONGEST_LINE 100000

/* The state that a question begins in, and the part of the words that is lent to the kit. */
struct machine {
    rrs_hart hart;
    uint32_t *words; /* all words */
    size_t all;
    uint32_t base;
    size_t first, count;
};

static void fail(const char *line) {
    fprintf(stderr, "replay: no question: %s\n", line);
    exit(2);
}

/* Takes a text off. Returns whether it stood there. */
static int take(const char **at, const char *text) {
    size_t length = strlen(text);
    if (strncmp(*at, text, length) != 0) return 0;
    *at += length;
    return 1;
}

/* Takes a text off that must stand there. */
static void expect(const char **at, const char *text) {
    if (!take(at, text)) fail(*at);
}

/* Takes a number off, decimal or behind `0x`. */
static uint64_t number(const char **at) {
    char *end;
    uint64_t value = strtoull(*at, &end, strncmp(*at, "0x", 2) == 0 ? 16 : 10);
    if (end == *at) fail(*at);
    *at = end;
    return value;
}

/* Takes `-`, or words that commas separate. Returns how many. */
static size_t list(const char **at, uint32_t **words) {
    size_t count = 0;
    *words = (uint32_t *)malloc((strlen(*at) / 11 + 1) * sizeof **words);
    if (*words == NULL) fail("out of memory");
    if (take(at, "-")) return 0;
    do (*words)[count++] = (uint32_t)number(at);
    while (take(at, ","));
    return count;
}

/* Takes ` pc=PC last=LAST regs=REGS mem=MEM` off. */
static void take_state(const char **at, struct machine *machine) {
    rrs_hart *hart = &machine->hart;
    expect(at, " pc=");
    hart->pc = (uint32_t)number(at);
    expect(at, " last=");
    /* none is any number but 1 to 31 */
    hart->last = take(at, "-") ? 32 : (expect(at, "x"), (uint32_t)number(at));
    expect(at, " regs=");
    memset(hart->x, 0, sizeof hart->x);
    if (!take(at, "-")) {
        do {
            size_t entry;
            expect(at, "x");
            entry = number(at) & 31;
            expect(at, "=");
            hart->x[entry] = (uint32_t)number(at);
        } while (take(at, ","));
    }
    expect(at, " mem=");
    machine->all = list(at, &machine->words);
    if (**at != 0) fail(*at);
}

/* Takes ` at=BASE part=FIRST:COUNT` off. */
static void take_place(const char **at, struct machine *machine) {
    expect(at, " at=");
    machine->base = (uint32_t)number(at);
    expect(at, " part=");
    machine->first = number(at);
    expect(at, ":");
    machine->count = number(at);
}

/* Prints what a fault is, and what its fields have that do not belong to it. */
static void print_fault(rrs_fault fault) {
    static const char *const names[] = {
        "Ok",              "IllegalInstruction", "FetchError",      "LoadAccessFault",
        "StoreAccessFault", "AlignmentFault",    "EnvironmentCall", "Breakpoint"};
    if (fault.kind > RRS_EBREAK) {
        printf("kind %u", fault.kind);
        return;
    }
    printf("%s", names[fault.kind]);
    if (fault.kind != RRS_OK || fault.address != 0) printf(" 0x%08x", fault.address);
    if (fault.kind == RRS_ILLEGAL_INSTRUCTION || fault.word != 0) printf(" 0x%08x", fault.word);
}

static void print_end(rrs_end end) {
    printf("%llu ", (unsigned long long)end.steps);
    if (end.fault.kind != RRS_OK) print_fault(end.fault);
    else printf("%s", end.at_stop ? "stop" : "limit");
    if (end.fault.kind == RRS_OK && (end.fault.address | end.fault.word)) print_fault(end.fault);
    if (end.at_stop > (end.fault.kind == RRS_OK)) printf(" at_stop=%u", end.at_stop);
}

static void print_hart(const rrs_hart *hart) {
    const char *separator = "";
    size_t i;
    printf(" pc=0x%08x last=", hart->pc);
    if (hart->last == 0) printf("-");
    else printf("x%u", hart->last);
    printf(" regs=");
    for (i = 0; i < 32; i++) {
        if (hart->x[i] == 0) continue;
        printf("%sx%u=0x%08x", separator, (unsigned)i, hart->x[i]);
        separator = ",";
    }
    if (*separator == 0) printf("-");
}

static void print_words(const uint32_t *words, size_t count) {
    size_t i;
    for (i = 0; i < count; i++) printf("%s0x%08x", i == 0 ? "" : ",", words[i]);
}

static void print_state(const struct machine *machine) {
    print_hart(&machine->hart);
    printf(" mem=%s", machine->all == 0 ? "-" : "");
    print_words(machine->words, machine->all);
}

/* The text of a word, whose buffer is tried with each size that has no room too. */
static size_t text_of(uint32_t word, uint32_t pc, char *text) {
    size_t length, size, i;
    memset(text, '#', RRS_TEXT_SIZE);
    length = rrs_disassemble(word, pc, text, RRS_TEXT_SIZE);
    if (length != 0 && text[length] != 0) printf("no 0 behind ");
    for (size = 0; size <= length; size++) {
        char *small = (char *)malloc(size + 1);
        if (small == NULL) fail("out of memory");
        memset(small, '#', size + 1);
        if (rrs_disassemble(word, pc, small, size) != length) printf("another length ");
        for (i = 0; i <= size; i++)
            if (small[i] != '#') printf("changed at %u of %u ", (unsigned)i, (unsigned)size);
        free(small);
    }
    if (length != 0) {
        char *exact = (char *)malloc(length + 1);
        if (exact == NULL) fail("out of memory");
        if (rrs_disassemble(word, pc, exact, length + 1) != length || strcmp(exact, text) != 0)
            printf("another text ");
        free(exact);
    }
    return length;
}

/* `decode WORD`, `text PC WORD` and `fields WORD`. Returns 0 where it is none of these. */
static int answer_word(const char **at) {
    char text[RRS_TEXT_SIZE];
    if (take(at, "decode ")) {
        uint32_t word = (uint32_t)number(at), row = rrs_decode(word).row;
        size_t length = text_of(word, 0, text);
        if (row == 0 || row > RRS_ROW_EBREAK) printf("none");
        else printf("%u %.*s", row, length == 0 ? 0 : (int)strcspn(text, " "), text);
    } else if (take(at, "text ")) {
        uint32_t pc = (uint32_t)number(at);
        size_t length;
        expect(at, " ");
        length = text_of((uint32_t)number(at), pc, text);
        printf("%s", length == 0 ? "none" : text);
    } else if (take(at, "fields ")) {
        rrs_instruction f = rrs_decode((uint32_t)number(at));
        if (f.row == 0 && !(f.rd | f.rs1 | f.rs2 | f.shamt | (uint32_t)f.imm)) printf("none");
        else printf("%u rd=%u rs1=%u rs2=%u shamt=%u imm=%d", f.row, f.rd, f.rs1, f.rs2, f.shamt,
                    f.imm);
    } else {
        return 0;
    }
    return 1;
}

static void print_record(const rrs_retired *r) {
    printf(" order=%llu insn=", (unsigned long long)r->order);
    if (r->fetched || r->insn != 0) printf("0x%08x", r->insn);
    else printf("-");
    if (r->fetched > 1) printf(" fetched=%u", r->fetched);
    printf(" trap=%u pc_rdata=0x%08x pc_wdata=0x%08x", r->trap, r->pc_rdata, r->pc_wdata);
    printf(" rs1_addr=%u rs1_rdata=0x%08x", r->rs1_addr, r->rs1_rdata);
    printf(" rs2_addr=%u rs2_rdata=0x%08x", r->rs2_addr, r->rs2_rdata);
    printf(" rd_addr=%u rd_wdata=0x%08x", r->rd_addr, r->rd_wdata);
    printf(" mem_addr=0x%08x mem_rmask=%u mem_wmask=%u", r->mem_addr, r->mem_rmask, r->mem_wmask);
    printf(" mem_rdata=0x%08x mem_wdata=0x%08x", r->mem_rdata, r->mem_wdata);
}

/* A name, in a buffer that is as long as it must be, and one that is a byte too short. */
static void print_name(size_t (*name)(uint32_t, char *, size_t), uint32_t number) {
    char text[RRS_NAME_SIZE];
    size_t length;
    memset(text, '#', sizeof text);
    length = name(number, text, sizeof text);
    if (length == 0) {
        printf("%s", text[0] == '#' ? "none" : "changed");
        return;
    }
    printf("%s", text);
    memset(text, '#', sizeof text);
    if (name(number, text, length) != length || text[0] != '#') printf(" changed");
    if (name(number, text, length + 1) != length || strlen(text) != length) printf(" another");
}

/* Takes the fields of a record off, which commas separate, in the order of rrs.h. */
static rrs_retired record_of(const char **at) {
    rrs_retired r;
    uint32_t *const fields[16] = {
        &r.insn,      &r.fetched,  &r.trap,      &r.pc_rdata,  &r.pc_wdata,  &r.rs1_addr,
        &r.rs1_rdata, &r.rs2_addr, &r.rs2_rdata, &r.rd_addr,   &r.rd_wdata,  &r.mem_addr,
        &r.mem_rmask, &r.mem_wmask, &r.mem_rdata, &r.mem_wdata};
    size_t i;
    r.order = number(at);
    for (i = 0; i < 16; i++) {
        expect(at, ",");
        *fields[i] = (uint32_t)number(at);
    }
    return r;
}

/* `name KIND NUMBER`, `cause FAULT PC WORD` and `compare BY_WORDS MODEL CORE`. Returns 0 where it is
 * none of these. */
static int answer_check(const char **at) {
    if (take(at, "name row ")) {
        print_name(rrs_row_name, (uint32_t)number(at));
    } else if (take(at, "name fault ")) {
        print_name(rrs_fault_name, (uint32_t)number(at));
    } else if (take(at, "name register ")) {
        print_name(rrs_register_name, (uint32_t)number(at));
    } else if (take(at, "name field ")) {
        print_name(rrs_field_name, (uint32_t)number(at));
    } else if (take(at, "cause ")) {
        rrs_fault fault = {0, 0, 0};
        uint32_t pc, cause;
        fault.kind = (uint32_t)number(at);
        expect(at, " ");
        pc = (uint32_t)number(at);
        expect(at, " ");
        cause = rrs_cause(&fault, pc, (uint32_t)number(at));
        printf("%u", cause);
    } else if (take(at, "compare ")) {
        uint32_t by_words = (uint32_t)number(at);
        rrs_retired model, core;
        rrs_difference found;
        expect(at, " ");
        model = record_of(at);
        expect(at, " ");
        core = record_of(at);
        found = rrs_compare(&model, &core, by_words);
        if (found.field == RRS_SAME && (found.model | found.core) == 0) {
            printf("same");
        } else {
            print_name(rrs_field_name, found.field);
            printf(" 0x%llx 0x%llx", (unsigned long long)found.model,
                   (unsigned long long)found.core);
        }
    } else {
        return 0;
    }
    return 1;
}

/* Takes bytes off, two hexadecimal digits each. Returns how many. */
static size_t bytes_of(const char **at, uint8_t *bytes, size_t room) {
    size_t count = 0;
    while (**at != ' ' && **at != 0) {
        char digits[3] = {0, 0, 0};
        if (count == room || (*at)[1] == 0) fail(*at);
        memcpy(digits, *at, 2);
        bytes[count++] = (uint8_t)strtoul(digits, NULL, 16);
        *at += 2;
    }
    return count;
}

/* The name and the place of an address, in a buffer that is as long as it must be, and one that is a
 * byte too short. */
static void print_location(const uint8_t *file, size_t size, uint32_t address) {
    char text[256];
    rrs_location at, again;
    memset(text, '#', sizeof text);
    at = rrs_elf_function_at(file, size, address, text, sizeof text);
    if (at.found == RRS_NOWHERE) {
        printf(" none%s", text[0] == '#' && (at.distance | at.length) == 0 ? "" : " changed");
        return;
    }
    printf(" %s %s+%u", at.found == RRS_IN_FUNCTION ? "in" : "behind", text, at.distance);
    if (strlen(text) != at.length || at.found > RRS_BEHIND) printf(" %u", at.found);
    memset(text, '#', sizeof text);
    again = rrs_elf_function_at(file, size, address, text, at.length);
    if (memcmp(&again, &at, sizeof at) != 0 || text[0] != '#') printf(" changed");
}

/* `elf FILE BASE COUNT ADDRESS`. Returns 0 where it is no such question. */
static int answer_elf(const char **at) {
    static uint8_t file[LONGEST_LINE / 2];
    uint32_t words[256], base, count, i;
    rrs_elf elf;
    rrs_loaded loaded;
    size_t size;
    if (!take(at, "elf ")) return 0;
    size = bytes_of(at, file, sizeof file);
    expect(at, " ");
    base = (uint32_t)number(at);
    expect(at, " ");
    count = (uint32_t)number(at);
    expect(at, " ");
    if (count > 256) fail(*at);
    elf = rrs_elf_parse(file, size);
    if (elf.refusal != RRS_ELF_OK) printf("refused %u %u %u", elf.refusal, elf.number, elf.other);
    else printf("entry=0x%08x", elf.entry);
    if (elf.refusal != RRS_ELF_OK && (elf.entry | elf.segments)) printf(" changed");
    for (i = 0; i < elf.segments + 2; i++) {
        rrs_segment s = rrs_elf_segment(file, size, i);
        if (s.loaded == 1)
            printf(" 0x%08x,%u,%u,%u,%u", s.address, s.memory_size, s.offset, s.file_size, s.flags);
        else if (s.loaded | s.address | s.memory_size | s.offset | s.file_size | s.flags)
            printf(" changed");
        else if (i < elf.segments) printf(" none");
    }
    memset(words, 255, sizeof words);
    loaded = rrs_elf_load(file, size, words, count, base);
    if (elf.refusal == RRS_ELF_OK) {
        if (loaded.refusal == RRS_ELF_OK) printf(" loaded");
        else printf(" refused %u 0x%08x", loaded.refusal, loaded.address);
        if (count == 0) printf(" ");
    }
    for (i = 0; i < 256; i++) {
        if (elf.refusal != RRS_ELF_OK || i >= count) {
            if (words[i] != 0xffffffff) printf(" changed");
        } else {
            printf("%c0x%08x", i == 0 ? ' ' : ',', words[i]);
        }
    }
    print_location(file, size, (uint32_t)number(at));
    return 1;
}

/* `request WORD`, `complete WORD GIVEN` and `retire ORDER WORD GIVEN`, which is rrs_complete_rvfi.
 * Returns 0 where it is none of these. */
static int answer_access(const char **at, struct machine *machine) {
    if (take(at, "request ")) {
        uint32_t word = (uint32_t)number(at);
        rrs_access access;
        take_state(at, machine);
        access = rrs_request(&machine->hart, word);
        if (machine->hart.last == 32) machine->hart.last = 0; /* as it was given */
        if (access.fault.kind != RRS_OK) print_fault(access.fault);
        else if (access.kind == RRS_LOAD) printf("load 0x%08x %u", access.address, access.size);
        else if (access.kind == RRS_STORE)
            printf("store 0x%08x %u 0x%08x", access.address, access.size, access.value);
        else printf("none");
        if (access.kind == RRS_NO_ACCESS && (access.address | access.size | access.value))
            printf(" 0x%08x %u 0x%08x", access.address, access.size, access.value);
        if (access.kind == RRS_LOAD && access.value != 0) printf(" 0x%08x", access.value);
    } else if (strncmp(*at, "complete ", 9) == 0 || strncmp(*at, "retire ", 7) == 0) {
        int is_record = !take(at, "complete ") && take(at, "retire ");
        uint64_t order = is_record ? number(at) : 0;
        uint32_t word, value = 0x5a5a5a5a, grant;
        int granted;
        if (is_record) expect(at, " ");
        word = (uint32_t)number(at);
        expect(at, " ");
        granted = !take(at, "-");
        if (granted) value = (uint32_t)number(at);
        take_state(at, machine);
        grant = granted ? 1 + (value & ~1u) : 0; /* any number but 0 grants it */
        if (is_record) {
            rrs_retired retired;
            memset(&retired, '#', sizeof retired);
            print_fault(rrs_complete_rvfi(&machine->hart, word, grant, value, order, &retired));
            print_record(&retired);
        } else {
            print_fault(rrs_complete(&machine->hart, word, grant, value));
        }
    } else {
        return 0;
    }
    return 1;
}

/* `steps N`: as many steps, over all words from address 0 on. */
static void answer_steps(const char **at, struct machine *m) {
    uint64_t count = number(at), i;
    take_state(at, m);
    for (i = 0; i < count; i++) {
        if (i > 0) printf(";");
        print_fault(rrs_step(&m->hart, m->words, m->all, 0));
    }
}

/* The questions over memory. */
static void answer_memory(const char **at, struct machine *m) {
    int is_step = take(at, "step"), is_ialign32 = !is_step && take(at, "rvfi32 ");
    int is_record = is_ialign32 || (!is_step && take(at, "rvfi "));
    int is_run = !is_step && !is_record && take(at, "run ");
    uint64_t amount;
    uint32_t *words, *stops = NULL;
    size_t stop_count = 0;
    if (!is_step && !is_record && !is_run) expect(at, "until ");
    amount = is_step ? 0 : number(at);
    if (!is_step && !is_record && !is_run) {
        expect(at, " ");
        stop_count = list(at, &stops);
    }
    take_place(at, m);
    take_state(at, m);
    words = m->words + m->first;
    if (is_step) {
        print_fault(rrs_step(&m->hart, words, m->count, m->base));
    } else if (is_record) {
        rrs_retired retired;
        memset(&retired, '#', sizeof retired);
        print_fault((is_ialign32 ? rrs_step_rvfi_ialign32 : rrs_step_rvfi)(
            &m->hart, words, m->count, m->base, amount, &retired));
        print_record(&retired);
    } else if (is_run) {
        print_end(rrs_run(&m->hart, words, m->count, m->base, amount));
    } else {
        print_end(rrs_run_until(&m->hart, words, m->count, m->base, amount, stops, stop_count));
        free(stops);
    }
}

/* Takes the CSRs off, which commas separate, in the order of rrs.h. */
static rrs_csrs csrs_of(const char **at) {
    rrs_csrs c;
    uint32_t *const fields[8] = {&c.mstatus, &c.mie,    &c.mtvec, &c.mscratch,
                                 &c.mepc,    &c.mcause, &c.mtval, &c.mcountinhibit};
    size_t i;
    for (i = 0; i < 8; i++) {
        *fields[i] = (uint32_t)number(at);
        expect(at, ",");
    }
    c.mcycle = number(at);
    expect(at, ",");
    c.minstret = number(at);
    expect(at, ",");
    c.trapped = (uint32_t)number(at);
    c.profile = c.user = c.mcounteren = c.reserved = c.reservation = 0;
    return c;
}

static void print_csrs(const rrs_csrs *c) {
    printf("%u,%u,%u,%u,%u,%u,%u,%u", c->mstatus, c->mie, c->mtvec, c->mscratch, c->mepc,
           c->mcause, c->mtval, c->mcountinhibit);
    printf(",%llu,%llu,%u", (unsigned long long)c->mcycle, (unsigned long long)c->minstret,
           c->trapped);
}

/* `csr NUMBER MIP TIME CSRS` and `write NUMBER VALUE CSRS`. Returns 0 where it is none of these. */
static int answer_csr(const char **at) {
    int is_read = take(at, "csr ");
    uint32_t by, second;
    uint64_t time = 0;
    rrs_csrs csrs;
    if (!is_read && !take(at, "write ")) return 0;
    by = (uint32_t)number(at);
    expect(at, " ");
    second = (uint32_t)number(at);
    expect(at, " ");
    if (is_read) {
        time = number(at);
        expect(at, " ");
    }
    csrs = csrs_of(at);
    if (is_read) {
        rrs_csr csr = rrs_csr_read(&csrs, by, second, time);
        if (csr.found == 0 && csr.value == 0) printf("none");
        else printf("0x%08x%s", csr.value, csr.found == 1 ? "" : " changed");
    } else {
        printf("%u ", rrs_csr_write(&csrs, by, second));
        print_csrs(&csrs);
    }
    return 1;
}

static void print_outcome(rrs_outcome outcome) {
    static const char *const names[] = {"retired", "waiting", "raised", "interrupted"};
    if (outcome.kind > RRS_INTERRUPTED) {
        printf("kind %u", outcome.kind);
        return;
    }
    printf("%s", names[outcome.kind]);
    if (outcome.kind >= RRS_RAISED || outcome.cause != 0) printf(" 0x%08x", outcome.cause);
    if (outcome.kind == RRS_RAISED || outcome.value != 0) printf(" 0x%08x", outcome.value);
}

static void print_machine_record(const rrs_machine_retired *r) {
    print_record(&r->retired);
    printf(" valid=%u intr=%u mode=%u trapped=%u cause=0x%08x", r->valid, r->intr, r->mode,
           r->trapped, r->cause);
    printf(" csr_addr=0x%03x csr_rmask=0x%08x csr_wmask=0x%08x", r->csr_addr, r->csr_rmask,
           r->csr_wmask);
    printf(" csr_rdata=0x%08x csr_wdata=0x%08x", r->csr_rdata, r->csr_wdata);
}

/* `machine ORDER MIP TIME CSRS`, over memory. Returns 0 where it is no such question. */
static int answer_machine(const char **at, struct machine *m) {
    uint64_t order, time;
    uint32_t mip;
    rrs_csrs csrs;
    rrs_machine_retired retired;
    if (!take(at, "machine ")) return 0;
    order = number(at);
    expect(at, " ");
    mip = (uint32_t)number(at);
    expect(at, " ");
    time = number(at);
    expect(at, " ");
    csrs = csrs_of(at);
    take_place(at, m);
    take_state(at, m);
    memset(&retired, '#', sizeof retired);
    print_outcome(rrs_machine_step(&m->hart, &csrs, m->words + m->first, m->count, m->base, mip,
                                   time, order, &retired));
    print_machine_record(&retired);
    printf(" csrs=");
    print_csrs(&csrs);
    return 1;
}

/* Takes a change off, whose numbers commas separate, in the order of rrs.h. */
static rrs_change change_of(const char **at) {
    rrs_change c;
    uint32_t *const fields[7] = {&c.pc,      &c.last, &c.rd,   &c.value,
                                 &c.address, &c.size, &c.bytes};
    size_t i;
    for (i = 0; i < 7; i++) {
        if (i > 0) expect(at, ",");
        *fields[i] = (uint32_t)number(at);
    }
    return c;
}

/* `noted`, a step that is taken back, and `undo CHANGE`, over memory. Returns 0 where it is none of
 * these. */
static int answer_change(const char **at, struct machine *m) {
    int is_step = take(at, "noted");
    rrs_change c;
    if (!is_step && !take(at, "undo ")) return 0;
    if (!is_step) c = change_of(at);
    take_place(at, m);
    take_state(at, m);
    if (is_step) {
        memset(&c, '#', sizeof c);
        print_fault(rrs_step_noted(&m->hart, m->words + m->first, m->count, m->base, &c));
        printf(" change=%u,%u,%u,%u,%u,%u,%u", c.pc, c.last, c.rd, c.value, c.address, c.size,
               c.bytes);
        print_hart(&m->hart);
        printf(" part=");
        print_words(m->words + m->first, m->count);
        printf(" ");
    }
    rrs_undo(&m->hart, m->words + m->first, m->count, m->base, &c);
    printf("undone");
    return 1;
}

/* Takes ` WRITES` off, `-` or NUMBER:WORD with commas between, to the end of the text. Returns how
 * many. */
static size_t writes_of(const char **at, uint32_t writes[][2], size_t room) {
    size_t count = 0;
    expect(at, " ");
    if (take(at, "-")) return 0;
    do {
        if (count == room) fail(*at);
        writes[count][0] = (uint32_t)number(at);
        expect(at, ":");
        writes[count++][1] = (uint32_t)number(at);
    } while (take(at, ","));
    return count;
}

/* `cached LIMITS WRITES` and `cached_until LIMITS STOPS WRITES`, over memory: runs over one cache, in
 * turn over the words and over others, which are these with bit 7 inverted, the lowest of rd. Behind
 * each pair a word is written from outside. Returns 0 where it is none of these. */
static int answer_cached(const char **at, struct machine *m) {
    static rrs_cache cache;
    uint64_t limits[64];
    uint32_t writes[64][2], *words, *others, *stops = NULL;
    size_t runs = 0, write_count, stop_count = 0, i;
    int is_until = take(at, "cached_until ");
    rrs_end ends[64], other_ends[64];
    rrs_hart other;
    if (!is_until && !take(at, "cached ")) return 0;
    do limits[runs++] = number(at);
    while (runs < 64 && take(at, ","));
    if (is_until) {
        expect(at, " ");
        stop_count = list(at, &stops);
    }
    write_count = writes_of(at, writes, 64);
    take_place(at, m);
    take_state(at, m);
    other = m->hart;
    words = m->words + m->first;
    others = (uint32_t *)malloc((m->count + 1) * sizeof *others);
    if (others == NULL) fail("out of memory");
    for (i = 0; i < m->count; i++) others[i] = words[i] ^ 0x80;
    memset(&cache, 0xa5, sizeof cache);
    rrs_cache_clear(&cache);
    for (i = 0; i < runs; i++) {
        if (is_until) {
            ends[i] = rrs_run_until_cached(&m->hart, &cache, words, m->count, m->base, limits[i],
                                           stops, stop_count);
            other_ends[i] = rrs_run_until_cached(&other, &cache, others, m->count, m->base,
                                                 limits[i], stops, stop_count);
        } else {
            ends[i] = rrs_run_cached(&m->hart, &cache, words, m->count, m->base, limits[i]);
            other_ends[i] = rrs_run_cached(&other, &cache, others, m->count, m->base, limits[i]);
        }
        if (i < write_count) words[writes[i][0]] = writes[i][1];
    }
    for (i = 0; i < runs; i++) {
        if (i > 0) printf(";");
        print_end(other_ends[i]);
    }
    print_hart(&other);
    printf(" part=%s", m->count == 0 ? "-" : "");
    print_words(others, m->count);
    printf(" beside ");
    for (i = 0; i < runs; i++) {
        if (i > 0) printf(";");
        print_end(ends[i]);
    }
    free(stops);
    free(others);
    return 1;
}

static void answer(const char *line) {
    struct machine machine;
    const char *at = line;
    memset(&machine, 0, sizeof machine);
    if (take(&at, "steps 0")) {
        printf("-%s", at); /* nothing is called */
    } else if (answer_word(&at) || answer_check(&at) || answer_elf(&at) || answer_csr(&at)) {
        if (*at != 0) fail(at);
    } else {
        if (take(&at, "steps ")) answer_steps(&at, &machine);
        else if (!answer_access(&at, &machine) && !answer_machine(&at, &machine) &&
                 !answer_change(&at, &machine) && !answer_cached(&at, &machine))
            answer_memory(&at, &machine);
        print_state(&machine);
        free(machine.words);
    }
    printf("\n");
}

int main(void) {
    static char line[LONGEST_LINE];
    while (fgets(line, sizeof line, stdin) != NULL) {
        size_t length = strlen(line);
        if (length == 0 || line[length - 1] != '\n') fail(line);
        line[length - 1] = 0;
        answer(line);
    }
    return ferror(stdin) || fflush(stdout) != 0;
}
