/* Compares the RVFI records of a core with those of the kit, whose steps have machine mode. Around them
 * stand the accesses of a device's page, what this core has less, and the report. */
#include <stdio.h>
#include <stdlib.h>
#include <string.h>

#include "coverage.h"
#include "rrs_dpi.h"

#define DEVICE 0x10000000u /* a page: a UART at 0 and 4 */
#define TO_HOST (DEVICE + 12) /* a store here ends the program */
#define TIMER 0x80u /* MTIP of mip, MTIE of mie */
#define LINES 6

/* What the report shows of a record. */
struct line {
    uint32_t pc, insn, trap, rd, value, address, mask, data;
};

struct lockstep {
    struct rrs_dpi *model;
    unsigned long long records;
    uint32_t device_value;  /* what the device gave to the core last */
    uint32_t device_reads;
    int has_trapped;        /* in the record before */
    int has_ended;
    uint32_t end_at;        /* a store here ends the program too, where it is not 0 */
    uint32_t field;         /* in which a record differed, or RRS_SAME */
    struct coverage coverage;
    struct line lines[LINES];
};

void *lockstep_new(void *model) {
    struct lockstep *lockstep = calloc(1, sizeof *lockstep);
    if (lockstep == NULL) return NULL;
    lockstep->model = model;
    return lockstep;
}

void lockstep_free(void *handle) {
    free(handle);
}

/* What the device gives to a load, and what a store does to it. */
uint32_t lockstep_device_load(void *handle, uint32_t address) {
    struct lockstep *lockstep = handle;
    uint32_t status = address - DEVICE == 4;
    lockstep->device_value = status ? 0x20 : lockstep->device_reads++ * 2654435761u;
    return lockstep->device_value;
}

void lockstep_device_store(void *handle, uint32_t address) {
    struct lockstep *lockstep = handle;
    if (address == TO_HOST) lockstep->has_ended = 1;
}

/* A store to this address, which memory has, ends the program. */
void lockstep_end_at(void *handle, uint32_t address) {
    struct lockstep *lockstep = handle;
    lockstep->end_at = address;
}

int lockstep_has_ended(void *handle) {
    const struct lockstep *lockstep = handle;
    return lockstep->has_ended;
}

/* The core's counters count its clock's cycles: a step that reads one reads what the core has. */
static void take_counter(rrs_csrs *csrs, uint32_t insn, uint32_t value) {
    uint64_t *counter;
    if ((insn & 127) != 0x73 || (insn >> 12 & 3) == 0) return;
    switch (insn >> 20) {
    case 0xb00: case 0xb80: case 0xc00: case 0xc80: counter = &csrs->mcycle; break;
    case 0xb02: case 0xb82: case 0xc02: case 0xc82: counter = &csrs->minstret; break;
    default: return;
    }
    *counter = insn >> 27 & 1 ? (uint64_t)value << 32 : value;
}

/* A load or a store of the device's page. Returns 0 where the word makes none. */
static int device_step(struct lockstep *l, uint32_t word, rrs_retired *want) {
    rrs_hart *hart = &l->model->hart;
    rrs_access access = rrs_request(hart, word);
    if (access.fault.kind != RRS_OK || access.kind == RRS_NO_ACCESS ||
        access.address >> 12 != DEVICE >> 12)
        return 0;
    rrs_complete_rvfi(hart, word, 1, l->device_value >> 8 * (access.address & 3), l->records, want);
    l->model->csrs.trapped = 0;
    return 1;
}

/* One instruction of the model, after an interrupt where the core took one: its record, as the core
 * must have it. */
static void model_step(struct lockstep *l, const rrs_retired *core, int interrupted,
                       rrs_retired *want) {
    struct rrs_dpi *m = l->model;
    const uint32_t *word;
    if (interrupted) {
        rrs_machine_step(&m->hart, &m->csrs, m->words, m->count, m->base, TIMER, 0, l->records,
                         &m->machine);
        *want = m->machine.retired;
        if (m->machine.valid) return; /* the model takes none here: this record is another */
    }
    word = m->hart.pc % 4 == 0 ? rrs_dpi_place(m, m->hart.pc) : NULL;
    if (word != NULL && device_step(l, *word, want)) return;
    if (word != NULL) take_counter(&m->csrs, *word, core->rd_wdata);
    rrs_machine_step(&m->hart, &m->csrs, m->words, m->count, m->base, 0, 0, l->records,
                     &m->machine);
    m->csrs.mtvec &= ~3u; /* the core has no vectored interrupts, and the timer's alone */
    m->csrs.mie &= TIMER;
    *want = m->machine.retired;
}

static void show(const struct line *line) {
    char text[RRS_TEXT_SIZE] = "(no row of the table)";
    rrs_disassemble(line->insn, line->pc, text, sizeof text);
    printf("    0x%08x (0x%08x) %-26s", line->pc, line->insn, text);
    if (line->trap) printf(" trap");
    if (line->rd != 0) printf(" x%u = 0x%08x", line->rd, line->value);
    if (line->mask != 0) printf(" at 0x%08x/%x 0x%08x", line->address, line->mask, line->data);
    printf("\n");
}

static void report(const struct lockstep *l, const rrs_retired *want, rrs_difference found) {
    unsigned long long i = l->records < LINES ? 0 : l->records - LINES + 1;
    char name[RRS_NAME_SIZE];
    printf("record %llu differs; the model's last records:\n", l->records);
    for (; i <= l->records; i++) show(&l->lines[i % LINES]);
    printf("    x%u = 0x%08x, x%u = 0x%08x\n", want->rs1_addr, want->rs1_rdata, want->rs2_addr,
           want->rs2_rdata);
    rrs_field_name(found.field, name, sizeof name);
    printf("    %-9s model 0x%08llx, core 0x%08llx\n", name, (unsigned long long)found.model,
           (unsigned long long)found.core);
    fflush(stdout);
}

/* Compares a record. Returns 0 where it is the model's, and else the number of the field that
 * differs, with a report. */
int lockstep_retire(void *handle, unsigned long long order, uint32_t insn, uint32_t trap,
                    uint32_t intr, uint32_t pc_rdata, uint32_t pc_wdata, uint32_t rs1_addr,
                    uint32_t rs1_rdata, uint32_t rs2_addr, uint32_t rs2_rdata, uint32_t rd_addr,
                    uint32_t rd_wdata, uint32_t mem_addr, uint32_t mem_rmask, uint32_t mem_wmask,
                    uint32_t mem_rdata, uint32_t mem_wdata) {
    struct lockstep *l = handle;
    rrs_retired core = {order,    insn,      1,         trap,      pc_rdata, pc_wdata,
                        rs1_addr, rs1_rdata, rs2_addr,  rs2_rdata, rd_addr,  rd_wdata,
                        mem_addr, mem_rmask, mem_wmask, mem_rdata, mem_wdata};
    rrs_retired want;
    rrs_difference found;
    /* the first record of a handler, and no exception before: an interrupt, which the core tells */
    model_step(l, &core, intr && !l->has_trapped, &want);
    l->has_trapped = (int)want.trap;
    l->lines[l->records % LINES] =
        (struct line){want.pc_rdata, want.insn, want.trap, want.rd_addr, want.rd_wdata,
                      want.mem_addr, want.mem_rmask | want.mem_wmask,
                      want.mem_rmask ? want.mem_rdata : want.mem_wdata};
    found = rrs_compare(&want, &core, 1);
    if (found.field != RRS_SAME) {
        report(l, &want, found);
        l->field = found.field;
        return (int)found.field;
    }
    if (want.mem_wmask != 0 && want.mem_addr == l->end_at) l->has_ended = 1;
    cover(&l->coverage, &want);
    l->records++;
    return 0;
}

/* Appends the run to a file, as one line of JSON: its seed, its records, how it ended, and what it
 * covered. Returns 0 where it is written. */
int lockstep_tell(void *handle, const char *name, unsigned long long seed) {
    const struct lockstep *l = handle;
    char field[RRS_NAME_SIZE];
    FILE *file = fopen(name, "a");
    if (file == NULL) return -1;
    rrs_field_name(l->field, field, sizeof field);
    fprintf(file, "{\"seed\": %llu, \"records\": %llu, \"field\": \"%s\", \"coverage\": {", seed,
            l->records, field);
    tell_coverage(&l->coverage, file);
    fprintf(file, "}}\n");
    return fclose(file);
}
