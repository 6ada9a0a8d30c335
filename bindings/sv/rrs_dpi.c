/* The functions that rrs_pkg.sv imports, over rrs.h, by plain arguments. The simulator compiles no
 * line of this file: gcc does, and the simulator links its object. */
#include "rrs_dpi.h"

#include <stdio.h>
#include <stdlib.h>
#include <string.h>

/* An instance whose hart and words are 0, and whose pc is the base; NULL where there is no memory. */
void *rrs_dpi_new(uint32_t base, uint32_t count) {
    struct rrs_dpi *model = calloc(1, sizeof *model);
    if (model == NULL) return NULL;
    model->base = base & ~3u;
    model->count = count;
    model->hart.pc = model->base;
    rrs_csrs_reset(&model->csrs);
    model->words = calloc(count == 0 ? 1 : count, sizeof *model->words);
    if (model->words == NULL) {
        free(model);
        return NULL;
    }
    return model;
}

void rrs_dpi_free(void *handle) {
    struct rrs_dpi *model = handle;
    if (model == NULL) return;
    free(model->words);
    free(model);
}

uint32_t *rrs_dpi_place(struct rrs_dpi *model, uint32_t address) {
    uint32_t index = (address - model->base) / 4;
    return address >= model->base && index < model->count ? model->words + index : NULL;
}

/* Puts the bytes of a file into the words from the base on. Returns how many they are, or -1 where
 * the file can't be read or does not fit. */
int rrs_dpi_load(void *handle, const char *name) {
    struct rrs_dpi *model = handle;
    FILE *file = fopen(name, "rb");
    size_t got;
    int whole;
    if (file == NULL) return -1;
    got = fread(model->words, 1, (size_t)4 * model->count, file);
    whole = !ferror(file) && fgetc(file) == EOF;
    fclose(file);
    return whole ? (int)got : -1;
}

/* The word at an address, and 0 where there is none. */
uint32_t rrs_dpi_word(void *handle, uint32_t address) {
    const uint32_t *word = rrs_dpi_place(handle, address);
    return word == NULL ? 0 : *word;
}

void rrs_dpi_set_word(void *handle, uint32_t address, uint32_t value) {
    uint32_t *word = rrs_dpi_place(handle, address);
    if (word != NULL) *word = value;
}

uint32_t rrs_dpi_register(void *handle, uint32_t number) {
    const struct rrs_dpi *model = handle;
    return number % 32 == 0 ? 0 : model->hart.x[number % 32];
}

void rrs_dpi_set_register(void *handle, uint32_t number, uint32_t value) {
    struct rrs_dpi *model = handle;
    model->hart.x[number % 32] = value;
}

uint32_t rrs_dpi_pc(void *handle) {
    const struct rrs_dpi *model = handle;
    return model->hart.pc;
}

void rrs_dpi_set_pc(void *handle, uint32_t pc) {
    struct rrs_dpi *model = handle;
    model->hart.pc = pc;
}

/* Gives the fields of the latest record, and returns the kind of its exception. */
static uint32_t give(const struct rrs_dpi *model, uint32_t *insn, uint32_t *trap,
                     uint32_t *pc_rdata, uint32_t *pc_wdata, uint32_t *rs1_addr,
                     uint32_t *rs1_rdata, uint32_t *rs2_addr, uint32_t *rs2_rdata,
                     uint32_t *rd_addr, uint32_t *rd_wdata, uint32_t *mem_addr,
                     uint32_t *mem_rmask, uint32_t *mem_wmask, uint32_t *mem_rdata,
                     uint32_t *mem_wdata) {
    const rrs_retired *record = &model->record;
    *insn = record->insn;
    *trap = record->trap;
    *pc_rdata = record->pc_rdata;
    *pc_wdata = record->pc_wdata;
    *rs1_addr = record->rs1_addr;
    *rs1_rdata = record->rs1_rdata;
    *rs2_addr = record->rs2_addr;
    *rs2_rdata = record->rs2_rdata;
    *rd_addr = record->rd_addr;
    *rd_wdata = record->rd_wdata;
    *mem_addr = record->mem_addr;
    *mem_rmask = record->mem_rmask;
    *mem_wmask = record->mem_wmask;
    *mem_rdata = record->mem_rdata;
    *mem_wdata = record->mem_wdata;
    return model->fault.kind;
}

/* rrs_step_rvfi, whose record comes in as many arguments. Returns the kind of the exception. */
uint32_t rrs_dpi_step(void *handle, unsigned long long order, uint32_t *insn, uint32_t *trap,
                      uint32_t *pc_rdata, uint32_t *pc_wdata, uint32_t *rs1_addr,
                      uint32_t *rs1_rdata, uint32_t *rs2_addr, uint32_t *rs2_rdata,
                      uint32_t *rd_addr, uint32_t *rd_wdata, uint32_t *mem_addr,
                      uint32_t *mem_rmask, uint32_t *mem_wmask, uint32_t *mem_rdata,
                      uint32_t *mem_wdata) {
    struct rrs_dpi *model = handle;
    model->fault = rrs_step_rvfi(&model->hart, model->words, model->count, model->base, order,
                                 &model->record);
    return give(model, insn, trap, pc_rdata, pc_wdata, rs1_addr, rs1_rdata, rs2_addr, rs2_rdata,
                rd_addr, rd_wdata, mem_addr, mem_rmask, mem_wmask, mem_rdata, mem_wdata);
}

/* rrs_step_rvfi_ialign32, in the same way. */
uint32_t rrs_dpi_step_ialign32(void *handle, unsigned long long order, uint32_t *insn,
                               uint32_t *trap, uint32_t *pc_rdata, uint32_t *pc_wdata,
                               uint32_t *rs1_addr, uint32_t *rs1_rdata, uint32_t *rs2_addr,
                               uint32_t *rs2_rdata, uint32_t *rd_addr, uint32_t *rd_wdata,
                               uint32_t *mem_addr, uint32_t *mem_rmask, uint32_t *mem_wmask,
                               uint32_t *mem_rdata, uint32_t *mem_wdata) {
    struct rrs_dpi *model = handle;
    model->fault = rrs_step_rvfi_ialign32(&model->hart, model->words, model->count, model->base,
                                          order, &model->record);
    return give(model, insn, trap, pc_rdata, pc_wdata, rs1_addr, rs1_rdata, rs2_addr, rs2_rdata,
                rd_addr, rd_wdata, mem_addr, mem_rmask, mem_wmask, mem_rdata, mem_wdata);
}

/* rrs_step_hart_rvfi, over the reservation of the instance, in the same way. */
uint32_t rrs_dpi_step_hart(void *handle, uint32_t profile, unsigned long long order,
                           uint32_t *insn, uint32_t *trap, uint32_t *pc_rdata, uint32_t *pc_wdata,
                           uint32_t *rs1_addr, uint32_t *rs1_rdata, uint32_t *rs2_addr,
                           uint32_t *rs2_rdata, uint32_t *rd_addr, uint32_t *rd_wdata,
                           uint32_t *mem_addr, uint32_t *mem_rmask, uint32_t *mem_wmask,
                           uint32_t *mem_rdata, uint32_t *mem_wdata) {
    struct rrs_dpi *model = handle;
    model->fault = rrs_step_hart_rvfi(&model->hart, model->words, model->count, model->base,
                                      profile, &model->reservation, order, &model->record);
    return give(model, insn, trap, pc_rdata, pc_wdata, rs1_addr, rs1_rdata, rs2_addr, rs2_rdata,
                rd_addr, rd_wdata, mem_addr, mem_rmask, mem_wmask, mem_rdata, mem_wdata);
}

/* rrs_run_hart, over the reservation of the instance. Returns the kind of the exception. */
uint32_t rrs_dpi_run_hart(void *handle, uint32_t profile, unsigned long long limit,
                          unsigned long long *steps) {
    struct rrs_dpi *model = handle;
    rrs_end end = rrs_run_hart(&model->hart, model->words, model->count, model->base, profile,
                               &model->reservation, limit);
    model->fault = end.fault;
    *steps = end.steps;
    return end.fault.kind;
}

/* Whether an address is reserved, and which. */
uint32_t rrs_dpi_reservation(void *handle, uint32_t *address) {
    const struct rrs_dpi *model = handle;
    *address = model->reservation.address;
    return model->reservation.reserved;
}

void rrs_dpi_set_reservation(void *handle, uint32_t reserved, uint32_t address) {
    struct rrs_dpi *model = handle;
    model->reservation.reserved = reserved == 1;
    model->reservation.address = reserved == 1 ? address : 0;
}

/* rrs_complete_rvfi, in the same way. */
uint32_t rrs_dpi_complete_rvfi(void *handle, uint32_t word, uint32_t granted, uint32_t value,
                               unsigned long long order, uint32_t *insn, uint32_t *trap,
                               uint32_t *pc_rdata, uint32_t *pc_wdata, uint32_t *rs1_addr,
                               uint32_t *rs1_rdata, uint32_t *rs2_addr, uint32_t *rs2_rdata,
                               uint32_t *rd_addr, uint32_t *rd_wdata, uint32_t *mem_addr,
                               uint32_t *mem_rmask, uint32_t *mem_wmask, uint32_t *mem_rdata,
                               uint32_t *mem_wdata) {
    struct rrs_dpi *model = handle;
    model->fault = rrs_complete_rvfi(&model->hart, word, granted, value, order, &model->record);
    return give(model, insn, trap, pc_rdata, pc_wdata, rs1_addr, rs1_rdata, rs2_addr, rs2_rdata,
                rd_addr, rd_wdata, mem_addr, mem_rmask, mem_wmask, mem_rdata, mem_wdata);
}

/* rrs_machine_step, over the CSRs of the instance, in the same way. Returns the kind of the outcome. */
uint32_t rrs_dpi_machine_step(void *handle, uint32_t mip, unsigned long long time,
                              unsigned long long order, uint32_t *cause, uint32_t *mtval,
                              uint32_t *valid, uint32_t *intr, uint32_t *insn, uint32_t *trap,
                              uint32_t *pc_rdata, uint32_t *pc_wdata, uint32_t *rs1_addr,
                              uint32_t *rs1_rdata, uint32_t *rs2_addr, uint32_t *rs2_rdata,
                              uint32_t *rd_addr, uint32_t *rd_wdata, uint32_t *mem_addr,
                              uint32_t *mem_rmask, uint32_t *mem_wmask, uint32_t *mem_rdata,
                              uint32_t *mem_wdata) {
    struct rrs_dpi *model = handle;
    rrs_outcome outcome =
        rrs_machine_step(&model->hart, &model->csrs, model->words, model->count, model->base, mip,
                         time, order, &model->machine);
    model->record = model->machine.retired;
    model->fault.kind = RRS_OK;
    *cause = outcome.cause;
    *mtval = outcome.value;
    *valid = model->machine.valid;
    *intr = model->machine.intr;
    give(model, insn, trap, pc_rdata, pc_wdata, rs1_addr, rs1_rdata, rs2_addr, rs2_rdata, rd_addr,
         rd_wdata, mem_addr, mem_rmask, mem_wmask, mem_rdata, mem_wdata);
    return outcome.kind;
}

/* What the latest rrs_dpi_machine_step read and wrote of a CSR. */
void rrs_dpi_csr_access(void *handle, uint32_t *addr, uint32_t *rmask, uint32_t *wmask,
                        uint32_t *rdata, uint32_t *wdata) {
    const struct rrs_dpi *model = handle;
    *addr = model->machine.csr_addr;
    *rmask = model->machine.csr_rmask;
    *wmask = model->machine.csr_wmask;
    *rdata = model->machine.csr_rdata;
    *wdata = model->machine.csr_wdata;
}

/* rrs_csr_read. Returns 0 where there is no such CSR. */
uint32_t rrs_dpi_csr_read(void *handle, uint32_t number, uint32_t mip, unsigned long long time,
                          uint32_t *value) {
    const struct rrs_dpi *model = handle;
    rrs_csr csr = rrs_csr_read(&model->csrs, number, mip, time);
    *value = csr.value;
    return csr.found;
}

/* rrs_csr_write. Returns 0 where the CSR can't be written. */
uint32_t rrs_dpi_csr_write(void *handle, uint32_t number, uint32_t value) {
    struct rrs_dpi *model = handle;
    return rrs_csr_write(&model->csrs, number, value);
}

/* rrs_compare, of the latest record with a core's. Returns the number of the field. */
uint32_t rrs_dpi_compare(void *handle, uint32_t by_words, unsigned long long order, uint32_t insn,
                         uint32_t trap, uint32_t pc_rdata, uint32_t pc_wdata, uint32_t rs1_addr,
                         uint32_t rs1_rdata, uint32_t rs2_addr, uint32_t rs2_rdata,
                         uint32_t rd_addr, uint32_t rd_wdata, uint32_t mem_addr,
                         uint32_t mem_rmask, uint32_t mem_wmask, uint32_t mem_rdata,
                         uint32_t mem_wdata, unsigned long long *own, unsigned long long *other) {
    const struct rrs_dpi *model = handle;
    rrs_retired core = {order,     insn,      1,         trap,      pc_rdata, pc_wdata,
                        rs1_addr,  rs1_rdata, rs2_addr,  rs2_rdata, rd_addr,  rd_wdata,
                        mem_addr,  mem_rmask, mem_wmask, mem_rdata, mem_wdata};
    rrs_difference found = rrs_compare(&model->record, &core, by_words);
    *own = found.model;
    *other = found.core;
    return found.field;
}

/* rrs_cause of the latest exception. */
uint32_t rrs_dpi_cause(void *handle, uint32_t pc, uint32_t word) {
    const struct rrs_dpi *model = handle;
    return rrs_cause(&model->fault, pc, word);
}

/* A name, up to the next call over this instance, and "" where there is none. */
static const char *named(struct rrs_dpi *model, size_t (*name)(uint32_t, char *, size_t),
                         uint32_t number) {
    if (name(number, model->text, sizeof model->text) == 0) model->text[0] = 0;
    return model->text;
}

const char *rrs_dpi_row_name(void *handle, uint32_t row) {
    return named(handle, rrs_row_name, row);
}

const char *rrs_dpi_fault_name(void *handle, uint32_t kind) {
    return named(handle, rrs_fault_name, kind);
}

const char *rrs_dpi_register_name(void *handle, uint32_t number) {
    return named(handle, rrs_register_name, number);
}

const char *rrs_dpi_field_name(void *handle, uint32_t field) {
    return named(handle, rrs_field_name, field);
}

/* rrs_request. Returns the kind of the exception before any access. */
uint32_t rrs_dpi_request(void *handle, uint32_t word, uint32_t *kind, uint32_t *address,
                         uint32_t *size, uint32_t *value) {
    const struct rrs_dpi *model = handle;
    rrs_access access = rrs_request(&model->hart, word);
    *kind = access.kind;
    *address = access.address;
    *size = access.size;
    *value = access.value;
    return access.fault.kind;
}

/* rrs_complete. Returns the kind of the exception. */
uint32_t rrs_dpi_complete(void *handle, uint32_t word, uint32_t granted, uint32_t value) {
    struct rrs_dpi *model = handle;
    model->fault = rrs_complete(&model->hart, word, granted, value);
    return model->fault.kind;
}

/* The text of what the hart of a profile executes of a word at an address, up to the next call over
 * this instance. */
const char *rrs_dpi_text_hart(void *handle, uint32_t word, uint32_t pc, uint32_t profile) {
    struct rrs_dpi *model = handle;
    if (rrs_disassemble_hart(word, pc, profile, model->text, sizeof model->text) == 0)
        strcpy(model->text, "illegal instruction");
    return model->text;
}

/* The text of a word at an address. */
const char *rrs_dpi_text(void *handle, uint32_t word, uint32_t pc) {
    return rrs_dpi_text_hart(handle, word, pc, 0);
}
