/* A library that a face must refuse, for check.sh: one of the version VERSION, whose exceptions and
 * accesses are of the kind KIND. With -DOLD it has no rrs_request. */
#include "rrs.h"

static const rrs_fault fault = {KIND, 0, 0};

uint32_t rrs_version(void) { return VERSION; }

rrs_fault rrs_step(rrs_hart *hart, uint32_t *words, size_t count, uint32_t base) {
    (void)hart, (void)words, (void)count, (void)base;
    return fault;
}

rrs_end rrs_run(rrs_hart *hart, uint32_t *words, size_t count, uint32_t base, uint64_t limit) {
    rrs_end end = {0, {KIND, 0, 0}, 0};
    (void)hart, (void)words, (void)count, (void)base, (void)limit;
    return end;
}

rrs_end rrs_run_until(rrs_hart *hart, uint32_t *words, size_t count, uint32_t base, uint64_t limit,
                      const uint32_t *stops, size_t stop_count) {
    (void)stops, (void)stop_count;
    return rrs_run(hart, words, count, base, limit);
}

void rrs_cache_clear(rrs_cache *cache) { (void)cache; }

rrs_end rrs_run_cached(rrs_hart *hart, rrs_cache *cache, uint32_t *words, size_t count,
                       uint32_t base, uint64_t limit) {
    (void)cache;
    return rrs_run(hart, words, count, base, limit);
}

rrs_end rrs_run_until_cached(rrs_hart *hart, rrs_cache *cache, uint32_t *words, size_t count,
                             uint32_t base, uint64_t limit, const uint32_t *stops,
                             size_t stop_count) {
    (void)stops, (void)stop_count;
    return rrs_run_cached(hart, cache, words, count, base, limit);
}

rrs_fault rrs_step_rvfi(rrs_hart *hart, uint32_t *words, size_t count, uint32_t base,
                        uint64_t order, rrs_retired *retired) {
    (void)order, (void)retired;
    return rrs_step(hart, words, count, base);
}

rrs_instruction rrs_decode(uint32_t word) {
    rrs_instruction none = {0, 0, 0, 0, 0, 0};
    (void)word;
    return none;
}

size_t rrs_disassemble(uint32_t word, uint32_t pc, char *text, size_t size) {
    (void)word, (void)pc, (void)text, (void)size;
    return 0;
}

size_t rrs_disassemble_hart(uint32_t word, uint32_t pc, uint32_t profile, char *text, size_t size) {
    (void)profile;
    return rrs_disassemble(word, pc, text, size);
}

uint32_t rrs_expand(uint32_t half) {
    (void)half;
    return 0;
}

#ifndef OLD
rrs_access rrs_request(const rrs_hart *hart, uint32_t word) {
    rrs_access access = {{RRS_OK, 0, 0}, KIND, 0, 0, 0};
    (void)hart, (void)word;
    return access;
}
#endif

rrs_fault rrs_complete(rrs_hart *hart, uint32_t word, uint32_t granted, uint32_t value) {
    (void)word, (void)granted, (void)value;
    return rrs_step(hart, 0, 0, 0);
}

rrs_fault rrs_complete_rvfi(rrs_hart *hart, uint32_t word, uint32_t granted, uint32_t value,
                            uint64_t order, rrs_retired *retired) {
    (void)order, (void)retired;
    return rrs_complete(hart, word, granted, value);
}

rrs_fault rrs_step_rvfi_ialign32(rrs_hart *hart, uint32_t *words, size_t count, uint32_t base,
                                 uint64_t order, rrs_retired *retired) {
    return rrs_step_rvfi(hart, words, count, base, order, retired);
}

rrs_difference rrs_compare(const rrs_retired *model, const rrs_retired *core, uint32_t by_words) {
    rrs_difference none = {0, 0, 0};
    (void)model, (void)core, (void)by_words;
    return none;
}

uint32_t rrs_cause(const rrs_fault *of, uint32_t pc, uint32_t word) {
    (void)of, (void)pc, (void)word;
    return 0;
}

size_t rrs_row_name(uint32_t row, char *text, size_t size) {
    return rrs_disassemble(row, 0, text, size);
}

size_t rrs_fault_name(uint32_t kind, char *text, size_t size) {
    return rrs_disassemble(kind, 0, text, size);
}

size_t rrs_register_name(uint32_t number, char *text, size_t size) {
    return rrs_disassemble(number, 0, text, size);
}

size_t rrs_field_name(uint32_t field, char *text, size_t size) {
    return rrs_disassemble(field, 0, text, size);
}

rrs_fault rrs_step_noted(rrs_hart *hart, uint32_t *words, size_t count, uint32_t base,
                         rrs_change *change) {
    (void)change;
    return rrs_step(hart, words, count, base);
}

void rrs_undo(rrs_hart *hart, uint32_t *words, size_t count, uint32_t base,
              const rrs_change *change) {
    (void)hart, (void)words, (void)count, (void)base, (void)change;
}

rrs_fault rrs_step_hart(rrs_hart *hart, uint32_t *words, size_t count, uint32_t base,
                        uint32_t profile, rrs_reservation *reservation) {
    (void)profile, (void)reservation;
    return rrs_step(hart, words, count, base);
}

rrs_end rrs_run_hart(rrs_hart *hart, uint32_t *words, size_t count, uint32_t base,
                     uint32_t profile, rrs_reservation *reservation, uint64_t limit) {
    (void)profile, (void)reservation;
    return rrs_run(hart, words, count, base, limit);
}

rrs_fault rrs_step_hart_rvfi(rrs_hart *hart, uint32_t *words, size_t count, uint32_t base,
                             uint32_t profile, rrs_reservation *reservation, uint64_t order,
                             rrs_retired *retired) {
    (void)profile, (void)reservation;
    return rrs_step_rvfi(hart, words, count, base, order, retired);
}

void rrs_csrs_reset(rrs_csrs *csrs) { (void)csrs; }

rrs_outcome rrs_machine_step(rrs_hart *hart, rrs_csrs *csrs, uint32_t *words, size_t count,
                             uint32_t base, uint32_t mip, uint64_t time, uint64_t order,
                             rrs_machine_retired *retired) {
    rrs_outcome outcome = {KIND, 0, 0};
    (void)hart, (void)csrs, (void)words, (void)count, (void)base, (void)mip, (void)time;
    (void)order, (void)retired;
    return outcome;
}

rrs_csr rrs_csr_read(const rrs_csrs *csrs, uint32_t number, uint32_t mip, uint64_t time) {
    rrs_csr none = {0, 0};
    (void)csrs, (void)number, (void)mip, (void)time;
    return none;
}

uint32_t rrs_csr_write(rrs_csrs *csrs, uint32_t number, uint32_t value) {
    (void)csrs, (void)number, (void)value;
    return 0;
}

void rrs_board_reset(rrs_board *board, uint32_t profile, uint32_t pc) {
    (void)board, (void)profile, (void)pc;
}

rrs_board_end rrs_board_run(rrs_board *board, uint32_t *words, size_t count, uint64_t limit) {
    rrs_board_end end = {0, KIND, 0};
    (void)board, (void)words, (void)count, (void)limit;
    return end;
}

uint32_t rrs_board_receive(rrs_board *board, uint32_t byte) {
    (void)board, (void)byte;
    return 0;
}

uint32_t rrs_board_waits_for_input(const rrs_board *board) {
    (void)board;
    return 0;
}

rrs_elf rrs_elf_parse(const uint8_t *file, size_t size) {
    rrs_elf none = {RRS_ELF_NOT_ELF, 0, 0, 0, 0};
    (void)file, (void)size;
    return none;
}

rrs_elf rrs_elf_parse_hart(const uint8_t *file, size_t size, uint32_t profile) {
    (void)profile;
    return rrs_elf_parse(file, size);
}

rrs_segment rrs_elf_segment(const uint8_t *file, size_t size, uint32_t index) {
    rrs_segment none = {0, 0, 0, 0, 0, 0};
    (void)file, (void)size, (void)index;
    return none;
}

rrs_loaded rrs_elf_load(const uint8_t *file, size_t size, uint32_t *words, size_t count,
                        uint32_t base) {
    rrs_loaded none = {RRS_ELF_NOT_ELF, 0};
    (void)file, (void)size, (void)words, (void)count, (void)base;
    return none;
}

rrs_loaded rrs_elf_load_hart(const uint8_t *file, size_t size, uint32_t *words, size_t count,
                             uint32_t base, uint32_t profile) {
    (void)profile;
    return rrs_elf_load(file, size, words, count, base);
}

rrs_loaded rrs_board_load(rrs_board *board, const uint8_t *file, size_t size, uint32_t *words,
                          size_t count) {
    rrs_loaded none = {RRS_ELF_NOT_ELF, 0};
    (void)board, (void)file, (void)size, (void)words, (void)count;
    return none;
}

rrs_location rrs_elf_function_at(const uint8_t *file, size_t size, uint32_t address, char *text,
                                 size_t room) {
    rrs_location none = {RRS_NOWHERE, 0, 0};
    (void)file, (void)size, (void)address, (void)text, (void)room;
    return none;
}

rrs_assembled rrs_assemble(const uint8_t *source, size_t length, uint32_t start, rrs_room *room,
                           uint8_t *bytes, size_t bytes_length, rrs_statement *statements,
                           size_t statements_length, rrs_symbol *symbols, size_t symbols_length,
                           rrs_mistake *mistakes, size_t mistakes_length, uint8_t *texts,
                           size_t texts_length) {
    rrs_assembled none = {KIND, 0, 0, 0, 0, 0, 0, 0};
    (void)source, (void)length, (void)start, (void)room, (void)bytes, (void)bytes_length;
    (void)statements, (void)statements_length, (void)symbols, (void)symbols_length;
    (void)mistakes, (void)mistakes_length, (void)texts, (void)texts_length;
    return none;
}
