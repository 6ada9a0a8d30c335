/* The cases: a row at all; each source at an edge (0, 1, -1, the least and the greatest number); a
 * division by 0 and one that overflows; shifts by 0 and 31; branches taken and not, forward and back;
 * rd equal to rs1, and x0 as each register. */
#include "coverage.h"

static const char *const names[CASES] = {
    "",           " rs1=0",     " rs1=1",         " rs1=-1",        " rs1=least",
    " rs1=greatest", " rs2=0",  " rs2=1",         " rs2=-1",        " rs2=least",
    " rs2=greatest", " by 0",   " overflow",      " shift=0",       " shift=31",
    " taken forward", " taken back", " not taken forward", " not taken back",
    " rd=rs1",    " rd=x0",     " rs1=x0",        " rs2=x0"};

/* The kinds of rows, by their numbers in the table. */
static int is_between(uint32_t row, uint32_t first, uint32_t last) {
    return first <= row && row <= last;
}

static int is_shift(uint32_t row) {
    return row == RRS_ROW_SLL || row == RRS_ROW_SRL || row == RRS_ROW_SRA ||
           row == RRS_ROW_SLLI || row == RRS_ROW_SRLI || row == RRS_ROW_SRAI;
}

static int is_branch(uint32_t row) {
    return is_between(row, RRS_ROW_BEQ, RRS_ROW_BGEU);
}

static int has_rs2(uint32_t row) {
    return is_between(row, RRS_ROW_ADD, RRS_ROW_AND) || is_branch(row) ||
           is_between(row, RRS_ROW_SB, RRS_ROW_SW) || is_between(row, RRS_ROW_MUL, RRS_ROW_REMU);
}

static int has_rs1(uint32_t row) {
    return has_rs2(row) || is_between(row, RRS_ROW_ADDI, RRS_ROW_ANDI) ||
           is_between(row, RRS_ROW_LB, RRS_ROW_LW) || row == RRS_ROW_JALR;
}

static int has_rd(uint32_t row) {
    return row < RRS_ROW_FENCE && !is_branch(row) && !is_between(row, RRS_ROW_SB, RRS_ROW_SW);
}

/* Whether a case is one of a row. */
static int is_case(uint32_t row, int which) {
    int is_address = is_between(row, RRS_ROW_LB, RRS_ROW_SW) || row == RRS_ROW_JALR;
    if (which == 0) return 1;
    if (which <= 5) return has_rs1(row) && !is_address; /* no address at the edges is mapped */
    if (which <= 10) return has_rs2(row);
    if (which == 11) return is_between(row, RRS_ROW_DIV, RRS_ROW_REMU);
    if (which == 12) return row == RRS_ROW_DIV || row == RRS_ROW_REM;
    if (which <= 14) return is_shift(row);
    if (which <= 18) return is_branch(row);
    if (which == 19) return has_rd(row) && has_rs1(row);
    if (which == 20) return has_rd(row);
    if (which == 21) return has_rs1(row) && !is_address;
    return has_rs2(row);
}

/* The number of the edge that a value is, from 0 on, or -1. */
static int edge_of(uint32_t value) {
    static const uint32_t edges[5] = {0, 1, 0xffffffff, 0x80000000, 0x7fffffff};
    int i;
    for (i = 0; i < 5; i++)
        if (value == edges[i]) return i;
    return -1;
}

void cover(struct coverage *coverage, const rrs_retired *r) {
    rrs_instruction i = rrs_decode(r->insn);
    uint64_t *counts = coverage->counts[i.row < ROWS ? i.row : RRS_ROW_ILLEGAL];
    int first = edge_of(r->rs1_rdata), second = edge_of(r->rs2_rdata);
    uint32_t amount = i.row == RRS_ROW_SLLI || i.row == RRS_ROW_SRLI || i.row == RRS_ROW_SRAI
                          ? i.shamt
                          : r->rs2_rdata & 31;
    if (i.row == RRS_ROW_ILLEGAL || i.row >= ROWS) return; /* no row of the table */
    counts[0]++;
    if (first >= 0) counts[1 + first]++;
    if (second >= 0) counts[6 + second]++;
    counts[11] += r->rs2_rdata == 0;
    counts[12] += r->rs1_rdata == 0x80000000 && r->rs2_rdata == 0xffffffff;
    counts[13] += amount == 0;
    counts[14] += amount == 31;
    if (is_branch(i.row) && !r->trap)
        counts[(r->pc_wdata == r->pc_rdata + 4 ? 17 : 15) + (i.imm < 0)]++;
    counts[19] += i.rd == i.rs1;
    counts[20] += i.rd == 0;
    counts[21] += i.rs1 == 0;
    counts[22] += i.rs2 == 0;
}

void tell_coverage(const struct coverage *coverage, FILE *file) {
    const char *separator = "";
    uint32_t row;
    int which;
    for (row = 1; row < ROWS; row++)
        for (which = 0; which < CASES; which++) {
            char name[RRS_NAME_SIZE];
            if (!is_case(row, which)) continue;
            rrs_row_name(row, name, sizeof name);
            fprintf(file, "%s\"%s%s\": %llu", separator, name, names[which],
                    (unsigned long long)coverage->counts[row][which]);
            separator = ", ";
        }
}
