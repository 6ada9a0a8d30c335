/* The design under test: a small simulator of RV32I and M, that says what each step retired. */
#ifndef DESIGN_H
#define DESIGN_H

#include <stddef.h>
#include <stdint.h>

#include "rrs.h"

/* The faults that can be planted in it. */
enum planted {
    PLANTED_NONE,
    PLANTED_LOGICAL_SHIFT, /* sra and srai fill with zeros. */
    PLANTED_MULHSU_SIGNED, /* mulhsu takes both numbers as signed. */
    PLANTED_STORE_MASK,    /* The mask of sh has a bit more. */
    PLANTED_JALR_ODD,      /* jalr leaves bit 0 of its target. */
    PLANTED_REM_LEAST,     /* rem of the least number by -1 is the least number. */
    PLANTED_LOST_STORE     /* A store to the last word of memory is told, and not made. */
};

struct design {
    uint32_t x[32];
    uint32_t pc;
    uint8_t *bytes; /* `size` bytes from `base` on. */
    uint32_t size;
    uint32_t base;
    enum planted planted;
};

/* Executes the instruction at the pc, and says what it retired. */
void design_step(struct design *design, uint64_t order, rrs_retired *retired);

#endif
