/* An instance of the kit behind SystemVerilog's DPI: what its chandle points to. */
#ifndef RRS_DPI_H
#define RRS_DPI_H

#include <stddef.h>
#include <stdint.h>

#include "rrs.h"

struct rrs_dpi {
    rrs_hart hart;
    uint32_t base;   /* the address of the first word */
    uint32_t count;  /* how many words */
    uint32_t *words;
    rrs_retired record; /* what the latest step retired, also one that was completed */
    rrs_fault fault;    /* the exception of the latest step */
    rrs_reservation reservation; /* what is reserved, for the steps of a profile alone */
    rrs_csrs csrs;      /* the CSRs, for rrs_dpi_machine_step alone */
    rrs_machine_retired machine; /* what its latest step retired */
    char text[RRS_TEXT_SIZE]; /* the latest text or name */
};

/* The word of memory at an address, or NULL where there is none. */
uint32_t *rrs_dpi_place(struct rrs_dpi *model, uint32_t address);

#endif
