/* What was exercised: cases of each row, by its operands and by what came of it. */
#ifndef COVERAGE_H
#define COVERAGE_H

#include <stdint.h>
#include <stdio.h>

#include "rrs.h"

#define ROWS 49
#define CASES 23

struct coverage {
    uint64_t counts[ROWS][CASES];
};

/* Counts the cases of a record that is the model's. */
void cover(struct coverage *coverage, const rrs_retired *record);

/* Writes `"NAME": COUNT` for each case that there is, also those that did not come, with commas
 * between. */
void tell_coverage(const struct coverage *coverage, FILE *file);

#endif
