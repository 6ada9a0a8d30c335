/* Calls the library for C in a loop, to count what a step takes: calls FILE LIMIT CALL PIECE
 *
 * It puts the file at address 0 of 64 KiB, and runs it from there to a fault or the limit, by calls
 * of PIECE steps each, or of one step where CALL is `step`. It prints the steps.
 */
#include <stdio.h>
#include <stdlib.h>
#include <string.h>

#include "rrs.h"

enum { WORDS = 16384, STOPS = 4 };
static uint32_t words[WORDS];
static rrs_hart hart;
static rrs_cache cache;
/* no program comes here */
static const uint32_t stops[STOPS] = {0xfff0, 0xfff4, 0xfff8, 0x12345678};

static const char *const names[] = {"step", "run", "run_cached", "run_until", "run_until_cached"};
enum call { STEP, RUN, RUN_CACHED, RUN_UNTIL, RUN_UNTIL_CACHED, CALLS };

/* Steps until the limit or a fault, which ends it with another number of steps. */
static uint64_t run(enum call call, uint64_t limit) {
    switch (call) {
    case RUN: return rrs_run(&hart, words, WORDS, 0, limit).steps;
    case RUN_CACHED: return rrs_run_cached(&hart, &cache, words, WORDS, 0, limit).steps;
    case RUN_UNTIL: return rrs_run_until(&hart, words, WORDS, 0, limit, stops, STOPS).steps;
    case RUN_UNTIL_CACHED:
        return rrs_run_until_cached(&hart, &cache, words, WORDS, 0, limit, stops, STOPS).steps;
    default: return rrs_step(&hart, words, WORDS, 0).kind == RRS_OK;
    }
}

int main(int count, char **arguments) {
    FILE *file = count == 5 ? fopen(arguments[1], "rb") : NULL;
    uint64_t limit, piece, steps = 0, wanted, made;
    int call = 0;
    if (file == NULL || fread(words, 1, sizeof words, file) == 0) return 2;
    limit = strtoull(arguments[2], NULL, 10);
    while (call < CALLS && strcmp(arguments[3], names[call]) != 0) call++;
    piece = strtoull(arguments[4], NULL, 10);
    rrs_cache_clear(&cache);
    do {
        wanted = limit - steps < piece ? limit - steps : piece;
        made = run((enum call)call, wanted);
        steps += made;
    } while (steps < limit && made == wanted);
    printf("steps %llu\n", (unsigned long long)steps);
    return 0;
}
