/* What the programs of laps share, as crates/laps_timing on the other side. */
#ifndef LAPS_H
#define LAPS_H
#include "column.h"

enum { RANGE = 16777216, FACTOR = 31 };

/* The sum after a lap that left n. */
static inline uint64_t fold(uint64_t sum, uint64_t n) { return (sum % RANGE * FACTOR + n % RANGE) % RANGE; }

/* The columns as a heap. A byte that is read is joined to every number: as 0 it changes none, and no compiler knows it. */
static inline struct tree heap(size_t columns, uint8_t read) {
    struct tree t = {.columns = columns, .root = read};
    for (size_t i = 0; i < 16; i++) {
        t.up[i] = (uint8_t)(read | (i ? (i - 1) / 2 : 0));
        t.first[i] = (uint8_t)(read | i);
    }
    return t;
}

/* Of the space behind the letter, and so 0. */
static inline uint8_t read_byte(const char *line) { return (uint8_t)line[1] % 8; }

#endif
