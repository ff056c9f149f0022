/* What the calls in plain C share: refusals by number, and text. */
#ifndef BOUNDARY_H
#define BOUNDARY_H
#include "blocks.h"

static inline uint64_t refused(mudasgup_status number) { return MUDASGUP_RAW_REFUSED + number; }

static inline bool is_column(const uint8_t *column, uint64_t column_size) {
    return column_size == MUDASGUP_COLUMN_SIZE && column[MUDASGUP_COLUMN_LAYOUT] == MUDASGUP_LAYOUT_COLUMN;
}

static inline char *put_text(char *at, const char *text) {
    size_t length = strlen(text);
    memcpy(at, text, length);
    return at + length;
}

static inline char *put_number(char *at, uint32_t n) {
    char digits[10];
    size_t first = sizeof digits;
    do
        digits[--first] = (char)('0' + n % 10);
    while (n /= 10);
    memcpy(at, digits + first, sizeof digits - first);
    return at + sizeof digits - first;
}

#endif
