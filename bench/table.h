/* The text of a table read in plain C. */
#ifndef TABLE_H
#define TABLE_H
#include "column.h"
#include <string.h>

struct cursor {
    const uint8_t *at, *end;
};

static inline bool literal(struct cursor *c, const char *text) {
    size_t n = strlen(text);
    if ((size_t)(c->end - c->at) < n || memcmp(c->at, text, n) != 0)
        return false;
    c->at += n;
    return true;
}

/* After a leading zero, and after the last digit of its width, a numeral ends: what follows is no digit of it. */
static inline bool numeral(struct cursor *c, int width, size_t *value) {
    if (c->at == c->end || *c->at < '0' || *c->at > '9')
        return false;
    *value = *c->at++ - '0';
    while (*value && --width && c->at < c->end && *c->at >= '0' && *c->at <= '9')
        *value = *value * 10 + (*c->at++ - '0');
    return true;
}

/* A line's numbers up to its end, and how many they are; past the sixteenth they are counted alone. */
static inline bool numbers(struct cursor *c, uint8_t *list, size_t *count) {
    size_t number;
    *count = 0;
    do {
        if (!numeral(c, 2, &number))
            return false;
        if (*count < 16)
            list[*count] = (uint8_t)number;
        (*count)++;
    } while (literal(c, ","));
    return literal(c, "\n");
}

/* The table's refusal, 0 where the cursor is after it. */
static inline uint8_t read_tree(struct cursor *c, struct tree *t) {
    *t = (struct tree){.first = ASCENDING};
    size_t parents, listed = 0;
    if (!literal(c, "columns=") || !numeral(c, 2, &t->columns) || !literal(c, "\nroot=") || !numeral(c, 2, &t->root) || !literal(c, "\nup="))
        return 1;
    if (!numbers(c, t->up, &parents))
        return 1;
    bool named = literal(c, "first=");
    if (named)
        memset(t->first, 0, sizeof t->first);
    if (named && !numbers(c, t->first, &listed))
        return 1;
    if (literal(c, "watch=") && !literal(c, "root\n") && !(t->watch = literal(c, "sender\n")))
        return 1;
    if (t->columns == 0 || t->columns > 16)
        return 2;
    return parents == t->columns && (!named || listed == t->columns) ? tree_refusal(t) : 3;
}

#endif
