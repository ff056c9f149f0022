/* A lone column in plain C. */
#ifndef COLUMN_H
#define COLUMN_H
#include <stdbool.h>
#include <stddef.h>
#include <stdint.h>

struct tree {
    size_t columns;
    size_t root;
    uint8_t up[16];
    uint8_t first[16];
    bool watch; /* true: columns watch who sent their record */
};

#define ASCENDING {0, 1, 2, 3, 4, 5, 6, 7, 8, 9, 10, 11, 12, 13, 14, 15}

struct column {
    uint64_t doors;
    uint32_t number;
    uint16_t send, awaited, owed, noted;
    bool running;
    bool whole;
    uint8_t sender;
    uint8_t mask, pending; /* bytes 5 and 6 of its page */
};

/* What is pending. */
enum { RECORD_RECEIVED = 1, HALT_NOTED = 2, TOOK_OVER = 4 };

enum { NO_PACKET = 0, MESSAGE = 3, ACKNOWLEDGEMENT = 4 };

struct packet {
    uint8_t kind;
    uint8_t from, to;
    uint32_t number;
    uint64_t doors;
};

struct answer {
    uint8_t refusal;
    bool left;
    struct packet put;
};

struct answer order(const struct tree *t, size_t i, struct column *c, uint64_t doors);
struct answer send(const struct tree *t, size_t i, struct column *c);
struct answer take(const struct tree *t, size_t i, struct column *c, struct packet p);
struct answer ack(const struct tree *t, size_t i, struct column *c);
struct answer all(const struct tree *t, size_t i, struct column *c);
struct answer note(const struct tree *t, size_t i, struct column *c, size_t j);
struct answer halt(const struct tree *t, size_t i, struct column *c);

/* What the steps of a bank use: the checks, and the effects without them. */
static inline bool has(uint16_t set, size_t i) { return i < 16 && (set >> i & 1); }

/* The member of a set that comes earliest in the tree's sequence. */
static inline size_t earliest(const struct tree *t, uint16_t set) {
    const uint8_t *c = t->first;
    while (!(set >> *c & 1))
        c++;
    return *c;
}

static inline bool within(uint16_t set, size_t n) { return n >= 16 || set >> n == 0; }

static inline bool is_valid(const struct tree *t, size_t i, const struct column *c) {
    return i < t->columns && within(c->send | c->awaited | c->owed | c->noted, t->columns) && !has(c->owed, i)
        && (i != t->root || c->whole) && c->sender < t->columns;
}

/* Row 4 of a packet, but for whether its receiver runs. */
static inline bool ends_valid(const struct tree *t, const struct packet *p) {
    return p->to < t->columns && p->from < t->columns && p->from != p->to && (p->to != t->root || p->kind != MESSAGE || t->watch);
}

static inline bool idle(const struct column *c) { return !c->send && !c->awaited; }

static inline bool may_ack(const struct tree *t, size_t i, const struct column *c) {
    return c->owed && ((c->whole && !(t->watch && i == t->root)) || idle(c));
}

static inline bool may_all(const struct tree *t, size_t i, const struct column *c) {
    return i != t->root && has(c->noted, t->watch ? c->sender : t->root) && !c->whole && idle(c);
}

static inline uint8_t order_refusal(const struct tree *t, const struct column *c) {
    if (!c->running)
        return 5;
    if (!idle(c) || (t->watch && c->owed))
        return 7;
    return c->number == UINT32_MAX ? 8 : 0;
}

uint8_t tree_refusal(const struct tree *t);
void order_effect(const struct tree *t, struct column *c, uint64_t doors);
struct packet ack_effect(size_t i, struct column *c);
void all_effect(const struct tree *t, struct column *c);
struct packet send_effect(const struct tree *t, size_t i, struct column *c);
struct answer take_effect(const struct tree *t, size_t i, struct column *c, struct packet p);
void note_effect(const struct tree *t, struct column *c, size_t j);

#endif
