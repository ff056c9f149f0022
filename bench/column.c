/* The steps of a lone column in plain C, in place, with the refusals of document 01: what crates/column is measured beside. */
#include "column.h"

/* Whether every parent is one of the columns: a pass before any climb, over all sixteen places at once. */
static bool parents_valid(const struct tree *t) {
    uint8_t n = (uint8_t)t->columns, wrong = 0;
    for (uint8_t j = 0; j < 16; j++)
        wrong |= (uint8_t)((t->up[j] >= n) & (j < n));
    return !wrong;
}

/* Whether the lists of a tree are plainly good, in unused places too: the root is 0, the sequence ascends, and every parent is lower than its child.
   Most trees are, and need no climb. The tables are of bytes, so that bytes are compared. */
static bool rises(const struct tree *t) {
    static const uint8_t ascending[16] = ASCENDING, most[16] = {0, 0, 1, 2, 3, 4, 5, 6, 7, 8, 9, 10, 11, 12, 13, 14};
    uint8_t wrong = t->root != 0;
    for (size_t j = 0; j < 16; j++)
        wrong |= (uint8_t)((t->first[j] != ascending[j]) | (t->up[j] > most[j]));
    return !wrong;
}

static bool lists_every_column(const struct tree *t) {
    uint32_t listed = 0;
    for (size_t c = 0; c < t->columns; c++) {
        if (t->first[c] >= t->columns)
            return false;
        listed |= 1u << t->first[c];
    }
    return listed == (1u << t->columns) - 1;
}

/* Whether the climb from c meets the root, or a column below c, from which the climb has been seen to end. */
static bool climbs(const struct tree *t, size_t c) {
    size_t at = c, budget = t->columns;
    if (t->up[c] < c)
        return true;
    while (budget > 0 && at != t->root) {
        at = t->up[at];
        if (at < c)
            return true;
        budget--;
    }
    return budget > 0;
}

uint8_t tree_refusal(const struct tree *t) {
    size_t n = t->columns;
    if (n == 0 || n > 16)
        return 2;
    if (t->root >= n || !parents_valid(t))
        return 3;
    if (rises(t))
        return 0;
    if (!lists_every_column(t) || t->up[t->root] != t->root)
        return 3;
    for (size_t c = 0; c < n; c++)
        if (!climbs(t, c))
            return 3;
    return 0;
}

static uint8_t standing(const struct tree *t, size_t i, const struct column *c) {
    uint8_t refusal = tree_refusal(t);
    if (refusal)
        return refusal;
    return is_valid(t, i, c) ? 0 : 4;
}

/* All sixteen places are compared at once, then masked. */
static uint16_t children(const struct tree *t, size_t c) {
    uint16_t set = 0;
    for (size_t j = 0; j < 16; j++)
        set |= (uint16_t)((t->up[j] == (uint8_t)c) << j);
    return set & (uint16_t)((1u << t->columns) - 1) & (uint16_t)~(1u << t->root);
}

static size_t lowest(uint16_t set) { return (size_t)__builtin_ctz(set); }

static struct answer refused(uint8_t number) { return (struct answer){.refusal = number}; }

void order_effect(const struct tree *t, struct column *c, uint64_t doors) {
    c->number++;
    c->doors = doors;
    c->send = children(t, t->root);
    c->pending |= RECORD_RECEIVED;
}

struct answer order(const struct tree *t, size_t i, struct column *c, uint64_t doors) {
    uint8_t refusal = standing(t, i, c);
    if (refusal)
        return refused(refusal);
    if (i != t->root)
        return refused(4);
    refusal = order_refusal(t, c);
    if (!refusal)
        order_effect(t, c, doors);
    return refused(refusal);
}

struct packet send_effect(const struct tree *t, size_t i, struct column *c) {
    size_t k = earliest(t, c->send);
    c->send &= ~(1u << k);
    if (k == i)
        return (struct packet){0};
    if (has(c->noted, k)) {
        c->send |= children(t, k);
        return (struct packet){0};
    }
    c->awaited |= 1u << k;
    return (struct packet){MESSAGE, (uint8_t)i, (uint8_t)k, c->number, c->doors};
}

struct answer send(const struct tree *t, size_t i, struct column *c) {
    uint8_t refusal = standing(t, i, c);
    if (refusal)
        return refused(refusal);
    if (!c->running)
        return refused(5);
    if (!c->send)
        return refused(6);
    return (struct answer){.put = send_effect(t, i, c)};
}

struct packet ack_effect(size_t i, struct column *c) {
    size_t k = lowest(c->owed);
    c->owed &= ~(1u << k);
    return (struct packet){ACKNOWLEDGEMENT, (uint8_t)i, (uint8_t)k, c->number, 0};
}

struct answer take_effect(const struct tree *t, size_t i, struct column *c, struct packet p) {
    if (p.kind == ACKNOWLEDGEMENT) {
        if (p.number == c->number)
            c->awaited &= ~(1u << p.from);
        return refused(0);
    }
    if (p.number == c->number) {
        c->owed |= 1u << p.from;
        return refused(0);
    }
    if (p.number < c->number)
        return (struct answer){.put = {ACKNOWLEDGEMENT, (uint8_t)i, p.from, p.number, 0}};
    if (c->owed)
        return (struct answer){.left = true, .put = ack_effect(i, c)};
    c->number = p.number;
    c->doors = p.doors;
    c->send = children(t, i);
    c->awaited = 0;
    c->owed = 1u << p.from;
    c->whole = i == t->root;
    c->sender = p.from;
    c->pending |= RECORD_RECEIVED;
    return refused(0);
}

struct answer take(const struct tree *t, size_t i, struct column *c, struct packet p) {
    uint8_t refusal = standing(t, i, c);
    if (refusal)
        return refused(refusal);
    if (!ends_valid(t, &p) || p.to != i)
        return refused(4);
    if (!c->running)
        return refused(5);
    return take_effect(t, i, c, p);
}

struct answer ack(const struct tree *t, size_t i, struct column *c) {
    uint8_t refusal = standing(t, i, c);
    if (refusal)
        return refused(refusal);
    if (!c->running)
        return refused(5);
    if (!may_ack(t, i, c))
        return refused(6);
    return (struct answer){.put = ack_effect(i, c)};
}

void all_effect(const struct tree *t, struct column *c) {
    c->whole = true;
    c->send = 1u << t->root;
    c->pending |= TOOK_OVER;
}

struct answer all(const struct tree *t, size_t i, struct column *c) {
    uint8_t refusal = standing(t, i, c);
    if (refusal)
        return refused(refusal);
    if (!c->running)
        return refused(5);
    if (!may_all(t, i, c))
        return refused(6);
    all_effect(t, c);
    return refused(0);
}

void note_effect(const struct tree *t, struct column *c, size_t j) {
    c->noted |= 1u << j;
    c->pending |= HALT_NOTED;
    if (has(c->awaited, j)) {
        c->awaited &= ~(1u << j);
        c->send |= children(t, j);
    }
}

struct answer note(const struct tree *t, size_t i, struct column *c, size_t j) {
    uint8_t refusal = standing(t, i, c);
    if (refusal)
        return refused(refusal);
    if (j >= t->columns)
        return refused(4);
    if (!c->running)
        return refused(5);
    if (j == i || has(c->noted, j))
        return refused(6);
    note_effect(t, c, j);
    return refused(0);
}

struct answer halt(const struct tree *t, size_t i, struct column *c) {
    uint8_t refusal = standing(t, i, c);
    if (refusal)
        return refused(refusal);
    if (!c->running)
        return refused(5);
    c->running = false;
    return refused(0);
}
