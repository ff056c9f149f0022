/* Steps of a bank in plain C, in place, with the refusals of document 01: what crates/bank is measured beside. */
#include "bank.h"
#include <string.h>

/* Row 4 of every column, and who runs. */
static bool columns_valid(const struct bank *b, uint16_t *running) {
    for (size_t i = 0; i < b->tree.columns; i++) {
        if (!is_valid(&b->tree, i, &b->columns[i]))
            return false;
        *running |= b->columns[i].running << i;
    }
    return true;
}

/* Row 4 of every packet. The ends are tested one by one; the receivers are gathered, and compared with those who run once. */
static bool packets_valid(const struct bank *b, uint16_t running) {
    size_t count = b->count;
    uint32_t receivers = 0;
    for (size_t k = 0; k < count; k++) {
        if (!ends_valid(&b->tree, &b->packets[k]))
            return false;
        receivers |= 1u << b->packets[k].to;
    }
    return !(receivers & ~(uint32_t)running);
}

struct survey survey(const struct bank *b) {
    struct survey s = {tree_refusal(&b->tree), 0};
    if (!s.refusal && !(columns_valid(b, &s.running) && b->count <= CAPACITY && packets_valid(b, s.running)))
        s.refusal = 4;
    return s;
}

uint8_t acting_refusal(const struct bank *b, size_t i) {
    struct survey s = survey(b);
    if (s.refusal)
        return s.refusal;
    if (i >= b->tree.columns)
        return 4;
    return has(s.running, i) ? 0 : 5;
}

void bank_fresh(struct bank *b, const struct tree *t) {
    *b = (struct bank){.tree = *t};
    for (size_t i = 0; i < t->columns; i++)
        b->columns[i] = (struct column){.running = true, .whole = i == t->root, .sender = (uint8_t)t->root};
}

uint8_t bank_order(struct bank *b, uint64_t doors) {
    uint8_t refusal = survey(b).refusal;
    if (refusal)
        return refusal;
    struct column *c = &b->columns[b->tree.root];
    refusal = order_refusal(&b->tree, c);
    if (!refusal)
        order_effect(&b->tree, c, doors);
    return refusal;
}

uint8_t settle(struct bank *b, struct column *c, const struct column *before, struct packet p) {
    if (!p.kind || !b->columns[p.to].running)
        return 0;
    if (b->count == CAPACITY) {
        *c = *before;
        return 9;
    }
    b->packets[b->count++] = p;
    return 0;
}

uint8_t bank_send(struct bank *b, size_t i) {
    uint8_t refusal = acting_refusal(b, i);
    if (refusal)
        return refusal;
    struct column *c = &b->columns[i];
    if (!c->send)
        return 6;
    struct column before = *c;
    return settle(b, c, &before, send_effect(&b->tree, i, c));
}

uint8_t settle_taken(struct bank *b, size_t place, const struct column *before, struct answer a) {
    struct column *c = &b->columns[b->packets[place].to];
    bool put = a.put.kind && b->columns[a.put.to].running;
    if (a.left && put && b->count == CAPACITY) {
        *c = *before;
        return 9;
    }
    if (!a.left) {
        b->count--;
        memmove(&b->packets[place], &b->packets[place + 1], (b->count - place) * sizeof b->packets[0]);
    }
    if (put)
        b->packets[b->count++] = a.put;
    return 0;
}

uint8_t bank_take(struct bank *b, size_t place) {
    uint8_t refusal = survey(b).refusal;
    if (refusal)
        return refusal;
    if (place >= b->count)
        return 10;
    struct packet taken = b->packets[place];
    struct column *c = &b->columns[taken.to];
    struct column before = *c;
    return settle_taken(b, place, &before, take_effect(&b->tree, taken.to, c, taken));
}

uint8_t bank_ack(struct bank *b, size_t i) {
    uint8_t refusal = acting_refusal(b, i);
    if (refusal)
        return refusal;
    struct column *c = &b->columns[i];
    if (!may_ack(&b->tree, i, c))
        return 6;
    struct column before = *c;
    return settle(b, c, &before, ack_effect(i, c));
}

uint8_t bank_all(struct bank *b, size_t i) {
    uint8_t refusal = acting_refusal(b, i);
    if (refusal)
        return refusal;
    if (!may_all(&b->tree, i, &b->columns[i]))
        return 6;
    all_effect(&b->tree, &b->columns[i]);
    return 0;
}

uint8_t bank_note(struct bank *b, size_t i, size_t j) {
    struct survey s = survey(b);
    if (s.refusal)
        return s.refusal;
    if (i >= b->tree.columns || j >= b->tree.columns)
        return 4;
    struct column *c = &b->columns[i];
    if (!has(s.running, i))
        return 5;
    if (j == i || has(s.running, j) || has(c->noted, j))
        return 6;
    note_effect(&b->tree, c, j);
    return 0;
}

uint8_t bank_halt(struct bank *b, uint32_t set) {
    struct survey s = survey(b);
    if (s.refusal)
        return s.refusal;
    if (set >> b->tree.columns)
        return 4;
    if (set & ~(uint32_t)s.running)
        return 5;
    for (uint32_t rest = set; rest; rest &= rest - 1)
        b->columns[__builtin_ctz(rest)].running = false;
    size_t kept = 0;
    for (size_t k = 0; k < b->count; k++)
        if (!(set >> b->packets[k].to & 1))
            b->packets[kept++] = b->packets[k];
    b->count = kept;
    return 0;
}

uint16_t halted_columns(const struct bank *b, uint16_t running) { return (uint16_t)(((1u << b->tree.columns) - 1) & ~(uint32_t)running); }

/* Of a valid bank in which no packet is under way. */
static bool columns_rest(const struct bank *b, uint16_t halted) {
    for (size_t i = 0; i < b->tree.columns; i++) {
        const struct column *c = &b->columns[i];
        if (c->running && (c->send || may_ack(&b->tree, i, c) || may_all(&b->tree, i, c) || (halted & ~c->noted)))
            return false;
    }
    return true;
}

/* A bank that every step refuses is at rest where no packet is under way. */
bool bank_at_rest(const struct bank *b) {
    if (b->count)
        return false;
    struct survey s = survey(b);
    return s.refusal || columns_rest(b, halted_columns(b, s.running));
}

uint8_t bank_back(struct bank *b, size_t j) {
    struct survey s = survey(b);
    if (s.refusal)
        return s.refusal;
    if (j >= b->tree.columns)
        return 4;
    if (has(s.running, j))
        return 6;
    if (j == b->tree.root)
        return 15;
    uint16_t halted = halted_columns(b, s.running);
    if (b->count || !columns_rest(b, halted))
        return 14;
    if (!s.running)
        return 16;
    uint8_t sender = (uint8_t)__builtin_ctz(s.running);
    struct column *back = &b->columns[j];
    *back = (struct column){.running = true, .number = b->columns[sender].number, .doors = b->columns[sender].doors, .noted = halted,
                            .whole = !has(s.running, b->tree.root), .sender = sender, .mask = back->mask, .pending = back->pending};
    for (size_t i = 0; i < b->tree.columns; i++)
        b->columns[i].noted &= (uint16_t)~(1u << j);
    return 0;
}
