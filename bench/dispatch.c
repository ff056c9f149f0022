/* The dispatcher of a bank in plain C, in place: what crates/bank is measured beside. */
#include "bank.h"

enum kind { NOTE, SEND, ACK, ALL, TAKE };

struct step {
    enum kind kind;
    size_t i, j;
};

/* Whether a packet to j would find room, or would not be put. */
static bool fits(const struct bank *b, uint16_t halted, size_t j) { return b->count < CAPACITY || has(halted, j); }

static bool can_send(const struct bank *b, uint16_t halted, size_t i, const struct column *c) {
    if (!c->send)
        return false;
    if (b->count < CAPACITY)
        return true;
    size_t k = earliest(&b->tree, c->send);
    return k == i || has(c->noted, k) || fits(b, halted, k);
}

static bool can_ack(const struct bank *b, uint16_t halted, size_t i, const struct column *c) {
    return may_ack(&b->tree, i, c) && fits(b, halted, (size_t)__builtin_ctz(c->owed));
}

/* What column i does, or the take of the oldest packet where it can do nothing. */
static struct step step_of(const struct bank *b, uint16_t halted, size_t i) {
    const struct column *c = &b->columns[i];
    uint16_t new = halted & ~c->noted;
    struct step take = {TAKE, b->packets[0].to % 16, 0};
    if (!c->running)
        return take;
    if (new)
        return (struct step){NOTE, i, (size_t)__builtin_ctz(new)};
    if (can_send(b, halted, i, c))
        return (struct step){SEND, i, 0};
    if (can_ack(b, halted, i, c))
        return (struct step){ACK, i, 0};
    if (may_all(&b->tree, i, c))
        return (struct step){ALL, i, 0};
    return take;
}

/* Column i as a set where it can do anything, else the empty set. */
static uint16_t ready(const struct bank *b, uint16_t halted, size_t i) { return (uint16_t)((step_of(b, halted, i).kind != TAKE) << i); }

static uint16_t ready_columns(const struct bank *b, uint16_t halted) {
    uint16_t set = 0;
    for (size_t i = 0; i < b->tree.columns; i++)
        set |= ready(b, halted, i);
    return set;
}

static uint8_t perform(struct bank *b, struct step x) {
    switch (x.kind) {
    case NOTE: return bank_note(b, x.i, x.j);
    case SEND: return bank_send(b, x.i);
    case ACK: return bank_ack(b, x.i);
    case ALL: return bank_all(b, x.i);
    default: return bank_take(b, 0);
    }
}

/* The same of a valid bank, for a step that is accepted or takes the oldest packet: the effect, and no test of a refusal before it. */
static uint8_t perform_accepted(struct bank *b, struct step x) {
    struct column *c = &b->columns[x.i], before = *c;
    switch (x.kind) {
    case NOTE: note_effect(&b->tree, c, x.j); return 0;
    case SEND: return settle(b, c, &before, send_effect(&b->tree, x.i, c));
    case ACK: return settle(b, c, &before, ack_effect(x.i, c));
    case ALL: all_effect(&b->tree, c); return 0;
    default: return b->count ? settle_taken(b, 0, &before, take_effect(&b->tree, x.i, c, b->packets[0])) : 10;
    }
}

/* Row 4 of the newest packet: nothing else that a step can have changed breaks it, since every effect keeps that of its column. */
static bool still_valid(const struct bank *b, uint16_t running) {
    if (!b->count)
        return true;
    const struct packet *newest = &b->packets[b->count - 1];
    return ends_valid(&b->tree, newest) && has(running, newest->to);
}

uint8_t bank_dispatch(struct bank *b, size_t limit, bool thorough, size_t *steps) {
    *steps = 0;
    struct survey s = survey(b);
    if (s.refusal)
        return s.refusal;
    uint16_t halted = halted_columns(b, s.running), set = ready_columns(b, halted);
    while (*steps < limit && (set || b->count)) {
        bool full = b->count == CAPACITY;
        struct step x = step_of(b, halted, set ? (size_t)__builtin_ctz(set) : 0);
        if (thorough ? perform(b, x) : perform_accepted(b, x))
            break;
        ++*steps;
        if (!thorough && !still_valid(b, s.running))
            break;
        bool same = full == (b->count == CAPACITY);
        set = same ? (uint16_t)(set & ~(1u << x.i)) | ready(b, halted, x.i) : ready_columns(b, halted);
    }
    return 0;
}
