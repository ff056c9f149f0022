/* Blocks of bytes as include/mudasgup.h has them, read and written in plain C. */
#ifndef BLOCKS_H
#define BLOCKS_H
#include "frame.h"
#include <mudasgup.h>
#include <string.h>

/* Sets, and the numbers of the old kinds of packets, the highest byte first. */
static inline uint16_t short_in(const uint8_t *bytes) { return (uint16_t)(bytes[0] << 8 | bytes[1]); }

static inline void short_out(uint16_t number, uint8_t *bytes) { bytes[0] = (uint8_t)(number >> 8), bytes[1] = (uint8_t)number; }

static inline void number_out(uint32_t number, uint8_t *bytes) {
    bytes[0] = (uint8_t)(number >> 24), bytes[1] = (uint8_t)(number >> 16), bytes[2] = (uint8_t)(number >> 8), bytes[3] = (uint8_t)number;
}

static inline void doors_out(uint64_t doors, uint8_t *bytes) {
    for (size_t k = 0; k < MUDASGUP_DOORS_SIZE; k++)
        bytes[k] = (uint8_t)(doors >> 8 * k);
}

static inline struct tree tree_in(const uint8_t *block) {
    struct tree t = {.columns = block[MUDASGUP_TREE_COLUMNS] % MUDASGUP_WATCH_SENDER, .root = block[MUDASGUP_TREE_ROOT],
                     .watch = block[MUDASGUP_TREE_COLUMNS] >= MUDASGUP_WATCH_SENDER};
    memcpy(t.up, block + MUDASGUP_TREE_UP, sizeof t.up);
    memcpy(t.first, block + MUDASGUP_TREE_FIRST, sizeof t.first);
    return t;
}

static inline void tree_out(const struct tree *t, uint8_t *block) {
    block[MUDASGUP_TREE_LAYOUT] = MUDASGUP_LAYOUT_TREE;
    block[MUDASGUP_TREE_COLUMNS] = (uint8_t)(t->columns + (t->watch ? MUDASGUP_WATCH_SENDER : 0)), block[MUDASGUP_TREE_ROOT] = (uint8_t)t->root;
    memcpy(block + MUDASGUP_TREE_UP, t->up, sizeof t->up);
    memcpy(block + MUDASGUP_TREE_FIRST, t->first, sizeof t->first);
}

static inline struct column column_in(const uint8_t *block) {
    uint8_t status = block[MUDASGUP_COLUMN_STATUS];
    return (struct column){.doors = doors_in(block + MUDASGUP_COLUMN_DOORS), .number = number_in(block + MUDASGUP_COLUMN_NUMBER),
                           .send = short_in(block + MUDASGUP_COLUMN_SEND), .awaited = short_in(block + MUDASGUP_COLUMN_AWAITED),
                           .owed = short_in(block + MUDASGUP_COLUMN_OWED), .noted = short_in(block + MUDASGUP_COLUMN_NOTED),
                           .running = status & 1, .whole = status >> 1 & 1, .sender = status >> 2, .mask = block[MUDASGUP_COLUMN_MASK],
                           .pending = block[MUDASGUP_COLUMN_PENDING]};
}

static inline void column_out(size_t i, const struct column *c, uint8_t *block) {
    block[MUDASGUP_COLUMN_LAYOUT] = MUDASGUP_LAYOUT_COLUMN, block[MUDASGUP_COLUMN_OWN] = (uint8_t)i;
    doors_out(c->doors, block + MUDASGUP_COLUMN_DOORS);
    number_out(c->number, block + MUDASGUP_COLUMN_NUMBER);
    short_out(c->send, block + MUDASGUP_COLUMN_SEND);
    short_out(c->awaited, block + MUDASGUP_COLUMN_AWAITED);
    short_out(c->owed, block + MUDASGUP_COLUMN_OWED);
    short_out(c->noted, block + MUDASGUP_COLUMN_NOTED);
    block[MUDASGUP_COLUMN_STATUS] = (uint8_t)(c->running + 2 * c->whole + 4 * c->sender);
    block[MUDASGUP_COLUMN_MASK] = c->mask, block[MUDASGUP_COLUMN_PENDING] = c->pending;
}

/* The doors of a message behind its number, and its size. */
static inline size_t doors_behind(const struct packet *p, uint8_t *bytes, size_t size) {
    if (p->kind == ACKNOWLEDGEMENT)
        return size;
    doors_out(p->doors, bytes + size);
    return size + MUDASGUP_DOORS_SIZE;
}

/* A packet in fifteen bytes, 0 past it, and its size. */
static inline size_t packet_out(const struct packet *p, uint8_t *bytes) {
    memset(bytes, 0, MUDASGUP_PACKET_SIZE);
    bytes[MUDASGUP_PACKET_KIND] = p->kind, bytes[MUDASGUP_PACKET_FROM] = p->from, bytes[MUDASGUP_PACKET_TO] = p->to;
    number_out(p->number, bytes + MUDASGUP_PACKET_NUMBER);
    return doors_behind(p, bytes, ACKNOWLEDGEMENT_SIZE);
}

#endif
