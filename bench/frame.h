/* Frames of joined packets in plain C. */
#ifndef FRAME_H
#define FRAME_H
#include "column.h"

enum { FRAME_PACKETS = 512, MESSAGE_SIZE = 15, ACKNOWLEDGEMENT_SIZE = 7 };

struct frame {
    size_t count;
    struct packet packets[FRAME_PACKETS];
};

/* The doors in eight bytes, the lowest first. */
static inline uint64_t doors_in(const uint8_t *bytes) {
    uint64_t doors = 0;
    for (int i = 7; i >= 0; i--)
        doors = doors << 8 | bytes[i];
    return doors;
}

static inline uint32_t number_in(const uint8_t *bytes) { return (uint32_t)bytes[0] << 24 | (uint32_t)bytes[1] << 16 | (uint32_t)bytes[2] << 8 | bytes[3]; }

/* How many bytes the packet at the start has, or 0 where there is none. */
static inline size_t packet_size(const uint8_t *bytes, size_t size) {
    if (size < ACKNOWLEDGEMENT_SIZE)
        return 0;
    size_t used = bytes[0] == MESSAGE ? MESSAGE_SIZE : bytes[0] == ACKNOWLEDGEMENT ? ACKNOWLEDGEMENT_SIZE : 0;
    return used == 0 || size < used || bytes[1] > 15 || bytes[2] > 15 || bytes[1] == bytes[2] ? 0 : used;
}

/* The same, with the packet. */
static inline size_t read_packet(const uint8_t *bytes, size_t size, struct packet *p) {
    size_t used = packet_size(bytes, size);
    if (used)
        *p = (struct packet){bytes[0], bytes[1], bytes[2], number_in(bytes + 3), used == MESSAGE_SIZE ? doors_in(bytes + ACKNOWLEDGEMENT_SIZE) : 0};
    return used;
}

/* 0 with the packets in f, or 12 with none. */
uint8_t read_frame(const uint8_t *bytes, size_t size, struct frame *f);

#endif
