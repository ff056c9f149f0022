/* The exports for packets, frames and journals in plain C. */
#include "boundary.h"

enum { OLD_MESSAGE = 1, OLD_ACKNOWLEDGEMENT = 2, OLD_ACKNOWLEDGEMENT_SIZE = 5, OLD_MESSAGE_SIZE = 13 };

/* ---- packets */

uint64_t mudasgup_raw_packet_read(const uint8_t *bytes, uint64_t bytes_size, uint8_t *packet, uint64_t packet_size) {
    struct packet p;
    if (packet_size != MUDASGUP_PACKET_SIZE)
        return refused(MUDASGUP_E_BLOCK);
    return read_packet(bytes, bytes_size, &p) ? packet_out(&p, packet) : refused(MUDASGUP_E_PACKET);
}

static uint64_t leave_new(struct packet p, uint8_t *packet, uint64_t packet_size) {
    if (packet_size != MUDASGUP_PACKET_SIZE)
        return refused(MUDASGUP_E_BLOCK);
    return p.from > 15 || p.to > 15 || p.from == p.to ? refused(MUDASGUP_E_PACKET) : packet_out(&p, packet);
}

uint64_t mudasgup_raw_message(uint8_t from, uint8_t to, uint32_t number, const uint8_t *doors, uint64_t doors_size, uint8_t *packet, uint64_t packet_size) {
    if (doors_size != MUDASGUP_DOORS_SIZE)
        return refused(MUDASGUP_E_BLOCK);
    return leave_new((struct packet){MESSAGE, from, to, number, doors_in(doors)}, packet, packet_size);
}

uint64_t mudasgup_raw_acknowledgement(uint8_t from, uint8_t to, uint32_t number, uint8_t *packet, uint64_t packet_size) {
    return leave_new((struct packet){ACKNOWLEDGEMENT, from, to, number, 0}, packet, packet_size);
}

/* How many bytes the packet of an old kind at the start has, or 0 where there is none. */
static size_t read_old(const uint8_t *bytes, size_t size, struct packet *p) {
    if (size < OLD_ACKNOWLEDGEMENT_SIZE)
        return 0;
    size_t used = bytes[0] == OLD_MESSAGE ? OLD_MESSAGE_SIZE : bytes[0] == OLD_ACKNOWLEDGEMENT ? OLD_ACKNOWLEDGEMENT_SIZE : 0;
    if (used == 0 || size < used || bytes[1] > 15 || bytes[2] > 15 || bytes[1] == bytes[2])
        return 0;
    *p = (struct packet){bytes[0] == OLD_MESSAGE ? MESSAGE : ACKNOWLEDGEMENT, bytes[1], bytes[2], short_in(bytes + MUDASGUP_PACKET_NUMBER),
                         bytes[0] == OLD_MESSAGE ? doors_in(bytes + OLD_ACKNOWLEDGEMENT_SIZE) : 0};
    return used;
}

static size_t old_out(const struct packet *p, uint8_t *bytes) {
    memset(bytes, 0, MUDASGUP_PACKET_SIZE);
    bytes[MUDASGUP_PACKET_KIND] = p->kind == MESSAGE ? OLD_MESSAGE : OLD_ACKNOWLEDGEMENT, bytes[MUDASGUP_PACKET_FROM] = p->from, bytes[MUDASGUP_PACKET_TO] = p->to;
    short_out((uint16_t)p->number, bytes + MUDASGUP_PACKET_NUMBER);
    return doors_behind(p, bytes, OLD_ACKNOWLEDGEMENT_SIZE);
}

uint64_t mudasgup_raw_packet_convert(const uint8_t *bytes, uint64_t bytes_size, uint8_t *packet, uint64_t packet_size) {
    struct packet p;
    if (packet_size != MUDASGUP_PACKET_SIZE)
        return refused(MUDASGUP_E_BLOCK);
    size_t used = read_old(bytes, bytes_size, &p);
    if (used && used == bytes_size)
        return packet_out(&p, packet);
    used = read_packet(bytes, bytes_size, &p);
    if (!used || used != bytes_size)
        return refused(MUDASGUP_E_PACKET);
    return p.number > UINT16_MAX ? refused(MUDASGUP_E_NARROW) : old_out(&p, packet);
}

/* ---- frames */

uint64_t mudasgup_raw_frame_count(const uint8_t *frame, uint64_t frame_size) {
    size_t count = 0;
    for (size_t at = 0, used; at < frame_size; at += used, count++) {
        used = count == FRAME_PACKETS ? 0 : packet_size(frame + at, frame_size - at);
        if (used == 0)
            return refused(MUDASGUP_E_PACKET);
    }
    return count;
}

uint64_t mudasgup_raw_frame_join(const uint8_t *bytes, uint64_t bytes_size, uint8_t *frame, uint64_t frame_size, uint64_t at) {
    size_t used = packet_size(bytes, bytes_size);
    if (!used)
        return refused(MUDASGUP_E_PACKET);
    uint64_t count = mudasgup_raw_frame_count(frame, at < frame_size ? at : frame_size);
    if (count >= MUDASGUP_RAW_REFUSED)
        return count;
    if (at > frame_size || frame_size - at < used || count == FRAME_PACKETS)
        return refused(MUDASGUP_E_SPACE);
    memcpy(frame + at, bytes, used);
    return used;
}

/* ---- journals */

/* A line that was written, into the text that is lent. */
static uint64_t leave_line(const char *line, const char *end, uint8_t *text, uint64_t text_size) {
    size_t length = (size_t)(end - line);
    if (length > text_size)
        return refused(MUDASGUP_E_SPACE);
    memcpy(text, line, length);
    return length;
}

uint64_t mudasgup_raw_journal_owner(const uint8_t *column, uint64_t column_size, uint8_t *text, uint64_t text_size) {
    char line[MUDASGUP_JOURNAL_SIZE];
    if (!is_column(column, column_size))
        return refused(MUDASGUP_E_BLOCK);
    char *end = put_number(put_text(line, "column="), column[MUDASGUP_COLUMN_OWN]);
    *end++ = '\n';
    return leave_line(line, end, text, text_size);
}

/* The line for a packet of which one end, sent or got by key, is the column's. */
static uint64_t journaled(bool sent, const uint8_t *column, uint64_t column_size, const uint8_t *packet, uint64_t packet_size, uint8_t *text, uint64_t text_size) {
    char line[MUDASGUP_JOURNAL_SIZE];
    struct packet p;
    if (!is_column(column, column_size))
        return refused(MUDASGUP_E_BLOCK);
    if (!read_packet(packet, packet_size, &p))
        return refused(MUDASGUP_E_PACKET);
    if ((sent ? p.from : p.to) != column[MUDASGUP_COLUMN_OWN])
        return refused(MUDASGUP_E_STATE);
    char *end = put_text(put_text(line, sent ? "sent=" : "got="), p.kind == MESSAGE ? "1," : "2,");
    end = put_text(put_number(end, sent ? p.to : p.from), ",");
    end = put_text(put_number(end, p.number), "\n");
    return leave_line(line, end, text, text_size);
}

#define LINE const uint8_t *column, uint64_t column_size, const uint8_t *packet, uint64_t packet_size, uint8_t *text, uint64_t text_size

uint64_t mudasgup_raw_journal_sent(LINE) { return journaled(true, column, column_size, packet, packet_size, text, text_size); }

uint64_t mudasgup_raw_journal_got(LINE) { return journaled(false, column, column_size, packet, packet_size, text, text_size); }
