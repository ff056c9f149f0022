/* mudasgup.h: the core of one column of a locker bank, for firmware in C99 or C++.
 *
 * WHAT YOU OWE IT. Once no packet is under way and no running column has anything left to do, all
 * running columns list the same doors under the same order number. This is proved, and it holds if:
 *
 *   - The line delivers every packet once and whole, in any order. A packet has no checksum and is
 *     never repeated by a column: check and repeat below the core. One lost packet leaves a column
 *     waiting for good.
 *   - A column is noted only when it has stopped and will not go on, and in the end every running
 *     column is told of it.
 *   - A column that lost power has halted, whatever memory survived. It comes back by
 *     mudasgup_rejoin alone, at rest; the root never comes back. A column that goes on with what
 *     its memory kept may list an older order, and no call can tell.
 *   - A block is used by one caller at a time, and is not kept over a loss of power: a write that
 *     power ended half way leaves a mixture of two states that no call can tell from a state.
 *   - What a call puts goes to the line before the column's next call.
 *   - Pointers are never NULL, and no two pointers of a call lead to memory that overlaps.
 *
 * Link libmudasgup.a, which is for one machine: docs/MACHINES.md has them, and what each archive
 * needs of C's library, on x86-64 memcpy and memset at most. It has no heap and no state of its
 * own, and no call keeps a pointer. The main loop of a column is
 * examples/firmware/column_loop.c. */
#ifndef MUDASGUP_H
#define MUDASGUP_H

#include <stddef.h>
#include <stdint.h>

#define MUDASGUP_VERSION_MAJOR 2
#define MUDASGUP_VERSION_MINOR 0
#define MUDASGUP_VERSION (MUDASGUP_VERSION_MAJOR << 16 | MUDASGUP_VERSION_MINOR)

/* ---- What a call answers
 * Where a call does not answer MUDASGUP_OK, it is refused: every byte that was lent is as it was.
 * Where several numbers apply, the first in the function's list is answered. The values are the
 * numbers of the papers. */
typedef enum mudasgup_status {
  MUDASGUP_OK = 0,
  MUDASGUP_E_FORM = 1,    /* text that is no table */
  MUDASGUP_E_COLUMNS = 2, /* a tree of 0 columns, or of more than 16 */
  MUDASGUP_E_TREE = 3,    /* a root or parent that the tree has not, parents that do not lead to the
                             root, a sequence without every column once */
  MUDASGUP_E_STATE = 4,   /* a column that the tree has not, a state or packet that no bank may
                             have, a packet of other columns, an order that is not to the root */
  MUDASGUP_E_HALTED = 5,  /* the column has halted */
  MUDASGUP_E_NOTHING = 6, /* nothing to do for this step as yet; to rejoin, the column runs */
  MUDASGUP_E_BUSY = 7,    /* an order while the root sends or awaits, or, where senders are watched,
                             owes */
  MUDASGUP_E_SPENT = 8,   /* an order after number 4294967295 */
  MUDASGUP_E_SPACE = 11,  /* a text or packet that does not fit, or the 513th packet of a frame */
  MUDASGUP_E_PACKET = 12, /* bytes that are no packet or no frame; ends equal or above 15 */
  MUDASGUP_E_UNREST = 14, /* the column has something to do, so that the bank is not at rest */
  MUDASGUP_E_ROOT = 15,   /* the root does not come back */
  MUDASGUP_E_ALONE = 16,  /* no other column runs */
  MUDASGUP_E_NARROW = 18, /* an order number above 65535, too high for a packet of the old width */
  MUDASGUP_E_OFFSET = 22, /* an offset above 7, or to write one that is not 5 or 7 */
  MUDASGUP_E_BLOCK = 24   /* a block of another layout, as memory of all zeros or all ones has */
} mudasgup_status;

/* ---- Blocks
 * Byte by byte the same on every machine: numbers and sets have the highest byte first, column i of
 * a set is bit i. A block that was written for another layout is refused with 24. */
#define MUDASGUP_LAYOUT_TREE 0x12
#define MUDASGUP_LAYOUT_COLUMN 0x22
#define MUDASGUP_TREE_SIZE 35
#define MUDASGUP_COLUMN_SIZE 25
#define MUDASGUP_PACKET_SIZE 15
#define MUDASGUP_DOORS_SIZE 8    /* door d is bit (d-1) % 8 of byte (d-1) / 8 */
#define MUDASGUP_LIST_SIZE 229   /* the longest closing list */
#define MUDASGUP_JOURNAL_SIZE 21 /* the longest line of a journal */
#define MUDASGUP_FRAME_PACKETS 512
#define MUDASGUP_COLUMNS 16

/* A bank's tree, which all of its columns have alike. */
typedef struct mudasgup_tree {
  uint8_t bytes[MUDASGUP_TREE_SIZE];
} mudasgup_tree;
enum {
  MUDASGUP_TREE_LAYOUT = 0,  /* MUDASGUP_LAYOUT_TREE */
  MUDASGUP_TREE_COLUMNS = 1, /* how many columns, and MUDASGUP_WATCH_SENDER or not */
  MUDASGUP_TREE_ROOT = 2,    /* the root */
  MUDASGUP_TREE_UP = 3,      /* 16 bytes: the parent of each column, the root's its own */
  MUDASGUP_TREE_FIRST = 19   /* 16 bytes: the sequence in which those to send to are served, every
                                column once. What is in either past as many as there are columns
                                means nothing */
};
#define MUDASGUP_WATCH_SENDER 128 /* a column watches who sent its record; without it, the root */

/* What one column holds. */
typedef struct mudasgup_column {
  uint8_t bytes[MUDASGUP_COLUMN_SIZE];
} mudasgup_column;
enum {
  MUDASGUP_COLUMN_LAYOUT = 0,   /* MUDASGUP_LAYOUT_COLUMN */
  MUDASGUP_COLUMN_OWN = 1,      /* which column it is */
  MUDASGUP_COLUMN_DOORS = 2,    /* MUDASGUP_DOORS_SIZE bytes: the doors of its order */
  MUDASGUP_COLUMN_NUMBER = 10,  /* 4 bytes: the number of its order; with the doors, its record */
  MUDASGUP_COLUMN_SEND = 14,    /* 2 bytes: the set of those to send to */
  MUDASGUP_COLUMN_AWAITED = 16, /* 2 bytes: those awaited */
  MUDASGUP_COLUMN_OWED = 18,    /* 2 bytes: those owed */
  MUDASGUP_COLUMN_NOTED = 20,   /* 2 bytes: those noted as halted */
  MUDASGUP_COLUMN_STATUS = 22,  /* MUDASGUP_STATUS_RUNS, _WHOLE, and who sent its record */
  MUDASGUP_COLUMN_MASK = 23,    /* the interrupt mask of its register page */
  MUDASGUP_COLUMN_PENDING = 24  /* what is pending there */
};
/* Bits of the status in a block and on a register page. */
enum {
  MUDASGUP_STATUS_RUNS = 1,
  MUDASGUP_STATUS_WHOLE = 2, /* its goal is the whole bank, else its own subtree */
  MUDASGUP_STATUS_SENDER = 4 /* times the column that sent its record; in a block alone */
};
/* Bits of what is pending. */
enum {
  MUDASGUP_PENDING_RECORD = 1, /* a record received, at the root by an order too */
  MUDASGUP_PENDING_HALT = 2,   /* a halt noted */
  MUDASGUP_PENDING_TAKEOVER = 4
};
/* Offsets of a register page. */
enum {
  MUDASGUP_PAGE_COLUMN = 0,
  MUDASGUP_PAGE_STATUS = 1,
  MUDASGUP_PAGE_SEND = 2, /* how many it is to send to, awaits, owes */
  MUDASGUP_PAGE_AWAITED = 3,
  MUDASGUP_PAGE_OWED = 4,
  MUDASGUP_PAGE_MASK = 5, /* the line is up where a bit is set here and in what is pending */
  MUDASGUP_PAGE_PENDING = 6,
  MUDASGUP_PAGE_CLEAR = 7 /* reads 0; bits that are 1 in a byte written here are pending no more */
};

/* A packet: kind, from, to, 4 bytes of number, and of a message MUDASGUP_DOORS_SIZE of doors. */
typedef struct mudasgup_packet {
  uint8_t size; /* 15, 7, or 0 for none; 13 or 5 for one of the old width */
  uint8_t bytes[MUDASGUP_PACKET_SIZE];
} mudasgup_packet;
enum {
  MUDASGUP_PACKET_KIND = 0,
  MUDASGUP_PACKET_FROM = 1,
  MUDASGUP_PACKET_TO = 2,
  MUDASGUP_PACKET_NUMBER = 3,
  MUDASGUP_PACKET_DOORS = 7
};
enum {
  MUDASGUP_KIND_MESSAGE = 3,
  MUDASGUP_KIND_ACKNOWLEDGEMENT = 4
};

#ifdef __cplusplus
extern "C" {
#endif

/* ---- The bank's tree */

/* Reads the table at the start of a text: the lines columns=, root=, up=, and first= and watch= if
 * they follow. Leaves the tree, and how many bytes of the text it took. Refused with 1, 2, 3. */
static inline mudasgup_status mudasgup_tree_read(
    mudasgup_tree *tree, const char *text, size_t size, size_t *used);

/* Checks a tree. Refused with 24, 2, 3. */
static inline mudasgup_status mudasgup_tree_check(const mudasgup_tree *tree);

/* ---- A column's steps
 * Take is for each packet that arrives, note for each column that is seen to have halted, next for
 * any time, until it is refused with 6. What is put has size 0 where there is nothing to send. */

/* Leaves column i as it begins, when the whole bank begins. Refused with 24, 2, 3, 4. */
static inline mudasgup_status mudasgup_column_fresh(
    const mudasgup_tree *tree, uint32_t i, mudasgup_column *column);

/* The root takes the doors under the next number. Refused with 24, 2, 3, 4, 5, 7, 8. */
static inline mudasgup_status mudasgup_order(
    const mudasgup_tree *tree, mudasgup_column *column, const uint8_t doors[MUDASGUP_DOORS_SIZE]);

/* A packet has arrived. Where left is 1 afterwards, the packet is still to be taken: send what was
 * put and take the same packet again. Refused with 24, 12, 2, 3, 4, 5. */
static inline mudasgup_status mudasgup_take(const mudasgup_tree *tree, mudasgup_column *column,
    const mudasgup_packet *arrived, mudasgup_packet *put, int *left);

/* Column `halted` has stopped and will not go on. Refused with 24, 2, 3, 4, 5, 6. */
static inline mudasgup_status mudasgup_note(
    const mudasgup_tree *tree, mudasgup_column *column, uint32_t halted);

/* The first of send, ack and all that is not refused. Refused with 24, 2, 3, 4, 5, 6. */
static inline mudasgup_status mudasgup_next(
    const mudasgup_tree *tree, mudasgup_column *column, mudasgup_packet *put);

/* Serves one of those to send to. Refused with 24, 2, 3, 4, 5, 6. */
static inline mudasgup_status mudasgup_send(
    const mudasgup_tree *tree, mudasgup_column *column, mudasgup_packet *put);

/* Acknowledges to the lowest owed. Refused with 24, 2, 3, 4, 5, 6. */
static inline mudasgup_status mudasgup_ack(
    const mudasgup_tree *tree, mudasgup_column *column, mudasgup_packet *put);

/* Takes over the whole bank. Refused with 24, 2, 3, 4, 5, 6. */
static inline mudasgup_status mudasgup_all(const mudasgup_tree *tree, mudasgup_column *column);

/* Idle is 1 where the column does not run or next has nothing to do. The bank is at rest where
 * every column is idle, no packet is under way, and every running column has noted every one that
 * halted. Refused with 24, 2, 3, 4. */
static inline mudasgup_status mudasgup_idle(
    const mudasgup_tree *tree, const mudasgup_column *column, int *idle);

/* The column stops. Refused with 24, 2, 3, 4, 5. */
static inline mudasgup_status mudasgup_halt(const mudasgup_tree *tree, mudasgup_column *column);

/* ---- A column comes back
 * At rest alone, which the caller has to know, since no single column can tell: rejoin at the
 * column that comes back, strike at each other one, and only then any other call. A column that
 * lost its block makes one by mudasgup_column_fresh and mudasgup_halt first. */

/* The column runs again, with the record (number and doors) of `lowest`, the lowest running column;
 * `halted` is the set of those that remain halted. Refused with 24; 2, 3; 4 also where the set has
 * the column itself or one that the tree has not, or where `lowest` is not the lowest of the others
 * outside of it; 6 where the column runs; 15 the root; 16 where all others are halted. */
static inline mudasgup_status mudasgup_rejoin(const mudasgup_tree *tree, mudasgup_column *column,
    uint32_t lowest, uint32_t number, const uint8_t doors[MUDASGUP_DOORS_SIZE], uint32_t halted);

/* Column `back` has come back and is no longer noted. Refused with 24, 2, 3; 4 also where it is
 * this column; 14 where this column runs and is not idle. */
static inline mudasgup_status mudasgup_strike(
    const mudasgup_tree *tree, mudasgup_column *column, uint32_t back);

/* ---- The closing list and the register page */

/* Leaves the closing list and its length. Refused with 24, 2, 3, 4, 5, 11. */
static inline mudasgup_status mudasgup_list(const mudasgup_tree *tree,
    const mudasgup_column *column, char *text, size_t size, size_t *length);

/* Leaves the byte at an offset of the register page. Refused with 24, 2, 3, 4, 22. */
static inline mudasgup_status mudasgup_page_read(
    const mudasgup_tree *tree, const mudasgup_column *column, size_t offset, uint8_t *value);

/* Writes the mask, or clears what is pending. Refused with 24, 2, 3, 4, 22. */
static inline mudasgup_status mudasgup_page_write(
    const mudasgup_tree *tree, mudasgup_column *column, size_t offset, uint8_t value);

/* Up is 1 where the interrupt line of the page is up, else 0. Refused with 24. */
static inline mudasgup_status mudasgup_line_up(const mudasgup_column *column, int *up);

/* ---- Packets and frames */

/* Leaves the packet at the start of the bytes, of 15 or 7. Refused with 12. */
static inline mudasgup_status mudasgup_packet_read(
    const uint8_t *bytes, size_t size, mudasgup_packet *packet);

/* Leaves a message. Refused with 12. */
static inline mudasgup_status mudasgup_packet_message(uint32_t from, uint32_t to, uint32_t number,
    const uint8_t doors[MUDASGUP_DOORS_SIZE], mudasgup_packet *packet);

/* Leaves an acknowledgement. Refused with 12. */
static inline mudasgup_status mudasgup_packet_acknowledgement(
    uint32_t from, uint32_t to, uint32_t number, mudasgup_packet *packet);

/* Leaves the one packet that the bytes are in the other width: 13 and 5 bytes for 15 and 7, or
 * back. Refused with 12, 18. */
static inline mudasgup_status mudasgup_packet_convert(
    const uint8_t *bytes, size_t size, mudasgup_packet *packet);

/* Leaves how many packets are joined in a frame, up to 512; each is then read after the one before.
 * Refused with 12. */
static inline mudasgup_status mudasgup_frame_count(
    const uint8_t *frame, size_t size, size_t *packets);

/* Joins a packet to the frame of the first `used` bytes, which grows by its size. Each call
 * reads the whole frame, so that its time grows with the packets in it. Where all of these were put
 * by steps, the cheap way is to copy their bytes one after the other and to count them up to
 * MUDASGUP_FRAME_PACKETS: that is a frame. Refused with 12 where the bytes are no frame, or the
 * packet is none; 11. */
static inline mudasgup_status mudasgup_frame_join(
    const mudasgup_packet *packet, uint8_t *frame, size_t size, size_t *used);

/* ---- The journal, for ./journals
 * A line for the owner at first, then one for each packet that the column sent or got. A packet to
 * a halted column is not sent, one that take left is not got as yet. */

/* Leaves the first line of the column's journal, and its length. Refused with 24, 11. */
static inline mudasgup_status mudasgup_journal_owner(
    const mudasgup_column *column, char *text, size_t size, size_t *length);

/* Leaves the line for a packet that this column sent. Refused with 24, 12, 4, 11. */
static inline mudasgup_status mudasgup_journal_sent(const mudasgup_column *column,
    const mudasgup_packet *packet, char *text, size_t size, size_t *length);

/* Leaves the line for a packet that this column got. Refused with 24, 12, 4, 11. */
static inline mudasgup_status mudasgup_journal_got(const mudasgup_column *column,
    const mudasgup_packet *packet, char *text, size_t size, size_t *length);

/* ---- What follows is not to be called
 * The archive's exports, for the functions above: memory as a pointer and its size in bytes. Each
 * answers a size, a count, a length, a byte or 0, or MUDASGUP_RAW_REFUSED + a number. */
#define MUDASGUP_RAW_REFUSED 1000
#define MUDASGUP_RAW_LEFT 100 /* added by take where the packet is left in its place */

uint64_t mudasgup_raw_tree_check(const uint8_t *tree, uint64_t tree_size);
uint64_t mudasgup_raw_tree_read(
    const uint8_t *text, uint64_t text_size, uint8_t *tree, uint64_t tree_size);
uint64_t mudasgup_raw_column_fresh(
    const uint8_t *tree, uint64_t tree_size, uint64_t i, uint8_t *column, uint64_t column_size);
uint64_t mudasgup_raw_order(
    const uint8_t *tree, uint64_t tree_size, uint8_t *column, uint64_t column_size,
    const uint8_t *doors, uint64_t doors_size);
uint64_t mudasgup_raw_send(
    const uint8_t *tree, uint64_t tree_size, uint8_t *column, uint64_t column_size, uint8_t *put,
    uint64_t put_size);
uint64_t mudasgup_raw_take(
    const uint8_t *tree, uint64_t tree_size, uint8_t *column, uint64_t column_size,
    const uint8_t *packet, uint64_t packet_size, uint8_t *put, uint64_t put_size);
uint64_t mudasgup_raw_ack(
    const uint8_t *tree, uint64_t tree_size, uint8_t *column, uint64_t column_size, uint8_t *put,
    uint64_t put_size);
uint64_t mudasgup_raw_all(
    const uint8_t *tree, uint64_t tree_size, uint8_t *column, uint64_t column_size);
uint64_t mudasgup_raw_next(
    const uint8_t *tree, uint64_t tree_size, uint8_t *column, uint64_t column_size, uint8_t *put,
    uint64_t put_size);
uint64_t mudasgup_raw_note(
    const uint8_t *tree, uint64_t tree_size, uint8_t *column, uint64_t column_size, uint64_t j);
uint64_t mudasgup_raw_halt(
    const uint8_t *tree, uint64_t tree_size, uint8_t *column, uint64_t column_size);
uint64_t mudasgup_raw_idle(
    const uint8_t *tree, uint64_t tree_size, const uint8_t *column, uint64_t column_size);
uint64_t mudasgup_raw_rejoin(
    const uint8_t *tree, uint64_t tree_size, uint8_t *column, uint64_t column_size, uint64_t lowest,
    uint32_t number, const uint8_t *doors, uint64_t doors_size, uint64_t halted);
uint64_t mudasgup_raw_strike(
    const uint8_t *tree, uint64_t tree_size, uint8_t *column, uint64_t column_size, uint64_t back);
uint64_t mudasgup_raw_list(
    const uint8_t *tree, uint64_t tree_size, const uint8_t *column, uint64_t column_size,
    uint8_t *buffer, uint64_t buffer_size);
uint64_t mudasgup_raw_page_read(
    const uint8_t *tree, uint64_t tree_size, const uint8_t *column, uint64_t column_size,
    uint64_t offset);
uint64_t mudasgup_raw_page_write(
    const uint8_t *tree, uint64_t tree_size, uint8_t *column, uint64_t column_size, uint64_t offset,
    uint8_t value);
uint64_t mudasgup_raw_line_up(const uint8_t *column, uint64_t column_size);
uint64_t mudasgup_raw_packet_read(
    const uint8_t *bytes, uint64_t bytes_size, uint8_t *packet, uint64_t packet_size);
uint64_t mudasgup_raw_message(
    uint8_t from, uint8_t to, uint32_t number, const uint8_t *doors, uint64_t doors_size,
    uint8_t *packet, uint64_t packet_size);
uint64_t mudasgup_raw_acknowledgement(
    uint8_t from, uint8_t to, uint32_t number, uint8_t *packet, uint64_t packet_size);
uint64_t mudasgup_raw_packet_convert(
    const uint8_t *bytes, uint64_t bytes_size, uint8_t *packet, uint64_t packet_size);
uint64_t mudasgup_raw_frame_count(const uint8_t *frame, uint64_t frame_size);
uint64_t mudasgup_raw_frame_join(
    const uint8_t *bytes, uint64_t bytes_size, uint8_t *frame, uint64_t frame_size, uint64_t at);
uint64_t mudasgup_raw_journal_owner(
    const uint8_t *column, uint64_t column_size, uint8_t *text, uint64_t text_size);
uint64_t mudasgup_raw_journal_sent(
    const uint8_t *column, uint64_t column_size, const uint8_t *packet, uint64_t packet_size,
    uint8_t *text, uint64_t text_size);
uint64_t mudasgup_raw_journal_got(
    const uint8_t *column, uint64_t column_size, const uint8_t *packet, uint64_t packet_size,
    uint8_t *text, uint64_t text_size);

#define MUDASGUP_RAW_TREE tree->bytes, sizeof tree->bytes
#define MUDASGUP_RAW_COLUMN column->bytes, sizeof column->bytes
#define MUDASGUP_RAW_PACKET packet->bytes, sizeof packet->bytes

/* The status that an answer is. */
static inline mudasgup_status mudasgup_raw_status(uint64_t answer) {
  return answer < MUDASGUP_RAW_REFUSED ? MUDASGUP_OK
                                       : (mudasgup_status)(answer - MUDASGUP_RAW_REFUSED);
}

/* The same, with what else was answered where the call is not refused. */
static inline mudasgup_status mudasgup_raw_sized(uint64_t answer, size_t *size) {
  mudasgup_status status = mudasgup_raw_status(answer);
  if (status == MUDASGUP_OK)
    *size = (size_t)answer;
  return status;
}

static inline mudasgup_status mudasgup_raw_told(uint64_t answer, int *flag) {
  mudasgup_status status = mudasgup_raw_status(answer);
  if (status == MUDASGUP_OK)
    *flag = answer != 0;
  return status;
}

static inline mudasgup_status mudasgup_raw_put(uint64_t answer, mudasgup_packet *packet) {
  mudasgup_status status = mudasgup_raw_status(answer);
  if (status == MUDASGUP_OK)
    packet->size = (uint8_t)(answer % MUDASGUP_RAW_LEFT);
  return status;
}

/* The bytes of a packet that may be read, none where its size is no packet's. */
static inline uint64_t mudasgup_raw_size(const mudasgup_packet *packet) {
  return packet->size <= MUDASGUP_PACKET_SIZE ? packet->size : 0;
}

/* The end of a packet: every number that no packet can have is one of these. */
static inline uint8_t mudasgup_raw_end(uint32_t column) {
  return column < UINT8_MAX ? (uint8_t)column : UINT8_MAX;
}

static inline mudasgup_status mudasgup_tree_read(
    mudasgup_tree *tree, const char *text, size_t size, size_t *used) {
  return mudasgup_raw_sized(
      mudasgup_raw_tree_read((const uint8_t *)text, size, MUDASGUP_RAW_TREE), used);
}

static inline mudasgup_status mudasgup_tree_check(const mudasgup_tree *tree) {
  return mudasgup_raw_status(mudasgup_raw_tree_check(MUDASGUP_RAW_TREE));
}

static inline mudasgup_status mudasgup_column_fresh(
    const mudasgup_tree *tree, uint32_t i, mudasgup_column *column) {
  return mudasgup_raw_status(mudasgup_raw_column_fresh(MUDASGUP_RAW_TREE, i, MUDASGUP_RAW_COLUMN));
}

static inline mudasgup_status mudasgup_order(
    const mudasgup_tree *tree, mudasgup_column *column, const uint8_t doors[MUDASGUP_DOORS_SIZE]) {
  return mudasgup_raw_status(
      mudasgup_raw_order(MUDASGUP_RAW_TREE, MUDASGUP_RAW_COLUMN, doors, MUDASGUP_DOORS_SIZE));
}

static inline mudasgup_status mudasgup_take(const mudasgup_tree *tree, mudasgup_column *column,
    const mudasgup_packet *arrived, mudasgup_packet *put, int *left) {
  uint64_t answer = mudasgup_raw_take(MUDASGUP_RAW_TREE, MUDASGUP_RAW_COLUMN, arrived->bytes,
      mudasgup_raw_size(arrived), put->bytes, sizeof put->bytes);
  mudasgup_status status = mudasgup_raw_put(answer, put);
  if (status == MUDASGUP_OK)
    *left = answer >= MUDASGUP_RAW_LEFT;
  return status;
}

static inline mudasgup_status mudasgup_note(
    const mudasgup_tree *tree, mudasgup_column *column, uint32_t halted) {
  return mudasgup_raw_status(mudasgup_raw_note(MUDASGUP_RAW_TREE, MUDASGUP_RAW_COLUMN, halted));
}

static inline mudasgup_status mudasgup_next(
    const mudasgup_tree *tree, mudasgup_column *column, mudasgup_packet *packet) {
  return mudasgup_raw_put(
      mudasgup_raw_next(MUDASGUP_RAW_TREE, MUDASGUP_RAW_COLUMN, MUDASGUP_RAW_PACKET), packet);
}

static inline mudasgup_status mudasgup_send(
    const mudasgup_tree *tree, mudasgup_column *column, mudasgup_packet *packet) {
  return mudasgup_raw_put(
      mudasgup_raw_send(MUDASGUP_RAW_TREE, MUDASGUP_RAW_COLUMN, MUDASGUP_RAW_PACKET), packet);
}

static inline mudasgup_status mudasgup_ack(
    const mudasgup_tree *tree, mudasgup_column *column, mudasgup_packet *packet) {
  return mudasgup_raw_put(
      mudasgup_raw_ack(MUDASGUP_RAW_TREE, MUDASGUP_RAW_COLUMN, MUDASGUP_RAW_PACKET), packet);
}

static inline mudasgup_status mudasgup_all(const mudasgup_tree *tree, mudasgup_column *column) {
  return mudasgup_raw_status(mudasgup_raw_all(MUDASGUP_RAW_TREE, MUDASGUP_RAW_COLUMN));
}

static inline mudasgup_status mudasgup_idle(
    const mudasgup_tree *tree, const mudasgup_column *column, int *idle) {
  return mudasgup_raw_told(mudasgup_raw_idle(MUDASGUP_RAW_TREE, MUDASGUP_RAW_COLUMN), idle);
}

static inline mudasgup_status mudasgup_halt(const mudasgup_tree *tree, mudasgup_column *column) {
  return mudasgup_raw_status(mudasgup_raw_halt(MUDASGUP_RAW_TREE, MUDASGUP_RAW_COLUMN));
}

static inline mudasgup_status mudasgup_rejoin(const mudasgup_tree *tree, mudasgup_column *column,
    uint32_t lowest, uint32_t number, const uint8_t doors[MUDASGUP_DOORS_SIZE], uint32_t halted) {
  return mudasgup_raw_status(mudasgup_raw_rejoin(MUDASGUP_RAW_TREE, MUDASGUP_RAW_COLUMN, lowest,
      number, doors, MUDASGUP_DOORS_SIZE, halted));
}

static inline mudasgup_status mudasgup_strike(
    const mudasgup_tree *tree, mudasgup_column *column, uint32_t back) {
  return mudasgup_raw_status(mudasgup_raw_strike(MUDASGUP_RAW_TREE, MUDASGUP_RAW_COLUMN, back));
}

static inline mudasgup_status mudasgup_list(const mudasgup_tree *tree,
    const mudasgup_column *column, char *text, size_t size, size_t *length) {
  return mudasgup_raw_sized(
      mudasgup_raw_list(MUDASGUP_RAW_TREE, MUDASGUP_RAW_COLUMN, (uint8_t *)text, size), length);
}

static inline mudasgup_status mudasgup_page_read(
    const mudasgup_tree *tree, const mudasgup_column *column, size_t offset, uint8_t *value) {
  uint64_t answer = mudasgup_raw_page_read(MUDASGUP_RAW_TREE, MUDASGUP_RAW_COLUMN, offset);
  mudasgup_status status = mudasgup_raw_status(answer);
  if (status == MUDASGUP_OK)
    *value = (uint8_t)answer;
  return status;
}

static inline mudasgup_status mudasgup_page_write(
    const mudasgup_tree *tree, mudasgup_column *column, size_t offset, uint8_t value) {
  return mudasgup_raw_status(
      mudasgup_raw_page_write(MUDASGUP_RAW_TREE, MUDASGUP_RAW_COLUMN, offset, value));
}

static inline mudasgup_status mudasgup_line_up(const mudasgup_column *column, int *up) {
  return mudasgup_raw_told(mudasgup_raw_line_up(MUDASGUP_RAW_COLUMN), up);
}

static inline mudasgup_status mudasgup_packet_read(
    const uint8_t *bytes, size_t size, mudasgup_packet *packet) {
  return mudasgup_raw_put(mudasgup_raw_packet_read(bytes, size, MUDASGUP_RAW_PACKET), packet);
}

static inline mudasgup_status mudasgup_packet_message(uint32_t from, uint32_t to, uint32_t number,
    const uint8_t doors[MUDASGUP_DOORS_SIZE], mudasgup_packet *packet) {
  return mudasgup_raw_put(mudasgup_raw_message(mudasgup_raw_end(from), mudasgup_raw_end(to), number,
      doors, MUDASGUP_DOORS_SIZE, MUDASGUP_RAW_PACKET), packet);
}

static inline mudasgup_status mudasgup_packet_acknowledgement(
    uint32_t from, uint32_t to, uint32_t number, mudasgup_packet *packet) {
  return mudasgup_raw_put(mudasgup_raw_acknowledgement(mudasgup_raw_end(from), mudasgup_raw_end(to),
      number, MUDASGUP_RAW_PACKET), packet);
}

static inline mudasgup_status mudasgup_packet_convert(
    const uint8_t *bytes, size_t size, mudasgup_packet *packet) {
  return mudasgup_raw_put(mudasgup_raw_packet_convert(bytes, size, MUDASGUP_RAW_PACKET), packet);
}

static inline mudasgup_status mudasgup_frame_count(
    const uint8_t *frame, size_t size, size_t *packets) {
  return mudasgup_raw_sized(mudasgup_raw_frame_count(frame, size), packets);
}

static inline mudasgup_status mudasgup_frame_join(
    const mudasgup_packet *packet, uint8_t *frame, size_t size, size_t *used) {
  uint64_t answer = mudasgup_raw_frame_join(
      packet->bytes, mudasgup_raw_size(packet), frame, size, *used);
  mudasgup_status status = mudasgup_raw_status(answer);
  if (status == MUDASGUP_OK)
    *used += (size_t)answer;
  return status;
}

static inline mudasgup_status mudasgup_journal_owner(
    const mudasgup_column *column, char *text, size_t size, size_t *length) {
  return mudasgup_raw_sized(
      mudasgup_raw_journal_owner(MUDASGUP_RAW_COLUMN, (uint8_t *)text, size), length);
}

static inline mudasgup_status mudasgup_journal_sent(const mudasgup_column *column,
    const mudasgup_packet *packet, char *text, size_t size, size_t *length) {
  return mudasgup_raw_sized(mudasgup_raw_journal_sent(MUDASGUP_RAW_COLUMN, packet->bytes,
      mudasgup_raw_size(packet), (uint8_t *)text, size), length);
}

static inline mudasgup_status mudasgup_journal_got(const mudasgup_column *column,
    const mudasgup_packet *packet, char *text, size_t size, size_t *length) {
  return mudasgup_raw_sized(mudasgup_raw_journal_got(MUDASGUP_RAW_COLUMN, packet->bytes,
      mudasgup_raw_size(packet), (uint8_t *)text, size), length);
}

#undef MUDASGUP_RAW_TREE
#undef MUDASGUP_RAW_COLUMN
#undef MUDASGUP_RAW_PACKET

#ifdef __cplusplus
}
#endif
#endif
