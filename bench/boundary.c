/* The exports that include/mudasgup.h declares at its end, in plain C: what the archive of crates/firmware is measured beside. The same blocks are read,
   the same tests made and the same bytes written. Here a tree and a column; packets, frames and journals are those of boundary_packets.c. */
#include "boundary.h"
#include "table.h"

enum { PAGE = 8 };

static bool is_tree(const uint8_t *tree, uint64_t tree_size) { return tree_size == MUDASGUP_TREE_SIZE && tree[MUDASGUP_TREE_LAYOUT] == MUDASGUP_LAYOUT_TREE; }

static mudasgup_status standing(const struct tree *t, size_t i, const struct column *c) {
    uint8_t refusal = tree_refusal(t);
    return refusal ? (mudasgup_status)refusal : is_valid(t, i, c) ? MUDASGUP_OK : MUDASGUP_E_STATE;
}

#define TREE const uint8_t *tree, uint64_t tree_size
#define READ TREE, const uint8_t *column, uint64_t column_size
#define LENT TREE, uint8_t *column, uint64_t column_size
#define PUT uint8_t *put, uint64_t put_size
/* The tree, the column and its number out of blocks that are tested. */
#define PARSED                                                                   \
    if (!is_tree(tree, tree_size) || !is_column(column, column_size))            \
        return refused(MUDASGUP_E_BLOCK);                                        \
    struct tree t = tree_in(tree);                                               \
    struct column c = column_in(column);                                         \
    size_t i = column[MUDASGUP_COLUMN_OWN]
/* The same, with the refusal of a column that is no state of the tree. */
#define STANDING                                                                 \
    PARSED;                                                                      \
    mudasgup_status refusal = standing(&t, i, &c)

/* ---- a tree and a column */

uint64_t mudasgup_raw_tree_check(TREE) {
    if (!is_tree(tree, tree_size))
        return refused(MUDASGUP_E_BLOCK);
    struct tree t = tree_in(tree);
    uint8_t refusal = tree_refusal(&t);
    return refusal ? refused((mudasgup_status)refusal) : 0;
}

uint64_t mudasgup_raw_tree_read(const uint8_t *text, uint64_t text_size, uint8_t *tree, uint64_t tree_size) {
    struct cursor cursor = {text, text + text_size};
    struct tree t;
    if (tree_size != MUDASGUP_TREE_SIZE)
        return refused(MUDASGUP_E_BLOCK);
    uint8_t refusal = read_tree(&cursor, &t);
    if (refusal)
        return refused((mudasgup_status)refusal);
    tree_out(&t, tree);
    return (uint64_t)(cursor.at - text);
}

uint64_t mudasgup_raw_column_fresh(TREE, uint64_t i, uint8_t *column, uint64_t column_size) {
    if (!is_tree(tree, tree_size) || column_size != MUDASGUP_COLUMN_SIZE)
        return refused(MUDASGUP_E_BLOCK);
    struct tree t = tree_in(tree);
    uint8_t refusal = tree_refusal(&t);
    if (refusal || i >= t.columns)
        return refused(refusal ? (mudasgup_status)refusal : MUDASGUP_E_STATE);
    struct column c = {.running = true, .whole = i == t.root, .sender = (uint8_t)t.root};
    column_out(i, &c, column);
    return 0;
}

static size_t list_of(size_t i, const struct column *c, char *text) {
    char *at = put_number(put_text(text, "column="), (uint32_t)i);
    at = put_number(put_text(at, "\nnumber="), c->number);
    at = put_number(put_text(at, "\noccupied="), (uint32_t)__builtin_popcountll(c->doors));
    at = put_text(at, "\ndoors=");
    for (uint64_t rest = c->doors; rest; rest &= rest - 1) {
        if (rest != c->doors)
            *at++ = ',';
        at = put_number(at, (uint32_t)__builtin_ctzll(rest) + 1);
    }
    *at++ = '\n';
    return (size_t)(at - text);
}

uint64_t mudasgup_raw_list(READ, uint8_t *buffer, uint64_t buffer_size) {
    char text[MUDASGUP_LIST_SIZE];
    STANDING;
    if (refusal || !c.running)
        return refused(refusal ? refusal : MUDASGUP_E_HALTED);
    size_t length = list_of(i, &c, text);
    if (length > buffer_size)
        return refused(MUDASGUP_E_SPACE);
    memcpy(buffer, text, length);
    return length;
}

/* ---- the steps */

/* The column that a step left, and its answer. */
static uint64_t leave(struct answer a, size_t i, const struct column *c, uint8_t *column) {
    if (a.refusal)
        return refused((mudasgup_status)a.refusal);
    column_out(i, c, column);
    return 0;
}

/* The same, with the packet. */
static uint64_t leave_put(struct answer a, size_t i, const struct column *c, uint8_t *column, uint8_t *put) {
    uint64_t answer = leave(a, i, c, column);
    if (answer)
        return answer;
    if (a.put.kind == NO_PACKET) {
        memset(put, 0, MUDASGUP_PACKET_SIZE);
        return 0;
    }
    return packet_out(&a.put, put) + (a.left ? MUDASGUP_RAW_LEFT : 0);
}

/* A step of the column that is lent, as an answer: one that puts nothing, and one that may put. */
#define STEPPED(made)             \
    PARSED;                       \
    struct answer a = made;       \
    return leave(a, i, &c, column)
#define STEPPED_PUT(made)                      \
    if (put_size != MUDASGUP_PACKET_SIZE)      \
        return refused(MUDASGUP_E_BLOCK);      \
    PARSED;                                    \
    struct answer a = made;                    \
    return leave_put(a, i, &c, column, put)

uint64_t mudasgup_raw_order(LENT, const uint8_t *doors, uint64_t doors_size) {
    if (doors_size != MUDASGUP_DOORS_SIZE)
        return refused(MUDASGUP_E_BLOCK);
    STEPPED(order(&t, i, &c, doors_in(doors)));
}

uint64_t mudasgup_raw_send(LENT, PUT) { STEPPED_PUT(send(&t, i, &c)); }

uint64_t mudasgup_raw_take(LENT, const uint8_t *packet, uint64_t packet_size, PUT) {
    struct packet p;
    if (put_size != MUDASGUP_PACKET_SIZE)
        return refused(MUDASGUP_E_BLOCK);
    PARSED;
    if (!read_packet(packet, packet_size, &p))
        return refused(MUDASGUP_E_PACKET);
    struct answer a = take(&t, i, &c, p);
    return leave_put(a, i, &c, column, put);
}

uint64_t mudasgup_raw_ack(LENT, PUT) { STEPPED_PUT(ack(&t, i, &c)); }

uint64_t mudasgup_raw_all(LENT) { STEPPED(all(&t, i, &c)); }

uint64_t mudasgup_raw_note(LENT, uint64_t j) { STEPPED(note(&t, i, &c, j)); }

uint64_t mudasgup_raw_halt(LENT) { STEPPED(halt(&t, i, &c)); }

/* ---- the next step, and none */

static struct answer next(const struct tree *t, size_t i, struct column *c) {
    struct answer a = {.refusal = (uint8_t)standing(t, i, c)};
    if (a.refusal)
        return a;
    if (!c->running)
        a.refusal = MUDASGUP_E_HALTED;
    else if (c->send)
        a.put = send_effect(t, i, c);
    else if (may_ack(t, i, c))
        a.put = ack_effect(i, c);
    else if (may_all(t, i, c))
        all_effect(t, c);
    else
        a.refusal = MUDASGUP_E_NOTHING;
    return a;
}

uint64_t mudasgup_raw_next(LENT, PUT) { STEPPED_PUT(next(&t, i, &c)); }

static bool rests(const struct tree *t, size_t i, const struct column *c) { return !c->running || (!c->send && !may_ack(t, i, c) && !may_all(t, i, c)); }

uint64_t mudasgup_raw_idle(READ) {
    STANDING;
    return refusal ? refused(refusal) : rests(&t, i, &c);
}

/* ---- a return */

uint64_t mudasgup_raw_rejoin(LENT, uint64_t lowest, uint32_t number, const uint8_t *doors, uint64_t doors_size, uint64_t halted) {
    if (doors_size != MUDASGUP_DOORS_SIZE)
        return refused(MUDASGUP_E_BLOCK);
    STANDING;
    if (refusal)
        return refused(refusal);
    uint64_t running = ((1u << t.columns) - 1) & ~halted & ~(1u << i);
    if (halted >> t.columns || has((uint16_t)halted, i) || (running && lowest != (uint64_t)__builtin_ctzll(running)))
        return refused(MUDASGUP_E_STATE);
    if (c.running || i == t.root || !running)
        return refused(c.running ? MUDASGUP_E_NOTHING : i == t.root ? MUDASGUP_E_ROOT : MUDASGUP_E_ALONE);
    struct column back = {.doors = doors_in(doors), .number = number, .noted = (uint16_t)halted, .running = true, .whole = has((uint16_t)halted, t.root),
                          .sender = (uint8_t)lowest, .mask = c.mask, .pending = c.pending};
    column_out(i, &back, column);
    return 0;
}

uint64_t mudasgup_raw_strike(LENT, uint64_t back) {
    STANDING;
    if (refusal || back >= t.columns || back == i)
        return refused(refusal ? refusal : MUDASGUP_E_STATE);
    if (!rests(&t, i, &c))
        return refused(MUDASGUP_E_UNREST);
    c.noted &= (uint16_t)~(1u << back);
    column_out(i, &c, column);
    return 0;
}

/* ---- a column's page */

static struct answer written(const struct tree *t, size_t i, struct column *c, uint64_t offset, uint8_t value) {
    struct answer a = {.refusal = (uint8_t)standing(t, i, c)};
    if (a.refusal)
        return a;
    if (offset == MUDASGUP_PAGE_MASK)
        c->mask = value;
    else if (offset == MUDASGUP_PAGE_CLEAR)
        c->pending &= (uint8_t)~value;
    else
        a.refusal = MUDASGUP_E_OFFSET;
    return a;
}

uint64_t mudasgup_raw_page_write(LENT, uint64_t offset, uint8_t value) { STEPPED(written(&t, i, &c, offset, value)); }

static uint8_t page_byte(size_t i, const struct column *c, uint64_t offset) {
    switch (offset) {
    case MUDASGUP_PAGE_COLUMN: return (uint8_t)i;
    case MUDASGUP_PAGE_STATUS: return (uint8_t)(c->running + 2 * c->whole);
    case MUDASGUP_PAGE_SEND: return (uint8_t)__builtin_popcount(c->send);
    case MUDASGUP_PAGE_AWAITED: return (uint8_t)__builtin_popcount(c->awaited);
    case MUDASGUP_PAGE_OWED: return (uint8_t)__builtin_popcount(c->owed);
    case MUDASGUP_PAGE_MASK: return c->mask;
    case MUDASGUP_PAGE_PENDING: return c->pending;
    default: return 0;
    }
}

uint64_t mudasgup_raw_page_read(READ, uint64_t offset) {
    STANDING;
    if (refusal || offset >= PAGE)
        return refused(refusal ? refusal : MUDASGUP_E_OFFSET);
    return page_byte(i, &c, offset);
}

uint64_t mudasgup_raw_line_up(const uint8_t *column, uint64_t column_size) {
    if (!is_column(column, column_size))
        return refused(MUDASGUP_E_BLOCK);
    return (column[MUDASGUP_COLUMN_MASK] & column[MUDASGUP_COLUMN_PENDING]) != 0;
}
