/* A bank of columns and its network in plain C. */
#include "column.h"

enum { CAPACITY = 512 };

struct bank {
    struct tree tree;
    struct column columns[16];
    size_t count;
    struct packet packets[CAPACITY];
};

/* Of a tree that is not refused. */
void bank_fresh(struct bank *b, const struct tree *t);

/* Each answers its refusal, 0 where it is accepted. */
uint8_t bank_order(struct bank *b, uint64_t doors);
uint8_t bank_send(struct bank *b, size_t i);
uint8_t bank_take(struct bank *b, size_t place);
uint8_t bank_ack(struct bank *b, size_t i);
uint8_t bank_all(struct bank *b, size_t i);
uint8_t bank_note(struct bank *b, size_t i, size_t j);
/* A set of columns; bit 16 means every number that no bank has. */
uint8_t bank_halt(struct bank *b, uint32_t set);
uint8_t bank_back(struct bank *b, size_t j);

/* Steps until rest, the limit or a refused one, counted. The bank is tested once, and after each step the newest packet; or, `thorough`,
   each is tested as a call of its own. */
uint8_t bank_dispatch(struct bank *b, size_t limit, bool thorough, size_t *steps);

/* By which of rows 2 to 4 the bank is refused, and who runs where it is not: one pass over the columns, one over the packets. */
struct survey {
    uint8_t refusal;
    uint16_t running;
};
struct survey survey(const struct bank *b);

/* Rows 2 to 5 for an acting column, as the list too is refused. */
uint8_t acting_refusal(const struct bank *b, size_t i);
bool bank_at_rest(const struct bank *b);

/* What the dispatcher shares with the steps. */
uint16_t halted_columns(const struct bank *b, uint16_t running);

/* The packet of a column's step; where it has no place the column is again as it was. */
uint8_t settle(struct bank *b, struct column *c, const struct column *before, struct packet p);
uint8_t settle_taken(struct bank *b, size_t place, const struct column *before, struct answer a);
