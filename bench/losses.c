/* How many halts lose the order, in plain C, in place: what crates/losses_main is measured beside. */
#include "text.h"

enum { MOST_COLUMNS = 8, TO_REST = 536 };

/* Only the packets under way are copied. */
static void copy_bank(struct bank *to, const struct bank *from) {
    memcpy(to, from, offsetof(struct bank, packets) + from->count * sizeof from->packets[0]);
}

static bool all_hold(const struct bank *b, uint32_t number) {
    for (size_t i = 0; i < b->tree.columns; i++)
        if (b->columns[i].running && b->columns[i].number != number)
            return false;
    return true;
}

static bool nobody_runs(const struct bank *b) {
    for (size_t i = 0; i < b->tree.columns; i++)
        if (b->columns[i].running)
            return false;
    return true;
}

static void put_losses(const struct tree *t, size_t count) {
    static struct bank begun, b;
    size_t kept = 0, lost = 0, none = 0, steps;
    bank_fresh(&begun, t);
    bank_order(&begun, 0);
    bank_dispatch(&begun, count, false, &steps);
    for (uint32_t set = 0; set < 1u << t->columns; set++) {
        copy_bank(&b, &begun);
        bank_halt(&b, set);
        bank_dispatch(&b, TO_REST, false, &steps);
        if (nobody_runs(&b))
            none++;
        else if (all_hold(&b, 1))
            kept++;
        else if (all_hold(&b, 0))
            lost++;
    }
    put_field("kept=", kept);
    put_field("lost=", lost);
    put_field("none=", none);
}

/* The refusal, 0 where the counts are put. */
static uint8_t answer(size_t size) {
    struct cursor c = {input, input + size};
    struct tree t;
    size_t count;
    uint8_t refusal = size > LIMIT ? 13 : read_tree(&c, &t);
    if (refusal)
        return refusal;
    if (t.columns > MOST_COLUMNS || t.watch)
        return 23;
    if (!literal(&c, "after=") || !numeral(&c, 3, &count) || !literal(&c, "\n") || c.at != c.end)
        return 13;
    put_losses(&t, count);
    return 0;
}

int main(void) {
    size_t size;
    if (!read_input(&size))
        return 1;
    uint8_t refusal = answer(size);
    if (refusal)
        put_field("refused=", refusal);
    return flush() ? 0 : 1;
}
