/* The table of a fastest tree in plain C: what crates/fastest_main is measured beside. */
#include "text.h"

enum { MOST_TIME = 255 };

struct request {
    size_t columns, delay, gap;
};

static bool read_request(struct cursor *c, struct request *r) {
    return literal(c, "columns=") && numeral(c, 2, &r->columns) && literal(c, "\ndelay=") && numeral(c, 3, &r->delay) && literal(c, "\ngap=")
        && numeral(c, 3, &r->gap) && literal(c, "\n") && c->at == c->end;
}

static uint8_t request_refusal(const struct request *r) {
    if (r->columns == 0 || r->columns > 16)
        return 2;
    return r->delay == 0 || r->delay > MOST_TIME || r->gap == 0 || r->gap > MOST_TIME ? 17 : 0;
}

/* Which of the columns sends next; of several the lowest. */
static size_t soonest(const size_t *next, size_t columns) {
    size_t best = 0;
    for (size_t i = 1; i < columns; i++)
        if (next[i] < next[best])
            best = i;
    return best;
}

static void put_tree(const struct request *r) {
    size_t up[16] = {0}, next[16] = {0};
    for (size_t c = 1; c < r->columns; c++) {
        size_t sender = soonest(next, c);
        up[c] = sender;
        next[c] = next[sender] + r->delay;
        next[sender] += r->gap;
    }
    put_field("columns=", r->columns);
    put_field("root=", 0);
    put("up=0");
    for (size_t c = 1; c < r->columns; c++) {
        put(",");
        put_number(up[c]);
    }
    put("\n");
}

int main(void) {
    size_t size;
    struct request r;
    if (!read_input(&size))
        return 1;
    struct cursor c = {input, input + size};
    uint8_t refusal = read_request(&c, &r) ? request_refusal(&r) : 1;
    if (refusal)
        put_field("refused=", refusal);
    else
        put_tree(&r);
    return flush() ? 0 : 1;
}
