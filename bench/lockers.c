/* The script program of document 01 in plain C, in place: what crates/lockers_main is measured beside. */
#include "text.h"

enum { LONGEST_LIST = 229 };

static struct bank bank;

static void put_answer(uint8_t refusal) {
    if (refusal)
        put_field("refused=", refusal);
    else
        put("step=ok\n");
}

static void put_list(size_t i) {
    uint8_t refusal = acting_refusal(&bank, i);
    if (refusal) {
        put_answer(refusal);
        return;
    }
    uint64_t doors = bank.columns[i].doors;
    put_field("column=", i);
    put_field("number=", bank.columns[i].number);
    put_field("occupied=", (size_t)__builtin_popcountll(doors));
    put("doors=");
    for (uint64_t rest = doors; rest; rest &= rest - 1) {
        if (rest != doors)
            put(",");
        put_number((size_t)__builtin_ctzll(rest) + 1);
    }
    put("\n");
}

static int hexadecimal(uint8_t b) {
    if (b >= '0' && b <= '9')
        return b - '0';
    return b >= 'a' && b <= 'f' ? b - 'a' + 10 : -1;
}

static bool doors_read(struct cursor *c, uint64_t *doors) {
    if (c->end - c->at != 16)
        return false;
    *doors = 0;
    for (int i = 0; i < 8; i++) {
        int high = hexadecimal(c->at[2 * i]), low = hexadecimal(c->at[2 * i + 1]);
        if (high < 0 || low < 0)
            return false;
        *doors |= (uint64_t)(high * 16 + low) << 8 * i;
    }
    return true;
}

/* The table's refusal, 0 where the bank is fresh and the cursor is after it. */
static uint8_t table(struct cursor *c) {
    struct tree t;
    uint8_t refusal = read_tree(c, &t);
    if (!refusal)
        bank_fresh(&bank, &t);
    return refusal;
}

static bool numbered(struct cursor *c, const char *key, int width, size_t *n) {
    return literal(c, key) && numeral(c, width, n) && c->at == c->end;
}

static uint8_t ordered(struct cursor *c) {
    uint64_t doors;
    return literal(c, "order=") && doors_read(c, &doors) ? bank_order(&bank, doors) : 13;
}

static uint8_t noted(struct cursor *c) {
    size_t i, j;
    if (!literal(c, "note=") || !numeral(c, 2, &i) || !literal(c, ",") || !numeral(c, 2, &j) || c->at != c->end)
        return 13;
    return bank_note(&bank, i, j);
}

/* Bit 16 means every number that no bank has. */
static uint8_t halted(struct cursor *c) {
    uint32_t set = 0;
    size_t i;
    if (!literal(c, "halt="))
        return 13;
    do {
        if (!numeral(c, 2, &i))
            return 13;
        set |= 1u << (i < 16 ? i : 16);
    } while (literal(c, ","));
    return c->at == c->end ? bank_halt(&bank, set) : 13;
}

/* The refusal of a line that is neither a list nor a run. */
static uint8_t step(struct cursor *c) {
    size_t n;
    switch (*c->at) {
    case 'o': return ordered(c);
    case 's': return numbered(c, "send=", 2, &n) ? bank_send(&bank, n) : 13;
    case 't': return numbered(c, "take=", 3, &n) ? bank_take(&bank, n) : 13;
    case 'a':
        if (numbered(c, "ack=", 2, &n))
            return bank_ack(&bank, n);
        return numbered(c, "all=", 2, &n) ? bank_all(&bank, n) : 13;
    case 'n': return noted(c);
    case 'h': return halted(c);
    case 'b': return numbered(c, "back=", 2, &n) ? bank_back(&bank, n) : 13;
    default: return 13;
    }
}

static void dispatched(size_t limit) {
    size_t steps;
    uint8_t refusal = bank_dispatch(&bank, limit, false, &steps);
    if (!refusal)
        put_field("steps=", steps);
    put_answer(refusal);
}

static void line(struct cursor c) {
    size_t n;
    if (c.at == c.end)
        put_answer(13);
    else if (*c.at != 'l' && *c.at != 'r')
        put_answer(step(&c));
    else if (*c.at == 'l' && numbered(&c, "list=", 2, &n))
        put_list(n);
    else if (*c.at == 'r' && numbered(&c, "run=", 4, &n))
        dispatched(n);
    else
        put_answer(13);
}

static bool script(size_t size) {
    struct cursor c = {input, input + size};
    uint8_t refusal = size > LIMIT ? 13 : table(&c);
    if (refusal) {
        put_answer(refusal);
        return flush();
    }
    put("table=ok\n");
    while (c.at < c.end) {
        const uint8_t *end = memchr(c.at, '\n', (size_t)(c.end - c.at));
        if (!end) {
            put_answer(13);
            break;
        }
        line((struct cursor){c.at, end});
        c.at = end + 1;
        if (sizeof output - printed < LONGEST_LIST + sizeof "refused=13\nrest=yes\n" && !flush())
            return false;
    }
    put(bank_at_rest(&bank) ? "rest=yes\n" : "rest=no\n");
    return flush();
}

int main(void) {
    size_t size;
    return read_input(&size) && script(size) ? 0 : 1;
}
