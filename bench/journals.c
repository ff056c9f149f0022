/* Two journals compared in plain C: what crates/journals_main is measured beside. Lines are found by chains of equal remainders, as there. */
#include <stdint.h>
#include <stdio.h>
#include <string.h>

enum { LIMIT = 32768, LINES = 3277, BUCKETS = 4093 };

struct journal {
    char text[LIMIT + 1];
    size_t length, from, count;
    unsigned owner;
    uint64_t keys[LINES];
    size_t starts[LINES + 1];
    uint16_t heads[BUCKETS], next[LINES];
};

static struct journal one, two;

static int digits(const char **at, const char *end, int most, uint64_t *value) {
    const char *first = *at;
    *value = 0;
    for (; *at < end && **at >= '0' && **at <= '9'; ++*at)
        if (*at - first < most)
            *value = *value * 10 + (uint64_t)(**at - '0');
    return *at > first && *at - first <= most && (*first != '0' || *at - first == 1);
}

static int line(struct journal *j, const char *at, const char *end, uint64_t *key) {
    uint64_t way, kind, other, number;
    if (end - at > 5 && memcmp(at, "sent=", 5) == 0)
        way = 0, at += 5;
    else if (end - at > 4 && memcmp(at, "got=", 4) == 0)
        way = 1, at += 4;
    else
        return 0;
    if (!digits(&at, end, 1, &kind) || at == end || *at++ != ',' || !digits(&at, end, 2, &other) || at == end || *at++ != ','
        || !digits(&at, end, 10, &number) || at != end)
        return 0;
    *key = ((way * 256 + kind) * 256 + other) << 32 | number;
    return kind >= 1 && kind <= 2 && other < 16 && other != j->owner && number <= UINT32_MAX;
}

static int read_journal(struct journal *j, const char *path) {
    FILE *file = fopen(path, "rb");
    if (!file)
        return 0;
    j->length = fread(j->text, 1, LIMIT + 1, file);
    fclose(file);
    const char *at = j->text, *end = at + j->length, *stop;
    uint64_t owner;
    if (j->length > LIMIT || j->length < 7 || memcmp(at, "column=", 7) != 0)
        return 0;
    at += 7;
    if (!digits(&at, end, 2, &owner) || owner > 15 || at == end || *at++ != '\n')
        return 0;
    j->owner = (unsigned)owner;
    for (; at < end; at = stop + 1) {
        stop = memchr(at, '\n', (size_t)(end - at));
        if (!stop || !line(j, at, stop, &j->keys[j->count]))
            return 0;
        j->starts[j->count++] = (size_t)(at - j->text);
    }
    j->starts[j->count] = j->length;
    return 1;
}

static int has(const struct journal *j, uint64_t key) {
    for (unsigned i = j->heads[key % BUCKETS]; i; i = j->next[i - 1])
        if (j->keys[i - 1] == key)
            return 1;
    return 0;
}

static int chain(struct journal *j) {
    for (size_t i = 0; i < j->count; ++i) {
        if (has(j, j->keys[i]))
            return 0;
        j->next[i] = j->heads[j->keys[i] % BUCKETS];
        j->heads[j->keys[i] % BUCKETS] = (uint16_t)(i + 1);
    }
    return 1;
}

static uint64_t turned(uint64_t way, unsigned other, uint64_t key) {
    return way << 48 | (key >> 40 & 255) << 40 | (uint64_t)other << 32 | (key & UINT32_MAX);
}

static int about(unsigned other, uint64_t way, uint64_t key) { return key >> 48 == way && (key >> 32 & 255) == other; }

static int heard(const struct journal *mine, const struct journal *theirs) {
    for (size_t i = 0; i < mine->count; ++i)
        if (about(theirs->owner, 1, mine->keys[i]) && !has(theirs, turned(0, mine->owner, mine->keys[i])))
            return 0;
    return 1;
}

static size_t missing(const struct journal *mine, const struct journal *theirs, char *out) {
    size_t length = 0;
    for (size_t i = 0; i < mine->count; ++i)
        if (about(theirs->owner, 0, mine->keys[i]) && !has(theirs, turned(1, mine->owner, mine->keys[i]))) {
            memcpy(out + length, mine->text + mine->starts[i], mine->starts[i + 1] - mine->starts[i]);
            length += mine->starts[i + 1] - mine->starts[i];
        }
    return length;
}

int main(int count, char **words) {
    static char out[2 * LIMIT];
    int refused = 0;
    if (count != 3 || !read_journal(&one, words[1]) || !read_journal(&two, words[2]) || one.owner == two.owner)
        refused = 19;
    else if (!chain(&one) || !chain(&two))
        refused = 20;
    else if (!heard(&one, &two) || !heard(&two, &one))
        refused = 21;
    if (refused)
        return printf("refused=%d\n", refused) < 0;
    size_t length = missing(&one, &two, out);
    length += missing(&two, &one, out + length);
    return fwrite(out, 1, length, stdout) != length;
}
