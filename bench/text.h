/* What the programs in plain C share: the input read, lines written. */
#include "bank.h"
#include "table.h"
#include <unistd.h>

enum { LIMIT = 65536 };

static uint8_t input[LIMIT + 1];
static char output[16384];
static size_t printed;

static inline bool flush(void) {
    size_t from = 0;
    while (from < printed) {
        ssize_t n = write(STDOUT_FILENO, output + from, printed - from);
        if (n <= 0)
            return false;
        from += (size_t)n;
    }
    printed = 0;
    return true;
}

static inline void put(const char *text) {
    size_t n = strlen(text);
    memcpy(output + printed, text, n);
    printed += n;
}

static inline void put_digits(size_t n) {
    char digits[20];
    size_t first = sizeof digits;
    do
        digits[--first] = (char)('0' + n % 10);
    while (n /= 10);
    memcpy(output + printed, digits + first, sizeof digits - first);
    printed += sizeof digits - first;
}

static inline void put_number(size_t n) {
    char *to = output + printed;
    if (n >= 100) {
        put_digits(n);
    } else if (n < 10) {
        to[0] = (char)('0' + n);
        printed += 1;
    } else {
        to[0] = (char)('0' + n / 10);
        to[1] = (char)('0' + n % 10);
        printed += 2;
    }
}

static inline void put_field(const char *key, size_t n) {
    put(key);
    put_number(n);
    put("\n");
}

/* How many bytes were read, one more than the limit at most; none where a read failed. */
static inline bool read_input(size_t *size) {
    *size = 0;
    ssize_t n = 1;
    while (*size < sizeof input && n > 0) {
        n = read(STDIN_FILENO, input + *size, sizeof input - *size);
        *size += n > 0 ? (size_t)n : 0;
    }
    return n >= 0;
}
