/* Laps of a bank dispatched to rest: standard input as for crates/dispatch_timing; the number printed must be the same. Letter G is F with each
   step tested as a call of its own. */
#include "bank.h"
#include "laps.h"
#include <stdio.h>
#include <string.h>

static struct bank bank;

static void send_all(size_t i) {
    while (!bank_send(&bank, i))
        ;
}

/* Every column but the root takes over and sends to everyone: the first time under number 0, then under the order's. */
static void taken_over(bool first) {
    for (size_t i = 1; i < bank.tree.columns; i++) {
        if (first)
            bank_note(&bank, i, 0);
        else if (!bank_take(&bank, 0))
            bank_ack(&bank, i);
        bank_all(&bank, i);
        send_all(i);
    }
}

/* Letter D: the root of a heap has just been given an order. Any other: the root of a star halts with its order under way, and every other
   column takes over before it takes the order and once more after it. */
static void prepare(char letter, uint8_t read, size_t columns) {
    struct tree t = heap(columns, read);
    if (letter != 'D')
        memset(t.up, read, sizeof t.up);
    bank_fresh(&bank, &t);
    bank_order(&bank, 513);
    if (letter == 'D')
        return;
    send_all(0);
    bank_halt(&bank, 1);
    taken_over(true);
    taken_over(false);
}

static uint64_t dispatch_laps(char letter, uint8_t read, size_t columns, uint64_t laps) {
    static struct bank before;
    prepare(letter, read, columns);
    before = bank;
    uint64_t sum = 0;
    for (uint64_t lap = 0; lap < laps; lap++) {
        size_t steps;
        bank = before;
        bank.columns[0].doors = lap;
        bank_dispatch(&bank, 9999, letter == 'G', &steps);
        const struct column *last = &bank.columns[columns - 1];
        sum = fold(sum, fold(fold(steps, bank.count), last->number + last->doors % 65536));
    }
    return sum;
}

static size_t columns_of(unsigned long long n) { return n == 0 ? 1 : n > 16 ? 16 : n; }

int main(void) {
    char line[64], letter;
    unsigned long long columns, laps;
    if (!fgets(line, sizeof line, stdin) || sscanf(line, "%c %llu %llu", &letter, &columns, &laps) != 3)
        return 1;
    return printf("%llu\n", (unsigned long long)dispatch_laps(letter, read_byte(line), columns_of(columns), laps)) < 0;
}
