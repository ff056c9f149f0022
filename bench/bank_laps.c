/* Laps of one step of a bank: standard input as for crates/bank_timing; the number printed must be the same. Letter B prints the bytes of a bank and
   of its packets. */
#include "bank.h"
#include "laps.h"
#include <stdio.h>

static struct bank bank;

/* A fresh bank in which column 2 is halted. */
static void start(size_t columns, uint8_t read) {
    bank.tree = heap(columns, read);
    for (size_t i = 0; i < columns && i < 16; i++)
        bank.columns[i] = (struct column){.running = i != 2, .whole = i == 0};
}

static void sent(size_t root, uint64_t lap) {
    bank.columns[root].send = 2;
    bank.columns[root].doors = lap;
    bank_send(&bank, root);
}

/* The columns of a set halt, none of which a packet is for, and run again before the next lap. */
static void halted(size_t root, uint32_t set, uint64_t lap) {
    for (uint32_t rest = set; rest; rest &= rest - 1)
        bank.columns[__builtin_ctz(rest)].running = true;
    bank.columns[root].doors = lap;
    bank_halt(&bank, set);
}

static void bank_lap(char letter, size_t root, uint64_t lap) {
    if (letter == 'H' || letter == 'S') {
        halted(root, letter == 'H' ? 32768 : 65528, lap);
        return;
    }
    if (letter == 'N') {
        bank.columns[root].send = 0;
        bank.columns[root].awaited = 4;
        bank.columns[root].noted = 0;
        bank_note(&bank, root, root + 2);
        return;
    }
    sent(root, lap);
    bank_take(&bank, root);
}

static uint64_t bank_laps(char letter, uint8_t read, uint64_t columns, uint64_t packets, uint64_t laps) {
    size_t root = read;
    start(columns, read);
    for (uint64_t k = 0; k < packets; k++)
        sent(root, k);
    uint64_t sum = 0;
    for (uint64_t lap = 0; lap < laps; lap++) {
        bank_lap(letter, root, lap);
        const struct column *c = &bank.columns[root];
        uint64_t sets = (uint64_t)c->send + c->awaited + c->noted + bank.columns[root + 1].owed;
        sum = fold(sum, sets + bank.count % 65536 + bank.packets[0].doors % 65536);
        sum = fold(fold(sum, bank.columns[root + 3].running), bank.columns[15 - root].running);
    }
    return sum;
}

int main(void) {
    char line[64], letter;
    unsigned long long columns, packets, laps;
    if (!fgets(line, sizeof line, stdin))
        return 1;
    if (line[0] == 'B')
        return printf("%zu %zu\n", offsetof(struct bank, packets), sizeof bank.packets) < 0;
    if (sscanf(line, "%c %llu %llu %llu", &letter, &columns, &packets, &laps) != 4)
        return 1;
    return printf("%llu\n", (unsigned long long)bank_laps(letter, read_byte(line), columns, packets, laps)) < 0;
}
