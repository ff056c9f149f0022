/* Laps of one step of a lone column, or of a frame read: standard input as for crates/column_timing; the number printed must be the same. */
#include "frame.h"
#include "laps.h"
#include <stdio.h>

enum { TREES = 4 };

static struct column column(uint64_t lap, bool whole) {
    return (struct column){.running = true, .number = lap % 1000, .doors = lap, .whole = whole};
}

static struct column column_lap(char letter, const struct tree *t, uint64_t lap) {
    size_t root = t->root;
    struct column c = column(lap, letter == 'o' || letter == 's' || letter == 'e' || letter == 'n' || letter == 'r');
    switch (letter) {
    case 'o': order(t, root, &c, lap); break;
    case 's': c.send = 6; send(t, root, &c); break;
    case 'm': take(t, root + 1, &c, (struct packet){MESSAGE, 0, 1, 1000, lap}); break;
    case 'e': c.awaited = 6; take(t, root, &c, (struct packet){ACKNOWLEDGEMENT, 2, 0, c.number, 0}); break;
    case 'a': c.owed = 9; ack(t, root + 2, &c); break;
    case 'l': c.noted = 1; all(t, root + 3, &c); break;
    case 'n': c.awaited = 6; note(t, root, &c, root + 1); break;
    case 'h': halt(t, root + 5, &c); break;
    default: send(t, root, &c); break;
    }
    return c;
}

/* The trees differ from lap to lap, so that no test of a tree is made once for all laps. */
static uint64_t column_laps(char letter, uint8_t read, uint64_t laps) {
    struct tree trees[] = {heap(16, read), heap(16, read), heap(16, read), heap(16, read)};
    trees[read % TREES].up[15] = trees[0].up[14];
    uint64_t sum = 0;
    for (uint64_t lap = 0; lap < laps; lap++) {
        struct column c = column_lap(letter, &trees[lap % TREES], lap);
        sum = fold(sum, (uint64_t)c.number + c.send + c.awaited + c.owed + c.noted + c.running);
    }
    return sum;
}

/* A frame of 512 messages, in each lap the doors of another one the lap's. */
static uint64_t frame_laps(uint64_t laps) {
    static const uint8_t message[MESSAGE_SIZE] = {MESSAGE, 0, 1, 1, 2, 3, 4, 1, 2, 3, 4, 5, 6, 7, 8};
    static uint8_t bytes[FRAME_PACKETS * MESSAGE_SIZE];
    static struct frame frame;
    for (size_t i = 0; i < sizeof bytes; i++)
        bytes[i] = message[i % MESSAGE_SIZE];
    uint64_t sum = 0;
    for (uint64_t lap = 0; lap < laps; lap++) {
        size_t place = lap % FRAME_PACKETS;
        bytes[place * MESSAGE_SIZE + ACKNOWLEDGEMENT_SIZE] = (uint8_t)lap;
        uint8_t refusal = read_frame(bytes, sizeof bytes, &frame);
        sum = fold(fold(sum, refusal ? refusal : frame.count), frame.packets[place].doors);
    }
    return sum;
}

int main(void) {
    char line[64], letter;
    unsigned long long laps;
    if (!fgets(line, sizeof line, stdin) || sscanf(line, "%c %llu", &letter, &laps) != 2)
        return 1;
    return printf("%llu\n", (unsigned long long)(letter == 'f' ? frame_laps(laps) : column_laps(letter, read_byte(line), laps))) < 0;
}
