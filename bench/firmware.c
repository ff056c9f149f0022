/* Laps of the exports that include/mudasgup.h declares, whoever defines them: `firmware LETTER LAPS` prints what their answers fold into, and what the last one left.
   `firmware LETTERS` prints the most bytes of stack that one of these calls needs. */
#include "blocks.h"
#include "laps.h"
#include <stdio.h>
#include <stdlib.h>
#include <ucontext.h>

#define STACK 262144
#define PAINT 0xA5
#define HALTED 6  /* the set of columns 1 and 2 */
#define JOINED 15 /* packets of the frame to which one is joined */

/* The trees of even and odd laps differ. */
static uint8_t trees[2][MUDASGUP_TREE_SIZE], read[MUDASGUP_TREE_SIZE];
static char tables[2][256];
static const uint8_t doors[MUDASGUP_DOORS_SIZE] = {1, 2};
static uint8_t message[MUDASGUP_PACKET_SIZE], put[MUDASGUP_PACKET_SIZE], frame[FRAME_PACKETS * MUDASGUP_PACKET_SIZE], list[MUDASGUP_LIST_SIZE];

/* What is called: the column that acts, and its state. */
struct lap {
    char letter;
    size_t i;
    struct column state;
};
static const struct lap laps[] = {
    {'o', 0, {.running = true, .whole = true}},
    {'s', 0, {.running = true, .whole = true, .send = 6}},
    {'m', 1, {.running = true}},
    {'a', 2, {.running = true, .owed = 9}},
    {'l', 3, {.running = true, .noted = 1}},
    {'n', 0, {.running = true, .whole = true, .awaited = 6}},
    {'h', 5, {.running = true}},
    {'x', 0, {.running = true, .whole = true, .send = 6}},
    {'i', 3, {.running = true, .noted = 2}},
    {'R', 5, {.doors = UINT64_MAX, .number = 7, .owed = 1}},
    {'S', 3, {.running = true, .noted = 34}},
    {'G', 1, {.running = true}},
};

#define BLOCK block, MUDASGUP_COLUMN_SIZE
#define LENT tree, MUDASGUP_TREE_SIZE, BLOCK
#define PUT put, sizeof put
#define LINE list, sizeof list
#define MESSAGE_BYTES message, sizeof message

static uint64_t stepped(char letter, const uint8_t *tree, uint8_t *block) {
    switch (letter) {
    case 'o': return mudasgup_raw_order(LENT, doors, sizeof doors);
    case 's': return mudasgup_raw_send(LENT, PUT);
    case 'm': return mudasgup_raw_take(LENT, MESSAGE_BYTES, PUT);
    case 'a': return mudasgup_raw_ack(LENT, PUT);
    case 'l': return mudasgup_raw_all(LENT);
    case 'x': return mudasgup_raw_next(LENT, PUT);
    case 'n': return mudasgup_raw_note(LENT, 1);
    case 'h': return mudasgup_raw_halt(LENT);
    case 'R': return mudasgup_raw_rejoin(LENT, 0, 1000, doors, sizeof doors, HALTED);
    case 'S': return mudasgup_raw_strike(LENT, 5);
    case 'w': return mudasgup_raw_page_write(LENT, MUDASGUP_PAGE_MASK, 7);
    default: return MUDASGUP_RAW_REFUSED;
    }
}

/* A step, or another call. */
static uint64_t called(char letter, const uint8_t *tree, size_t i, uint8_t *block) {
    const char *text = tables[tree == trees[1]];
    switch (letter) {
    case 'f': return mudasgup_raw_frame_count(frame, sizeof frame);
    case 'L': return mudasgup_raw_list(LENT, LINE);
    case 'F': return mudasgup_raw_column_fresh(tree, MUDASGUP_TREE_SIZE, i, BLOCK);
    case 'i': return mudasgup_raw_idle(LENT);
    case 'c': return mudasgup_raw_packet_convert(MESSAGE_BYTES, PUT);
    case 't': return mudasgup_raw_tree_check(tree, MUDASGUP_TREE_SIZE);
    case 'T': return mudasgup_raw_tree_read((const uint8_t *)text, strlen(text), read, sizeof read);
    case 'p': return mudasgup_raw_page_read(LENT, MUDASGUP_PAGE_PENDING);
    case 'u': return mudasgup_raw_line_up(BLOCK);
    case 'r': return mudasgup_raw_packet_read(MESSAGE_BYTES, PUT);
    case 'M': return mudasgup_raw_message(0, 1, 1000, doors, sizeof doors, PUT);
    case 'A': return mudasgup_raw_acknowledgement(0, 1, 1000, PUT);
    case 'j': return mudasgup_raw_frame_join(MESSAGE_BYTES, frame, sizeof frame, JOINED * sizeof message);
    case 'O': return mudasgup_raw_journal_owner(BLOCK, LINE);
    case 'J': return mudasgup_raw_journal_sent(BLOCK, MESSAGE_BYTES, LINE);
    case 'G': return mudasgup_raw_journal_got(BLOCK, MESSAGE_BYTES, LINE);
    default: return stepped(letter, tree, block);
    }
}

static void print_bytes(const uint8_t *bytes, size_t size) {
    for (size_t k = 0; k < size; k++)
        printf("%02x", bytes[k]);
    putchar('\n');
}

/* Each lap begins at the same state. A refusal is no lap. */
static int run(const struct lap *lap, uint64_t count) {
    uint8_t first[MUDASGUP_COLUMN_SIZE], block[MUDASGUP_COLUMN_SIZE];
    uint64_t sum = 0;
    column_out(lap->i, &lap->state, first);
    for (uint64_t k = 0; k < count; k++) {
        memcpy(block, first, sizeof first);
        uint64_t answer = called(lap->letter, trees[k % 2], lap->i, block);
        if (answer >= MUDASGUP_RAW_REFUSED)
            return 1;
        sum = fold(sum, answer);
    }
    printf("%llu\n", (unsigned long long)sum);
    if (count) {
        print_bytes(block, sizeof block);
        print_bytes(put, sizeof put);
        print_bytes(list, sizeof list);
        print_bytes(read, sizeof read);
    }
    return 0;
}

/* The bytes of stack that an accepted call reaches down to, on a stack of its own that was painted. */
static ucontext_t caller, callee;
static struct lap asked;
static uint8_t asked_block[MUDASGUP_COLUMN_SIZE];
static uint64_t answered;
static const uint8_t *top;

static void on_own_stack(void) {
    top = __builtin_frame_address(0);
    answered = called(asked.letter, trees[0], asked.i, asked_block);
}

static size_t stack_of(struct lap lap) {
    static uint8_t stack[STACK];
    const uint8_t *lowest = stack;
    memset(stack, PAINT, sizeof stack);
    getcontext(&callee);
    callee.uc_stack.ss_sp = stack;
    callee.uc_stack.ss_size = sizeof stack;
    callee.uc_link = &caller;
    asked = lap;
    column_out(lap.i, &lap.state, asked_block);
    makecontext(&callee, on_own_stack, 0);
    swapcontext(&caller, &callee);
    if (answered >= MUDASGUP_RAW_REFUSED)
        exit(3);
    while (*lowest == PAINT)
        lowest++;
    return (size_t)(top - lowest);
}

/* The step of this letter, or another call at a root that has every door. */
static struct lap lap_of(char letter) {
    for (size_t k = 0; k < sizeof laps / sizeof *laps; k++)
        if (laps[k].letter == letter)
            return laps[k];
    return (struct lap){.letter = letter, .state = {.doors = UINT64_MAX, .number = UINT32_MAX, .running = true, .whole = true}};
}

static size_t most_stack_of(const char *letters) {
    size_t most = 0;
    for (; *letters; letters++) {
        size_t used = stack_of(lap_of(*letters));
        most = used > most ? used : most;
    }
    return most;
}

static void prepare(void) {
    for (size_t k = 0; k < 2; k++) {
        struct tree t = heap(16, 0);
        t.up[15] = (uint8_t)(6 + k);
        tree_out(&t, trees[k]);
        char *at = tables[k] + sprintf(tables[k], "columns=%zu\nroot=%zu\nup=", t.columns, t.root);
        for (size_t j = 0; j < t.columns; j++)
            at += sprintf(at, "%d%c", t.up[j], j + 1 < t.columns ? ',' : '\n');
    }
    mudasgup_raw_message(0, 1, 1000, doors, sizeof doors, message, sizeof message);
    for (size_t k = 0; k < FRAME_PACKETS; k++)
        memcpy(frame + k * sizeof message, message, sizeof message);
}

int main(int count, char **words) {
    if (count < 2)
        return 2;
    prepare();
    if (count == 2)
        return printf("%zu\n", most_stack_of(words[1])) < 0;
    const struct lap lap = lap_of(*words[1]);
    return run(&lap, strtoull(words[2], NULL, 10));
}
