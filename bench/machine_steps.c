/* Steps of a column of 16 on any machine. The input is two bytes: which step, by its letter, and how many laps of it; with no laps it says how many bytes of stack the
 * step takes. */
#include "stream.h"
#include <mudasgup.h>
#include <string.h>

enum {
  PAINTED = 4096,
  PAINT = 0x5A
};

static mudasgup_tree tree;
static mudasgup_column root, ordered, child, column;
static mudasgup_packet message, put;
static char list[MUDASGUP_LIST_SIZE];
static const uint8_t doors[MUDASGUP_DOORS_SIZE] = {1, 2, 3, 4, 5, 6, 7, 8};
static int left;
static size_t length;
static mudasgup_status status;

static void nothing(void) {}
static void check(void) { status = mudasgup_tree_check(&tree); }
static void fresh(void) { status = mudasgup_column_fresh(&tree, 1, &column); }
static void order(void) { column = root, status = mudasgup_order(&tree, &column, doors); }
static void next(void) { column = ordered, status = mudasgup_next(&tree, &column, &put); }
static void take(void) { column = child, status = mudasgup_take(&tree, &column, &message, &put, &left); }
static void note(void) { column = child, status = mudasgup_note(&tree, &column, 0); }
static void list_doors(void) { status = mudasgup_list(&tree, &ordered, list, sizeof list, &length); }

static const struct {
  char letter;
  void (*step)(void);
} steps[] = {{'-', nothing}, {'t', check}, {'F', fresh}, {'o', order}, {'x', next}, {'m', take}, {'n', note}, {'L', list_doors}};

/* A binary tree, its root with an order of which the first child has got the message. */
static int is_begun(void) {
  static const char table[] = "columns=16\nroot=0\nup=0,0,0,1,1,2,2,3,3,4,4,5,5,6,6,7\n";
  size_t used;
  if (mudasgup_tree_read(&tree, table, sizeof table - 1, &used) || mudasgup_column_fresh(&tree, 0, &root) || mudasgup_column_fresh(&tree, 1, &child))
    return 0;
  ordered = root;
  if (mudasgup_order(&tree, &ordered, doors))
    return 0;
  column = ordered;
  return mudasgup_next(&tree, &column, &message) == MUDASGUP_OK && message.bytes[MUDASGUP_PACKET_TO] == 1;
}

static void __attribute__((noinline)) paint(void) {
  volatile uint8_t area[PAINTED];
  for (int i = 0; i < PAINTED; i++)
    area[i] = PAINT;
  __asm__ volatile("" : : "r"(area) : "memory");
}

/* How many bytes of what was painted are not so any more, from the lowest of them on. */
static unsigned __attribute__((noinline)) painted_over(void) {
  volatile uint8_t area[PAINTED];
  unsigned kept = 0;
  __asm__ volatile("" : : "r"(area) : "memory");
  while (kept < PAINTED && area[kept] == PAINT)
    kept++;
  return PAINTED - kept;
}

int main(void) {
  char text[21];
  uint8_t asked[2];
  void (*step)(void) = 0;
  if (!is_begun() || stream_read(asked, sizeof asked) != sizeof asked)
    stream_end(1);
  for (size_t i = 0; i < sizeof steps / sizeof *steps; i++)
    if (steps[i].letter == (char)asked[0])
      step = steps[i].step;
  if (!step)
    stream_end(1);
  for (int i = 0; i < asked[1]; i++)
    step();
  if (asked[1] == 0) {
    paint();
    step();
    stream_say(stream_number(painted_over(), text)), stream_say("\n");
  }
  stream_end(status != MUDASGUP_OK);
  return 0;
}
