/* What the programs of wrong uses share: a bank of three columns, the root 0 with both others as children, and what is checked. */
#include <mudasgup.h>
#include <stdio.h>
#include <stdlib.h>
#include <string.h>

static mudasgup_tree tree;
static mudasgup_column column[3];

/* Ends the program where a fact does not hold. */
#define HOLDS(fact) holds(fact, #fact)
static inline void holds(int fact, const char *text) {
  if (fact)
    return;
  printf("does not hold: %s\n", text);
  exit(1);
}

#define ACCEPTED(call) HOLDS((call) == MUDASGUP_OK)

static inline void begin(void) {
  const char table[] = "columns=3\nroot=0\nup=0,0,0\n";
  size_t used = 0;
  ACCEPTED(mudasgup_tree_read(&tree, table, strlen(table), &used));
  HOLDS(used == strlen(table));
  for (uint32_t i = 0; i < 3; i++)
    ACCEPTED(mudasgup_column_fresh(&tree, i, &column[i]));
}

static inline void print_list(size_t i) {
  char text[MUDASGUP_LIST_SIZE + 1] = "";
  size_t length = 0;
  ACCEPTED(mudasgup_list(&tree, &column[i], text, MUDASGUP_LIST_SIZE, &length));
  for (size_t k = 0; k < length; k++)
    putchar(text[k] == '\n' ? ' ' : text[k]);
  putchar('\n');
}

/* A line that delivers each packet once and whole; packets to a column without power vanish. */
static mudasgup_packet line[64];
static size_t under_way;

static inline void put_on_line(const mudasgup_packet *put) {
  if (put->size > 0)
    line[under_way++] = *put;
}

static inline void take_packet(const mudasgup_packet *arrived) {
  uint8_t to = arrived->bytes[MUDASGUP_PACKET_TO];
  mudasgup_packet put;
  int left = 0;
  do {
    ACCEPTED(mudasgup_take(&tree, &column[to], arrived, &put, &left));
    put_on_line(&put);
  } while (left);
}

/* Runs the columns to rest, but for the one without power, if any. */
#define NOBODY 3
static inline void run(size_t stopped) {
  mudasgup_packet put;
  for (size_t i = 0; i < 3; i++)
    while (i != stopped && mudasgup_next(&tree, &column[i], &put) == MUDASGUP_OK)
      put_on_line(&put);
  if (under_way == 0)
    return;
  mudasgup_packet arrived = line[--under_way];
  if (arrived.bytes[MUDASGUP_PACKET_TO] != stopped)
    take_packet(&arrived);
  run(stopped);
}

static inline int idle(size_t i) {
  int answer = 0;
  ACCEPTED(mudasgup_idle(&tree, &column[i], &answer));
  return answer;
}
