/* What the supervisor holds of a bank: its processes, the line between them, and what they last said. */
#ifndef SUPERVISOR_H
#define SUPERVISOR_H

#include "bank.h"
#include <sys/types.h>

#define PACKETS_MOST 4096
#define COMMANDS_MOST 4 /* under way to one column, so that neither end waits for the other */

struct bank {
  unsigned seed, orders, kills, accepted, killed, carried, asked;
  unsigned back, without_root;  /* how many columns came back, and of these while the root had halted */
  unsigned compared, missing;   /* pairs of journals, and lines that were missing in them */
  mudasgup_tree tree;
  size_t count, root, packets_count;
  pid_t process[MUDASGUP_COLUMNS];
  int line[MUDASGUP_COLUMNS], running[MUDASGUP_COLUMNS], busy[MUDASGUP_COLUMNS];
  int came_back[MUDASGUP_COLUMNS];
  uint32_t untold[MUDASGUP_COLUMNS]; /* those halted that a column has yet to be told of */
  struct wiring wiring[MUDASGUP_COLUMNS];
  struct done last[MUDASGUP_COLUMNS];
  mudasgup_packet packets[PACKETS_MOST];
};

extern struct bank bank;

/* The journals of all columns, which outlast them. */
extern struct journal *journals;

/* A random number below n. */
unsigned below(unsigned n);

/* Ends the run with a word on what was found. */
void fail(const char *why);

/* A random tree, and the process of column i on its line: fresh, or come back. */
void random_tree(void);
void start_column(size_t i, const struct comeback *comeback);

/* A command to column i. */
void command(size_t i, uint8_t kind, const void *bytes, size_t size);

/* The packet at place k goes to its column. */
void deliver(size_t k);

/* The number of a column's order. */
uint32_t number_of(const mudasgup_column *column);

/* Whether a column neither sends nor awaits; whether it could take no step. */
int is_done(const mudasgup_column *column);
int is_idle(const mudasgup_column *column);

/* One datagram of column i, if there is one; of one that was killed only its packets count. */
int hear(size_t i, int alive);

/* Hears every column that has something to say; waits for one where nothing else can be done. */
void hear_all(int wait);

/* Hears the columns until every command is carried out. */
void hear_out(void);

/* Compares the journals of two columns that run and never came back, by the program of ./journals: its answer must be what the line holds between them. */
void compare_journals(const char *program);

#endif
