/* A bank of real processes: one for each column, and a supervisor that is the line between them. */
#ifndef BANK_H
#define BANK_H

#include <mudasgup.h>

#define FRAME 512     /* bytes that a datagram carries at most */
#define JOURNAL 32768 /* bytes of a journal */

/* What a datagram to a column begins with. */
enum { BEGIN = 'b', PACKETS = 'p', ORDER = 'o', NOTE = 'n', STRIKE = 's', ASK = 'a', LIST = 'l', GO_ON = 'g' };
/* And one from a column: a frame of packets for the line, or that the command is carried out. */
enum { FOR_LINE = 'f', DONE = 'd' };

/* What a column says when it has carried out a command. */
struct done {
  uint8_t kind, command;
  uint8_t events; /* what was pending on its register page, which it has cleared */
  uint32_t asked; /* the number that was asked for */
  mudasgup_status order;
  mudasgup_column column;
  char list[MUDASGUP_LIST_SIZE];
  size_t list_size;
};

/* A journal in memory that outlasts its process. */
struct journal {
  size_t size;
  char text[JOURNAL];
};

/* How a column is wired: whether its line carries packets of the old width, and whether it joins packets to frames. */
struct wiring {
  int old, joins;
};

/* How a column comes back: who is the lowest that runs, its record, and the set of those that remain halted. */
struct comeback {
  uint32_t lowest, number, halted;
  uint8_t doors[MUDASGUP_DOORS_SIZE];
};

/* What a process begins with; a fresh column has no comeback. */
struct beginning {
  int line;
  const mudasgup_tree *tree;
  uint32_t i;
  struct wiring wiring;
  const struct comeback *comeback;
  struct journal *journal;
  unsigned seed;
};

/* Runs a column on its end of a socket pair until the other end is closed. */
void run_column(struct beginning beginning);

#endif
