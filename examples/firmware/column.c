/* The board of a column that is a process: its line is a socket, on which commands of the supervisor come one by one. What each asks for the main loop
 * finds at its next round; then the process says what has come of it. */
#include "board.h"
#include "bank.h"
#include <stdio.h>
#include <stdlib.h>
#include <string.h>
#include <sys/socket.h>
#include <unistd.h>

/* What the process holds; all of it goes when it is killed, but for the journal. */
static struct {
  struct beginning given;
  mudasgup_column column;
  struct done done;
  uint8_t command[1 + FRAME];
  size_t at, size; /* of the command, what has been carried out and all */
  uint8_t frame[1 + FRAME];
  size_t joined;
} me;

void board_check(mudasgup_status status) {
  if (status == MUDASGUP_OK)
    return;
  fprintf(stderr, "column %u: refused with %d\n", (unsigned)me.given.i, (int)status);
  _exit(3);
}

/* What is to happen now and then. */
static int at_times(void) { return rand_r(&me.given.seed) % 4 == 0; }

/* ---- commands */

static void say(const void *bytes, size_t size) {
  if (send(me.given.line, bytes, size, 0) < 0)
    _exit(0);
}

static void flush(void) {
  if (me.joined == 0)
    return;
  me.frame[0] = FOR_LINE;
  say(me.frame, 1 + me.joined);
  me.joined = 0;
}

int board_wait(void) {
  flush();
  me.done.kind = DONE, me.done.column = me.column;
  say(&me.done, sizeof me.done);
  ssize_t size = recv(me.given.line, me.command, sizeof me.command, 0);
  if (size <= 0)
    return 0;
  memset(&me.done, 0, sizeof me.done);
  me.done.command = me.command[0];
  me.at = 1, me.size = (size_t)size;
  if (me.command[0] == ASK)
    memcpy(&me.done.asked, me.command + 1, sizeof me.done.asked);
  return 1;
}

/* Whether the command is of this kind and not yet carried out. */
static int is_asked(uint8_t kind) {
  if (me.command[0] != kind || me.at == 0)
    return 0;
  me.at = 0;
  return 1;
}

static int named(uint8_t kind, uint32_t *who) {
  if (!is_asked(kind))
    return 0;
  *who = me.command[1];
  return 1;
}

int watch_stopped(uint32_t *who) { return named(NOTE, who); }

int watch_back(uint32_t *who) { return named(STRIKE, who); }

int order_given(uint8_t doors[MUDASGUP_DOORS_SIZE]) {
  if (!is_asked(ORDER))
    return 0;
  memcpy(doors, me.command + 1, MUDASGUP_DOORS_SIZE);
  return 1;
}

void order_answer(mudasgup_status status) { me.done.order = status; }

int closing_time(void) { return is_asked(LIST); }

void list_print(const char *text, size_t length) {
  memcpy(me.done.list, text, length);
  me.done.list_size = length;
}

void host_tell(uint8_t pending) { me.done.events = pending; }

/* ---- the line */

/* The packets of a frame one by one; a line of the old width carries one, which is widened first. */
int line_receive(mudasgup_packet *arrived) {
  if (me.command[0] != PACKETS || me.at >= me.size)
    return 0;
  if (me.given.wiring.old) {
    board_check(mudasgup_packet_convert(me.command + 1, me.size - 1, arrived));
    me.at = me.size;
    return 1;
  }
  board_check(mudasgup_packet_read(me.command + me.at, me.size - me.at, arrived));
  me.at += arrived->size;
  return 1;
}

int line_ready(void) { return !at_times(); }

/* Alone or in a frame, in the line's own width. */
void line_send(const mudasgup_packet *put) {
  mudasgup_packet narrow;
  if (me.given.wiring.old) {
    board_check(mudasgup_packet_convert(put->bytes, put->size, &narrow));
    memcpy(me.frame + 1, narrow.bytes, narrow.size);
    me.joined = narrow.size;
    flush();
    return;
  }
  board_check(mudasgup_frame_join(put, me.frame + 1, FRAME, &me.joined));
  if (!me.given.wiring.joins || me.joined + MUDASGUP_PACKET_SIZE > FRAME || at_times())
    flush();
}

/* ---- the journal */

void journal_write(const char *line, size_t length) {
  struct journal *journal = me.given.journal;
  if (length > sizeof journal->text - journal->size)
    board_check(MUDASGUP_E_SPACE);
  memcpy(journal->text + journal->size, line, length);
  journal->size += length;
}

void journal_begin(const mudasgup_column *column) {
  char line[MUDASGUP_JOURNAL_SIZE];
  size_t length = 0;
  board_check(mudasgup_journal_owner(column, line, sizeof line, &length));
  me.given.journal->size = 0;
  journal_write(line, length);
}

/* ---- a column begins */

/* A column that lost its power has lost its block: it makes one that is halted, and comes back with the record of another. */
static void come_back(const mudasgup_tree *tree, const struct comeback *back) {
  board_check(mudasgup_halt(tree, &me.column));
  board_check(mudasgup_rejoin(tree, &me.column, back->lowest, back->number, back->doors, back->halted));
}

void run_column(struct beginning beginning) {
  me.given = beginning;
  me.done.command = BEGIN;
  board_check(mudasgup_column_fresh(beginning.tree, beginning.i, &me.column));
  if (beginning.comeback)
    come_back(beginning.tree, beginning.comeback);
  board_check(mudasgup_page_write(beginning.tree, &me.column, MUDASGUP_PAGE_MASK,
                                  MUDASGUP_PENDING_RECORD | MUDASGUP_PENDING_HALT | MUDASGUP_PENDING_TAKEOVER));
  journal_begin(&me.column);
  column_loop(beginning.tree, &me.column);
  _exit(0);
}
