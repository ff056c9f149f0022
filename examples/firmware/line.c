/* The line between the processes of a bank: it starts them, keeps each packet whole, and hears what they say. */
#include "supervisor.h"
#include <poll.h>
#include <signal.h>
#include <stdio.h>
#include <stdlib.h>
#include <string.h>
#include <sys/socket.h>
#include <unistd.h>

#define PATIENCE 20000 /* milliseconds without an answer after which a bank has failed */

struct bank bank;
struct journal *journals;

unsigned below(unsigned n) { return (unsigned)rand_r(&bank.seed) % n; }

void fail(const char *why) {
  printf("failed: %s\n", why);
  for (size_t i = 0; i < bank.count; i++)
    if (bank.running[i])
      kill(bank.process[i], SIGKILL);
  exit(1);
}

static void check(mudasgup_status status, const char *why) {
  if (status != MUDASGUP_OK)
    fail(why);
}

/* ---- a bank */

static void shuffled(uint8_t *numbers, size_t count) {
  for (size_t k = 0; k < count; k++) {
    size_t other = below((unsigned)k + 1);
    numbers[k] = numbers[other];
    numbers[other] = (uint8_t)k;
  }
}

static char *put_list(char *at, const char *key, const uint8_t *numbers, size_t count) {
  at += sprintf(at, "%s=", key);
  for (size_t k = 0; k < count; k++)
    at += sprintf(at, "%u%c", (unsigned)numbers[k], k + 1 < count ? ',' : '\n');
  return at;
}

void random_tree(void) {
  uint8_t sequence[MUDASGUP_COLUMNS], first[MUDASGUP_COLUMNS], up[MUDASGUP_COLUMNS];
  char table[256], *at = table;
  size_t used;
  bank.count = 1 + below(MUDASGUP_COLUMNS);
  shuffled(sequence, bank.count);
  shuffled(first, bank.count);
  bank.root = sequence[0];
  up[bank.root] = sequence[0];
  for (size_t k = 1; k < bank.count; k++)
    up[sequence[k]] = sequence[below((unsigned)k)];
  at += sprintf(at, "columns=%zu\nroot=%zu\n", bank.count, bank.root);
  at = put_list(at, "up", up, bank.count);
  at = put_list(at, "first", first, bank.count);
  at += sprintf(at, "watch=%s\n", below(2) ? "sender" : "root");
  check(mudasgup_tree_read(&bank.tree, table, (size_t)(at - table), &used), "the table is refused");
}

void start_column(size_t i, const struct comeback *comeback) {
  int ends[2];
  bank.wiring[i] = (struct wiring){.old = below(4) == 0, .joins = below(2) == 0};
  struct beginning beginning = {.tree = &bank.tree, .i = (uint32_t)i, .wiring = bank.wiring[i], .comeback = comeback, .journal = journals + i};
  beginning.seed = (unsigned)rand_r(&bank.seed);
  if (socketpair(AF_UNIX, SOCK_SEQPACKET, 0, ends) != 0)
    fail("no socket");
  bank.process[i] = fork();
  if (bank.process[i] < 0)
    fail("no process");
  if (bank.process[i] == 0) {
    for (size_t k = 0; k < bank.count; k++)
      if (bank.running[k])
        close(bank.line[k]);
    close(ends[0]);
    beginning.line = ends[1];
    run_column(beginning);
  }
  close(ends[1]);
  bank.line[i] = ends[0], bank.running[i] = 1, bank.busy[i] = 1, bank.untold[i] = 0;
}

void command(size_t i, uint8_t kind, const void *bytes, size_t size) {
  uint8_t datagram[1 + FRAME] = {kind};
  memcpy(datagram + 1, bytes, size);
  if (send(bank.line[i], datagram, 1 + size, 0) < 0)
    fail("a column does not listen");
  bank.busy[i]++;
}

/* ---- the line */

static void keep_packet(const mudasgup_packet *packet) {
  uint8_t to = packet->bytes[MUDASGUP_PACKET_TO];
  if (to >= bank.count || !bank.running[to])
    return;
  if (bank.packets_count == PACKETS_MOST)
    fail("too many packets");
  bank.packets[bank.packets_count++] = *packet;
  bank.carried++;
}

/* A frame from a column, in parts; a line of the old width carries one packet, which is widened. */
static void keep_frame(size_t i, const uint8_t *bytes, size_t size) {
  mudasgup_packet packet;
  size_t count = 0;
  if (bank.wiring[i].old) {
    check(mudasgup_packet_convert(bytes, size, &packet), "no packet of the old width");
    keep_packet(&packet);
    return;
  }
  check(mudasgup_frame_count(bytes, size, &count), "no frame");
  for (size_t at = 0; count > 0; count--, at += packet.size) {
    check(mudasgup_packet_read(bytes + at, size - at, &packet), "no packet");
    keep_packet(&packet);
  }
}

void deliver(size_t k) {
  mudasgup_packet packet = bank.packets[k], narrow;
  size_t to = packet.bytes[MUDASGUP_PACKET_TO];
  bank.packets[k] = bank.packets[--bank.packets_count];
  if (!bank.wiring[to].old) {
    command(to, PACKETS, packet.bytes, packet.size);
    return;
  }
  check(mudasgup_packet_convert(packet.bytes, packet.size, &narrow), "not to be narrowed");
  command(to, PACKETS, narrow.bytes, narrow.size);
}

/* ---- what columns say */

uint32_t number_of(const mudasgup_column *column) {
  const uint8_t *number = column->bytes + MUDASGUP_COLUMN_NUMBER;
  return (uint32_t)number[0] << 24 | (uint32_t)number[1] << 16 | (uint32_t)number[2] << 8 | number[3];
}

static uint8_t page_byte(const mudasgup_column *column, size_t offset) {
  uint8_t value = 0;
  check(mudasgup_page_read(&bank.tree, column, offset, &value), "a page is refused");
  return value;
}

int is_done(const mudasgup_column *column) {
  return page_byte(column, MUDASGUP_PAGE_SEND) == 0 && page_byte(column, MUDASGUP_PAGE_AWAITED) == 0;
}

int is_idle(const mudasgup_column *column) {
  int idle = 0;
  check(mudasgup_idle(&bank.tree, column, &idle), "a column's state is refused");
  return idle;
}

/* Once the root neither sends nor awaits, every running column is asked whether it has the root's order. */
static void ask_all(void) {
  uint32_t number = number_of(&bank.last[bank.root].column);
  if (!is_done(&bank.last[bank.root].column) || number == bank.asked)
    return;
  bank.asked = number;
  for (size_t i = 0; i < bank.count; i++)
    if (bank.running[i])
      command(i, ASK, &number, sizeof number);
}

static void check_page(size_t i, const struct done *done) {
  if (done->command == BEGIN)
    return;
  if ((number_of(&done->column) != number_of(&bank.last[i].column)) != (done->events & MUDASGUP_PENDING_RECORD))
    fail("the page does not tell of a record");
  if (done->command == NOTE && !(done->events & MUDASGUP_PENDING_HALT))
    fail("the page does not tell of a note");
}

static void carried_out(size_t i, const struct done *done) {
  check_page(i, done);
  bank.last[i] = *done;
  bank.busy[i]--;
  if (done->command == ORDER && done->order == MUDASGUP_OK)
    bank.accepted++;
  else if (done->command == ORDER && done->order != MUDASGUP_E_BUSY)
    fail("an order is refused");
  if (done->command == ASK && number_of(&done->column) < done->asked)
    fail("the root is done, and a column is without its order");
  if (i == bank.root)
    ask_all();
}

int hear(size_t i, int alive) {
  uint8_t datagram[sizeof(struct done) > 1 + FRAME ? sizeof(struct done) : 1 + FRAME];
  struct done done;
  ssize_t size = recv(bank.line[i], datagram, sizeof datagram, MSG_DONTWAIT);
  if (size <= 0)
    return 0;
  if (datagram[0] == FOR_LINE)
    keep_frame(i, datagram + 1, (size_t)size - 1);
  else if (alive)
    carried_out(i, memcpy(&done, datagram, sizeof done));
  return 1;
}

void hear_all(int wait) {
  struct pollfd lines[MUDASGUP_COLUMNS];
  size_t running[MUDASGUP_COLUMNS], count = 0;
  for (size_t i = 0; i < bank.count; i++)
    if (bank.running[i])
      lines[count] = (struct pollfd){.fd = bank.line[i], .events = POLLIN}, running[count++] = i;
  if (poll(lines, (nfds_t)count, wait ? PATIENCE : 0) == 0 && wait)
    fail("no answer");
  for (size_t k = 0; k < count; k++)
    if (lines[k].revents && !hear(running[k], 1))
      fail("a column has stopped by itself");
}

static int any_busy(void) {
  for (size_t i = 0; i < bank.count; i++)
    if (bank.running[i] && bank.busy[i] > 0)
      return 1;
  return 0;
}

void hear_out(void) {
  while (any_busy())
    hear_all(1);
}
