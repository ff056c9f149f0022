/* Runs banks of real processes: bank SEED COUNT [JOURNALS]. Each has a random tree, random orders and columns that are killed at random; at rest some of
 * those come back, and it goes on. It fails where two running columns list another order number or other doors at rest, where a root that is done finds a
 * column without its last order, or where the program JOURNALS answers for the journals of two columns something else than what the line holds. */
#include "supervisor.h"
#include <signal.h>
#include <stdio.h>
#include <stdlib.h>
#include <string.h>
#include <sys/mman.h>
#include <sys/wait.h>
#include <unistd.h>

#define ACTS_MOST 50000 /* of the supervisor, after which a bank that has no rest has failed */

/* ---- what the supervisor does */

/* A column loses its power: what it had sent is still under way, what was for it vanishes, and the others are to be told. */
static void kill_column(size_t i) {
  kill(bank.process[i], SIGKILL);
  waitpid(bank.process[i], NULL, 0);
  bank.running[i] = 0;
  while (hear(i, 0))
    ;
  close(bank.line[i]);
  for (size_t k = bank.packets_count; k-- > 0;)
    if (bank.packets[k].bytes[MUDASGUP_PACKET_TO] == i)
      bank.packets[k] = bank.packets[--bank.packets_count];
  for (size_t j = 0; j < bank.count; j++)
    bank.untold[j] |= 1u << i;
  bank.killed++;
}

static int tell(size_t i) {
  if (!bank.running[i] || bank.untold[i] == 0 || bank.busy[i] >= COMMANDS_MOST)
    return 0;
  uint8_t j = (uint8_t)__builtin_ctz(bank.untold[i]);
  bank.untold[i] &= bank.untold[i] - 1;
  command(i, NOTE, &j, 1);
  return 1;
}

static int go_on(size_t i) {
  if (!bank.running[i] || bank.busy[i] > 0 || is_idle(&bank.last[i].column))
    return 0;
  command(i, GO_ON, "", 0);
  return 1;
}

static int may_order(void) { return bank.orders > 0 && bank.running[bank.root] && bank.busy[bank.root] == 0 && is_done(&bank.last[bank.root].column); }

static void order(void) {
  uint8_t doors[MUDASGUP_DOORS_SIZE];
  for (size_t k = 0; k < sizeof doors; k++)
    doors[k] = (uint8_t)below(256);
  command(bank.root, ORDER, doors, sizeof doors);
  bank.orders--;
}

/* One thing that can be done, picked at random; 0 where none was found. */
static int act(void) {
  if (bank.packets_count > 0 && below(8) != 0) {
    size_t k = below((unsigned)bank.packets_count);
    if (bank.busy[bank.packets[k].bytes[MUDASGUP_PACKET_TO]] >= COMMANDS_MOST)
      return 0;
    deliver(k);
    return 1;
  }
  if (below(2) && (tell(below((unsigned)bank.count)) || go_on(below((unsigned)bank.count))))
    return 1;
  if (!may_order())
    return 0;
  order();
  return 1;
}

/* What only the supervisor can know: nothing is under way, nobody is to be told or has a command, and no column could take a step. */
static int at_rest(void) {
  if (bank.packets_count > 0)
    return 0;
  for (size_t i = 0; i < bank.count; i++)
    if (bank.running[i] && (bank.busy[i] > 0 || bank.untold[i] != 0 || !is_idle(&bank.last[i].column)))
      return 0;
  return 1;
}

/* ---- the closing lists */

static const char *past_first_line(const struct done *done, size_t *size) {
  const char *end = memchr(done->list, '\n', done->list_size);
  if (!end)
    fail("no list");
  *size = done->list_size - (size_t)(end - done->list);
  return end;
}

/* How many columns are running; each must list what the first of them lists. */
static unsigned compare_lists(void) {
  const struct done *first = NULL;
  unsigned running = 0;
  for (size_t i = 0; i < bank.count; i++) {
    if (!bank.running[i])
      continue;
    command(i, LIST, "", 0);
    hear_out();
    size_t size, own;
    first = first ? first : &bank.last[i];
    const char *list = past_first_line(first, &size), *mine = past_first_line(&bank.last[i], &own);
    if (size != own || memcmp(list, mine, size) != 0)
      fail("two running columns differ");
    running++;
  }
  if (bank.running[bank.root] && number_of(&bank.last[bank.root].column) != bank.accepted)
    fail("the root has another number than its orders");
  if (bank.running[bank.root] && !is_done(&bank.last[bank.root].column))
    fail("at rest the root still sends or awaits");
  return running;
}

/* ---- columns come back */

static size_t lowest_running(void) {
  size_t i = 0;
  while (i < bank.count && !bank.running[i])
    i++;
  return i;
}

/* At rest: the column begins anew with the record of the lowest running one, and all others strike it. */
static void bring_back(size_t j) {
  struct comeback back = {.lowest = (uint32_t)lowest_running()};
  const mudasgup_column *copied = &bank.last[back.lowest].column;
  back.number = number_of(copied);
  memcpy(back.doors, copied->bytes + MUDASGUP_COLUMN_DOORS, sizeof back.doors);
  for (size_t i = 0; i < bank.count; i++)
    back.halted |= (uint32_t)(!bank.running[i] && i != j) << i;
  start_column(j, &back);
  uint8_t who = (uint8_t)j;
  for (size_t i = 0; i < bank.count; i++)
    if (bank.running[i] && i != j)
      command(i, STRIKE, &who, 1);
  hear_out();
  bank.came_back[j] = 1, bank.back++, bank.without_root += !bank.running[bank.root];
  if (!at_rest())
    fail("not at rest after a return");
  compare_lists();
}

static void bring_some_back(void) {
  for (size_t j = 0; j < bank.count; j++)
    if (!bank.running[j] && j != bank.root && lowest_running() < bank.count && below(3) != 0)
      bring_back(j);
}

/* ---- a bank */

static void run_to_rest(const char *program) {
  unsigned pulls = 2, acts = 0;
  while (!at_rest() || may_order()) {
    int acted = act();
    if ((acts += (unsigned)acted) > ACTS_MOST)
      fail("no rest");
    if (bank.kills > 0 && below(12) == 0) {
      size_t i = below((unsigned)bank.count);
      bank.kills--;
      if (bank.running[i])
        kill_column(i);
    }
    if (pulls > 0 && bank.packets_count > 0 && below(4) == 0)
      pulls--, compare_journals(program);
    if (!acted && bank.packets_count == 0)
      hear_out();
    hear_all(0);
  }
}

static void run_bank(unsigned seed, const char *program) {
  memset(&bank, 0, sizeof bank);
  bank.seed = seed;
  random_tree();
  for (size_t i = 0; i < bank.count; i++)
    start_column(i, NULL);
  hear_out();
  unsigned running = 0, number = 0;
  for (unsigned rounds = 2 + below(3); rounds > 0; rounds--) {
    bring_some_back();
    bank.orders = 1 + below(3);
    bank.kills = below((unsigned)bank.count + 1);
    run_to_rest(program);
    running = compare_lists();
    compare_journals(program);
  }
  for (size_t i = 0; i < bank.count; i++) {
    if (!bank.running[i])
      continue;
    number = number_of(&bank.last[i].column);
    kill_column(i), bank.killed--;
  }
  printf("bank=%u columns=%zu root=%zu watch=%s killed=%u back=%u without_root=%u orders=%u packets=%u journals=%u missing=%u running=%u number=%u agree\n", seed,
         bank.count, bank.root, bank.tree.bytes[MUDASGUP_TREE_COLUMNS] & MUDASGUP_WATCH_SENDER ? "sender" : "root", bank.killed, bank.back,
         bank.without_root, bank.accepted, bank.carried, bank.compared, bank.missing, running, number);
}

int main(int count, char **words) {
  if (count != 3 && count != 4)
    return fprintf(stderr, "bank SEED COUNT [JOURNALS]\n"), 2;
  unsigned first = (unsigned)strtoul(words[1], NULL, 10), banks = (unsigned)strtoul(words[2], NULL, 10);
  journals = mmap(NULL, MUDASGUP_COLUMNS * sizeof *journals, PROT_READ | PROT_WRITE, MAP_SHARED | MAP_ANONYMOUS, -1, 0);
  if (journals == MAP_FAILED)
    return 2;
  signal(SIGPIPE, SIG_IGN);
  for (unsigned k = 0; k < banks; k++)
    run_bank(first + k, count == 4 ? words[3] : NULL);
  return 0;
}
