/* The journals of two columns, pulled at one moment and compared by the program of ./journals. */
#include "supervisor.h"
#include <stdio.h>
#include <stdlib.h>
#include <string.h>
#include <unistd.h>

#define LINE 32
#define WORDS 256

/* Whether the line holds a packet from one column to another of which this is the sender's line. */
static int is_held(size_t from, size_t to, const char *line, size_t length) {
  char own[LINE];
  for (size_t k = 0; k < bank.packets_count; k++) {
    const uint8_t *p = bank.packets[k].bytes;
    uint32_t number = (uint32_t)p[3] << 24 | (uint32_t)p[4] << 16 | (uint32_t)p[5] << 8 | p[6];
    int size = snprintf(own, sizeof own, "sent=%d,%zu,%lu\n", p[0] == MUDASGUP_KIND_MESSAGE ? 1 : 2, to, (unsigned long)number);
    if (p[MUDASGUP_PACKET_FROM] == from && p[MUDASGUP_PACKET_TO] == to && (size_t)size == length && memcmp(own, line, length) == 0)
      return 1;
  }
  return 0;
}

/* The lines of a column's journal for packets to another that the line holds, as they are there. */
static size_t held_lines(size_t from, size_t to, char *text) {
  size_t size = 0, length;
  for (const char *line = journals[from].text, *end = line + journals[from].size; line < end; line += length) {
    length = (size_t)((const char *)memchr(line, '\n', (size_t)(end - line)) - line) + 1;
    if (!is_held(from, to, line, length))
      continue;
    memcpy(text + size, line, length);
    size += length;
    bank.missing++;
  }
  return size;
}

static size_t answer_of(const char *program, const size_t *owners, char *answer, size_t size) {
  char names[2][LINE] = {"/tmp/journal-XXXXXX", "/tmp/journal-XXXXXX"}, words[WORDS];
  for (size_t k = 0; k < 2; k++) {
    int file = mkstemp(names[k]);
    if (file < 0 || write(file, journals[owners[k]].text, journals[owners[k]].size) != (ssize_t)journals[owners[k]].size || close(file) != 0)
      fail("no file for a journal");
  }
  snprintf(words, sizeof words, "%s %s %s", program, names[0], names[1]);
  FILE *pipe = popen(words, "r");
  size_t length = pipe ? fread(answer, 1, size, pipe) : 0;
  if (!pipe || pclose(pipe) != 0 || unlink(names[0]) != 0 || unlink(names[1]) != 0)
    fail("the journals were not compared");
  return length;
}

/* The ends of a packet that is under way, or any two columns; 0 where one of them has halted or came back. */
static int two_owners(size_t *owners) {
  const uint8_t *packet = bank.packets_count > 0 ? bank.packets[below((unsigned)bank.packets_count)].bytes : NULL;
  for (size_t k = 0; k < 2; k++)
    owners[k] = packet ? packet[MUDASGUP_PACKET_FROM + k] : below((unsigned)bank.count);
  return owners[0] != owners[1] && bank.running[owners[0]] && bank.running[owners[1]] && !bank.came_back[owners[0]] && !bank.came_back[owners[1]];
}

void compare_journals(const char *program) {
  static char held[2 * JOURNAL], answer[2 * JOURNAL];
  size_t owners[2];
  hear_out();
  if (!program || !two_owners(owners))
    return;
  size_t size = held_lines(owners[0], owners[1], held);
  size += held_lines(owners[1], owners[0], held + size);
  if (answer_of(program, owners, answer, sizeof answer) != size || memcmp(answer, held, size) != 0)
    fail("the journals tell something else than what the line holds");
  bank.compared++;
}
