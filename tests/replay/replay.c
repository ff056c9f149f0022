/* Makes each recorded call (recording.py) and compares the answer and every byte left, with guards around all that is lent. */
#include "calls.h"
#include "stream.h"
#include <string.h>

static uint8_t room[ROOM];

static uint64_t number(void) {
  uint8_t bytes[8];
  uint64_t sum = 0;
  if (stream_read(bytes, sizeof bytes) != sizeof bytes)
    stream_say("the recording is cut\n"), stream_end(3);
  for (int i = 7; i >= 0; i--)
    sum = sum << 8 | bytes[i];
  return sum;
}

/* Reads the arguments of a call into the room. */
static void read_arguments(struct call *call) {
  uint8_t *at = room;
  memset(room, GUARD_BYTE, sizeof room);
  for (int i = 0; i < call->count; i++) {
    struct argument *argument = &call->arguments[i];
    stream_read(&argument->kind, 1);
    argument->number = number();
    if (argument->kind == 'n')
      continue;
    argument->bytes = at + GUARD;
    stream_read(argument->bytes, (size_t)argument->number);
    at += argument->number + 2 * GUARD;
  }
}

/* Whether every byte of an argument is as it was left on x86-64; of one that is only read, as it was. */
static int is_left(const struct argument *argument) {
  for (uint64_t i = 0; argument->kind == 'w' && i < argument->number; i++) {
    uint8_t left;
    stream_read(&left, 1);
    if (left != argument->bytes[i]) {
      for (i++; i < argument->number; i++)
        stream_read(&left, 1);
      return 0;
    }
  }
  return 1;
}

static int guards_hold(const struct argument *argument) {
  for (int i = 0; argument->kind != 'n' && i < GUARD; i++)
    if (argument->bytes[i - GUARD] != GUARD_BYTE || argument->bytes[argument->number + (unsigned)i] != GUARD_BYTE)
      return 0;
  return 1;
}

/* Whether what was lent to be read only is as it was: the sum of its bytes, weighted by place. */
static uint32_t sum_of(const struct call *call) {
  uint32_t sum = 0;
  for (int i = 0; i < call->count; i++)
    for (uint64_t k = 0; call->arguments[i].kind == 'r' && k < call->arguments[i].number; k++)
      sum = sum * 31 + call->arguments[i].bytes[k];
  return sum;
}

static int is_same(struct call *call) {
  read_arguments(call);
  uint32_t sum = sum_of(call);
  uint64_t answer = made(call);
  int same = answer == number() && sum == sum_of(call);
  for (int i = 0; i < call->count; i++)
    same &= guards_hold(&call->arguments[i]) & is_left(&call->arguments[i]);
  return same;
}

int main(void) {
  unsigned long calls = 0, differ = 0;
  struct call call;
  char text[21];
  while (stream_read(&call.function, 1) == 1 && stream_read(&call.count, 1) == 1) {
    calls++;
    if (!is_same(&call) && differ++ < SHOWN)
      stream_say("call "), stream_say(stream_number(calls, text)), stream_say(" differs: "), stream_say(called(&call)), stream_say("\n");
  }
  stream_say(stream_number(calls, text)), stream_say(" calls, ");
  stream_say(stream_number(differ, text)), stream_say(" differ\n");
  stream_end(differ != 0);
  return 0;
}
