/* Where a program on a board or on Linux finds its input and says what has come of it. */
#ifndef STREAM_H
#define STREAM_H

#include <stddef.h>

/* Reads up to as many bytes; fewer only at the end of the input. */
size_t stream_read(void *to, size_t size);

/* Says a text that ends with 0. */
void stream_say(const char *text);

/* Ends the program with a status. */
void stream_end(int status);

/* The text of a number, at most 20 digits, at the end of what is lent. */
static inline char *stream_number(unsigned long long number, char text[21]) {
  char *at = text + 20;
  *at = 0;
  do
    *--at = (char)('0' + number % 10), number /= 10;
  while (number);
  return at;
}

#endif
