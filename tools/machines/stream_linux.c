/* Standard input, standard output, and the status of a process. */
#include "stream.h"
#include <stdio.h>
#include <stdlib.h>

size_t stream_read(void *to, size_t size) { return fread(to, 1, size, stdin); }

void stream_say(const char *text) { fputs(text, stdout); }

void stream_end(int status) { exit(status); }
