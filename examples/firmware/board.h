/* What the main loop of a column asks of its board. A maker writes these for the board's own line,
 * watch, memory and host; column.c has them for a process. */
#ifndef BOARD_H
#define BOARD_H

#include <mudasgup.h>

/* Sleeps until something has happened; 0 where the column is to end in order. */
int board_wait(void);

/* A call of the core was refused that never is in a bank that keeps to what the header asks: the
 * board stops for good, which the others see as a halt. Returns where the status is MUDASGUP_OK. */
void board_check(mudasgup_status status);

/* The line: the next packet that arrived whole, if there is one; whether it can send one now. */
int line_receive(mudasgup_packet *arrived);
int line_ready(void);
void line_send(const mudasgup_packet *put);

/* The watch: the next column that has stopped and will not go on, or has come back at rest. */
int watch_stopped(uint32_t *who);
int watch_back(uint32_t *who);

/* At the root alone: the doors of an order, and whether the root has taken it. */
int order_given(uint8_t doors[MUDASGUP_DOORS_SIZE]);
void order_answer(mudasgup_status status);

/* Staff ask for the list. */
int closing_time(void);
void list_print(const char *text, size_t length);

/* The journal, in memory that lasts. It begins anew when a column has come back: what ./journals
 * compares is of a bank in which none did, and at rest nothing is under way from before. */
void journal_begin(const mudasgup_column *me);
void journal_write(const char *line, size_t length);

/* The host board is told what happened. */
void host_tell(uint8_t pending);

/* The main loop, until board_wait answers 0. */
void column_loop(const mudasgup_tree *tree, mudasgup_column *me);

#endif
