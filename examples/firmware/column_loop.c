/* One column's main loop, over the functions of its board. */
#include "board.h"

/* What a step put is written into the journal and goes to the line. */
static void put_on_line(const mudasgup_column *me, const mudasgup_packet *put) {
  char line[MUDASGUP_JOURNAL_SIZE];
  size_t length = 0;
  if (put->size == 0)
    return;
  board_check(mudasgup_journal_sent(me, put, line, sizeof line, &length));
  journal_write(line, length);
  line_send(put);
}

static void take(const mudasgup_tree *tree, mudasgup_column *me, const mudasgup_packet *arrived) {
  char line[MUDASGUP_JOURNAL_SIZE];
  mudasgup_packet put;
  size_t length = 0;
  int left = 0;
  do {
    board_check(mudasgup_take(tree, me, arrived, &put, &left));
    put_on_line(me, &put);
  } while (left);
  board_check(mudasgup_journal_got(me, arrived, line, sizeof line, &length));
  journal_write(line, length);
}

static void read_page(const mudasgup_tree *tree, mudasgup_column *me) {
  uint8_t pending = 0;
  int up = 0;
  board_check(mudasgup_line_up(me, &up));
  if (!up)
    return;
  board_check(mudasgup_page_read(tree, me, MUDASGUP_PAGE_PENDING, &pending));
  board_check(mudasgup_page_write(tree, me, MUDASGUP_PAGE_CLEAR, pending));
  host_tell(pending);
}

void column_loop(const mudasgup_tree *tree, mudasgup_column *me) {
  mudasgup_packet arrived, put;
  char list[MUDASGUP_LIST_SIZE];
  uint8_t doors[MUDASGUP_DOORS_SIZE];
  uint32_t who;
  size_t length;
  while (board_wait()) {
    while (line_receive(&arrived))
      take(tree, me, &arrived);
    while (watch_stopped(&who))
      board_check(mudasgup_note(tree, me, who));
    while (watch_back(&who))
      board_check(mudasgup_strike(tree, me, who)), journal_begin(me);
    while (order_given(doors))
      order_answer(mudasgup_order(tree, me, doors));
    while (line_ready() && mudasgup_next(tree, me, &put) == MUDASGUP_OK)
      put_on_line(me, &put);
    if (closing_time() && mudasgup_list(tree, me, list, sizeof list, &length) == MUDASGUP_OK)
      list_print(list, length);
    read_page(tree, me);
  }
}
