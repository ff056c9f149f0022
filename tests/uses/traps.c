/* A message that the line loses: the root awaits for good, and the next order is refused. And a column that missed an order and would come back in ways
 * that are refused: without having halted, at work, as the root, with itself among those halted, with another than the lowest. */
#include "uses.h"

int main(void) {
  const uint8_t doors[MUDASGUP_DOORS_SIZE] = {1}, more[MUDASGUP_DOORS_SIZE] = {2};
  mudasgup_packet lost;
  begin();
  ACCEPTED(mudasgup_order(&tree, &column[0], doors));
  ACCEPTED(mudasgup_next(&tree, &column[0], &lost));
  run(NOBODY);
  HOLDS(idle(0) && idle(1) && idle(2));
  HOLDS(mudasgup_order(&tree, &column[0], more) == MUDASGUP_E_BUSY);
  print_list(0), print_list(1), print_list(2);

  begin();
  ACCEPTED(mudasgup_order(&tree, &column[0], doors));
  run(NOBODY);
  ACCEPTED(mudasgup_note(&tree, &column[0], 1));
  ACCEPTED(mudasgup_note(&tree, &column[2], 1));
  ACCEPTED(mudasgup_order(&tree, &column[0], more));
  HOLDS(mudasgup_strike(&tree, &column[0], 1) == MUDASGUP_E_UNREST);
  run(1);
  HOLDS(mudasgup_rejoin(&tree, &column[1], 0, 2, more, 0) == MUDASGUP_E_NOTHING);
  ACCEPTED(mudasgup_halt(&tree, &column[1]));
  HOLDS(mudasgup_rejoin(&tree, &column[1], 2, 2, more, 0) == MUDASGUP_E_STATE);
  HOLDS(mudasgup_rejoin(&tree, &column[1], 0, 2, more, 2) == MUDASGUP_E_STATE);
  HOLDS(mudasgup_rejoin(&tree, &column[1], 0, 2, more, 5) == MUDASGUP_E_ALONE);
  ACCEPTED(mudasgup_rejoin(&tree, &column[1], 0, 2, more, 0));
  ACCEPTED(mudasgup_strike(&tree, &column[0], 1));
  ACCEPTED(mudasgup_strike(&tree, &column[2], 1));
  print_list(0), print_list(1), print_list(2);
  ACCEPTED(mudasgup_halt(&tree, &column[0]));
  HOLDS(mudasgup_rejoin(&tree, &column[0], 1, 2, more, 0) == MUDASGUP_E_ROOT);
  return 0;
}
