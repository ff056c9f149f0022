/* Column 2 is without power for a moment; meanwhile it is noted and an order is given. First it goes on with a block that its memory kept, which no call can refuse:
 * all are idle, and it lists no order. Then it comes back as the header asks, and lists what the others do. */
#include "uses.h"

int main(void) {
  const uint8_t doors[MUDASGUP_DOORS_SIZE] = {1, 2};
  begin();
  mudasgup_column kept = column[2];
  ACCEPTED(mudasgup_note(&tree, &column[0], 2));
  ACCEPTED(mudasgup_note(&tree, &column[1], 2));
  ACCEPTED(mudasgup_order(&tree, &column[0], doors));
  run(2);
  column[2] = kept;
  HOLDS(idle(0) && idle(1) && idle(2));
  print_list(0), print_list(1), print_list(2);

  ACCEPTED(mudasgup_column_fresh(&tree, 2, &column[2]));
  ACCEPTED(mudasgup_halt(&tree, &column[2]));
  ACCEPTED(mudasgup_rejoin(&tree, &column[2], 0, 1, column[0].bytes + MUDASGUP_COLUMN_DOORS, 0));
  ACCEPTED(mudasgup_strike(&tree, &column[0], 2));
  ACCEPTED(mudasgup_strike(&tree, &column[1], 2));
  HOLDS(idle(0) && idle(1) && idle(2));
  print_list(0), print_list(1), print_list(2);
  return 0;
}
