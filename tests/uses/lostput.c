/* A block was kept, and what the call put was not sent: the root awaits for good. */
#include "uses.h"

int main(void) {
  const uint8_t doors[MUDASGUP_DOORS_SIZE] = {1};
  mudasgup_packet put;
  begin();
  ACCEPTED(mudasgup_order(&tree, &column[0], doors));
  while (mudasgup_next(&tree, &column[0], &put) == MUDASGUP_OK)
    HOLDS(put.size == MUDASGUP_PACKET_SIZE);
  HOLDS(idle(0));
  HOLDS(mudasgup_send(&tree, &column[0], &put) == MUDASGUP_E_NOTHING);
  HOLDS(mudasgup_ack(&tree, &column[0], &put) == MUDASGUP_E_NOTHING);
  HOLDS(mudasgup_all(&tree, &column[0]) == MUDASGUP_E_NOTHING);
  HOLDS(mudasgup_order(&tree, &column[0], doors) == MUDASGUP_E_BUSY);
  puts("the root awaits for good");
  return 0;
}
