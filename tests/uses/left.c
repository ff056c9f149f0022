/* A packet that take leaves: its size and that it is left are told apart. */
#include "uses.h"

int main(void) {
  const uint8_t doors[MUDASGUP_DOORS_SIZE] = {0};
  mudasgup_packet packet, put;
  int left = 7;
  begin();
  ACCEPTED(mudasgup_packet_message(0, 1, 1, doors, &packet));
  ACCEPTED(mudasgup_take(&tree, &column[1], &packet, &put, &left));
  printf("size %d, left %d\n", put.size, left);
  ACCEPTED(mudasgup_packet_message(2, 1, 2, doors, &packet));
  ACCEPTED(mudasgup_take(&tree, &column[1], &packet, &put, &left));
  printf("size %d, left %d\n", put.size, left);
  ACCEPTED(mudasgup_take(&tree, &column[1], &packet, &put, &left));
  printf("size %d, left %d\n", put.size, left);
  return 0;
}
