/* Power ends a call's write of the block at each byte: what is there then, and how often it is taken for a state. */
#include "uses.h"

int main(void) {
  const uint8_t first[MUDASGUP_DOORS_SIZE] = {1}, second[MUDASGUP_DOORS_SIZE] = {2};
  char text[MUDASGUP_LIST_SIZE];
  mudasgup_packet packet, put;
  int left = 0, refused = 0, mixed = 0, whole = 0;
  size_t length = 0;
  begin();
  ACCEPTED(mudasgup_packet_message(0, 1, 1, first, &packet));
  ACCEPTED(mudasgup_take(&tree, &column[1], &packet, &put, &left));
  ACCEPTED(mudasgup_next(&tree, &column[1], &put));
  mudasgup_column before = column[1];
  ACCEPTED(mudasgup_packet_message(0, 1, 2, second, &packet));
  ACCEPTED(mudasgup_take(&tree, &column[1], &packet, &put, &left));
  for (size_t k = 0; k <= MUDASGUP_COLUMN_SIZE; k++) {
    mudasgup_column torn = before;
    memcpy(torn.bytes, column[1].bytes, k);
    if (mudasgup_list(&tree, &torn, text, sizeof text, &length) != MUDASGUP_OK)
      refused++;
    else if (memcmp(&torn, &before, sizeof torn) == 0 || memcmp(&torn, &column[1], sizeof torn) == 0)
      whole++;
    else
      mixed++;
  }
  printf("refused %d, whole %d, mixed %d\n", refused, whole, mixed);
  return 0;
}
