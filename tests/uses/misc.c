/* The 513th packet of a frame, a packet for another column, memory that was never written, a tree in a column's place, a packet of no size. */
#include "uses.h"

int main(void) {
  static uint8_t frame[8000];
  const uint8_t doors[MUDASGUP_DOORS_SIZE] = {0};
  mudasgup_packet packet, put;
  mudasgup_column unwritten;
  size_t used = 0, packets = 0, joined = 0;
  int left = 0;
  begin();
  ACCEPTED(mudasgup_packet_acknowledgement(0, 1, 7, &packet));
  while (mudasgup_frame_join(&packet, frame, sizeof frame, &used) == MUDASGUP_OK)
    joined++;
  HOLDS(mudasgup_frame_join(&packet, frame, sizeof frame, &used) == MUDASGUP_E_SPACE);
  ACCEPTED(mudasgup_frame_count(frame, used, &packets));
  printf("joined %zu, counted %zu, %zu bytes\n", joined, packets, used);

  ACCEPTED(mudasgup_packet_message(0, 2, 1, doors, &packet));
  HOLDS(mudasgup_take(&tree, &column[1], &packet, &put, &left) == MUDASGUP_E_STATE);
  packet.size = 200;
  HOLDS(mudasgup_take(&tree, &column[2], &packet, &put, &left) == MUDASGUP_E_PACKET);
  memset(&unwritten, 0, sizeof unwritten);
  HOLDS(mudasgup_next(&tree, &unwritten, &put) == MUDASGUP_E_BLOCK);
  memset(&unwritten, 255, sizeof unwritten);
  HOLDS(mudasgup_next(&tree, &unwritten, &put) == MUDASGUP_E_BLOCK);
  memcpy(&unwritten, &tree, sizeof unwritten);
  HOLDS(mudasgup_next(&tree, &unwritten, &put) == MUDASGUP_E_BLOCK);
  puts("all refused");
  return 0;
}
