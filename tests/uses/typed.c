/* Every typed function of the header, in C99 and C++: accepted with what it leaves, and refused with nothing written. */
#include "uses.h"

static const uint8_t doors[MUDASGUP_DOORS_SIZE] = {1, 2};
static mudasgup_column broken;    /* never written */
static mudasgup_packet put, none; /* what a call left, and 0 in every byte */
static char text[MUDASGUP_LIST_SIZE];
static size_t size;
static int flag;

#define REFUSED(number, call) HOLDS((call) == MUDASGUP_E_##number)
#define TEXT(expected) HOLDS(size == strlen(expected) && memcmp(text, expected, size) == 0)

/* What a refused call must leave as it was. */
static void unwritten(void) {
  put = none;
  put.size = 99, size = 99, flag = 99;
  memset(text, 'x', sizeof text);
}

static void nothing_written(void) {
  mudasgup_packet as_before = none;
  as_before.size = 99;
  HOLDS(memcmp(&put, &as_before, sizeof put) == 0 && size == 99 && flag == 99 && text[0] == 'x');
}

static void trees(void) {
  mudasgup_tree other = tree;
  unwritten();
  REFUSED(FORM, mudasgup_tree_read(&other, "columns=3", 9, &size));
  REFUSED(COLUMNS, mudasgup_tree_read(&other, "columns=0\nroot=0\nup=0\n", 22, &size));
  REFUSED(TREE, mudasgup_tree_read(&other, "columns=1\nroot=1\nup=0\n", 22, &size));
  HOLDS(memcmp(&other, &tree, sizeof tree) == 0);
  nothing_written();
  ACCEPTED(mudasgup_tree_check(&tree));
  other.bytes[MUDASGUP_TREE_ROOT] = 3;
  REFUSED(TREE, mudasgup_tree_check(&other));
  other.bytes[MUDASGUP_TREE_LAYOUT] = MUDASGUP_LAYOUT_COLUMN;
  REFUSED(BLOCK, mudasgup_tree_check(&other));
  REFUSED(STATE, mudasgup_column_fresh(&tree, 3, &broken));
  REFUSED(STATE, mudasgup_column_fresh(&tree, 256, &broken));
  HOLDS(broken.bytes[MUDASGUP_COLUMN_LAYOUT] == 0);
  HOLDS(column[1].bytes[MUDASGUP_COLUMN_LAYOUT] == MUDASGUP_LAYOUT_COLUMN && column[1].bytes[MUDASGUP_COLUMN_OWN] == 1);
}

static void steps(void) {
  mudasgup_packet arrived;
  unwritten();
  REFUSED(NOTHING, mudasgup_next(&tree, &column[0], &put));
  REFUSED(NOTHING, mudasgup_send(&tree, &column[0], &put));
  REFUSED(NOTHING, mudasgup_ack(&tree, &column[0], &put));
  REFUSED(NOTHING, mudasgup_all(&tree, &column[0]));
  REFUSED(STATE, mudasgup_order(&tree, &column[1], doors));
  REFUSED(PACKET, mudasgup_take(&tree, &column[1], &none, &put, &flag));
  nothing_written();
  ACCEPTED(mudasgup_order(&tree, &column[0], doors));
  REFUSED(BUSY, mudasgup_order(&tree, &column[0], doors));
  ACCEPTED(mudasgup_send(&tree, &column[0], &put));
  HOLDS(put.size == 15 && put.bytes[MUDASGUP_PACKET_KIND] == MUDASGUP_KIND_MESSAGE && put.bytes[MUDASGUP_PACKET_TO] == 1);
  arrived = put;
  ACCEPTED(mudasgup_take(&tree, &column[1], &arrived, &put, &flag));
  HOLDS(put.size == 0 && flag == 0);
  ACCEPTED(mudasgup_ack(&tree, &column[1], &put));
  HOLDS(put.size == 7 && put.bytes[MUDASGUP_PACKET_KIND] == MUDASGUP_KIND_ACKNOWLEDGEMENT && put.bytes[MUDASGUP_PACKET_FROM] == 1);
  ACCEPTED(mudasgup_next(&tree, &column[0], &put));
  HOLDS(put.size == 15 && put.bytes[MUDASGUP_PACKET_TO] == 2);
  ACCEPTED(mudasgup_idle(&tree, &column[0], &flag));
  HOLDS(flag == 1);
  ACCEPTED(mudasgup_note(&tree, &column[1], 0));
  REFUSED(NOTHING, mudasgup_note(&tree, &column[1], 0));
  REFUSED(STATE, mudasgup_note(&tree, &column[1], 256));
  ACCEPTED(mudasgup_idle(&tree, &column[1], &flag));
  HOLDS(flag == 0);
  ACCEPTED(mudasgup_all(&tree, &column[1]));
  ACCEPTED(mudasgup_halt(&tree, &column[2]));
  REFUSED(HALTED, mudasgup_halt(&tree, &column[2]));
}

static void returns(void) {
  mudasgup_column back = column[2];
  unwritten();
  REFUSED(BLOCK, mudasgup_idle(&tree, &broken, &flag));
  REFUSED(STATE, mudasgup_rejoin(&tree, &column[2], 1, 1, doors, 0));
  REFUSED(STATE, mudasgup_rejoin(&tree, &column[2], 0, 1, doors, 8));
  REFUSED(STATE, mudasgup_rejoin(&tree, &column[2], 0, 1, doors, 65536));
  HOLDS(memcmp(&back, &column[2], sizeof back) == 0);
  REFUSED(UNREST, mudasgup_strike(&tree, &column[1], 2));
  REFUSED(STATE, mudasgup_strike(&tree, &column[0], 256));
  nothing_written();
  ACCEPTED(mudasgup_note(&tree, &column[0], 2));
  ACCEPTED(mudasgup_strike(&tree, &column[0], 2));
  HOLDS(column[0].bytes[MUDASGUP_COLUMN_NOTED + 1] == 0);
  ACCEPTED(mudasgup_rejoin(&tree, &column[2], 1, 70000, doors, 1));
  HOLDS(column[2].bytes[MUDASGUP_COLUMN_STATUS] == MUDASGUP_STATUS_RUNS + MUDASGUP_STATUS_WHOLE + MUDASGUP_STATUS_SENDER * 1);
  HOLDS(column[2].bytes[MUDASGUP_COLUMN_NOTED + 1] == 1 && memcmp(column[2].bytes + MUDASGUP_COLUMN_DOORS, doors, sizeof doors) == 0);
}

static void texts(void) {
  uint8_t value = 99;
  unwritten();
  REFUSED(SPACE, mudasgup_list(&tree, &column[2], text, 10, &size));
  REFUSED(OFFSET, mudasgup_page_read(&tree, &column[2], 256 + MUDASGUP_PAGE_MASK, &value));
  REFUSED(OFFSET, mudasgup_page_write(&tree, &column[2], MUDASGUP_PAGE_PENDING, 1));
  REFUSED(BLOCK, mudasgup_line_up(&broken, &flag));
  nothing_written();
  HOLDS(value == 99);
  ACCEPTED(mudasgup_list(&tree, &column[2], text, sizeof text, &size));
  TEXT("column=2\nnumber=70000\noccupied=2\ndoors=1,10\n");
  ACCEPTED(mudasgup_line_up(&column[1], &flag));
  HOLDS(flag == 0);
  ACCEPTED(mudasgup_page_write(&tree, &column[1], MUDASGUP_PAGE_MASK, MUDASGUP_PENDING_TAKEOVER));
  ACCEPTED(mudasgup_line_up(&column[1], &flag));
  HOLDS(flag == 1);
  ACCEPTED(mudasgup_page_read(&tree, &column[1], MUDASGUP_PAGE_PENDING, &value));
  HOLDS(value == MUDASGUP_PENDING_RECORD + MUDASGUP_PENDING_HALT + MUDASGUP_PENDING_TAKEOVER);
}

static void packets(void) {
  uint8_t frame[30] = {0};
  mudasgup_packet packet, narrow;
  unwritten();
  REFUSED(PACKET, mudasgup_packet_message(256, 1, 1, doors, &put));
  REFUSED(PACKET, mudasgup_packet_message(0, 16, 1, doors, &put));
  REFUSED(PACKET, mudasgup_packet_acknowledgement(1, 257, 1, &put));
  REFUSED(PACKET, mudasgup_packet_read(frame, sizeof frame, &put));
  REFUSED(PACKET, mudasgup_packet_convert(frame, sizeof frame, &put));
  REFUSED(PACKET, mudasgup_frame_count(frame, sizeof frame, &size));
  nothing_written();
  ACCEPTED(mudasgup_packet_acknowledgement(2, 1, 70000, &packet));
  HOLDS(packet.size == 7);
  REFUSED(NARROW, mudasgup_packet_convert(packet.bytes, packet.size, &put));
  ACCEPTED(mudasgup_packet_message(1, 2, 70, doors, &packet));
  HOLDS(packet.size == 15 && packet.bytes[MUDASGUP_PACKET_NUMBER + 3] == 70 && packet.bytes[MUDASGUP_PACKET_DOORS + 1] == 2);
  ACCEPTED(mudasgup_packet_convert(packet.bytes, packet.size, &narrow));
  HOLDS(narrow.size == 13);
  ACCEPTED(mudasgup_packet_convert(narrow.bytes, narrow.size, &put));
  HOLDS(memcmp(&put, &packet, sizeof put) == 0);
  size = 0;
  ACCEPTED(mudasgup_frame_join(&packet, frame, sizeof frame, &size));
  ACCEPTED(mudasgup_frame_join(&packet, frame, sizeof frame, &size));
  REFUSED(SPACE, mudasgup_frame_join(&packet, frame, sizeof frame, &size));
  HOLDS(size == 30);
  ACCEPTED(mudasgup_frame_count(frame, sizeof frame, &size));
  HOLDS(size == 2);
  ACCEPTED(mudasgup_packet_read(frame + 15, 15, &put));
  HOLDS(memcmp(&put, &packet, sizeof put) == 0);
}

static void journals(void) {
  mudasgup_packet packet;
  ACCEPTED(mudasgup_packet_message(1, 2, 70, doors, &packet));
  unwritten();
  REFUSED(BLOCK, mudasgup_journal_owner(&broken, text, sizeof text, &size));
  REFUSED(STATE, mudasgup_journal_sent(&column[2], &packet, text, sizeof text, &size));
  REFUSED(SPACE, mudasgup_journal_got(&column[2], &packet, text, 4, &size));
  nothing_written();
  ACCEPTED(mudasgup_journal_owner(&column[2], text, sizeof text, &size));
  TEXT("column=2\n");
  ACCEPTED(mudasgup_journal_sent(&column[1], &packet, text, sizeof text, &size));
  TEXT("sent=1,2,70\n");
  ACCEPTED(mudasgup_journal_got(&column[2], &packet, text, sizeof text, &size));
  TEXT("got=1,1,70\n");
}

int main(void) {
  begin();
  trees();
  steps();
  returns();
  texts();
  packets();
  journals();
  puts("as told");
  return 0;
}
