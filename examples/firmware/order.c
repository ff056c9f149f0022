/* A root takes an order from bytes and puts its packets. */
#include <mudasgup.h>
#include <stdio.h>

int main(void) {
  static const char table[] = "columns=3\nroot=0\nup=0,0,0\n";
  const uint8_t doors[MUDASGUP_DOORS_SIZE] = {1, 2};
  mudasgup_tree tree;
  mudasgup_column column;
  mudasgup_packet put;
  size_t used;
  if (mudasgup_tree_read(&tree, table, sizeof table - 1, &used) != MUDASGUP_OK ||
      mudasgup_column_fresh(&tree, 0, &column) != MUDASGUP_OK ||
      mudasgup_order(&tree, &column, doors) != MUDASGUP_OK)
    return 1;
  while (mudasgup_next(&tree, &column, &put) == MUDASGUP_OK)
    for (size_t i = 0; i < put.size; i++)
      printf("%02x%s", put.bytes[i], i + 1 < put.size ? " " : "\n");
  return 0;
}
