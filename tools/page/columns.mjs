// What a column and a bank hold. A set of columns is a number with a bit for each; nothing here is changed after it is made.

export const NO_DOORS = "0000000000000000";

export const has = (set, column) => (set >> column & 1) === 1;
export const single = column => 1 << column;
export const without = (set, column) => set & ~(1 << column);
export const lowest = set => 31 - Math.clz32(set & -set);

// The columns of a set, lowest first.
export function members(set) {
  const found = [];
  for (let column = 0; set >> column; column++) if (has(set, column)) found.push(column);
  return found;
}

// A set's member that comes earliest in the table's sequence.
export const earliest = (table, set) => table.first.find(column => has(set, column));

// The numbers of the occupied doors: door d is bit (d-1) mod 8 of byte (d-1)/8.
export function occupiedDoors(doors) {
  const found = [];
  for (let door = 1; door <= 64; door++) {
    const byte = parseInt(doors.slice((door - 1 >> 3) * 2, (door - 1 >> 3) * 2 + 2), 16);
    if (byte >> (door - 1 & 7) & 1) found.push(door);
  }
  return found;
}

// The doors of an order line from the numbers of occupied doors.
export function doorsOf(numbers) {
  const bytes = Array(8).fill(0);
  for (const door of numbers) bytes[door - 1 >> 3] |= 1 << (door - 1 & 7);
  return bytes.map(byte => byte.toString(16).padStart(2, "0")).join("");
}

const freshColumn = (whole, sender) => ({ running: true, number: 0, doors: NO_DOORS, send: 0, awaited: 0, owed: 0, noted: 0, whole, sender });

// "Fresh: all columns run, number 0, doors clear, sets empty, goal own subtree; the root's goal is always the whole bank."
export function freshBank(table) {
  return { table, columns: table.up.map((_, i) => freshColumn(i === table.root, table.root)), network: [] };
}

// The bank with some fields of a column replaced.
export function changed(bank, i, fields) {
  const columns = bank.columns.slice();
  columns[i] = { ...columns[i], ...fields };
  return { ...bank, columns };
}

export const haltedColumns = bank => bank.columns.reduce((set, column, i) => column.running ? set : set | single(i), 0);

// A table with the children of each column as a set: "the root names itself, but is nobody's child".
export function withChildren(table) {
  const children = table.up.map(() => 0);
  table.up.forEach((parent, i) => { if (i !== table.root) children[parent] |= single(i); });
  return { ...table, children };
}

// The closing list of a column, as document 01 has its four lines.
export function closingList(bank, i) {
  const { number, doors } = bank.columns[i], occupied = occupiedDoors(doors);
  return `column=${i}\nnumber=${number}\noccupied=${occupied.length}\ndoors=${occupied.join(",")}\n`;
}
