// The strategy of Point 8: "A column relays when it has the message and every E units after, and arrival is D units later. Columns are numbered by arrival,
// ties by the sender's number, root 0."

// Each column's parent, when the message was sent to it and when it has it.
export function fastestTree(columns, delay, gap) {
  const tree = { up: [0], sent: [0], arrival: [0] };
  for (let time = 0; tree.up.length < columns; time++) {
    const senders = tree.arrival.map((_, c) => c).filter(c => time >= tree.arrival[c] && (time - tree.arrival[c]) % gap === 0);
    for (const sender of senders.slice(0, columns - tree.up.length)) {
      tree.up.push(sender);
      tree.sent.push(time);
      tree.arrival.push(time + delay);
    }
  }
  return tree;
}
