// The journals that the columns of a run keep, after Point 11: a packet to a halted column is not sent, one that is left in its place is not got.

const line = (word, packet, other) => `${word}=${packet.message ? 1 : 2},${other},${packet.number}\n`;

// The journal of a column up to a frame.
export function journalOf(run, at, column) {
  let text = `column=${column}\n`;
  for (const { event } of run.frames.slice(0, at + 1)) {
    if (event.took && !event.left && event.took.to === column) text += line("got", event.took, event.took.from);
    if (event.put && event.put.from === column) text += line("sent", event.put, event.put.to);
  }
  return text;
}
