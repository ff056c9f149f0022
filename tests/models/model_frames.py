"""The readers of packets and of frames of document 02, Point 5, and the converter of Point 10, written from the papers. `tell` is given in words which
way each frame went. The parameters of `Reader` and `Converter` are what the papers say; others make wrong ones."""
from model import Refused, refuse

# 'kind 1 .. number (two bytes, high first)'; 'New messages have kind 3 .. new acknowledgements kind 4 .., four bytes of number, high first'
OLD, NEW = (1, 2, 2), (3, 4, 4)


def fields_of(data, sizes, number_bytes, highest=15, order="big"):
    """The packet at the start, as kind, from, to, number and a message's doors, and how many bytes it used."""
    size = sizes.get(data[0]) if data else None
    refuse(12, not size and "no such kind")
    refuse(12, len(data) < size and f"too few bytes for kind {data[0]}")
    kind, sender, receiver = data[:3]
    refuse(12, max(sender, receiver) > highest and "an end above 15")
    refuse(12, sender == receiver and "equal ends")
    doors = 3 + number_bytes
    fields = kind, sender, receiver, int.from_bytes(data[3:doors], order)
    return (fields + (int.from_bytes(data[doors:doors + 8], "little"),) if kind == min(sizes) else fields), size


def sizes_of(width):
    """'A message is 13 bytes .. An acknowledgement is 5 bytes'; 'New messages have .. 15 bytes, new acknowledgements .. 7 bytes'."""
    message, acknowledgement, number_bytes = width
    return {message: 3 + number_bytes + 8, acknowledgement: 3 + number_bytes}


class Reader:
    def __init__(self, message=15, acknowledgement=7, most=512, highest=15, order="big", tell=lambda words: None):
        self.sizes = {NEW[0]: message, NEW[1]: acknowledgement}
        self.most, self.highest, self.order, self.tell = most, highest, order, tell

    def packet(self, data):
        return fields_of(data, self.sizes, NEW[2], self.highest, self.order)

    def packets(self, data):
        """'takes packets until the frame ends'."""
        found = []
        while data:
            refuse(12, len(found) == self.most and f"more than {self.most} packets")
            try:
                packet, used = self.packet(data)
            except Refused as refusal:
                self.tell("bad at the start" if not found else "bad after packets")
                raise refusal
            found.append(packet)
            data = data[used:]
        return found

    def line(self, data):
        """What the program frames_test prints for a frame of standard input."""
        try:
            found = self.packets(data)
        except Refused as refusal:
            self.tell(f"refused {refusal}")
            return f"refused={refusal.number} filled=0"
        self.tell("accepted, empty" if not found else "accepted, 512 packets" if len(found) == 512 else "accepted")
        return " ".join([f"count={len(found)}", f"filled={len(found)}", *(",".join(map(str, packet)) for packet in found)])


class Converter:
    """'A converter, answering as the writer does, turns one packet (any byte after it is 12) of the old kinds into the new and back'."""

    def __init__(self, highest=65535, answered=15, old="big", new="big", after=False, tell=lambda words: None):
        self.highest, self.answered, self.order, self.after, self.tell = highest, answered, {OLD: old, NEW: new}, after, tell

    def checked(self, data, number):
        """'18 for narrowing a number above 65,535, after 12'."""
        refuse(18, number > self.highest and "a number above 65,535")

    def converted(self, data):
        old = bool(data) and data[0] in OLD[:2]
        source, target = (OLD, NEW) if old else (NEW, OLD)
        packet, used = fields_of(data, sizes_of(source), source[2], order=self.order[source])
        refuse(12, not self.after and len(data) > used and "a byte after the packet")
        kind, sender, receiver, number, *doors = packet
        if not old:
            self.checked(data, number)
        self.tell(f"{'widened' if old else 'narrowed'} kind {kind}" + (", number 65,535" if number == 65535 else ""))
        head = bytes([target[source.index(kind)], sender, receiver]) + (number % 256 ** target[2]).to_bytes(target[2], self.order[target])
        return head + b"".join(word.to_bytes(8, "little") for word in doors)

    def line(self, data):
        """What the program frames_test prints: the packet's size or the refusal, and 'fifteen bytes', 'those past the packet 0'."""
        try:
            bytes_ = self.converted(data)
        except Refused as refusal:
            self.tell(f"refused {refusal}")
            return f"unconverted={refusal.number} {bytes(self.answered).hex()}"
        return f"converted={len(bytes_)} {bytes_.ljust(self.answered, bytes(1)).hex()}"
