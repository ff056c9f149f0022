"""Wrong readers of frames, and wrong converters."""
from model import Refused, refuse
from models.model_frames import NEW, OLD, Converter, Reader, fields_of, sizes_of


class LastDropped(Reader):
    def packets(self, data):
        return super().packets(data)[:-1]


class YieldsBeforeBad(Reader):
    def packets(self, data):
        found = []
        while data and len(found) < self.most:
            try:
                packet, used = self.packet(data)
            except Refused:
                break
            found.append(packet)
            data = data[used:]
        return found


class EmptyRefused(Reader):
    def packets(self, data):
        refuse(12, not data and "no packet")
        return super().packets(data)


class OldKindsRead(Reader):
    def packet(self, data):
        if data and data[0] in sizes_of(OLD):
            return fields_of(data, sizes_of(OLD), OLD[2])
        return super().packet(data)


class EqualEndsPass(Reader):
    def packet(self, data):
        if len(data) < 3 or data[1] != data[2]:
            return super().packet(data)
        (kind, sender, _, *rest), used = super().packet(data[:2] + bytes([data[1] ^ 1]) + data[3:])
        return (kind, sender, sender, *rest), used


class OnlyTheFirst(Reader):
    def packets(self, data):
        return super().packets(data)[:1]


class NewestFirst(Reader):
    def packets(self, data):
        return super().packets(data)[::-1]


class CutEndPasses(Reader):
    """A frame ends where a packet is cut."""
    def packet(self, data):
        size = self.sizes.get(data[0])
        return super().packet(data) if not size or len(data) >= size else (None, len(data))

    def packets(self, data):
        return [packet for packet in super().packets(data) if packet]


class RestPassedOver(Reader):
    """What follows 512 packets is passed over."""
    def packets(self, data):
        found = []
        while data and len(found) < self.most:
            packet, used = self.packet(data)
            found.append(packet)
            data = data[used:]
        return found


WRONG = {
    "the last packet dropped": LastDropped(),
    "packets before a bad one yielded": YieldsBeforeBad(),
    "511 the most": Reader(most=511),
    "513 the most": Reader(most=513),
    "an acknowledgement of fifteen bytes": Reader(acknowledgement=15),
    "a message of fourteen bytes": Reader(message=14),
    "column 16 passes": Reader(highest=16),
    "an empty frame refused": EmptyRefused(),
    "the old kinds read": OldKindsRead(),
    "a number low first": Reader(order="little"),
    "a message of sixteen bytes": Reader(message=16),
    "an acknowledgement of eight bytes": Reader(acknowledgement=8),
    "column 15 refused": Reader(highest=14),
    "equal ends pass": EqualEndsPass(),
    "only the first packet read": OnlyTheFirst(),
    "the newest packet first": NewestFirst(),
    "a packet that is cut ends the frame": CutEndPasses(),
    "what follows 512 packets passed over": RestPassedOver(),
}


class HighBeforeBad(Converter):
    """18 before 12: the number is looked at first."""

    def converted(self, data):
        if len(data) >= 7 and data[0] in NEW[:2]:
            self.checked(data, int.from_bytes(data[3:7], "big"))
        return super().converted(data)


class OnlyWidens(Converter):
    def converted(self, data):
        refuse(12, (not data or data[0] not in OLD[:2]) and "no old kind")
        return super().converted(data)


class OnlyNarrows(Converter):
    def converted(self, data):
        refuse(12, bool(data) and data[0] in OLD[:2] and "an old kind")
        return super().converted(data)


class KindKept(Converter):
    def converted(self, data):
        return data[:1] + super().converted(data)[1:]


class EndsExchanged(Converter):
    def converted(self, data):
        kind, sender, receiver, *rest = super().converted(data)
        return bytes([kind, receiver, sender, *rest])


class DoorsDropped(Converter):
    def converted(self, data):
        found = super().converted(data)
        return found[:-8] + bytes(8) if found[0] in (OLD[0], NEW[0]) else found


class NumbersCut(Converter):
    """A number above 65,535 narrowed to 65,535."""
    def converted(self, data):
        cut = len(data) >= 7 and data[0] in NEW[:2] and data[3:5] != bytes(2)
        return super().converted(data[:3] + bytes([0, 0, 255, 255]) + data[7:] if cut else data)


WRONG_CONVERTERS = {
    "the high bytes dropped": Converter(highest=4294967295),
    "65,534 the highest": Converter(highest=65534),
    "65,536 narrowed": Converter(highest=65536),
    "18 before 12": HighBeforeBad(),
    "thirteen bytes answered": Converter(answered=13),
    "a byte after the packet passes": Converter(after=True),
    "an old number low first": Converter(old="little"),
    "a new number low first": Converter(new="little"),
    "a new packet not narrowed": OnlyWidens(),
    "an old packet not widened": OnlyNarrows(),
    "the kind kept": KindKept(),
    "the ends exchanged": EndsExchanged(),
    "the doors dropped": DoorsDropped(),
    "a number above 65,535 narrowed to it": NumbersCut(),
}
