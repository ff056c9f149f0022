"""Wrong strategies for the fastest tree, and wrong readers of a request."""
import re

from generators import marks
from models.model_fastest import Strategy


class TiesByTheReceiver(Strategy):
    """The one that received last sends first."""
    def in_turn(self, senders):
        return sorted(senders, reverse=True)


class FirstSendAfterAGap(Strategy):
    def sends(self, time, arrival, sent, gap):
        return super().sends(time, arrival + gap if arrival else 0, sent, gap)


class RootWaitsToo(Strategy):
    def sends(self, time, arrival, sent, gap):
        return super().sends(time, arrival + gap, sent, gap)


class StopsAfterItsFirstChild(Strategy):
    def sends(self, time, arrival, sent, gap):
        return super().sends(time, arrival, sent, gap) and sent == 0


class ArrivalFromTheStart(Strategy):
    """Counted from when the sender starts to send, which is its own arrival."""
    def arrives(self, time, own, delay):
        return own + delay


class ArrivalAtTheSending(Strategy):
    def arrives(self, time, own, delay):
        return time


class ArrivalAfterTheGap(Strategy):
    """Delay and gap taken the one for the other."""
    def broadcast(self, columns, delay, gap):
        return super().broadcast(columns, gap, delay)


class OneSendAtATime(Strategy):
    """The gap kept between the sends of all columns."""
    def in_turn(self, senders):
        return sorted(senders)[:1]


class SeventeenBeforeTwo(Strategy):
    def check(self, columns, delay, gap):
        super().check(1, delay, gap)
        super().check(columns, delay, gap)


class NoDelayPasses(Strategy):
    def check(self, columns, delay, gap):
        super().check(columns, max(delay, 1), gap)


class GapUntested(Strategy):
    def check(self, columns, delay, gap):
        super().check(columns, delay, 1)

    def broadcast(self, columns, delay, gap):
        return super().broadcast(columns, delay, max(gap, 1))


class MoreMayFollow(Strategy):
    def read(self, data):
        return super().read(b"".join(data.splitlines(keepends=True)[:3]))


class UnendedTaken(Strategy):
    def read(self, data):
        return super().read(data if data.endswith(b"\n") else data + b"\n")


class LeadingZeroTaken(Strategy):
    def read(self, data):
        return super().read(re.sub(rb"(?m)=0+(?=[0-9])", b"=", data) if re.fullmatch(rb"\w+=\d\d?\n\w+=\d{1,3}\n\w+=\d{1,3}\n", data) else data)


class Struck(Strategy):
    """What a pattern finds is passed over."""
    def __init__(self, pattern):
        super().__init__()
        self.pattern = pattern

    def read(self, data):
        return super().read(re.sub(self.pattern, b"", data))


class CapitalsTaken(Strategy):
    def read(self, data):
        return super().read(data.lower())


class GapBeforeDelayTaken(Strategy):
    def read(self, data):
        lines = data.splitlines(keepends=True)
        return super().read(b"".join([lines[0], lines[2], lines[1]]) if len(lines) == 3 and lines[1].startswith(b"gap=") else data)


WRONG = {
    "ties by the receiver's number": TiesByTheReceiver(),
    "the first send a gap after the arrival": FirstSendAfterAGap(),
    "the first send a gap after the arrival, the root's too": RootWaitsToo(),
    "nothing sent after the first child": StopsAfterItsFirstChild(),
    "arrival counted from the start of sending": ArrivalFromTheStart(),
    "arrival at the sending": ArrivalAtTheSending(),
    "delay and gap exchanged": ArrivalAfterTheGap(),
    "one send at a time in the whole bank": OneSendAtATime(),
    "17 before 2": SeventeenBeforeTwo(),
    "the gap not tested": GapUntested(),
    "a delay of 0 passes": NoDelayPasses(),
    "255 refused": Strategy(highest=254),
    "256 passes": Strategy(highest=256),
    "16 columns refused": Strategy(numbers=15),
    "17 columns pass": Strategy(numbers=17),
    "a delay of four digits read": Strategy(widths=(2, 4, 3)),
    "a gap of two digits at most": Strategy(widths=(2, 3, 2)),
    "columns of three digits read": Strategy(widths=(3, 3, 3)),
    "bytes after the third line passed over": MoreMayFollow(),
    "a last line without its end taken": UnendedTaken(),
    "a leading zero taken": LeadingZeroTaken(),
    "CR before a line's end taken": Struck(marks.RETURNS),
    "spaces where a line begins or ends taken": Struck(marks.SPACES_AROUND),
    "spaces beside a line's `=` taken": Struck(marks.SPACES_WITHIN),
    "capitals taken": CapitalsTaken(),
    "the gap before the delay taken": GapBeforeDelayTaken(),
}
