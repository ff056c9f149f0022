"""Wrong counts of losses, and wrong readers of their input."""
from model import LIMIT, refuse, table
from models.model_losses import Losses, silent


class EmptySetLeftOut(Losses):
    def sets(self, columns):
        return (halted for halted in super().sets(columns) if halted)


class WholeBankLeftOut(Losses):
    def sets(self, columns):
        return (halted for halted in super().sets(columns) if len(halted) < columns)


class SingleColumns(Losses):
    def sets(self, columns):
        return ((column,) for column in range(columns))


class OrderIsAStep(Losses):
    def begin(self, bank, steps):
        return super().begin(bank, steps - 1)


class OneStepMore(Losses):
    def begin(self, bank, steps):
        return super().begin(bank, steps + 1)


class StepsPastRest(Losses):
    """At rest the count goes on with a further order."""
    def turn(self, bank):
        if not bank.turn():
            bank.order(bytes(8))
        return True


class StepsNotTaken(Losses):
    def begin(self, bank, steps):
        return super().begin(bank, 0)


class FromTheBankBefore(Losses):
    """Each set is halted in the bank that the set before it left, with all columns running again."""
    def ends(self, bank):
        fates = []
        for halted in self.sets(len(bank.columns)):
            for column in bank.columns:
                column.running = True
            fates.append(self.fate(self.end(bank, halted)))
        return fates

    def end(self, bank, halted):
        if halted:
            bank.halt(*halted)
        while bank.turn():
            pass
        return bank


class NotDispatchedToRest(Losses):
    """The lowest column that runs is asked at once."""
    def end(self, bank, halted):
        if halted:
            bank.halt(*halted)
        return bank


class PacketsVanishWithTheirSender(Losses):
    def end(self, bank, halted):
        bank.network = [packet for packet in bank.network if packet[1] not in halted]
        return super().end(bank, halted)


class RootNeverHalts(Losses):
    def end(self, bank, halted):
        return super().end(bank, tuple(column for column in halted if column != bank.root) if len(halted) < len(bank.columns) else halted)


class NobodyIsLost(Losses):
    def fate(self, bank):
        return super().fate(bank).replace("none", "0")


class LimitIsPastTheLimit(Losses):
    limit = LIMIT - 1


class OneByteMoreIsRead(Losses):
    limit = LIMIT + 1


class NineColumnsPass(Losses):
    most = 9


class SevenColumnsAtMost(Losses):
    most = 7


class SenderPasses(Losses):
    def check(self, bank):
        refuse(23, len(bank.columns) > self.most and "more than 8 columns")


class ThirteenBeforeTwentyThree(Losses):
    def asked(self, data):
        refuse(13, len(data) > self.limit and "past the limit")
        bank, rest = table(data.decode("latin-1"), silent)
        steps = self.read(rest)
        self.check(bank)
        return bank, steps


class MoreMayFollow(Losses):
    def read(self, rest):
        return super().read("".join(rest.splitlines(keepends=True)[:1]))


class UnendedTaken(Losses):
    def read(self, rest):
        return super().read(rest if rest.endswith("\n") else rest + "\n")


class LeadingZeroTaken(Losses):
    steps = r"after=([0-9]{1,3})\n"


class FourDigitsTaken(Losses):
    steps = r"after=(0|[1-9][0-9]{0,3})\n"


class TwoDigitsAtMost(Losses):
    steps = r"after=(0|[1-9][0-9]?)\n"


class WithoutIsNone(Losses):
    """A table alone is taken for a count of 0."""
    def read(self, rest):
        return super().read(rest or "after=0\n")


WRONG = {wrong.__name__: wrong for wrong in (
    EmptySetLeftOut, WholeBankLeftOut, SingleColumns, OrderIsAStep, OneStepMore, StepsPastRest, StepsNotTaken, FromTheBankBefore, NotDispatchedToRest,
    PacketsVanishWithTheirSender, RootNeverHalts, NobodyIsLost, LimitIsPastTheLimit, OneByteMoreIsRead, NineColumnsPass, SevenColumnsAtMost, SenderPasses,
    ThirteenBeforeTwentyThree, MoreMayFollow, UnendedTaken, LeadingZeroTaken, FourDigitsTaken, TwoDigitsAtMost, WithoutIsNone)}
