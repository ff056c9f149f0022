"""Wrong register pages, each of which some random run must tell from the program."""
import model
from models import model_pages


class ClearedByReading(model_pages.Bank):
    def read(self, i, offset):
        value = super().read(i, offset)
        if offset == 6:
            self.pending[i] = 0
        return value


class LeftIsReceived(model_pages.Bank):
    def acknowledge(self, i, owed):
        super().acknowledge(i, owed)
        if self.taking:
            self.pending[i] |= model_pages.RECORD_RECEIVED

    taking = False

    def take(self, place):
        self.taking = True
        try:
            super().take(place)
        finally:
            self.taking = False


class ThreeBits(model_pages.Bank):
    def write(self, i, offset, value):
        super().write(i, offset, value % 8 if offset == model_pages.MASK else value)


class PageCopied(model_pages.Bank):
    def back(self, j):
        running = [i for i, column in enumerate(self.columns) if column.running]
        super().back(j)
        self.masks[j], self.pending[j] = self.masks[running[0]], self.pending[running[0]]


class PageFresh(model_pages.Bank):
    def back(self, j):
        super().back(j)
        self.masks[j] = self.pending[j] = 0


class BackIsReceived(model_pages.Bank):
    def back(self, j):
        super().back(j)
        self.pending[j] |= model_pages.RECORD_RECEIVED


class HaltedRefused(model_pages.Bank):
    def write(self, i, offset, value):
        if i < len(self.columns):
            self.acting(i)
        super().write(i, offset, value)


class HaltedUnread(model_pages.Bank):
    def read(self, i, offset):
        self.acting(i)
        return super().read(i, offset)


class ClearSets(model_pages.Bank):
    def write(self, i, offset, value):
        super().write(i, offset, value)
        if offset == model_pages.CLEAR:
            self.pending[i] |= value


class ClearsAll(model_pages.Bank):
    def write(self, i, offset, value):
        super().write(i, offset, 255 if offset == model_pages.CLEAR else value)


class OrderUntold(model_pages.Bank):
    def order(self, doors):
        pending = self.pending[self.root]
        super().order(doors)
        self.pending[self.root] = pending


class EqualIsReceived(model_pages.Bank):
    def take(self, place):
        packet = self.network[place] if place < len(self.network) else None
        super().take(place)
        if packet and packet[0] == "message" and packet[3] == self.columns[packet[2]].number:
            self.pending[packet[2]] |= model_pages.RECORD_RECEIVED


class SevenShown(model_pages.Bank):
    def page(self, i):
        return super().page(i)[:7] + [self.pending[i]]


class HaltedHidden(model_pages.Bank):
    def page(self, i):
        column = self.columns[i]
        return super().page(i) if column.running else [i, 0, 0, 0, 0, self.masks[i], self.pending[i], 0]


class AnyPending(model_pages.Bank):
    def line_up(self, i):
        return self.pending[i] != 0


class DispatchedUntold(model_pages.Bank):
    def run(self, limit):
        pending = list(self.pending)
        text = super().run(limit)
        self.pending = pending
        return text


class TwentyTwoBeforeFour(model_pages.Bank):
    def write(self, i, offset, value):
        model.refuse(22, offset not in (model_pages.MASK, model_pages.CLEAR) and "a write elsewhere")
        super().write(i, offset, value)


class AboveSevenReadsZero(model_pages.Bank):
    def read(self, i, offset):
        return 0 if i < len(self.columns) and offset > 7 else super().read(i, offset)


class ReadModulo256(model_pages.Bank):
    def read(self, i, offset):
        return super().read(i, offset % 256)


class WrittenModulo256(model_pages.Bank):
    def write(self, i, offset, value):
        super().write(i, offset % 256, value)


class SixWritten(model_pages.Bank):
    def write(self, i, offset, value):
        if i < len(self.columns) and offset == 6:
            self.pending[i] = value
        else:
            super().write(i, offset, value)


class MaskClears(model_pages.Bank):
    def write(self, i, offset, value):
        super().write(i, offset, value)
        if offset == model_pages.MASK:
            self.pending[i] = 0


class CountsExchanged(model_pages.Bank):
    def page(self, i):
        first, second, sends, awaits, *rest = super().page(i)
        return [first, second, awaits, sends, *rest]


class GoalHidden(model_pages.Bank):
    def page(self, i):
        return [i, super().page(i)[1] % 2, *super().page(i)[2:]]


class AllAskedFor(model_pages.Bank):
    def line_up(self, i):
        return self.masks[i] != 0 and self.masks[i] & self.pending[i] == self.masks[i]


class NewestAlone(model_pages.Bank):
    def raised(self, i, bit, words):
        self.pending[i] = bit


class NoteUntold(model_pages.Bank):
    def note(self, i, j):
        pending = list(self.pending)
        super().note(i, j)
        self.pending = pending


class TakeoverUntold(model_pages.Bank):
    def all(self, i):
        pending = list(self.pending)
        super().all(i)
        self.pending = pending


class HaltClears(model_pages.Bank):
    def halt(self, *named):
        super().halt(*named)
        for i in named:
            self.pending[i] = 0


WRONG = [ClearedByReading, LeftIsReceived, ThreeBits, PageCopied, PageFresh, BackIsReceived, HaltedRefused, HaltedUnread, ClearSets, ClearsAll, OrderUntold,
         EqualIsReceived, SevenShown, HaltedHidden, AnyPending, DispatchedUntold, TwentyTwoBeforeFour, AboveSevenReadsZero, ReadModulo256, WrittenModulo256,
         SixWritten, MaskClears, CountsExchanged, GoalHidden, AllAskedFor, NewestAlone, NoteUntold, TakeoverUntold, HaltClears]
