"""Every export by its name."""
import functools

from model import Refused
from models.model_firmware.blocks import REFUSED
from models.model_firmware.packets import acknowledgement, frame_count, frame_join, message, packet_convert, packet_read
from models.model_firmware.states import column_fresh, journal_line, journal_owner, line_up, listing, page_read, tree_check, tree_read
from models.model_firmware.steps import following, idle, note, order, page_write, rejoin, silent, step, strike, take

CALLS = {"tree_check": tree_check, "tree_read": tree_read, "column_fresh": column_fresh, "list": listing, "order": order, "take": take, "note": note,
         "next": following, "idle": idle, "rejoin": rejoin, "strike": strike, "page_read": page_read, "page_write": page_write, "line_up": line_up,
         "packet_read": packet_read, "message": message, "acknowledgement": acknowledgement, "packet_convert": packet_convert,
         "frame_count": frame_count, "frame_join": frame_join, "journal_owner": journal_owner,
         **{name: functools.partial(step, name) for name in ("send", "ack")}, **{name: functools.partial(silent, name) for name in ("all", "halt")},
         **{f"journal_{way}": functools.partial(journal_line, way) for way in ("sent", "got")}}


def called(name, buffers, arguments, tell=lambda words: None):
    """What a call answers and leaves; a refused one leaves every lent byte."""
    try:
        return CALLS[name](*arguments)
    except Refused as refusal:
        tell(f"refused {refusal}")
        return (REFUSED + refusal.number, *buffers)
