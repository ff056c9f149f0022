"""Packets and frames of them. A call answers a number and the bytes that it leaves."""
from model import refuse
from models.model_firmware.blocks import DOORS, PACKET, sized
from models.model_frames import Converter, Reader


def packet_bytes(kind, sender, receiver, number, doors=None):
    refuse(12, (max(sender, receiver) > 15 or sender == receiver) and "bad ends")
    return bytes([3 if kind == "message" else 4, sender, receiver]) + number.to_bytes(4, "big") + (doors if kind == "message" else b"")


def packet_read(data, packet):
    sized((packet, PACKET))
    _, used = Reader().packet(data)
    return used, data[:used].ljust(PACKET, b"\0")


def written(data, packet):
    return len(data), data.ljust(PACKET, b"\0")


def message(sender, receiver, number, doors, packet):
    sized((doors, DOORS), (packet, PACKET))
    return written(packet_bytes("message", sender, receiver, number, doors), packet)


def acknowledgement(sender, receiver, number, packet):
    sized((packet, PACKET))
    return written(packet_bytes("acknowledgement", sender, receiver, number), packet)


def packet_convert(data, packet):
    sized((packet, PACKET))
    return written(Converter().converted(data), packet)


def frame_count(data):
    return (len(Reader().packets(data)),)


def frame_join(data, buffer, at):
    _, used = Reader().packet(data)
    count = len(Reader().packets(buffer[:at]))
    refuse(11, at + used > len(buffer) and "no room")
    refuse(11, count == 512 and "a full frame")
    return used, buffer[:at] + data[:used] + buffer[at + used:]
