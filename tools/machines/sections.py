"""Bytes of code and of constants in an ELF file of either width, lowest byte first."""
import struct

ALLOCATED, PROGRAM = 2, 1
# Where a file of 32 and of 64 bits has the place, the size and the count of its section headers, and what it has in one.
PLACES = {1: ("<I", 32, 46, "<10I"), 2: ("<Q", 40, 58, "<2I4Q2I2Q")}


def sections(path):
    """The name and size of each section that is loaded and has bytes."""
    with open(path, "rb") as file:
        data = file.read()
    word, place, sizes, form = PLACES[data[4]]
    start, = struct.unpack_from(word, data, place)
    size, count, names = struct.unpack_from("<3H", data, sizes)
    headers = [struct.unpack_from(form, data, start + size * k) for k in range(count)]
    table = headers[names][4]
    for name, kind, flags, _, _, length, *_ in headers:
        if flags & ALLOCATED and kind == PROGRAM:
            yield data[table + name:data.index(b"\0", table + name)].decode(), length


def code(path):
    """Bytes of code and constants."""
    return sum(size for name, size in sections(path) if name.startswith((".text", ".rodata", ".srodata")))
