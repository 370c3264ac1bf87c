"""Writes Arrow schema messages as the program lays them out, by hand from docs/FORMAT.md (FlatBuffers; Arrow's Message.fbs and Schema.fbs).

A text is bytes, a vector of signed numbers a list, a slot without a value None, and a number of a slot an int.
"""

import base64
import struct as packing


class Table:
    def __init__(self, *slots):
        self.slots = slots


class Vector:
    def __init__(self, *tables):
        self.tables = tables


def padded(data):
    return data + bytes(-len(data) % 8)


def vtable(table):
    count = len(table.slots)
    out = packing.pack("<HH", 4 + 2 * count, 8 * (count + 1))
    for i, slot in enumerate(table.slots):
        out += packing.pack("<H", 0 if slot is None else 8 * (i + 1))
    return padded(out)


def front(thing):
    """Returns how many bytes stand before what an offset means."""
    return len(vtable(thing)) if isinstance(thing, Table) else 0


def spelled(thing):
    """Returns the bytes of an object, and behind them those of what it points at."""
    if isinstance(thing, bytes):
        return padded(packing.pack("<I", len(thing)) + thing + b"\0")
    if isinstance(thing, list):
        return padded(packing.pack("<I", len(thing)) + b"".join(packing.pack("<i", n) for n in thing))
    if isinstance(thing, Vector):
        out, behind = packing.pack("<I", len(thing.tables)), b""
        start = 4 + 4 * len(thing.tables)
        start += -start % 8
        for i, table in enumerate(thing.tables):
            out += packing.pack("<I", start + len(behind) + front(table) - 4 - 4 * i)
            behind += spelled(table)
        return padded(out) + behind
    out, behind = packing.pack("<Q", front(thing)), b""
    start = 8 * (len(thing.slots) + 1)
    for i, slot in enumerate(thing.slots):
        if slot is None or isinstance(slot, int):
            out += packing.pack("<Q", slot or 0)
        else:
            out += packing.pack("<Q", start + len(behind) + front(slot) - 8 * (i + 1))
            behind += spelled(slot)
    return vtable(thing) + out + behind


def entries(pairs):
    """Returns metadata, of texts under keys."""
    return Vector(*[Table(k.encode(), v.encode()) for k, v in sorted(pairs.items())]) if pairs else None


def field(name, nullable, tag, slots=(), children=(), dictionary=None, metadata=None):
    return Table(name.encode(), int(nullable), tag, Table(*slots), dictionary, Vector(*children), entries(metadata))


def message(*fields, metadata=None):
    root = Table(4, 1, Table(None, Vector(*fields), entries(metadata)), None)
    return packing.pack("<II", 8 + front(root), 0) + spelled(root)


def value(data):
    """Returns the text under ARROW:schema for a message."""
    return base64.b64encode(b"\xff\xff\xff\xff" + packing.pack("<I", len(data)) + data).decode()


NULL, INT, FLOATING, BINARY, UTF8, BOOL, DECIMAL, DATE, TIME, TIMESTAMP, INTERVAL, LIST, STRUCT, UNION, FIXED_BINARY, FIXED_LIST, MAP, DURATION, LARGE_BINARY, LARGE_UTF8, LARGE_LIST = range(1, 22)


def int32(name, nullable=False):
    return field(name, nullable, INT, (32, 1))
