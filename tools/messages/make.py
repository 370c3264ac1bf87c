#!/usr/bin/env python3
"""Prints, for each NAME.json here, the message that flatc makes of it, and the schema that it tells in the plain codec's bytes, both in base64."""
import base64, json, os, struct, subprocess, sys, tempfile

HERE = os.path.dirname(os.path.abspath(__file__))
UNITS = ["SECOND", "MILLISECOND", "MICROSECOND", "NANOSECOND"]
PLAIN = {"Null": 0, "Bool": 1, "Binary": 20, "LargeBinary": 22, "Utf8": 23, "LargeUtf8": 24}
KEYS = {(8, True): 0, (16, True): 1, (32, True): 2, (64, True): 3, (8, False): 4, (16, False): 5, (32, False): 6, (64, False): 7}


def count(n):
    return struct.pack("<I", n)


def size(n):
    return struct.pack("<Q", n)


def text(s):
    return count(len(s.encode())) + s.encode()


def optional(s):
    return b"\0" if s is None else b"\1" + text(s)


def metadata(entries):
    return count(len(entries)) + b"".join(text(k) + text(v) for k, v in sorted(entries.items(), key=lambda e: e[0].encode()))


def entries_of(table):
    return {e.get("key", ""): e.get("value", "") for e in table.get("custom_metadata", [])}


def key_of(table):
    return KEYS[table["bitWidth"], table.get("is_signed", False)]


def spell_type(f):
    """The type of a field's table without its dictionary and its extension."""
    kind, t, inner = f["type_type"], f["type"], f.get("children", [])
    if kind in PLAIN:
        return bytes([PLAIN[kind]])
    if kind == "Int":
        return bytes([2 + key_of(t)])
    if kind == "FloatingPoint":
        return bytes([10 + ["HALF", "SINGLE", "DOUBLE"].index(t["precision"])])
    if kind == "Timestamp":
        return bytes([13, UNITS.index(t["unit"])]) + optional(t.get("timezone"))
    if kind == "Date":
        return bytes([{"DAY": 14, "MILLISECOND": 15}[t.get("unit", "MILLISECOND")]])
    if kind == "Time":
        return bytes([{32: 16, 64: 17}[t.get("bitWidth", 32)], UNITS.index(t.get("unit", "MILLISECOND"))])
    if kind == "Duration":
        return bytes([18, UNITS.index(t.get("unit", "MILLISECOND"))])
    if kind == "Interval":
        return bytes([19, ["YEAR_MONTH", "DAY_TIME", "MONTH_DAY_NANO"].index(t.get("unit", "YEAR_MONTH"))])
    if kind == "FixedSizeBinary":
        return bytes([21]) + size(t["byteWidth"])
    if kind == "Decimal":
        return bytes([{128: 32, 256: 33}[t.get("bitWidth", 128)]]) + size(t["precision"]) + size(t["scale"])
    if kind == "List":
        return bytes([25]) + spell_field(inner[0])
    if kind == "FixedSizeList":
        return bytes([26]) + spell_field(inner[0]) + size(t["listSize"])
    if kind == "LargeList":
        return bytes([27]) + spell_field(inner[0])
    if kind == "Struct_":
        return bytes([28]) + spell_fields(inner)
    if kind == "Union":
        ids = t.get("typeIds")
        spelled = b"\0" if ids is None else b"\1" + count(len(ids)) + b"".join(struct.pack("<i", i) for i in ids)
        return bytes([29]) + spell_fields(inner) + spelled + bytes([t.get("mode", "Sparse") == "Sparse"])
    if kind == "Map":
        return bytes([30]) + spell_field(inner[0]) + bytes([t.get("keysSorted", False)])
    raise ValueError(kind)


def spell_field(f):
    spelled, entries = spell_type(f), entries_of(f)
    if "dictionary" in f:
        d = f["dictionary"]
        spelled = bytes([31, key_of(d["indexType"]) if "indexType" in d else 2]) + spelled + bytes([d.get("isOrdered", False)])
    if "ARROW:extension:name" in entries:
        name, data = entries.pop("ARROW:extension:name"), entries.pop("ARROW:extension:metadata", None)
        spelled = bytes([34]) + text(name) + spelled + optional(data)
    return text(f["name"]) + bytes([f.get("nullable", False)]) + spelled + metadata(entries)


def spell_fields(fields):
    return count(len(fields)) + b"".join(map(spell_field, fields))


def message_of(name):
    with tempfile.TemporaryDirectory() as folder:
        subprocess.run(["flatc", "-b", "-o", folder, f"{HERE}/message.fbs", f"{HERE}/{name}.json"], check=True, stdout=subprocess.DEVNULL)
        return open(f"{folder}/{name}.bin", "rb").read()


for name in sorted(it[:-5] for it in os.listdir(HERE) if it.endswith(".json")):
    schema = json.load(open(f"{HERE}/{name}.json"))["header"]
    plain = spell_fields(schema["fields"]) + metadata(entries_of(schema))
    message = message_of(name)
    print(name, len(message), len(plain), file=sys.stderr)
    print(f"    // {name}\n    (\n        \"{base64.b64encode(message).decode()}\",\n        \"{base64.b64encode(plain).decode()}\",\n    ),")
