"""Writes small Parquet files: Thrift compact structs, level runs, plain values, and columns shredded from rows (Parquet format, Dremel paper).

What it writes can be wrong on purpose: each struct is a dict from ids to values, and a caller hands in other values for some of its ids.
"""

import struct as packing

# ---- Thrift compact protocol

TRUE, FALSE, I8, I16, I32, I64, DOUBLE, BINARY, LIST, SET, MAP, STRUCT = range(1, 13)


def varint(number):
    """Returns seven bits a byte, lowest first."""
    out = bytearray()
    while number > 0x7F:
        out.append(number & 0x7F | 0x80)
        number >>= 7
    out.append(number)
    return bytes(out)


def signed(number):
    """Returns a signed number in zigzag."""
    return varint(2 * number if number >= 0 else -2 * number - 1)


def i16(number):
    return (I16, signed(number))


def i32(number):
    return (I32, signed(number))


def i64(number):
    return (I64, signed(number))


def text(value):
    value = value.encode() if isinstance(value, str) else value
    return (BINARY, varint(len(value)) + value)


def truth(value):
    return (TRUE if value else FALSE, b"")


def fields(ids):
    """Returns a struct's fields in the order of the dict, without those that are None, and its end."""
    out, last = b"", 0
    for place, value in ids.items():
        if value is None:
            continue
        step = place - last
        out += bytes([step << 4 | value[0]]) if 1 <= step <= 15 else bytes([value[0]]) + signed(place)
        out += value[1]
        last = place
    return out + b"\0"


def struct(ids):
    return (STRUCT, fields(ids))


def many(kind, values, claim=None):
    """Returns a list of values of one kind; it may claim another number of them."""
    count = len(values) if claim is None else claim
    head = bytes([count << 4 | kind]) if count < 15 else bytes([0xF0 | kind]) + varint(count)
    return (LIST, head + b"".join(value[1] for value in values))


def over(ids, other):
    """Returns the ids in ascending order, with the values of the other dict in place of theirs."""
    return dict(sorted({**ids, **(other or {})}.items()))


# ---- trees

BOOLEAN, INT32, INT64, INT96, FLOAT, DOUBLE_, BYTE_ARRAY, FIXED = range(8)
REQUIRED, OPTIONAL, REPEATED = range(3)

UTF8, MAP_, MAP_KEY_VALUE, LIST_, ENUM, DECIMAL, DATE, TIME_MILLIS, TIME_MICROS, TIMESTAMP_MILLIS, TIMESTAMP_MICROS = range(11)
UINT_8, UINT_16, UINT_32, UINT_64, INT_8, INT_16, INT_32, INT_64, JSON, BSON, INTERVAL = range(11, 22)

EMPTY = struct({})
STRING_L, MAP_L, LIST_L, ENUM_L = ({place: EMPTY} for place in (1, 2, 3, 4))
DATE_L, UNKNOWN_L, JSON_L, BSON_L, UUID_L = ({place: EMPTY} for place in (6, 11, 12, 13, 14))
MILLIS, MICROS, NANOS = 1, 2, 3


def time_l(unit, adjusted=False):
    return {7: struct({1: truth(adjusted), 2: struct({unit: EMPTY})})}


def timestamp_l(unit, adjusted=False):
    return {8: struct({1: truth(adjusted), 2: struct({unit: EMPTY})})}


def integer_l(bits, is_signed):
    return {10: struct({1: (I8, bytes([bits])), 2: truth(is_signed)})}


def decimal_l(precision, scale):
    return {5: struct({1: i32(scale), 2: i32(precision)})}


class Node:
    """A node of a tree. A leaf has a physical type, and `ids` stands in for the ids of its element."""

    def __init__(self, name, repetition, children=(), physical=None, converted=None, logical=None, length=None, ids=None):
        self.name, self.repetition, self.children, self.physical = name, repetition, list(children), physical
        self.converted, self.logical, self.length, self.ids = converted, logical, length, ids
        # a group that stands for a list: its one repeated child has the items
        listed = converted in (LIST_, MAP_, MAP_KEY_VALUE) or (logical and set(logical) & {2, 3})
        self.is_list = bool(listed and len(self.children) == 1 and self.children[0].repetition == REPEATED)
        self.is_middle = False
        if self.is_list:
            self.children[0].is_middle = len(self.children[0].children) == 1

    def elements(self, is_root=False):
        """Returns the elements of the tree in preorder, each a dict of ids."""
        ids = {
            1: None if self.physical is None else i32(self.physical),
            2: None if self.length is None else i32(self.length),
            3: None if is_root else i32(self.repetition),
            4: text(self.name),
            5: i32(len(self.children)) if self.physical is None and (self.children or is_root) else None,
            6: None if self.converted is None else i32(self.converted),
            10: None if self.logical is None else struct(self.logical),
        }
        return [over(ids, self.ids)] + [e for child in self.children for e in child.elements()]


def leaf(name, repetition, physical, converted=None, logical=None, length=None, **ids):
    ids = {int(key[2:]): value for key, value in ids.items()}
    return Node(name, repetition, (), physical, converted, logical, length, ids)


def group(name, repetition, *children, converted=None, logical=None, ids=None):
    return Node(name, repetition, children, None, converted, logical, None, ids)


def listing(name, repetition, item, middle="list"):
    """Returns a list in three levels."""
    return group(name, repetition, group(middle, REPEATED, item), converted=LIST_)


class Column:
    """A leaf, the names on its way, and its greatest levels."""

    def __init__(self, node, path, repetition, definition):
        self.node, self.path, self.repetition, self.definition = node, path, repetition, definition


def columns(nodes, path=(), repetition=0, definition=0):
    out = []
    for node in nodes:
        way = path + (node.name,)
        r, d = repetition + (node.repetition == REPEATED), definition + (node.repetition != REQUIRED)
        out += [Column(node, way, r, d)] if node.physical is not None else columns(node.children, way, r, d)
    return out


# ---- shredding (Dremel paper, "Record shredding")


def nothing(node, r, d, out):
    """Writes a pair without a value for each leaf below the node."""
    if node.physical is not None:
        out.append([(r, d, None)])
        return
    for child in node.children:
        nothing(child, r, d, out)


def inside(node, value, r, d, k, out):
    """Writes what stands in the node once it is there."""
    if node.physical is not None:
        out.append([(r, d, value)])
        return
    values = (value,) if node.is_list or node.is_middle else value
    assert len(values) == len(node.children), (node.name, value)
    for child, part in zip(node.children, values):
        shred(child, part, r, d, k, out)


def shred(node, value, r, d, k, out):
    """Appends for each leaf below the node its triples of repetition, definition and value or None."""
    if node.repetition == REQUIRED:
        inside(node, value, r, d, k, out)
    elif node.repetition == OPTIONAL:
        if value is None:
            nothing(node, r, d, out)
        else:
            inside(node, value, r, d + 1, k, out)
    elif not value:
        nothing(node, r, d, out)
    else:
        parts = []
        for i, item in enumerate(value):
            mine = []
            inside(node, item, k + 1 if i else r, d + 1, k + 1, mine)
            parts.append(mine)
        out.extend([t for ts in same for t in ts] for same in zip(*parts))


def triples_of(nodes, rows):
    """Returns for each column the triples of each row."""
    out = [[] for _ in columns(nodes)]
    for row in rows:
        made = []
        assert len(row) == len(nodes), row
        for node, value in zip(nodes, row):
            shred(node, value, 0, 0, 0, made)
        for column, triples in zip(out, made):
            column.append(triples)
    return out


# ---- pages


def packed(numbers, width):
    """Returns one run of numbers, bit by bit, in groups of eight."""
    groups = (len(numbers) + 7) // 8
    bits = sum(number << (i * width) for i, number in enumerate(numbers))
    return varint(groups << 1 | 1) + bits.to_bytes(groups * width, "little")


def copies(numbers, width):
    """Returns a run for each stretch of equal numbers."""
    out, at = b"", 0
    while at < len(numbers):
        end = at
        while end < len(numbers) and numbers[end] == numbers[at]:
            end += 1
        out += varint((end - at) << 1) + numbers[at].to_bytes((width + 7) // 8, "little")
        at = end
    return out


def mixed(numbers, width):
    """Returns copies of the first number one by one, and the others packed."""
    return copies(numbers[:1], width) + (packed(numbers[1:], width) if numbers[1:] else b"")


def section(levels, greatest, how):
    """Returns levels behind their length, and nothing where the greatest is 0."""
    if greatest == 0:
        return b""
    text_ = how(levels, greatest.bit_length())
    return len(text_).to_bytes(4, "little") + text_


def plain(physical, value):
    """Returns a value in the encoding PLAIN; a truth value is not one alone."""
    if isinstance(value, bytes):
        return len(value).to_bytes(4, "little") + value if physical == BYTE_ARRAY else value
    if isinstance(value, str):
        return plain(physical, value.encode())
    if physical in (FLOAT, DOUBLE_):
        return packing.pack("<f" if physical == FLOAT else "<d", value)
    size = 4 if physical == INT32 else 8
    return (value % (1 << 8 * size)).to_bytes(size, "little")


def plain_values(physical, values):
    if physical == BOOLEAN:
        bits = sum(bool(value) << i for i, value in enumerate(values))
        return bits.to_bytes((len(values) + 7) // 8, "little")
    return b"".join(plain(physical, value) for value in values)


def is_unsigned(node):
    """Returns whether the numbers of a leaf are ordered without a sign."""
    integer = (node.logical or {}).get(10)
    return integer[1].endswith(bytes([0x10 | FALSE, 0])) if integer else node.converted in (UINT_8, UINT_16, UINT_32, UINT_64)


def bound(node, value):
    """Returns a value as statistics state it: plain, without a length, and a truth value as a byte."""
    if node.physical == BOOLEAN:
        return bytes([bool(value)])
    if isinstance(value, (bytes, str)):
        return value if isinstance(value, bytes) else value.encode()
    return plain(node.physical, value)


def statistics(column, triples):
    """Returns the statistics of some triples of a column: how many have no value, and the greatest and the least value, where there is one."""
    node, size = column.node, 8 * (4 if column.node.physical == INT32 else 8)
    values = [v for r, d, v in triples if d == column.definition]
    order = (lambda v: v % (1 << size)) if is_unsigned(node) else (lambda v: v.encode() if isinstance(v, str) else v)
    bounds = {5: max(values, key=order), 6: min(values, key=order)} if values and node.physical != INT96 else {}
    return struct({3: i64(len(triples) - len(values)), **{place: text(bound(node, v)) for place, v in bounds.items()}})


def page(kind, body, head, ids=None, size=None):
    """Returns a page of any kind: its header, and its body. `head` is the struct of the kind."""
    size = len(body) if size is None else size
    own = {0: 5, 2: 7, 3: 8}.get(kind, 6)
    return fields(over({1: i32(kind), 2: i32(len(body)), 3: i32(size), own: head}, ids)) + body


def data_page(column, triples, how=packed, encoding=0, count=None, values=None, body=None, head=None, ids=None, size=None):
    """Returns a data page of version 1."""
    if body is None:
        present = [v for r, d, v in triples if d == column.definition]
        spelled = plain_values(column.node.physical, present) if values is None else values
        body = section([t[0] for t in triples], column.repetition, how) + section([t[1] for t in triples], column.definition, how) + spelled
    count = len(triples) if count is None else count
    own = {1: i32(count), 2: i32(encoding), 3: i32(3), 4: i32(3)}
    return page(0, body, struct(over(own, head)), ids, size)


def data_page_2(column, triples, head=None, encoding=0, values=None):
    """Returns a data page of version 2."""
    repetitions = section([t[0] for t in triples], column.repetition, packed)[4:]
    definitions = section([t[1] for t in triples], column.definition, packed)[4:]
    present = [v for r, d, v in triples if d == column.definition]
    own = {
        1: i32(len(triples)),
        2: i32(len(triples) - len(present)),
        3: i32(sum(t[0] == 0 for t in triples)),
        4: i32(encoding),
        5: i32(len(definitions)),
        6: i32(len(repetitions)),
        7: truth(False),
    }
    spelled = plain_values(column.node.physical, present) if values is None else values
    return page(3, repetitions + definitions + spelled, struct(over(own, head)))


def indices(column, triples, entries, how=packed, width=None):
    """Returns the places among the entries of the values that stand in the triples, behind a byte with their width."""
    places = [entries.index(v) for r, d, v in triples if d == column.definition]
    width = (len(entries) - 1).bit_length() if width is None else width
    return bytes([width]) + (how(places, width) if width and places else b"")


def dictionary_page(physical, entries):
    return page(2, plain_values(physical, entries), struct({1: i32(len(entries)), 2: i32(0)}))


# ---- groups and files


class Group:
    """The number of rows of a group, and for each column its pages and the number of its pairs."""

    def __init__(self, rows, pages, counts):
        self.rows, self.pages, self.counts = rows, pages, counts


def rows_in_pages(nodes, rows, cuts=None, how=packed, **options):
    """Returns a group of rows. `cuts` has the numbers of rows of the pages, for all columns or for each."""
    made = triples_of(nodes, rows)
    pages, counts = [], []
    for i, column in enumerate(columns(nodes)):
        mine = cuts if cuts is None or not isinstance(cuts[0], list) else cuts[i]
        at, out = 0, []
        for size in ([len(rows)] if rows else []) if mine is None else mine:
            triples = [t for row in made[i][at : at + size] for t in row]
            out.append(data_page(column, triples, how, **options))
            at += size
        assert at == len(rows)
        pages.append(out)
        counts.append(sum(len(row) for row in made[i]))
    return Group(len(rows), pages, counts)


def pairs_in_pages(nodes, rows, *given, how=packed, **options):
    """Returns a group of columns whose pages are given, each as its triples."""
    pages = [[data_page(c, ts, how, **options) for ts in mine] for c, mine in zip(columns(nodes), given)]
    return Group(rows, pages, [sum(map(len, mine)) for mine in given])


def file_of(nodes, groups, keys=None, root="r", **o):
    """Returns a file. Of what it has anything may be another: `footer`, `element`, `group`, `chunk` and `meta` have values for ids, by the place of
    the element, the group, or the group and the column; `gap` and `behind` have bytes in front of a chunk and within it behind its pages; `order` is
    that of the chunks; `tail` stands behind the footer's struct; `front`, `back` and `length` are the magic bytes and the footer's length."""
    out = o.get("front", b"PAR1")
    places = {}
    for g, c in o.get("order") or [(g, c) for g, made in enumerate(groups) for c in range(len(made.pages))]:
        out += o.get("gap", {}).get((g, c), b"")
        body = b"".join(groups[g].pages[c]) + o.get("behind", {}).get((g, c), b"")
        places[g, c] = (len(out), len(body))
        out += body
    metas = []
    for g, made in enumerate(groups):
        chunks = []
        for c, column in enumerate(columns(nodes)):
            start, size = places[g, c]
            ids = {
                1: i32(column.node.physical),
                2: many(I32, [i32(0), i32(3)]),
                3: many(BINARY, [text(name) for name in column.path]),
                4: i32(0),
                5: i64(made.counts[c]),
                6: i64(size),
                7: i64(size),
                9: i64(start),
            }
            meta = struct(over(ids, o.get("meta", {}).get((g, c))))
            chunks.append(struct(over({2: i64(start), 3: meta}, o.get("chunk", {}).get((g, c)))))
        total = i64(sum(places[g, c][1] for c in range(len(chunks))))
        ids = {1: many(STRUCT, chunks), 2: total, 3: i64(made.rows)}
        metas.append(struct(over(ids, o.get("group", {}).get(g))))
    elements = Node(root, REQUIRED, nodes).elements(True)
    for i, ids in o.get("element", {}).items():
        elements[i] = over(elements[i], ids)
    pairs = None if keys is None else many(STRUCT, [struct({1: text(k), 2: None if v is None else text(v)}) for k, v in keys])
    rows = sum(made.rows for made in groups)
    ids = {1: i32(1), 2: many(STRUCT, [struct(e) for e in elements]), 3: i64(rows), 4: many(STRUCT, metas), 5: pairs}
    footer = fields(over(ids, o.get("footer"))) + o.get("tail", b"")
    length = o.get("length", len(footer))
    return out + footer + length.to_bytes(4, "little") + o.get("back", b"PAR1")
