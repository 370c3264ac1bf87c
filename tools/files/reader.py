"""Reads small Parquet files of plain pages back to rows, and says what of a file is not of the form that the program writes.

It shares no code with the writer beside it: what both get wrong in the same way is not seen, what one gets wrong is.
"""

import arrow

MAKER = b"Arrow2 - Native Rust implementation of Arrow"


class Unknown(Exception):
    """What is not read here: decimals as numbers, whatever is stored as byte strings of one length, and delta pages."""


class Bytes:
    """Bytes that are taken from the front."""

    def __init__(self, data):
        self.data, self.at = data, 0

    def take(self, count):
        assert 0 <= count <= len(self.data) - self.at, "cut"
        self.at += count
        return self.data[self.at - count : self.at]

    def varint(self):
        out, shift = 0, 0
        while True:
            byte = self.take(1)[0]
            out |= (byte & 127) << shift
            shift += 7
            if byte < 128:
                return out

    def number(self):
        coded = self.varint()
        return (coded >> 1) ^ -(coded & 1)


def value(source, kind):
    """Returns a Thrift value: a struct as a dict, whose order is that of the fields."""
    if kind in (1, 2):
        return source.take(1) == b"\1"
    if kind == 3:
        return source.take(1)[0]
    if kind in (4, 5, 6):
        return source.number()
    if kind == 7:
        return source.take(8)
    if kind == 8:
        return source.take(source.varint())
    if kind in (9, 10):
        head = source.take(1)[0]
        count = source.varint() if head >> 4 == 15 else head >> 4
        return [value(source, head & 15) for _ in range(count)]
    if kind == 11:
        count = source.varint()
        kinds = source.take(1)[0] if count else 0
        return [(value(source, kinds >> 4), value(source, kinds & 15)) for _ in range(count)]
    assert kind == 12, "kind"
    out, last = {}, 0
    while True:
        head = source.take(1)[0]
        if head == 0:
            return out
        last = last + (head >> 4) if head >> 4 else source.number()
        out[last] = head & 15 == 1 if head & 15 in (1, 2) else value(source, head & 15)


def levels(data, greatest, count):
    """Returns levels of hybrid runs, and whether nothing stands behind them or in the last run."""
    width, source, out, exact = greatest.bit_length(), Bytes(data), [], True
    while len(out) < count:
        head = source.varint()
        if head & 1:
            size = (head >> 1) * width
            run = source.take(min(size, len(data) - source.at))
            bits = int.from_bytes(run, "little")
            numbers = [bits >> i * width & (1 << width) - 1 for i in range((head >> 1) * 8)]
            exact = exact and len(run) == size and len(numbers) < count - len(out) + 8
        else:
            numbers = [int.from_bytes(source.take((width + 7) // 8), "little")] * (head >> 1)
            exact = exact and 0 < len(numbers) <= count - len(out)
        exact = exact and not any(numbers[count - len(out) :])
        out += numbers[: count - len(out)]
    assert all(level <= greatest for level in out), "level"
    return out, exact and source.at == len(data)


class Node:
    def __init__(self, elements):
        self.ids = next(elements)
        self.name, self.repetition = self.ids[4], self.ids.get(3)
        self.physical, self.logical, self.converted = self.ids.get(1), self.ids.get(10, {}), self.ids.get(6)
        self.logical = {k: v for k, v in self.logical.items() if k <= 14}
        self.children = [Node(elements) for _ in range(self.ids.get(5, 0))]

    def leaves(self, path=(), r=0, d=0):
        """Returns for each leaf the node, the names on the way, and its greatest levels."""
        way, r, d = path + (self.name,), r + (self.repetition == 2), d + (self.repetition != 0)
        return [(self, way, r, d)] if self.physical is not None else [x for child in self.children for x in child.leaves(way, r, d)]

    def whole(self):
        """Returns the children with columns."""
        return [child for child in self.children if child.leaves()]


class Parsed:
    """A file: its footer, its tree, and for each group its rows and columns."""

    def __init__(self, data):
        size = int.from_bytes(data[-8:-4], "little")
        assert data[:4] == data[-4:] == b"PAR1" and size <= len(data) - 12, "frame"
        self.data, self.place = data, len(data) - 8 - size
        source = Bytes(data[self.place : -8])
        self.footer = value(source, 12)
        self.exact = source.at == size
        elements = iter(self.footer[2])
        self.tree = Node(elements)
        assert next(elements, None) is None, "elements"
        self.leaves = [x for child in self.tree.children for x in child.leaves()]
        # the pages of all columns, and how many there are up to each column's end
        self.pages, self.counts = [], [0]
        self.columns = [[self.column(c[3], x) for c, x in zip(g[1], self.leaves)] for g in self.footer[4]]

    def column(self, meta, column):
        """Returns the triples of a column, and keeps each page's place, its end, its header and whether its levels are exact."""
        node, _, greatest_r, greatest_d = column
        source, triples, entries = Bytes(self.data), [], None
        source.at = meta[11] if 4 <= meta.get(11, 0) < meta[9] else meta[9]
        while len(triples) < meta[5]:
            start = source.at
            header = value(source, 12)
            if header[1] == 2:
                body = Bytes(source.take(header[3]))
                entries = self.plain(body, node, header[7][1])
                continue
            assert header[1] in (0, 3), "page"
            head = header[5] if header[1] == 0 else header[8]
            encoding = head[2 if header[1] == 0 else 4]
            if not (encoding == 0 or (encoding in (2, 8) and entries is not None)):
                raise Unknown("encoding")
            body, count, exact = Bytes(source.take(header[3])), head[1], True
            both = []
            for greatest, place in ((greatest_r, 6), (greatest_d, 5)):
                numbers = [0] * count
                if greatest:
                    size = int.from_bytes(body.take(4), "little") if header[1] == 0 else head[place]
                    numbers, is_exact = levels(body.take(size), greatest, count)
                    exact = exact and (is_exact or count == 0)
                both.append(numbers)
            assert header[1] == 0 or head[3] == both[0].count(0), "rows"
            called = both[1].count(greatest_d)
            values = iter(self.indexed(body, entries, called) if encoding else self.plain(body, node, called))
            for r, d in zip(*both):
                triples.append((r, d, next(values) if d == greatest_d else None))
            self.pages.append((start, source.at, header, exact and body.at == len(body.data)))
        assert len(triples) == meta[5], "pairs"
        self.counts.append(len(self.pages))
        return triples

    @staticmethod
    def indexed(body, entries, count):
        """Returns the entries at so many indices."""
        width = body.take(1)[0] if count else 0
        rest = body.data[body.at :]
        body.at = len(body.data)
        return [entries[place] for place in (levels(rest, (1 << width) - 1, count)[0] if width else [0] * count)]

    @staticmethod
    def plain(body, node, count):
        """Returns so many values. Truth values are bits."""
        if node.physical == 0:
            bits = int.from_bytes(body.take((count + 7) // 8), "little")
            return [bool(bits >> i & 1) for i in range(count)]
        if node.physical == 6:
            return [body.take(int.from_bytes(body.take(4), "little")) for _ in range(count)]
        if node.physical == 7:
            raise Unknown(node.name)
        return [int.from_bytes(body.take({1: 4, 2: 8}[node.physical]), "little", signed=True) for _ in range(count)]

    def rows(self):
        """Returns the rows of each group that has some."""
        out = []
        for group, columns in zip(self.footer[4], self.columns):
            cut = [split(column, 0) for column in columns]
            assert all(len(column) == group[3] for column in cut), "rows"
            if group[3]:
                out.append([tuple(assemble(self.tree.children, row, 0, 0)) for row in zip(*cut)])
        return out


def split(triples, k):
    """Returns the items that begin at repetition levels of at most k."""
    out = []
    for triple in triples:
        if not out or triple[0] <= k:
            out.append([])
        out[-1].append(triple)
    return out


def assemble(nodes, columns, d, k):
    """Returns the value of each node with columns, out of the triples of its leaves."""
    out, at = [], 0
    for node in nodes:
        count = len(node.leaves())
        if count:
            out.append(slot(node, columns[at : at + count], d, k))
        at += count
    return out


def slot(node, columns, d, k):
    firsts = {column[0][1] > d for column in columns}
    if node.repetition == 0:
        return there(node, columns, d, k)
    assert len(firsts) == 1, "siblings"
    if not firsts.pop():
        assert all(len(column) == 1 for column in columns), "pairs of a null"
        return None if node.repetition == 1 else []
    if node.repetition == 1:
        return there(node, columns, d + 1, k)
    items = [split(column, k + 1) for column in columns]
    assert len({len(item) for item in items}) == 1, "siblings"
    return [there(node, item, d + 1, k + 1) for item in zip(*items)]


def there(node, columns, d, k):
    if node.physical is not None:
        assert len(columns[0]) == 1, "pairs of a leaf"
        return columns[0][0][2]
    parts = assemble(node.children, columns, d, k)
    listed = node.converted in (1, 2, 3) or set(node.logical) & {2, 3}
    middle = node.repetition == 2
    return parts[0] if len(parts) == 1 and (listed or middle) else tuple(parts)


# ---- the schema of a tree and the tree of a schema, for the types that are written


SMALL = {(8, True): "Int8", (16, True): "Int16", (8, False): "UInt8", (16, False): "UInt16", (32, False): "UInt32"}
OLD_SMALL = {11: "UInt8", 12: "UInt16", 13: "UInt32", 15: "Int8", 16: "Int16", 6: "Date32", 7: "Time32 1"}
OLD_WIDE = {8: "Time64 2", 9: "Timestamp 1", 10: "Timestamp 2", 14: "UInt64"}
# the physical type of a type, its converted type and its logical type
WRITTEN = {
    "Boolean": (0, None, None),
    "Int8": (1, 15, {10: {1: 8, 2: True}}),
    "Int16": (1, 16, {10: {1: 16, 2: True}}),
    "Int32": (1, None, None),
    "Int64": (2, None, None),
    "UInt8": (1, 11, {10: {1: 8, 2: False}}),
    "UInt16": (1, 12, {10: {1: 16, 2: False}}),
    "UInt32": (1, 13, {10: {1: 32, 2: False}}),
    "UInt64": (2, 14, {10: {1: 64, 2: False}}),
    "Date32": (1, 6, {6: {}}),
    "Time32 1": (1, 7, {7: {1: False, 2: {1: {}}}}),
    "Time64 2": (2, 8, {7: {1: False, 2: {2: {}}}}),
    "Time64 3": (2, None, {7: {1: False, 2: {3: {}}}}),
    "Binary": (6, None, None),
    "Utf8": (6, 0, {1: {}}),
}
for unit in (1, 2, 3):
    WRITTEN[f"Timestamp {unit}"] = (2, None, {8: {1: False, 2: {unit: {}}}})
    WRITTEN[f"Timestamp {unit} UTC"] = (2, None, {8: {1: True, 2: {unit: {}}}})


def leaf_type(node):
    logical, converted = node.logical, node.converted
    if node.physical == 7 or (node.physical != 6 and (5 in logical or converted == 5)):
        raise Unknown(node.name)
    if node.physical == 0:
        return "Boolean"
    if node.physical == 6:
        if 1 in logical or (not set(logical) & {4, 12, 13} and converted == 0):
            return "Utf8"
        return "Binary"
    if node.physical == 1:
        if 10 in logical:
            return SMALL.get((logical[10][1], logical[10][2]), "Int32")
        if 6 in logical:
            return "Date32"
        if 7 in logical:
            return "Time32 1" if 1 in logical[7][2] else "Int32"
        return OLD_SMALL.get(converted, "Int32")
    assert node.physical == 2, "type"
    if 10 in logical:
        return "UInt64" if logical[10] == {1: 64, 2: False} else "Int64"
    if 8 in logical:
        return f"Timestamp {min(logical[8][2])}" + (" UTC" if logical[8][1] else "")
    if 7 in logical:
        return "Int64" if 1 in logical[7][2] else f"Time64 {min(logical[7][2])}"
    return OLD_WIDE.get(converted, "Int64")


def field_of(node):
    """Returns name, whether it may be null, and type: a leaf's name, a list of an item, or a struct of fields."""
    return (node.name, node.repetition != 0, type_of(node))


def type_of(node):
    assert node.repetition != 2, "repeated"
    if node.physical is not None:
        return leaf_type(node)
    if 3 in node.logical or (node.converted == 3 and not node.logical):
        middle = node.children[0]
        assert middle.repetition == 2 and len(middle.children) == 1, "list"
        name, is_nullable, item = field_of(middle.children[0])
        return ("list", (name, is_nullable, item) if middle.name == b"list" else (middle.name, True, item))
    return ("struct", [field_of(child) for child in node.whole()])


def elements_of(field):
    """Returns the elements of the tree that a field is written as."""
    name, is_nullable, kind = field
    base = {3: int(is_nullable), 4: name}
    if isinstance(kind, str):
        physical, converted, logical = WRITTEN[kind]
        ids = {1: physical, **base, 6: converted, 10: logical}
        return [{k: v for k, v in ids.items() if v is not None}]
    if kind[0] == "list":
        return [{**base, 5: 1, 6: 3, 10: {3: {}}}, {3: 2, 4: b"list", 5: 1}] + elements_of(kind[1])
    return [{**base, 5: len(kind[1])}] + [e for child in kind[1] for e in elements_of(child)]


# the tag and the slots of a type's table in an Arrow message
TOLD = {
    "Boolean": (arrow.BOOL, ()),
    "Int8": (arrow.INT, (8, 1)),
    "Int16": (arrow.INT, (16, 1)),
    "Int32": (arrow.INT, (32, 1)),
    "Int64": (arrow.INT, (64, 1)),
    "UInt8": (arrow.INT, (8, 0)),
    "UInt16": (arrow.INT, (16, 0)),
    "UInt32": (arrow.INT, (32, 0)),
    "UInt64": (arrow.INT, (64, 0)),
    "Date32": (arrow.DATE, (0,)),
    "Time32 1": (arrow.TIME, (1, 32)),
    "Time64 2": (arrow.TIME, (2, 64)),
    "Time64 3": (arrow.TIME, (3, 64)),
    "Binary": (arrow.BINARY, ()),
    "Utf8": (arrow.UTF8, ()),
}
for unit in (1, 2, 3):
    TOLD[f"Timestamp {unit}"] = (arrow.TIMESTAMP, (unit, None))
    TOLD[f"Timestamp {unit} UTC"] = (arrow.TIMESTAMP, (unit, b"+00:00"))


def told(field):
    """Returns the table of a field in an Arrow message."""
    name, is_nullable, kind = field
    if isinstance(kind, str):
        tag, slots = TOLD[kind]
        return arrow.field(name.decode(), is_nullable, tag, slots)
    if kind[0] == "list":
        return arrow.field(name.decode(), is_nullable, arrow.LIST, (), [told(kind[1])])
    return arrow.field(name.decode(), is_nullable, arrow.STRUCT, (), map(told, kind[1]))


def key_values(given, schema):
    """Returns the key values of the output: the others in their order, and that of the schema."""
    pairs = [pair for pair in given.footer.get(5, []) if pair[1] != b"ARROW:schema"]
    valued = {pair[1].decode(): pair[2].decode() for pair in pairs if 2 in pair}
    message = arrow.message(*map(told, schema), metadata=valued)
    return pairs + [{1: b"ARROW:schema", 2: arrow.value(message).encode()}]


# ---- the form of an output


def bounds(node, triples):
    """Returns the statistics of some triples: how many have no value, and the greatest and the least value, where there is one."""
    values = [v for _, _, v in triples if v is not None]
    width = 4 * node.physical
    unsigned = node.physical != 6 and leaf_type(node).startswith("UInt")
    order = (lambda v: v % (1 << 8 * width)) if unsigned else (lambda v: v)
    spelled = bytes if node.physical == 6 else (lambda v: v.to_bytes(max(width, 1), "little", signed=width > 0))
    ends = {5: spelled(max(values, key=order)), 6: spelled(min(values, key=order))} if values else {}
    return {3: len(triples) - len(values), **ends}


def bounds_told(node, triples, pages):
    """Returns whether each page of a column states the statistics of its own triples."""
    at = 0
    for _, _, header, _ in pages:
        head = header[5]
        if head.get(5) != bounds(node, triples[at : at + head[1]]):
            return False
        at += head[1]
    return True


def pages_told(made):
    """Returns what is wrong with the pages: each stands behind the one before it, and is exact."""
    out, at = [], 4
    for start, end, header, exact in made.pages:
        body = end - start
        head = header[5]
        if start != at or not exact:
            out.append(f"a page at {start}, not {at}, or with bytes that are not needed")
        if list(header) != [1, 2, 3, 5] or header[2] != header[3] or head != {1: head[1], 2: 0, 3: 3, 4: 3, 5: head.get(5)} or list(head) != [1, 2, 3, 4, 5] or body <= 0:
            out.append(f"a header {header}")
        at = end
    if at != made.place or not made.exact:
        out.append("bytes behind the pages or the footer")
    return out


def rows_told(node, triples, pages):
    """Returns whether the pages of a column have as many rows as they may have, the last one fewer."""
    values = [v for _, _, v in triples if v is not None]
    size_ = sum(4 + len(v) if node.physical == 6 else 4 * node.physical for v in values) if node.physical else (len(values) + 7) // 8
    rows = sum(triple[0] == 0 for triple in triples)
    most = max(1, (1 << 20) // (size_ // rows + 1))
    ends, at = [], 0
    for _, _, header, _ in pages:
        at += header[5][1]
        ends.append(sum(triple[0] == 0 for triple in triples[:at]))
    return ends == [min(rows, most * (i + 1)) for i in range(-(-rows // most))]


def metas(made):
    """Returns what the groups of a footer have to be."""
    places, out = list(zip(made.counts, made.counts[1:])), []
    for place, columns in enumerate(made.columns):
        chunks, total = [], 0
        for (node, path, _, _), triples in zip(made.leaves, columns):
            first, last = places.pop(0)
            assert rows_told(node, triples, made.pages[first:last]), "rows of a page"
            assert bounds_told(node, triples, made.pages[first:last]), "statistics of a page"
            start, end = made.pages[first][0], made.pages[last - 1][1]
            ids = {1: node.physical, 2: [0, 3], 3: list(path), 4: 0, 5: len(triples), 6: end - start, 7: end - start, 9: start, 12: bounds(node, triples)}
            chunks.append({2: start, 3: ids})
            total += end - start
        rows = sum(triple[0] == 0 for triple in columns[0])
        out.append({1: chunks, 2: total, 3: rows, 5: chunks[0][2], 6: total, 7: place})
    return out


def form(given, made):
    """Returns what of an output isn't as it is written for the input."""
    schema = [field_of(child) for child in given.tree.whole()]
    elements = [{4: b"root", 5: len(schema)}] + [e for field in schema for e in elements_of(field)]
    groups = metas(made)
    footer = {
        1: 1,
        2: elements,
        3: sum(group[3] for group in groups),
        4: groups,
        5: key_values(given, schema),
        6: MAKER,
        7: [{1: {}}] * len(made.leaves),
    }
    out = pages_told(made)
    for place, wanted in footer.items():
        if str(made.footer.get(place)) != str(wanted):
            out.append(f"footer {place}: {made.footer.get(place)}, not {wanted}")
    if list(made.footer) != list(footer):
        out.append(f"footer's ids {list(made.footer)}")
    return out
