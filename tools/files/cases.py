"""The table: small files, each with the status with which the program ends on it and the line that it puts on its notes.

Statuses and lines are worked out by hand from the rules of the format and of the program, never taken from a run.
"""

import arrow

from parquet import *

CASES = []
# tables that are tried by hand alone: files that are slow in an interpreter, and files on which several reasons of one stage could be told
APART = ("LARGE", "LATER")
# files whose rows, schema and key values are those of an earlier one, so that the same bytes are written for both
ALIKE = []


class Case:
    def __init__(self, table, name, file, status, line):
        self.table, self.name, self.file, self.status, self.line = table, name, file, status, line


def add(table, name, file, status, line):
    assert all(case.name != name for case in CASES), name
    CASES.append(Case(table, name, file, status, line))


def good(table, name, file, groups, rows, pages, like=None):
    """A file that is rewritten, with the numbers of groups, rows and data pages of the output."""
    add(table, name, file, 0, f"groups {groups}, rows {rows}, pages {pages}")
    if like is not None:
        ALIKE.append((like, name))


def bad(table, name, file, reason):
    """A file that is refused for this reason."""
    kinds = {"S": (6, "OutOfSpec"), "N": (7, "NotYetImplemented"), "A": (8, "InvalidArgumentError"), "V": (9, "Overflow")}
    status, kind = kinds[reason[0]]
    add(table, name, file, status, f"{kind} {reason}")


def rows(nodes, *values, **options):
    """A file of one group in which each row has one field."""
    return file_of(nodes, [rows_in_pages(nodes, [(value,) for value in values])], **options)


def pairs(nodes, count, *given, **options):
    """A file of one group whose columns have these triples, each column in one page."""
    return file_of(nodes, [pairs_in_pages(nodes, count, *[[ts] for ts in given])], **options)


def one_page(nodes, count, made, pairs_, **options):
    """A file of one group of one column, which has these pages."""
    return file_of(nodes, [Group(count, [made], [pairs_])], **options)


def with_entries(nodes, count, entries, made, pairs_, **options):
    """A file of one group of one column, which has a dictionary page of these entries in front of its pages."""
    front = entries if isinstance(entries, bytes) else dictionary_page(columns(nodes)[0].node.physical, entries)
    return one_page(nodes, count, [front] + made, pairs_, meta={(0, 0): {9: i64(4 + len(front)), 11: i64(4)}}, **options)


def indexed(nodes, entries, *values, how=packed, kind=8, second=False, cuts=None, plain_from=None):
    """A file of rows of one field, whose one column has indices of these entries; from a page on its values may stand plain."""
    column = columns(nodes)[0]
    made, at, out = triples_of(nodes, [(value,) for value in values])[0], 0, []
    for i, size in enumerate(cuts or [len(values)]):
        triples = [t for row in made[at : at + size] for t in row]
        at += size
        is_plain = plain_from is not None and i >= plain_from
        own = {} if is_plain else {"encoding": kind, "values": indices(column, triples, entries, how)}
        out.append(data_page_2(column, triples, **own) if second else data_page(column, triples, **own))
    return with_entries(nodes, len(values), entries, out, sum(map(len, made)))


# ---- trees


def number(name="n", repetition=REQUIRED):
    return leaf(name, repetition, INT32)


def numbers(outer=OPTIONAL, inner=OPTIONAL, name="a"):
    return listing(name, outer, leaf("element", inner, INT32))


def lists(outer, middle, inner):
    return listing("a", outer, listing("element", middle, leaf("element", inner, INT32)))


FIRST = [numbers()]
FIRST_ROWS = ([1, 2], None, [], [None])
FIRST_TRIPLES = [(0, 3, 1), (1, 3, 2), (0, 0, None), (0, 1, None), (0, 2, None)]
COLUMN = columns(FIRST)[0]
REQ = [number()]
REQ_COLUMN = columns(REQ)[0]
OPT = [number(repetition=OPTIONAL)]
OPT_COLUMN = columns(OPT)[0]
# rows of more than 64 pairs, and of stretches of more than 64 equal ones
MANY = [(v,) for v in [None] * 70 + [[]] * 65 + [[None] * 3] * 30 + [[1, 2]] * 5 + [None, [3]] * 20 + [[4, None]]]
TEXT = [leaf("s", REQUIRED, BYTE_ARRAY, UTF8)]
TEXT_COLUMN = columns(TEXT)[0]
BYTES = [leaf("b", REQUIRED, BYTE_ARRAY)]
TRUTHS = [leaf("v", REQUIRED, BOOLEAN)]
TRUTH_COLUMN = columns(TRUTHS)[0]
# one bit more than a byte has: 1 2 3 of the places from 0 on are set, and 5 and 8
NINE = (False, True, True, True, False, True, False, False, True)
NINE_TRIPLES = [(0, 0, v) for v in NINE]
WORDS = [listing("a", OPTIONAL, leaf("element", OPTIONAL, BYTE_ARRAY, UTF8))]
WORD_ROWS = (["a", "b", "a"], None, [], [None, "a"])
TWO = [number("i"), leaf("s", OPTIONAL, BYTE_ARRAY, UTF8)]
TWO_ROWS = [(1, "a"), (2, None), (3, ""), (4, "dd"), (5, None)]


def first(**options):
    return rows(FIRST, *FIRST_ROWS, **options)


def first_page(**options):
    """The first file with a page that is made otherwise."""
    return one_page(FIRST, 4, [data_page(COLUMN, FIRST_TRIPLES, **options)], 5)


def second_version(head=None):
    """The first file with its page in version 2."""
    return one_page(FIRST, 4, [data_page_2(COLUMN, FIRST_TRIPLES, head)], 5)


def flat(values=(7, -1), **options):
    return rows(REQ, *values, **options)


def flat_page(**options):
    return one_page(REQ, 2, [data_page(REQ_COLUMN, [(0, 0, 7), (0, 0, -1)], **options)], 2)


def nulls(*counts):
    """A file of so many null rows in each page of its one column."""
    made = [data_page(OPT_COLUMN, [], count=n, body=section([0], 1, lambda _, w: varint(2 * n) + b"\0")) for n in counts]
    return one_page(OPT, sum(counts), made, sum(counts))


# ---- rows of every nesting


def nested():
    t = "NESTED"
    good(t, "the first file", first(), 1, 4, 1)
    good(t, "an optional list of required items", rows([numbers(OPTIONAL, REQUIRED)], [1, 2], None, [], [3]), 1, 4, 1)
    good(t, "a required list of optional items", rows([numbers(REQUIRED, OPTIONAL)], [1, None], [], [None], [4]), 1, 4, 1)
    good(t, "a required list of required items", rows([numbers(REQUIRED, REQUIRED)], [1, 2], [], [3], [4, 5, 6]), 1, 4, 1)
    o, r = OPTIONAL, REQUIRED
    deep = ([[1, None], None, []], None, [], [None], [[]], [[None]], [[2], [3, 4]])
    good(t, "two levels of lists, null and empty at each", rows([lists(o, o, o)], *deep), 1, 7, 1)
    good(t, "two levels of required lists", rows([lists(r, r, r)], [[1], [], [2, 3]], [], [[]], [[4]]), 1, 4, 1)
    good(t, "a required list of optional lists of required items", rows([lists(r, o, r)], [[1], None], [], [None, []]), 1, 3, 1)
    good(t, "an optional list of required lists of optional items", rows([lists(o, r, o)], [[None, 1]], None, [[], [2]], []), 1, 4, 1)
    three = listing("a", o, listing("element", o, listing("element", o, leaf("element", o, INT32))))
    values = ([[[1, None], None, []], None, []], None, [], [[]], [[[]]], [[[None]]], [None, [None, [2, 3]], [[4]]])
    good(t, "three levels of lists, null and empty at each", rows([three], *values), 1, 7, 1)
    three = listing("a", r, listing("element", o, listing("element", r, leaf("element", o, INT32))))
    good(t, "three levels of lists, some required", rows([three], [[[1], [None]], None, []], [], [[[]]]), 1, 3, 1)
    pair = (leaf("x", o, INT32), leaf("y", r, BYTE_ARRAY, UTF8))
    good(t, "an optional struct", rows([group("a", o, *pair)], (1, "p"), None, (None, ""), (4, "q")), 1, 4, 2)
    good(t, "a required struct", rows([group("a", r, *pair)], (1, "p"), (None, "q")), 1, 2, 2)
    good(t, "a struct of one field", rows([group("a", o, number("x"))], (1,), None), 1, 2, 1)
    inner = group("s", o, group("u", r, leaf("v", o, INT64)), leaf("w", r, INT32))
    good(t, "structs in structs", rows([group("a", o, inner)], (((9,), 1),), None, (None,), (((None,), 2),)), 1, 4, 2)
    good(t, "a list of structs", rows([listing("a", o, group("element", o, *pair))], [(1, "p"), None], None, [], [(None, "q")]), 1, 4, 2)
    good(t, "a required list of required structs", rows([listing("a", r, group("element", r, *pair))], [(1, "p"), (2, "q")], []), 1, 2, 2)
    good(t, "a struct in a list in a struct", rows([group("s", o, listing("a", o, group("element", o, *pair)), number("n"))], ([(1, "p"), None], 1), None, (None, 2), ([], 3)), 1, 4, 3)
    good(t, "a list in a struct in a list", rows([listing("a", o, group("element", o, numbers(o, o, "b"), number("n")))], [([1, None], 1), (None, 2), ([], 3)], None, [None], []), 1, 4, 2)
    both = group("s", o, numbers(o, o, "a"), numbers(r, r, "b"))
    good(t, "a struct over two lists", rows([both], ([1, None], [2]), (None, []), None, ([], [3, 4])), 1, 4, 2)
    under = listing("a", o, group("element", o, numbers(o, r, "b"), numbers(r, o, "c")))
    good(t, "a list of structs of two lists", rows([under], [([1, 2], [None]), None, (None, [])], None, [], [([], [3])]), 1, 4, 2)
    good(t, "a list whose middle node has another name", rows([listing("a", o, leaf("x", o, INT32), "bag")], *FIRST_ROWS), 1, 4, 1)
    logical = group("a", o, group("list", REPEATED, leaf("element", o, INT32)), logical=LIST_L)
    good(t, "a list by its logical type alone", rows([logical], *FIRST_ROWS), 1, 4, 1, "the first file")
    tree = leaf("x", o, INT32)
    for i in range(126):
        tree = group("g", o if i == 63 else r, tree)
    value, null = 5, None
    for i in range(126):
        value = (value,)
    for i in range(62):
        null = (null,)
    good(t, "a tree that nests 128", rows([tree], value, null), 1, 2, 1)
    good(t, "many pairs", file_of(FIRST, [rows_in_pages(FIRST, MANY, how=copies)]), 1, len(MANY), 1)
    good(t, "many items in a row", rows(FIRST, [None] * 200 + [1], [None] * 63, [2]), 1, 3, 1)
    good(t, "an item after a null one", pairs(FIRST, 1, [(0, 2, None), (1, 3, 5)]), 1, 1, 1)
    good(t, "a struct that is there over a null", pairs([group("a", o, *pair[:1], number("y"))], 1, [(0, 1, None)], [(0, 1, 5)]), 1, 1, 2)


# ---- columns of every type that is read


def typed():
    t = "TYPED"
    r, o = REQUIRED, OPTIONAL

    def column(name, values, *kind, **more):
        good(t, name, rows([leaf("v", r, *kind, **more)], *values), 1, len(values), 1)

    column("whole numbers of 32 bits", (0, 1, -1, 2147483647, -2147483648), INT32)
    column("whole numbers of 64 bits", (0, 9223372036854775807, -9223372036854775808), INT64)
    column("whole numbers of 8 bits", (127, -128), INT32, INT_8)
    column("whole numbers of 16 bits", (32767, -32768), INT32, None, integer_l(16, True))
    column("numbers of 8 bits from 0", (0, 255), INT32, UINT_8)
    column("numbers of 16 bits from 0", (0, 65535), INT32, None, integer_l(16, False))
    column("numbers of 32 bits from 0", (1, -1), INT32, UINT_32)
    column("numbers of 64 bits from 0", (1, -1), INT64, UINT_64)
    column("dates", (0, 19000, -1), INT32, DATE)
    column("dates by the logical type", (18262,), INT32, None, DATE_L)
    column("times of milliseconds", (0, 86399999), INT32, TIME_MILLIS)
    column("times of microseconds", (0, 86399999999), INT64, TIME_MICROS)
    column("times of nanoseconds", (1, 2), INT64, None, time_l(NANOS))
    column("timestamps of milliseconds", (-1, 1), INT64, TIMESTAMP_MILLIS)
    column("timestamps of microseconds in a zone", (-1, 1), INT64, None, timestamp_l(MICROS, True))
    column("timestamps of nanoseconds", (0, 1), INT64, None, timestamp_l(NANOS))
    column("a time of 64 bits in milliseconds is a number", (5,), INT64, None, time_l(MILLIS))
    column("a time of 32 bits in microseconds is a number", (5,), INT32, None, time_l(MICROS))
    column("truth values", NINE, BOOLEAN)
    column("truth values, more than a word has", tuple(i % 5 == 1 for i in range(65)), BOOLEAN)
    good(t, "optional truth values", rows([leaf("v", o, BOOLEAN)], True, None, False, None, None, *NINE, None, True), 1, 16, 1)
    good(t, "truth values in a list", rows([listing("a", o, leaf("element", o, BOOLEAN))], [True, None], None, [], list(NINE), [None], [False, True]), 1, 6, 1)
    pair = (leaf("x", r, BOOLEAN), leaf("y", o, BOOLEAN))
    good(t, "truth values in a struct", rows([group("s", o, *pair)], (True, None), None, (False, True), (True, False)), 1, 4, 2)
    column("texts", ("", "a", "grüße", "日本", "\U0001f600", "\0"), BYTE_ARRAY, UTF8)
    column("byte strings", (b"", b"\xff\xfe", b"\x80"), BYTE_ARRAY)
    column("a decimal in byte strings is a byte string", (b"\x01", b"\xff\x00"), BYTE_ARRAY, DECIMAL, i_7=i32(0), i_8=i32(3))
    column("JSON is a byte string", (b"{}", b"\xff"), BYTE_ARRAY, JSON)
    column("an enumeration is a byte string", (b"A",), BYTE_ARRAY, None, ENUM_L)
    nine = (0, 1, -1, 999999999, -999999999)
    column("decimals of 32 bits", nine, INT32, DECIMAL, i_7=i32(2), i_8=i32(9))
    good(t, "decimals of 64 bits", rows([leaf("v", o, INT64, None, decimal_l(18, 0))], 10**18 - 1, None, -(10**18), 0), 1, 4, 1)
    column("decimals of 64 bits and few digits", nine[:3], INT64, None, decimal_l(9, 2))
    great = [b"\x7f" + b"\xff" * 8, b"\x80" + bytes(8), bytes(9), b"\xff" * 9]
    good(t, "decimals of nine bytes", rows([leaf("v", o, FIXED, DECIMAL, decimal_l(20, 2), 9)], *great, None), 1, 5, 1)
    column("the greatest and the least decimal that nine bytes hold, in sixteen", ((2**71 - 1).to_bytes(16, "big"), (2**128 - 2**71).to_bytes(16, "big")), FIXED, None, decimal_l(19, 0), 16)
    column("decimals of more bytes than their digits need", (b"\0" * 15 + b"\x05", b"\xff" * 15 + b"\xfb"), FIXED, None, decimal_l(3, 1), 16)
    good(t, "fixed byte strings", rows([leaf("v", o, FIXED, length=3)], b"abc", None, bytes(3), b"\xff\xfe\0"), 1, 4, 1)
    column("fixed byte strings of one byte", (b"a", b"\xff", b"\0"), FIXED, length=1)
    good(t, "intervals of days", rows([leaf("v", o, FIXED, INTERVAL, length=12)], bytes(4) + b"\1\0\0\0\xff\xff\xff\xff", None, bytes(12)), 1, 3, 1)
    column("annotations that are not known", (1, 2), INT32, 99, {20: EMPTY})
    column("numbers of no known type", (1, 2), INT32, None, UNKNOWN_L)
    good(t, "an optional text", rows([leaf("v", o, BYTE_ARRAY, UTF8)], "a", None, ""), 1, 3, 1)
    good(t, "a text by its logical type alone", rows([leaf("v", o, BYTE_ARRAY, None, STRING_L)], "a", None, ""), 1, 3, 1, "an optional text")
    good(t, "lists of texts", rows(WORDS, *WORD_ROWS), 1, 4, 1)
    good(t, "flat columns", file_of(TWO, [rows_in_pages(TWO, TWO_ROWS)]), 1, 5, 2)


# ---- the same rows in other files


def spelled():
    t = "SPELLED"
    base = "the first file"

    def same(name, file, like=base):
        at = next(case for case in CASES if case.name == like)
        add(t, name, file, 0, at.line)
        ALIKE.append((like, name))

    same("three pages", file_of(FIRST, [rows_in_pages(FIRST, [(v,) for v in FIRST_ROWS], [1, 2, 1])]))
    same("a page for each row, in runs of copies", file_of(FIRST, [rows_in_pages(FIRST, [(v,) for v in FIRST_ROWS], [1, 1, 1, 1], copies)]))
    same("a page of version 2", second_version())
    same("pages of both versions", one_page(FIRST, 4, [data_page(COLUMN, FIRST_TRIPLES[:2]), data_page_2(COLUMN, FIRST_TRIPLES[2:])], 5))
    one = [1, 2]
    same("indices of a dictionary", indexed(FIRST, one, *FIRST_ROWS))
    same("indices of a plain dictionary", indexed(FIRST, one, *FIRST_ROWS, kind=2))
    same("indices in copies", indexed(FIRST, one, *FIRST_ROWS, how=copies))
    same("indices in a page of version 2", indexed(FIRST, one, *FIRST_ROWS, second=True))
    same("entries that no index names", indexed(FIRST, [9, 2, 8, 1, 7], *FIRST_ROWS))
    v = [leaf("v", REQUIRED, BYTE_ARRAY, UTF8)]
    texts = ("", "a", "grüße", "日本", "\U0001f600", "\0")
    same("texts by a dictionary", indexed(v, list(texts), *texts), "texts")
    same("texts by a dictionary, and then plain", indexed(v, list(texts[:3]), *texts, cuts=[3, 3], plain_from=1), "texts")
    v = [leaf("v", REQUIRED, INT32, INT_8)]
    same("numbers of 8 bits by a dictionary", indexed(v, [-128, 127], 127, -128), "whole numbers of 8 bits")
    v = [leaf("v", REQUIRED, INT64)]
    longs = (0, 9223372036854775807, -9223372036854775808)
    same("numbers of 64 bits by a dictionary", indexed(v, list(longs), *longs, how=copies, second=True), "whole numbers of 64 bits")
    same("lists of texts by a dictionary", indexed(WORDS, ["b", "a"], *WORD_ROWS), "lists of texts")
    same("lists of texts by a dictionary, in pages of version 2", indexed(WORDS, ["a", "b"], *WORD_ROWS, second=True, cuts=[1, 2, 1]), "lists of texts")
    good(t, "indices of no bits", indexed(REQ, [7], 7, 7, 7), 1, 3, 1)

    def deltas(nodes, kind, triples, count, text_, behind=b""):
        section = bytes.fromhex(text_.replace(" ", "")) + behind
        return one_page(nodes, count, [data_page(columns(nodes)[0], triples, encoding=kind, values=section)], count)

    v = [leaf("v", REQUIRED, INT64)]
    wide = "80010403 00 02 3f000000 feffffffffffff7f 0000000000000000"
    same("numbers of 64 bits in deltas", deltas(v, 5, [(0, 0, n) for n in longs], 3, wide), "whole numbers of 64 bits")
    v = [leaf("v", REQUIRED, BYTE_ARRAY, UTF8)]
    words = [s.encode() for s in texts]
    sizes = "80010406 00 05 04000000 94120000000000000000000000000000"
    same("texts by their lengths", deltas(v, 6, [(0, 0, s) for s in words], 6, sizes, b"".join(words)), "texts")
    v = [leaf("v", OPTIONAL, INT32)]
    some = [(0, 1, 7), (0, 0, None), (0, 1, 5), (0, 1, 3), (0, 0, None)]
    good(t, "numbers and nulls in deltas", deltas(v, 5, some, 5, "80010403 0e 03 00000000"), 1, 5, 1)
    more = data_page_2(columns(v)[0], some, encoding=5, values=bytes.fromhex("800104030e0300000000"))
    good(t, "numbers and nulls in deltas, in a page of version 2", one_page(v, 5, [more], 5), 1, 5, 1)
    same("levels in copies", first_page(how=copies))
    same("levels in copies and bits", first_page(how=mixed))
    def body(name, text_):
        same(name, first_page(body=bytes.fromhex(text_.replace(" ", ""))))

    body("bytes behind the last run of levels", "04000000 0302 5555 03000000 034f02 01000000 02000000")
    body("a last run of levels that is cut", "02000000 0302 03000000 054f02 01000000 02000000")
    body("more levels than pairs", "06000000 0200 0201 1400 06000000 034f02 2801ff 01000000 02000000")
    body("a head of a run that is padded", "03000000 830002 05000000 8380004f02 01000000 02000000")
    body("runs of no levels", "07000000 0001 01 0000 0302 05000000 0002 034f02 01000000 02000000")
    same("bytes behind the values", first_page(values=plain_values(INT32, [1, 2]) + b"\x09\x09"))
    same("bytes behind the pages of a chunk", first(behind={(0, 0): b"\xff\xff\xff"}))
    same("bytes in front of a chunk", first(gap={(0, 0): b"gap"}))
    same("bytes behind the footer's struct", first(tail=b"\xff\x00"))
    empty = data_page(COLUMN, [])
    page_ = data_page(COLUMN, FIRST_TRIPLES)
    same("pages of no pairs", one_page(FIRST, 4, [empty, data_page(COLUMN, FIRST_TRIPLES[:2]), empty, data_page(COLUMN, FIRST_TRIPLES[2:])], 5))
    same("a page that is not called for", one_page(FIRST, 4, [page_, page_], 5))
    same("another root, which repeats", first(root="schema", element={0: {3: i32(REPEATED)}}))
    same("ids of fields", first(element={1: {9: i32(7)}, 3: {9: i32(-1)}}))
    same("no children, said of a leaf", first(element={3: {5: i32(0)}}))
    same("no version and no number of rows", first(footer={1: None, 3: None}))
    same("another version and number of rows", first(footer={1: i32(2), 3: i64(99)}))
    same("a writer and column orders", first(footer={6: text("a writer"), 7: many(STRUCT, [struct({1: EMPTY})])}))
    other = {
        100: truth(True),
        101: (I8, b"\x07"),
        102: (DOUBLE, bytes(8)),
        103: (SET, b"\x21\x01\x02"),
        104: (MAP, b"\x01\x85\x01a\x04"),
        2000: struct({1: text("x")}),
    }
    same("fields that are not known", first(footer=other, group={0: other}, chunk={(0, 0): other}, meta={(0, 0): other}, element={2: other}))
    same("a header's fields that are not known", first_page(ids={4: i32(12345), 9: text("x")}, head={5: struct({3: i64(99)}), 40: truth(False)}))
    same("a checksum and a size before compression that are wrong", first_page(ids={2: i32(1), 4: i32(-1)}))
    written = data_page(COLUMN, FIRST_TRIPLES)
    long_ = bytes.fromhex("0502 00 0504 2a 0506 aa00 0c0a 0502 0a 0504 8080808000 0508 06 0506 06 00 00".replace(" ", ""))
    same("a header with ids in full and numbers that are padded", one_page(FIRST, 4, [long_ + written[17:]], 5))
    twice = {1: i32(7), 2: i32(3)}
    doubled = fields({**twice})[:-1] + bytes.fromhex("0502 00 0504 2a 0506 2a 0c0a 150a 1500 1506 1506 00 00".replace(" ", ""))
    same("ids that come twice, of which the last counts", one_page(FIRST, 4, [doubled + written[17:]], 5))
    same("statistics", first(meta={(0, 0): {12: struct({1: text(b"\0"), 3: i64(-5), 4: i64(9), 5: text(b"\1\0\0\0"), 6: text(b"\2\0\0\0")})}}))
    same("other encodings, sizes and path in the footer", first(meta={(0, 0): {2: None, 3: many(BINARY, [text("z")]), 6: i64(-1)}}, chunk={(0, 0): {2: i64(1)}}, group={0: {2: i64(-1), 5: i64(1), 6: i64(1), 7: i16(9)}}))
    same("places of an index and of no dictionary", first(meta={(0, 0): {10: i64(4), 11: i64(4)}}, chunk={(0, 0): {4: i64(4), 5: i32(9), 6: i64(4), 7: i32(9)}}))
    same("a dictionary page's place that is none", first(meta={(0, 0): {11: i64(0)}}))
    same("a file path that is empty", first(chunk={(0, 0): {1: text("")}}))
    same("a footer that nests 128", first(footer={100: (LIST, b"\x19" * 125 + b"\x15\x00")}))
    bare = [group("g", OPTIONAL), *FIRST, group("h", REQUIRED, group("u", REPEATED))]
    same("groups without columns", file_of(bare, [pairs_in_pages(FIRST, 4, [FIRST_TRIPLES])]))
    same("groups of no rows beside it", file_of(FIRST, [Group(0, [[]], [0]), rows_in_pages(FIRST, [(v,) for v in FIRST_ROWS]), Group(0, [[]], [0])]))
    same("a key of a schema, which is passed over", first(keys=[("ARROW:schema", "no base64")]))
    same("many pairs in bits", file_of(FIRST, [rows_in_pages(FIRST, MANY)]), "many pairs")
    same("many pairs in pages", file_of(FIRST, [rows_in_pages(FIRST, MANY, [1, 63, 65, len(MANY) - 129], mixed)]), "many pairs")
    truths = "truth values"
    same("truth values in pages of parts of a byte", file_of(TRUTHS, [rows_in_pages(TRUTHS, [(v,) for v in NINE], [3, 5, 1])]), truths)
    same("truth values in a page of version 2", one_page(TRUTHS, 9, [data_page_2(TRUTH_COLUMN, NINE_TRIPLES)], 9), truths)
    same("bits and a byte behind the truth values", one_page(TRUTHS, 9, [data_page(TRUTH_COLUMN, NINE_TRIPLES, values=b"\x2e\xff\x55")], 9), truths)
    made = [rows_in_pages(TWO, TWO_ROWS, [[2, 3], [1, 1, 3]])]
    same("two columns in other pages", file_of(TWO, made), "flat columns")
    same("chunks in another order", file_of(TWO, made, order=[(0, 1), (0, 0)]), "flat columns")
    same("another encoding of levels that are all 0", one_page(OPT, 2, [data_page(OPT_COLUMN, [(0, 1, 7), (0, 0, None)], head={4: i32(4)})], 2, root="q"), "two pairs")


# ---- groups and key values


def grouped():
    t = "GROUPED"
    good(t, "two pairs", rows(OPT, 7, None), 1, 2, 1)
    made = [(v,) for v in FIRST_ROWS]
    good(t, "two groups", file_of(FIRST, [rows_in_pages(FIRST, made[:3]), rows_in_pages(FIRST, made[3:])]), 2, 4, 2)
    good(t, "two groups, of two pages and of one", file_of(FIRST, [rows_in_pages(FIRST, made[:3], [2, 1]), rows_in_pages(FIRST, made[3:])]), 2, 4, 2, "two groups")
    good(t, "a group of no rows between two", file_of(TWO, [rows_in_pages(TWO, TWO_ROWS[:2]), rows_in_pages(TWO, []), rows_in_pages(TWO, TWO_ROWS[2:])]), 2, 5, 4)
    good(t, "no group", file_of(FIRST, []), 0, 0, 0)
    good(t, "a group of no rows", file_of(FIRST, [Group(0, [[]], [0])]), 0, 0, 0, "no group")
    good(t, "pages in a group of no rows, not called for", file_of(FIRST, [Group(0, [[data_page(COLUMN, FIRST_TRIPLES)]], [0])]), 0, 0, 0, "no group")
    keys = [("b", "2"), ("a", ""), ("b", "3"), ("none", None), ("ARROW:schema", "%"), ("", "e")]
    good(t, "key values", first(keys=keys), 1, 4, 1)
    good(t, "key values beside another key of a schema", first(keys=[*keys[:4], keys[5], ("ARROW:schema", None)]), 1, 4, 1, "key values")
    good(t, "a field without a name", rows([number("")], 1), 1, 1, 1)
    good(t, "two fields of one name", file_of([number("a"), number("a")], [rows_in_pages([number("a"), number("a")], [(1, 2)])]), 1, 1, 2)


# ---- frames and footers


def framed():
    t = "FRAMED"
    file = first()
    bad(t, "nothing", b"", "S1")
    bad(t, "11 bytes", b"PAR1\x00\x00\x00PAR1", "S1")
    bad(t, "a footer of no bytes", b"PAR1\x00\x00\x00\x00PAR1", "S1")
    bad(t, "no magic bytes in front", first(front=b"PAR2"), "S1")
    bad(t, "no magic bytes at the end", first(back=b"PAR2"), "S1")
    bad(t, "the last byte cut", file[:-1], "S1")
    bad(t, "a footer that is longer than the file", first(length=134), "S1")
    bad(t, "a footer from the last page byte on", first(length=96), "S1")
    bad(t, "a footer whose first byte is cut", first(length=94), "S1")
    bad(t, "a footer that is cut", file[:4] + file[42:-9] + (94).to_bytes(4, "little") + b"PAR1", "S1")
    bad(t, "a schema that claims more elements than there are bytes", first(footer={2: many(STRUCT, [], 2147483647), 3: None, 4: None}), "S1")
    claim = 2147483648
    bad(t, "very many groups claimed", first(footer={4: many(STRUCT, [], claim)}), "S1")
    bad(t, "very many chunks claimed", first(group={0: {1: many(STRUCT, [], claim)}}), "S1")
    bad(t, "a very long name claimed", first(element={0: {4: (BINARY, varint(claim) + b"r")}}), "S1")
    bad(t, "very many key values claimed", first(footer={5: many(STRUCT, [], claim)}), "S1")
    bad(t, "no schema", first(footer={2: None}), "S1")
    bad(t, "no list of groups", first(footer={4: None}), "S1")
    bad(t, "a number of rows that is a text", first(footer={3: text("4")}), "S1")
    bad(t, "a version of 33 bits", first(footer={1: (I32, varint(1 << 32))}), "S1")
    bad(t, "groups that are numbers", first(footer={4: many(I32, [i32(1)])}), "S1")
    bad(t, "an id past 32,767", first(tail=b"", footer={32767: truth(True), 32768: truth(True)}), "S1")
    bad(t, "no codec", first(meta={(0, 0): {4: None}}), "S1")
    bad(t, "no place of the first page", first(meta={(0, 0): {9: None}}), "S1")
    bad(t, "no number of rows in a group", first(group={0: {3: None}}), "S1")
    bad(t, "a chunk without metadata", first(chunk={(0, 0): {3: None}}), "S1")
    bad(t, "statistics of another type", first(meta={(0, 0): {12: struct({3: text("0")})}}), "S1")
    bad(t, "a key without a name", first(footer={5: many(STRUCT, [struct({2: text("v")})])}), "S1")
    bad(t, "a key that is not UTF-8", first(keys=[(b"\xff", "v")]), "S1")
    bad(t, "a value that is not UTF-8", first(keys=[("k", b"\xc3")]), "S1")
    bad(t, "an encrypted footer", first(back=b"PARE"), "N2")
    bad(t, "an encryption that the footer tells", first(footer={8: struct({1: EMPTY})}), "N2")
    bad(t, "an encrypted column", first(chunk={(0, 0): {8: struct({1: EMPTY})}}), "N2")
    bad(t, "an encrypted column without metadata", first(chunk={(0, 0): {3: None, 9: text("x")}}), "N2")
    bad(t, "a footer that nests 129", first(footer={100: (LIST, b"\x19" * 126 + b"\x15\x00")}), "N7")


def trees():
    t = "TREES"

    def changed(name, place, ids):
        bad(t, name, first(element={place: ids}), "S1")

    bad(t, "no element", first(footer={2: many(STRUCT, [])}), "S1")
    changed("a root that is a leaf", 0, {1: i32(INT32), 5: None})
    changed("more children than elements", 0, {5: i32(2)})
    changed("elements left over", 0, {5: None})
    changed("fewer children than none", 0, {5: i32(-1)})
    changed("a node without repetition", 1, {3: None})
    changed("an unknown repetition", 1, {3: i32(3)})
    changed("no name", 1, {4: None})
    changed("a name that is not UTF-8", 3, {4: text(b"\xff")})
    changed("an unknown type", 3, {1: i32(8)})
    changed("a type that is negative", 3, {1: i32(-1)})
    changed("a type with children", 2, {1: i32(INT32)})
    changed("fixed byte strings without a length", 3, {1: i32(FIXED)})
    changed("fixed byte strings of length 0", 3, {1: i32(FIXED), 2: i32(0)})
    changed("a negative precision", 3, {6: i32(DECIMAL), 7: i32(0), 8: i32(-1)})
    changed("a negative scale", 3, {6: i32(DECIMAL), 7: i32(-1), 8: i32(1)})
    tree = number("x")
    for i in range(127):
        tree = group("g", REQUIRED, tree)
    bad(t, "a tree that nests 129", file_of([tree], []), "N7")


# ---- chunks


def placed():
    t = "PLACED"

    def meta(name, ids, reason="S2"):
        bad(t, name, first(meta={(0, 0): ids}), reason)

    limit = 134217728
    for name, ids in (("more pairs than the limit", {5: i64(limit + 1)}), ("very many pairs", {5: i64(9223372036854775807)})):
        add(t, name, first(meta={(0, 0): ids}), 5, "InputLimit Pairs")
    groups = [rows_in_pages(TWO, TWO_ROWS)]
    ids = {(0, 0): {5: i64(limit)}, (0, 1): {5: i64(1)}}
    add(t, "more pairs than the limit, over two chunks", file_of(TWO, groups, meta=ids), 5, "InputLimit Pairs")
    ids = {(0, 0): {5: i64(limit)}, (0, 1): {5: i64(-1)}}
    bad(t, "as many pairs as the limit, and a negative number", file_of(TWO, groups, meta=ids), "S2")
    meta("as many pairs as the limit, and a page of fewer", {5: i64(limit)}, "S3")
    add(t, "more pairs than the limit, in a chunk that is compressed", first(meta={(0, 0): {4: i32(1), 5: i64(limit + 1)}}), 5, "InputLimit Pairs")
    bad(t, "a group without chunks", first(group={0: {1: many(STRUCT, [])}}), "S2")
    bad(t, "a group of two chunks for one leaf", file_of(FIRST, [rows_in_pages(FIRST, [([],)])], group={0: {1: many(STRUCT, [chunk_of(), chunk_of()])}}), "S2")
    meta("a chunk of another type", {1: i32(INT64)})
    meta("a chunk of no known type", {1: i32(99)})
    meta("a negative number of pairs", {5: i64(-5)})
    meta("a chunk of a negative size", {7: i64(-1)})
    bad(t, "a negative number of rows", first(group={0: {3: i64(-4)}}), "S2")
    meta("a chunk that begins in the magic bytes", {9: i64(3)})
    meta("a chunk that begins in front of the file", {9: i64(-4)})
    meta("a chunk that begins behind the file", {9: i64(145)})
    meta("a chunk that ends in the footer", {7: i64(39)})
    meta("a chunk that is larger than any file", {7: i64(9223372036854775807)})
    meta("a chunk at no place of a file", {9: i64(9223372036854775807)})
    bad(t, "a chunk of no pairs behind the file", file_of(FIRST, [Group(0, [[]], [0])], meta={(0, 0): {9: i64(9999)}}), "S2")
    meta("a compressed chunk", {4: i32(1)}, "N1")
    meta("a codec that is not known", {4: i32(-1)}, "N1")
    bad(t, "a chunk in another file", first(chunk={(0, 0): {1: text("x")}}), "N3")


def chunk_of():
    """Some chunk of the first file's column."""
    ids = {1: i32(INT32), 2: many(I32, [i32(0)]), 3: many(BINARY, []), 4: i32(0), 5: i64(0), 6: i64(0), 7: i64(0), 9: i64(4)}
    return struct({2: i64(4), 3: struct(ids)})


# ---- schemas


def schemas():
    t = "SCHEMAS"
    r, o = REQUIRED, OPTIONAL

    def bare(name, nodes, reason, groups=None):
        bad(t, name, file_of(nodes, [Group(0, [[] for _ in columns(nodes)], [0] * len(columns(nodes)))] if groups is None else groups), reason)

    bare("no column and no group", [], "A3", [])
    bare("no column, and a group of rows", [], "A3", [Group(3, [], [])])
    bare("groups without columns alone", [group("g", o, group("h", r))], "A3")
    bare("a list whose first child has no column", [group("g", o, group("list", REPEATED), number("n"), converted=LIST_)], "A3")
    bare("a decimal without precision", [leaf("d", r, INT32, DECIMAL)], "A5")
    bare("a decimal of 39 digits", [leaf("d", r, FIXED, None, decimal_l(39, 0), 17, i_7=i32(0), i_8=i32(39))], "N6")
    bare("a decimal of 39 digits in 16 bytes", [leaf("d", r, FIXED, None, decimal_l(39, 0), 16)], "A5")
    bare("a scale above the precision", [leaf("d", o, INT64, None, decimal_l(3, 4))], "A5")
    bad(t, "floating-point numbers", rows([leaf("f", r, FLOAT)], 0.5), "N5")
    bad(t, "floating-point numbers of 64 bits", rows([leaf("f", o, DOUBLE_)], 0.5, None), "N5")
    bad(t, "decimals in a list", rows([listing("a", o, leaf("element", o, INT32, None, decimal_l(9, 2)))], [100], None), "N5")
    bad(t, "fixed byte strings in a struct", rows([group("s", o, leaf("x", r, FIXED, length=3))], (b"abc",), None), "N5")
    bad(t, "intervals in a list", rows([listing("a", r, leaf("element", r, FIXED, INTERVAL, length=12))], [bytes(12)]), "N5")
    bare("a type that is not served, in a file of no group", [number(), leaf("f", o, FLOAT)], "N5", [])
    damaged = Group(1, [[data_page(REQ_COLUMN, [(0, 0, 1)])], [b"\xff"]], [1, 1])
    bare("a type that is not served, behind pages that are damaged", [number(), leaf("f", r, FLOAT)], "N5", [damaged])
    bad(t, "timestamps of 96 bits", rows([leaf("t", r, INT96)], bytes(12)), "N6")
    entry = group("key_value", REPEATED, leaf("key", r, BYTE_ARRAY, UTF8), leaf("value", o, INT32))
    bad(t, "a map by its converted type", rows([group("m", o, entry, converted=MAP_)], [("k", 1)], None, []), "N6")
    bad(t, "a map by its logical type", rows([group("m", o, entry, logical=MAP_L)], [("k", 1), ("l", None)], None), "N6")
    bad(t, "a repeated leaf", rows([number("a", REPEATED)], [1, 2], []), "N6")
    bad(t, "a repeated group", rows([group("a", REPEATED, number("x"))], [(1,)], []), "N6")
    bad(t, "a list of two levels", rows([group("a", o, number("element", REPEATED), converted=LIST_)], [1, 2], None), "N6")
    bad(t, "required items in a node of another name", rows([listing("a", o, number("x"), "bag")], [1], None), "N6")
    two = group("list", REPEATED, number("x"), number("y"))
    bad(t, "a list of two fields", rows([group("a", o, two, converted=LIST_)], [(1, 2)], None), "N6")
    tuple_ = group("my_list_tuple", REPEATED, leaf("str", r, BYTE_ARRAY, UTF8))
    bad(t, "a list of tuples", rows([group("my_list", o, tuple_, converted=LIST_)], ["a"], None), "N6")
    bad(t, "a list beside another child", rows([group("a", o, group("list", REPEATED, leaf("element", o, INT32)), number("x"), converted=LIST_)], ([(1,)], 2)), "N6")


# ---- pages


def paged():
    t = "PAGED"
    page_ = data_page(COLUMN, FIRST_TRIPLES)

    def pages(name, made, reason, count=5, number_=4):
        bad(t, name, one_page(FIRST, number_, made, count), reason)

    def header(name, ids, reason="S3"):
        bad(t, name, first_page(ids=ids), reason)

    pages("no page where pairs are claimed", [], "S3")
    pages("no header", [b"\xff" * 30], "S3")
    pages("a header that is cut", [page_[:10]], "S3")
    header("no kind of page", {1: None})
    header("no size", {3: None})
    header("no header of the data", {5: None})
    header("a negative size", {3: i32(-1)})
    header("a body past the chunk", {3: i32(22)})
    header("a header that nests 129", {100: (LIST, b"\x19" * 126 + b"\x15\x00")})
    bad(t, "no number of pairs", first_page(head={1: None}), "S3")
    bad(t, "no encoding", first_page(head={2: None}), "S3")
    bad(t, "a negative number of pairs in a page", first_page(count=-5), "S3")
    bad(t, "a negative number of rows in a page", second_version({3: i32(-1)}), "S3")
    pages("a page that has more pairs than the chunk", [page_], "S3", 4)
    pages("pages that have fewer pairs than the chunk", [page_], "S3", 6)
    pages("indices without a dictionary", [data_page(COLUMN, FIRST_TRIPLES, encoding=8, values=b"\x01\x03\x00")], "S3")
    bad(t, "a damaged page in a later group", file_of(REQ, [rows_in_pages(REQ, [(1,)]), Group(1, [[b"\x15\x00\x00"]], [1])]), "S3")

    ints = [(0, 0, v) for v in (7, 7, 8)]
    sevens = data_page(REQ_COLUMN, ints, encoding=8, values=b"\x01\x03\x04")
    seven = dictionary_page(INT32, [7, 8])
    bad(t, "two dictionary pages", with_entries(REQ, 3, seven, [seven, sevens], 3), "S3")
    bad(t, "a dictionary page behind a page", with_entries(REQ, 6, seven, [sevens, seven, sevens], 6), "S3")
    delta = bytes.fromhex("80010403 0e 00 01000000 02000000".replace(" ", ""))
    bad(t, "numbers in lengths", one_page(REQ, 3, [data_page(REQ_COLUMN, ints, encoding=6, values=delta)], 3), "N4")
    words = [(0, 0, b"ab"), (0, 0, b"c")]
    lengths = bytes.fromhex("80010402 04 01 00000000".replace(" ", "")) + b"abc"
    bad(t, "texts in deltas", one_page(TEXT, 2, [data_page(TEXT_COLUMN, words, encoding=5, values=lengths)], 2), "N4")
    bad(t, "deltas of numbers in lists", one_page(FIRST, 4, [data_page(COLUMN, FIRST_TRIPLES, encoding=5, values=delta)], 5), "N4")
    bad(t, "byte strings in deltas", one_page(TEXT, 2, [data_page(TEXT_COLUMN, words, encoding=7, values=b"")], 2), "N4")
    bad(t, "streams of bytes", one_page(REQ, 2, [data_page(REQ_COLUMN, ints[:2], encoding=9, values=b"\7\7\0\0\0\0\0\0")], 2), "N4")
    bad(t, "an encoding that is not known", flat_page(encoding=-1), "N4")
    bad(t, "deltas in a page of version 2", second_version({4: i32(5)}), "N4")
    pages("a page of an index", [page(1, b"", EMPTY), page_], "N4")
    header("a kind of page that is not known", {1: i32(9)}, "N4")
    bad(t, "definition levels of another encoding", first_page(head={3: i32(4)}), "N4")
    bad(t, "repetition levels of no encoding", first_page(head={4: None}), "N4")


def leveled():
    t = "LEVELED"

    def body(name, text_, reason="S4", nodes=FIRST, triples=FIRST_TRIPLES, count=4):
        column = columns(nodes)[0]
        made = data_page(column, triples, body=bytes.fromhex(text_.replace(" ", "")))
        bad(t, name, one_page(nodes, count, [made], len(triples)), reason)

    body("a section of levels that is cut", "020000")
    body("repetition levels past the body", "12000000 0302 03000000 034f02 0100000002000000")
    body("definition levels past the body", "02000000 0302 0c000000 034f02 0100000002000000")
    body("a section of levels that is very long", "ffffffff 0302 03000000 034f02 0100000002000000")
    body("too few repetition levels", "02000000 0800 03000000 034f02 0100000002000000")
    body("too few definition levels", "02000000 0a00 02000000 0801", count=5)
    body("no definition levels", "02000000 0302 00000000 0100000002000000")
    body("a run of levels that is cut", "02000000 0302 01000000 0a 0100000002000000")
    body("a repetition level past its greatest", "02000000 0a02 03000000 034f02 0100000002000000")
    body("a definition level past its greatest", "02000000 0400 02000000 0403", "S4", [numbers(OPTIONAL, REQUIRED)], [(0, 0, None)] * 2, 2)
    body("a definition level of 255", "02000000 0400 02000000 04ff", "S4", FIRST, [(0, 0, None)] * 2, 2)
    triples = [(1, 3, 1), *FIRST_TRIPLES[1:]]
    bad(t, "a column that begins inside a row", pairs(FIRST, 3, triples), "S5")
    cut = [[FIRST_TRIPLES[:1], FIRST_TRIPLES[1:]]]
    bad(t, "a later page that begins inside a row", file_of(FIRST, [pairs_in_pages(FIRST, 4, *cut)]), "N8")
    both = [data_page(COLUMN, FIRST_TRIPLES[:1]), data_page_2(COLUMN, FIRST_TRIPLES[1:])]
    bad(t, "a later page of version 2 that begins inside a row", one_page(FIRST, 4, both, 5), "S5")
    bad(t, "levels of version 2 past the body", second_version({5: i32(99)}), "S4")

    plain_ = "02000000 0302 03000000 034f02 "
    body("no values", plain_, "S6")
    body("a value that is cut", plain_ + "01000000 020000", "S6")
    body("fewer values than levels call for", plain_ + "01000000", "S6")
    bad(t, "a truth value that is cut", one_page(TRUTHS, 9, [data_page(TRUTH_COLUMN, NINE_TRIPLES, values=b"\x2e")], 9), "S6")
    body("values of a required column that are cut", "01000000 020000", "S6", REQ, [(0, 0, 1), (0, 0, 2)], 2)
    body("a length that is cut", "01000000 61 010000", "S6", TEXT, [(0, 0, b"a"), (0, 0, b"")], 2)
    body("a text that is cut", "01000000 61 02000000 62", "S6", TEXT, [(0, 0, b"a"), (0, 0, b"")], 2)
    body("a text of a length past all", "ffffffff 61", "S6", TEXT, [(0, 0, b"a")], 1)
    delta = bytes.fromhex("80010403 0e 00 01000000 02000000".replace(" ", ""))
    sevens = [(0, 0, 7), (0, 0, 7), (0, 0, 8)]
    bad(t, "deltas of fewer numbers than levels call for", one_page(REQ, 4, [data_page(REQ_COLUMN, [*sevens, (0, 0, 8)], encoding=5, values=delta)], 4), "S6")
    bad(t, "deltas of more numbers than levels call for", one_page(REQ, 2, [data_page(REQ_COLUMN, sevens[:2], encoding=5, values=delta)], 2), "S6")
    past = data_page(REQ_COLUMN, [(0, 0, 7)] * 3, encoding=8, values=b"\x02\x06\x02")
    entries = dictionary_page(INT32, [7, 8])
    bad(t, "an index past the entries", with_entries(REQ, 3, entries, [past], 3), "S6")
    short = data_page(REQ_COLUMN, [(0, 0, 7)] * 3, encoding=8, values=b"\x01\x04\x00")
    bad(t, "too few indices", with_entries(REQ, 3, entries, [short], 3), "S6")
    wide = data_page(REQ_COLUMN, [(0, 0, 7)] * 3, encoding=8, values=b"\x21\x06\0\0\0\0\0")
    bad(t, "indices of 33 bits", with_entries(REQ, 3, entries, [wide], 3), "S6")
    fine = data_page(REQ_COLUMN, [(0, 0, 7)] * 3, encoding=8, values=b"\x01\x06\0")
    cut = page(2, plain_values(INT32, [7, 8])[:7], struct({1: i32(2), 2: i32(0)}))
    bad(t, "entries that are cut", with_entries(REQ, 3, cut, [fine], 3), "S6")
    small = [leaf("n", REQUIRED, INT32, INT_8)]
    bad(t, "an entry outside of its type that no index names", with_entries(small, 3, dictionary_page(INT32, [7, 300]), [fine], 3), "S7")
    later = [rows_in_pages(REQ, [(1,)]), Group(1, [[data_page(REQ_COLUMN, [(0, 0, 2)], values=b"\2\0\0")]], [1])]
    bad(t, "a value that is cut in a later group", file_of(REQ, later), "S6")
    long = [(0, 0, 1 << 40)]
    body("a value of 64 bits that is cut", "01000000 000000", "S6", [leaf("v", REQUIRED, INT64)], long, 1)

    def stored(name, value, *kind):
        bad(t, name, rows([leaf("v", REQUIRED, *kind)], value), "S7")

    stored("a number past 8 bits", 300, INT32, INT_8)
    stored("a number below 8 bits", -129, INT32, None, integer_l(8, True))
    stored("a number past 16 bits", 32768, INT32, INT_16)
    stored("a number past 8 bits from 0", 256, INT32, UINT_8)
    stored("a number below 0", -1, INT32, UINT_16)
    wide = "a decimal wider than its digits are written"
    bad(t, wide, rows([leaf("v", REQUIRED, FIXED, None, decimal_l(19, 0), 16)], (2**71).to_bytes(16, "big")), "A7")
    bad(t, wide + ", below zero", rows([leaf("v", OPTIONAL, INT64, None, decimal_l(9, 0))], 5, None, -(2**31) - 1), "A7")
    stored("a text of a byte alone", b"\x80", BYTE_ARRAY, UTF8)
    stored("a text that is spelled too long", b"\xc0\x80", BYTE_ARRAY, UTF8)
    stored("a text of half a pair", b"a\xed\xa0\x80", BYTE_ARRAY, None, STRING_L)
    bad(t, "an item that is no text", rows([listing("a", OPTIONAL, leaf("element", OPTIONAL, BYTE_ARRAY, UTF8))], ["a", b"\xf0\x9f"], None), "S7")


# ---- rows


def counted():
    t = "COUNTED"
    r, o = REQUIRED, OPTIONAL
    bad(t, "more rows than the group has", first(group={0: {3: i64(3)}}), "S9")
    bad(t, "fewer rows than the group has", first(group={0: {3: i64(5)}}), "S9")
    bad(t, "a row more than a page of version 2 begins", second_version({3: i32(5)}), "S9")
    bad(t, "a row less than a page of version 2 begins", second_version({3: i32(3)}), "S9")
    bad(t, "a group of very many rows", first(group={0: {3: i64(1 << 62)}}), "S9")
    bad(t, "a group of no rows, and rows", first(group={0: {3: i64(0)}}), "S9")
    bad(t, "a group of a row, and no pairs", file_of(FIRST, [Group(1, [[]], [0])]), "S9")
    bad(t, "a required column with a row too many", file_of(REQ, [rows_in_pages(REQ, [(1,), (2,)])], group={0: {3: i64(1)}}), "S9")
    bad(t, "a second column with a row too few", pairs(TWO, 2, [(0, 0, 1), (0, 0, 2)], [(0, 1, b"a")]), "S9")
    bad(t, "a second column with a row too many", pairs(TWO, 1, [(0, 0, 1)], [(0, 1, b"a"), (0, 0, None)]), "S9")
    bad(t, "other rows than a later group has", file_of(REQ, [rows_in_pages(REQ, [(1,)]), rows_in_pages(REQ, [(2,)])], group={1: {3: i64(2)}}), "S9")

    pair = [listing("a", r, group("element", r, number("a"), number("b")))]
    bad(t, "lists of two fields, in rows that one has twice", pairs(pair, 1, [(0, 1, 1), (0, 1, 2)], [(0, 1, 3), (0, 1, 4)]), "S9")
    bad(t, "a null list that goes on", pairs(FIRST, 1, [(0, 0, None), (1, 3, 5)]), "S10")
    bad(t, "an empty list that goes on", pairs(FIRST, 1, [(0, 1, None), (1, 3, 5)]), "S10")
    bad(t, "an item, and then a null list", pairs(FIRST, 1, [(0, 3, 5), (1, 0, None)]), "S10")
    bad(t, "an item, and then an empty list", pairs(FIRST, 1, [(0, 3, 5), (1, 1, None)]), "S10")
    bad(t, "an empty list that goes on inside", pairs([lists(o, o, r)], 1, [(0, 1, None), (2, 4, 5)]), "S10")
    bad(t, "an inner list that is null and goes on", pairs([lists(o, o, o)], 1, [(0, 5, 1), (1, 2, None), (2, 5, 2)]), "S10")
    bad(t, "an outer list that is null behind an item", pairs([lists(o, o, o)], 1, [(0, 5, 1), (1, 1, None)]), "S10")
    bad(t, "siblings of which one is in no list", pairs(pair, 1, [(0, 1, 1), (1, 1, 2)], [(0, 1, 3)]), "S10")
    struct_ = [group("s", o, number("a"), number("b"))]
    bad(t, "siblings that disagree on a null struct", pairs(struct_, 1, [(0, 1, 1)], [(0, 0, None)]), "S10")
    bad(t, "siblings that disagree in a later row", pairs(struct_, 2, [(0, 1, 1), (0, 0, None)], [(0, 1, 3), (0, 1, 4)]), "S10")
    inner = [listing("a", o, group("element", o, number("a"), leaf("b", o, INT32)))]
    bad(t, "siblings that disagree on a null item", pairs(inner, 1, [(0, 3, 1), (1, 2, None)], [(0, 4, 3), (1, 3, None)]), "S10")
    bad(t, "siblings that disagree on an empty list", pairs(inner, 1, [(0, 1, None)], [(0, 0, None)]), "S10")
    items = [group("s", o, numbers(o, o, "a"), number("b"))]
    bad(t, "a list and a number that disagree on their struct", pairs(items, 1, [(0, 1, None)], [(0, 0, None)]), "S10")
    rows_ = [group("s", r, group("t", o, number("a")), group("u", o, number("b")))]
    good(t, "siblings that need not agree", pairs(rows_, 2, [(0, 1, 1), (0, 0, None)], [(0, 0, None), (0, 1, 4)]), 1, 2, 2)
    later = [[[(0, 3, 1), (0, 0, None)], [(0, 1, None), (1, 3, 2)]]]
    bad(t, "an empty list that goes on in a later page", file_of(FIRST, [pairs_in_pages(FIRST, 3, *later)]), "S10")


# ---- the schema under the key


def keyed():
    t = "KEYED"
    r, o = REQUIRED, OPTIONAL

    def key(*fields):
        return [("ARROW:schema", arrow.value(arrow.message(*fields)))]

    entry = group("key_value", REPEATED, leaf("key", r, BYTE_ARRAY, UTF8), leaf("value", o, INT32))
    entries = arrow.field("entries", False, arrow.STRUCT, (), [arrow.field("key", False, arrow.UTF8), arrow.int32("value", True)])
    map_ = arrow.field("m", True, arrow.MAP, (0,), [entries])
    good(t, "a map that the key tells", rows([group("m", o, entry, converted=MAP_)], [("k", 1)], None, [], keys=key(map_)), 1, 3, 2)
    listed = arrow.field("a", True, arrow.LIST, (), [arrow.int32("element")])
    good(t, "a list of two levels that the key tells", rows([group("a", o, number("element", REPEATED), converted=LIST_)], [1, 2], None, keys=key(listed)), 1, 2, 1)
    repeated = arrow.field("a", False, arrow.LARGE_LIST, (), [arrow.int32("x")])
    good(t, "a repeated leaf that the key tells", rows([number("a", REPEATED)], [1, 2], [], keys=key(repeated)), 1, 2, 1)
    good(t, "large texts", rows(TEXT, b"ab", b"", keys=key(arrow.field("s", False, arrow.LARGE_UTF8))), 1, 2, 1)
    extended = arrow.field("s", False, arrow.UTF8, metadata={"ARROW:extension:name": "x", "ARROW:extension:metadata": ""})
    good(t, "an extension", rows(TEXT, b"ab", keys=key(extended)), 1, 1, 1)
    good(t, "another name", flat(keys=key(arrow.int32("other"))), 1, 2, 1)
    good(t, "no key, and key values", first(keys=[("k", "v")]), 1, 4, 1)
    good(t, "a key without a value", first(keys=[("ARROW:schema", None)]), 1, 4, 1)
    good(t, "two keys, of which the last counts", flat(keys=[("ARROW:schema", "%"), *key(arrow.int32("n"))]), 1, 2, 1)
    bad(t, "two keys, of which the last is none", flat(keys=[*key(arrow.int32("n")), ("ARROW:schema", "%")]), "A2")
    bad(t, "a key that is not base64", first(keys=[("ARROW:schema", "no base64")]), "A2")
    bad(t, "an empty key", first(keys=[("ARROW:schema", "")]), "A2")
    bad(t, "a key of the plain codec", flat(keys=[("ARROW:schema", "/////xMAAAABAAAAAQAAAGEBBAAAAAAAAAAA")]), "A2")
    bad(t, "a message that is cut", flat(keys=[("ARROW:schema", arrow.value(arrow.message(arrow.int32("n"))[:200]))]), "A2")
    bad(t, "a key of two fields", flat(keys=key(arrow.int32("n"), arrow.int32("m"))), "S8")
    bad(t, "a key of no field", flat(keys=key()), "A3")
    bad(t, "a key of numbers of 64 bits", flat(keys=key(arrow.field("n", False, arrow.INT, (64, 1)))), "S8")
    bad(t, "a key of a nullable field", flat(keys=key(arrow.int32("n", True))), "S8")
    bad(t, "a key of a list", flat(keys=key(listed)), "S8")
    milli = [leaf("t", r, INT64, TIMESTAMP_MILLIS)]
    bad(t, "a key of another unit", rows(milli, 5, keys=key(arrow.field("t", False, arrow.TIMESTAMP, (2,)))), "S8")
    good(t, "a key of the same unit and a zone", rows(milli, 5, keys=key(arrow.field("t", False, arrow.TIMESTAMP, (1, b"UTC")))), 1, 1, 1)
    nothing = arrow.field("n", True, arrow.NULL)
    good(t, "nulls alone", rows([leaf("n", o, INT32, None, UNKNOWN_L)], None, None, None, keys=key(nothing)), 1, 3, 1)
    good(t, "nulls alone in lists", rows(FIRST, [None, None], None, [], [None], keys=key(arrow.field("a", True, arrow.LIST, (), [arrow.field("element", True, arrow.NULL)]))), 1, 4, 1)
    beside = arrow.field("s", True, arrow.STRUCT, (), [arrow.field("x", True, arrow.NULL), arrow.int32("y")])
    good(t, "nulls alone in structs", rows([group("s", o, number("x", o), number("y"))], (None, 5), None, keys=key(beside)), 1, 2, 2)
    bad(t, "a value among nulls alone", rows([number("n", o)], None, 5, keys=key(nothing)), "S7")
    bad(t, "a required column of nulls alone", flat(keys=key(arrow.field("n", False, arrow.NULL))), "N5")
    index = arrow.Table(0, arrow.Table(32, 1), 0)
    bad(t, "a key of a dictionary", rows(TEXT, b"ab", keys=key(arrow.field("s", False, arrow.UTF8, dictionary=index))), "N5")


# ---- tried by hand


def apart():
    t = "LARGE"
    good(t, "as many null rows as a page has", nulls(1048576), 1, 1048576, 1)
    good(t, "a null row more than a page has", nulls(1048577), 1, 1048577, 2)
    good(t, "null rows in pages", nulls(1000000, 48575, 2), 1, 1048577, 2, "a null row more than a page has")
    for size, pages in ((524283, 2), (524284, 3)):
        good(t, f"three byte strings of {size} bytes", rows(BYTES, *[bytes(size)] * 3), 1, 3, pages)
    t = "LATER"
    # the levels in front of the cut call for more values than there are, but of a page without its levels no values are called for
    text_ = bytes.fromhex("02000000 0302 02000000 0803 0100000002000000".replace(" ", ""))
    bad(t, "too few definition levels, behind too few values", first_page(body=text_), "S4")


for part in (nested, typed, grouped, spelled, framed, trees, placed, schemas, paged, leveled, counted, keyed, apart):
    part()
