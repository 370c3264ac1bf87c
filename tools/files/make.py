#!/usr/bin/env python3
"""make.py: makes small Parquet files of every form and damage, and tells what a program does on them.

usage: make.py                          writes the table as Rattle sources, crates/rewrite_tests/src/files
       make.py --write DIR              writes each file to DIR, and table.txt with the status and the line of each
       make.py --check PROGRAM [WORD..] runs the program on each file, and tells where its status or line is another
       make.py --compare DIR PROGRAM [WORD..]
                                        runs it too, keeps its outputs in DIR, and tells where an output has other rows than its input, is not
                                        of the form that is written, changes when it is rewritten again, or differs from that of a file alike

The program takes a file from standard input and gives one to standard output, and a line to standard error. Statuses and lines are those of
cases.py. Nothing but the standard library is used.
"""

import os
import re
import subprocess
import sys

import cases
import reader

ROOT = os.path.dirname(os.path.dirname(os.path.dirname(os.path.realpath(__file__))))
FOLDER = os.path.join(ROOT, "crates", "rewrite_tests", "src", "files")
ABOUT = {
    "NESTED": "Rows of every nesting, with nulls and empty lists at each level.",
    "TYPED": "Columns of every type that is read.",
    "GROUPED": "Groups, and key values.",
    "SPELLED": "Files that are rewritten as one before them is.",
    "FRAMED": "Frames and footers that are refused.",
    "TREES": "Trees that are refused.",
    "PLACED": "Groups and chunks that are refused.",
    "SCHEMAS": "Schemas that are refused.",
    "PAGED": "Pages that are refused.",
    "LEVELED": "Levels and values that are refused.",
    "COUNTED": "Columns that no rows have, or other rows than their group.",
    "KEYED": "Files whose schema stands under the key.",
}
# the words with which files are tried: the schema under the key counts in one table
WORDS = {"KEYED": []}
HEAD = "//! {}\n//! Made by tools/files/make.py; cases.py beside it says what each file is.\n"


def sign_of(byte):
    """Returns a byte as it stands in a literal."""
    char = chr(byte)
    return "\\" + char if char in '"\\' else char if 32 < byte < 127 else f"\\x{byte:02x}"


def literal(value, indent):
    """Returns bytes as a literal, in lines of at most 100 signs. The magic bytes stay in one line."""
    signs = []
    for part in re.split(b"(PAR1)", value):
        signs += ["PAR1"] if part == b"PAR1" else [sign_of(byte) for byte in part]
    lines, line = [], ""
    for sign in signs:
        if len(line) + len(sign) > 100:
            lines.append(line)
            line = ""
        line += sign
    lines.append(line)
    return 'b"' + ("\\\n" + " " * indent).join(lines) + '"'


def tables():
    """Returns the tables of the crate in their order, each with its cases."""
    out = {}
    for case in cases.CASES:
        if case.table not in cases.APART:
            out.setdefault(case.table, []).append(case)
    return out


def constant(name):
    """Returns the name of the constant that has the bytes of a file that others are alike to."""
    return "".join(c if c.isalnum() else "_" for c in name).upper()


def in_tables():
    """Returns the pairs of files alike that stand in the tables of the crate."""
    names = {case.name for case in cases.CASES if case.table not in cases.APART}
    return [pair for pair in cases.ALIKE if pair[1] in names]


def row(case):
    """Returns a row of a table."""
    likes = {other: one for one, other in in_tables()}
    data = "super::bases::" + constant(case.name) if case.name in likes.values() else literal(case.file, 8)
    like = "super::bases::" + constant(likes[case.name]) if case.name in likes else "&[]"
    line = literal(case.line.encode() + b"\n", 0).replace("\\x0a", "\\n").replace("\\x20", " ")
    parts = {"name": f'"{case.name}"', "bytes": data, "like": like, "status": case.status, "line": line}
    return "    File {\n" + "".join(f"        {name}: {text},\n" for name, text in parts.items()) + "    },\n"


def source(table, mine):
    return HEAD.format(ABOUT[table]) + f"use super::File;\n\npub(crate) const {table}: &[File] = &[\n" + "".join(map(row, mine)) + "];\n"


def bases():
    """Returns the files that others are alike to."""
    names = {one for one, _ in in_tables()}
    rows = [f"\n/// {case.name.capitalize()}.\npub(crate) const {constant(case.name)}: &[u8] =\n    {literal(case.file, 4)};\n" for case in cases.CASES if case.name in names]
    return HEAD.format("Files that others are rewritten as.") + "".join(rows)


def larges():
    """Returns the files of long byte strings of zeros, as what stands around these."""
    rows = []
    for case in cases.CASES:
        words = case.name.split()
        if words[:3] != ["three", "byte", "strings"]:
            continue
        size = int(words[4])
        value = size.to_bytes(4, "little") + bytes(size)
        front, back = case.file[: case.file.index(value)], case.file[case.file.index(value) + 3 * len(value) :]
        assert case.file == front + 3 * value + back
        parts = {"front": literal(front, 8), "length": literal(value[:4], 8), "size": size, "rows": 3, "back": literal(back, 8)}
        parts["line"] = f'b"{case.line}\\n"'
        rows.append("    Long {\n" + "".join(f"        {name}: {text},\n" for name, text in parts.items()) + "    },\n")
    return HEAD.format("Files of byte strings that are too long for one page.") + "use super::Long;\n\npub(crate) const LARGE: &[Long] = &[\n" + "".join(rows) + "];\n"


def write_sources():
    os.makedirs(FOLDER, exist_ok=True)
    texts = {table.lower(): source(table, mine) for table, mine in tables().items()}
    for name, text in {**texts, "bases": bases(), "large": larges()}.items():
        with open(os.path.join(FOLDER, name + ".rt"), "w", encoding="utf-8") as file:
            file.write(text)


def file_name(case):
    return "".join(c if c.isalnum() else "_" for c in case.name) + ".parquet"


def write_files(folder):
    os.makedirs(folder, exist_ok=True)
    with open(os.path.join(folder, "table.txt"), "w", encoding="utf-8") as table:
        for case in cases.CASES:
            with open(os.path.join(folder, file_name(case)), "wb") as file:
                file.write(case.file)
            table.write(f"{case.status}\t{case.line}\t{file_name(case)}\n")


def run(program, data):
    made = subprocess.run(program, input=data, stdout=subprocess.PIPE, stderr=subprocess.PIPE, check=False)
    return made.returncode, made.stdout, made.stderr.decode(errors="replace").rstrip("\n")


def words_of(case):
    return WORDS.get(case.table, ["--ignore-key"])


def check(program):
    """Tells where status or line are others, and returns whether all are right."""
    wrong = 0
    for case in cases.CASES:
        status, output, line = run(program + words_of(case), case.file)
        if (status, line) != (case.status, case.line) or (output != b"") != (case.status == 0):
            wrong += 1
            print(f"{case.table}: {case.name}: {status} {line!r}, not {case.status} {case.line!r}")
    print(f"{len(cases.CASES)} files, {wrong} otherwise")
    return wrong == 0


def complaints(case, output, again):
    """Returns what is wrong with an output."""
    out = []
    try:
        given, made = reader.Parsed(case.file), reader.Parsed(output)
        if given.rows() != made.rows():
            out.append(f"rows {made.rows()}, not {given.rows()}")
        # what a schema under the key is written as, is not told from the tree
        out += reader.form(given, made) if case.table != "KEYED" else []
    except (AssertionError, IndexError, KeyError, StopIteration, ValueError) as error:
        out.append(f"not read: {type(error).__name__} {error}")
    if again[:2] != (0, output):
        out.append(f"rewritten again: {again[0]} {again[2]}, {len(again[1])} bytes of {len(output)}")
    return out


def compare(folder, program):
    os.makedirs(folder, exist_ok=True)
    wrong, unknown, outputs = 0, 0, {}
    for case in cases.CASES:
        if case.status:
            continue
        program_ = program + words_of(case)
        status, output, line = run(program_, case.file)
        outputs[case.name] = output
        with open(os.path.join(folder, file_name(case)), "wb") as file:
            file.write(output)
        try:
            told = complaints(case, output, run(program_, output)) if status == 0 else [f"{status} {line}"]
        except reader.Unknown:
            unknown += 1
            continue
        wrong += bool(told)
        for text in told:
            print(f"{case.table}: {case.name}: {text}")
    for one, other in cases.ALIKE:
        if outputs[one] != outputs[other]:
            wrong += 1
            print(f"{other}: not the bytes of: {one}")
    print(f"{len(outputs)} outputs, {wrong} complaints; {unknown} are of types or encodings that the reader does not know")
    return wrong == 0


def main(words):
    if not words:
        write_sources()
    elif words[0] == "--write" and len(words) == 2:
        write_files(words[1])
    elif words[0] == "--check" and len(words) > 1:
        return 0 if check(words[1:]) else 1
    elif words[0] == "--compare" and len(words) > 2:
        return 0 if compare(words[1], words[2:]) else 1
    else:
        print(__doc__)
        return 2
    return 0


if __name__ == "__main__":
    sys.exit(main(sys.argv[1:]))
