#!/usr/bin/env python3
"""theorem.py: lists the definitions of crates/*/specs on which the contract of a call rests.

usage: theorem.py [--list | --check] FILE [FUNCTION]      as: theorem.py crates/pq_rewrite/src/call.rt run

  --list      writes them as docs/THEOREM.md has them: a heading a crate, an item a file with the comment in front of it
  --check     writes nothing, but what docs/THEOREM.md lacks of that list, and counts that README.md or docs/THEOREM.md does not have; fails where there is any

It starts with the names in the clauses of the function (of all functions, if none is named), and follows each name through the definitions that its
definition names, by the `use` lines of their files. It prints the files, by crates in the order of crates.txt and in a crate each behind the files that it rests on, with the
definitions that are reached and the number of their lines. What the kit's library defines, and what structs and enums of the code declare, is left out.
"""

import os
import re
import sys

ROOT = os.path.dirname(os.path.dirname(os.path.realpath(__file__)))
WORD = re.compile(r"[^\s(){}\[\];,.]+")
START = re.compile(r"(?P<indent> *)(?:(?:abbrev|unfoldable) )*(?:pub )?(?:(?:abbrev|record|data|unfoldable) )*(?P<name>[^\s{}():.]+)(?= *[({:]| *$)")


class File:
    """A file of specs: its definitions with their lines, and what it brings in."""

    def __init__(self, path):
        self.path = path
        with open(path, encoding="utf-8") as file:
            self.lines = file.read().split("\n")
        self.spans, self.owners = {}, {}
        self.imports, self.renamed = {}, {}
        self.read_imports()
        self.read_definitions()

    def read_imports(self):
        for line in self.lines:
            found = re.match(r"(?:pub )?use Rattle\.(\w+)\.specs\.(.+?)(?:\.\{(.*)\})?$", line.strip())
            if not found:
                continue
            crate, module, names = found[1], found[2], found[3]
            target = f"{ROOT}/crates/{crate}/specs/{module.replace('.', '/')}.antt"
            if names is None:
                continue
            for part in re.split(r",\s*", names):
                words = part.split(" as ")
                self.imports[words[-1].strip()] = (target, words[0].strip())

    def read_definitions(self):
        is_mutual, name = False, None
        for number, line in enumerate(self.lines):
            if line.startswith("use ") or not line.strip() or line.lstrip().startswith("--"):
                continue
            if not line.startswith(" "):
                is_mutual = line.split()[-1] == "mutual"
                if is_mutual:
                    name = None
                    continue
            found = START.match(line)
            own = found and found["indent"] == ("  " if is_mutual else "")
            if own and found["name"] not in ("mutual", "where"):
                name = found["name"]
                self.spans.setdefault(name, [])
            elif own:
                continue
            elif line.startswith("  " if is_mutual else "") and not line.startswith(("   " if is_mutual else " ")):
                first = line.split()[0]
                name = first if first in self.spans else name
            if name:
                self.spans[name].append(number)
        for name, span in self.spans.items():
            self.owners[name] = name
            head = self.lines[span[0]]
            if re.search(r"\bdata\b", head):
                for number in span[1:]:
                    found = re.match(r" +((?:[^\s:(){}]+ )*[^\s:(){}]+) *:", self.lines[number])
                    for word in found[1].split() if found else []:
                        self.owners.setdefault(word, name)


FILES = {}


def file_at(path):
    if path not in FILES:
        FILES[path] = File(path) if os.path.exists(path) else None
    return FILES[path]


def reached(path, name, seen, order):
    """Adds a definition, behind all that it names."""
    file = file_at(path)
    if file is None or name not in file.owners:
        return
    name = file.owners[name]
    if (path, name) in seen:
        return
    seen.add((path, name))
    for number in file.spans[name]:
        for word in WORD.findall(file.lines[number]):
            for part in {word, *word.split(".")}:
                if part in file.owners:
                    reached(path, part, seen, order)
                elif part in file.imports:
                    reached(*file.imports[part], seen, order)
    order.append((path, name))


def clauses(text, function):
    """Returns the lines of the contracts of a function, or of all."""
    kept, is_own, is_open = [], function is None, False
    for line in text.split("\n"):
        found = re.match(r"\s*(?:pub(?:\([^)]*\))? )?fn (\w+)", line)
        if found:
            is_own = function is None or found[1] == function
        begins = is_own and re.match(r"\s*(requires|ensures|ghost)\b", line)
        if begins or is_open:
            kept.append(line)
            # A long clause goes on in the lines behind.
            is_open = "\n".join(kept).count("{") > "\n".join(kept).count("}")
    return kept


def crates():
    """Returns the crates in the order of crates.txt."""
    with open(os.path.join(ROOT, "crates.txt"), encoding="utf-8") as file:
        return [line.split(":")[0].split()[0] for line in file if line.strip() and not line.startswith("#")]


def parts(path):
    """Returns the crate of a file of specs, and its path below the crate."""
    words = os.path.relpath(path, ROOT).split(os.sep)
    return words[1], "/".join(words[2:])


def head_of(path):
    """Returns the comment in front of a file."""
    head = []
    for line in file_at(path).lines:
        if not line.startswith("--"):
            break
        head.append(line.lstrip("-").strip())
    return " ".join(head)


def in_reading_order(by_file):
    """Returns the files by crates, in a crate each behind those that it rests on."""
    places = {crate: at for at, crate in enumerate(crates())}
    placed = {}

    def place(path):
        if path in placed:
            return
        placed[path] = by_file[path]
        for target, _ in file_at(path).imports.values():
            if target in by_file and parts(target)[0] == parts(path)[0]:
                place(target)
        placed[path] = placed.pop(path)

    for path in sorted(by_file, key=lambda path: places[parts(path)[0]]):
        place(path)
    return placed


def found_in(path_of_source, function):
    """Returns the definitions that the contracts reach, each behind what it names, by files."""
    with open(path_of_source, encoding="utf-8") as file:
        text = file.read()
    names = {}
    for found in re.finditer(r"ghost use Rattle\.(\w+)\.specs\.([\w.]+)\.\{([^}]*)\}", text):
        target = f"{ROOT}/crates/{found[1]}/specs/{found[2].replace('.', '/')}.antt"
        for part in re.split(r",\s*", found[3]):
            words = part.split(" as ")
            names[words[-1].strip()] = (target, words[0].strip())
    seen, order = set(), []
    for line in clauses(text, function):
        for word in WORD.findall(line):
            if word in names:
                reached(*names[word], seen, order)
    by_file = {}
    for path, name in order:
        by_file.setdefault(path, []).append(name)
    return in_reading_order(by_file)


def size(path, found):
    """Returns the number of lines of the found definitions of a file."""
    return sum(len(file_at(path).spans[name]) for name in found)


def item(path, found):
    """Returns the line of docs/THEOREM.md for a file."""
    return f"- {parts(path)[1]}: {head_of(path)} {', '.join(f'`{name}`' for name in found)}."


def print_plain(by_file):
    for path, found in by_file.items():
        print(f"{os.path.relpath(path, ROOT)} ({size(path, found)} lines): {' '.join(found)}")


def print_list(by_file):
    crate = None
    for path, found in by_file.items():
        if parts(path)[0] != crate:
            crate = parts(path)[0]
            print(f"\n### {crate}\n")
        print(item(path, found))
    print()


def lacks(by_file, counts):
    """Returns what the documents lack of the list and its counts."""
    pages = {}
    for name in ("README.md", "docs/THEOREM.md"):
        with open(os.path.join(ROOT, name), encoding="utf-8") as file:
            pages[name] = file.read()
    lines = set(pages["docs/THEOREM.md"].split("\n"))
    missing = [line for path, found in by_file.items() if (line := item(path, found)) not in lines]
    return missing + [f"{name}: {counts}" for name, text in pages.items() if counts not in text]


def main():
    words = sys.argv[1:]
    way = words.pop(0) if words and words[0] in ("--list", "--check") else None
    if len(words) not in (1, 2):
        print(__doc__, file=sys.stderr)
        return 2
    sys.setrecursionlimit(10_000)
    by_file = found_in(words[0], words[1] if len(words) == 2 else None)
    counts = f"{sum(len(found) for found in by_file.values())} definitions in {len(by_file)} files"
    if way == "--check":
        missing = lacks(by_file, counts)
        for line in missing:
            print(f"docs/THEOREM.md is not up to date: {line}", file=sys.stderr)
        return 1 if missing else 0
    (print_list if way else print_plain)(by_file)
    print(f"{counts}, {sum(size(path, found) for path, found in by_file.items())} lines")
    return 0


if __name__ == "__main__":
    sys.exit(main())
