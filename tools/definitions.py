#!/usr/bin/env python3
"""definitions.py: writes docs/DEFINITIONS.md, the index of all definitions in crates/*/specs.

usage: definitions.py            writes the file anew
       definitions.py --check    says nothing and ends with 0 where the file is up to date, else says so and ends with 1

Crates stand in the order of crates.txt, and files in that of their names. Of a file the comment in front is given, of a definition the first
sentence of the comment above it. Definitions without a comment are listed at the end of their file.
"""

import os
import re
import sys

ROOT = os.path.dirname(os.path.dirname(os.path.realpath(__file__)))
INDEX = os.path.join(ROOT, "docs", "DEFINITIONS.md")
DEFINITION = re.compile(r"( *)(?:abbrev |unfoldable )*pub (?:(?:abbrev|record|data|unfoldable) )*([^\s{}:().]+)")
HEAD = """# Definitions

An index of every definition in `crates/*/specs`, made by `python3 tools/definitions.py`; `.ci/run` checks that it is up to date. The
definitions on which the headline rests, in reading order, are those of THEOREM.md; what guards each is in GUARDS.md.
"""


def crates():
    """Returns the crates in the order of crates.txt."""
    with open(os.path.join(ROOT, "crates.txt"), encoding="utf-8") as file:
        return [line.split(":")[0].split()[0] for line in file if line.strip() and not line.startswith("#")]


def files_of(crate):
    """Returns the paths of the crate's files of specs, but for Lib.antt."""
    top = os.path.join(ROOT, "crates", crate, "specs")
    found = []
    for folder, _, names in os.walk(top):
        found += [os.path.join(folder, name) for name in names if name.endswith(".antt") and name != "Lib.antt"]
    return sorted(found)


def sentence(comment):
    """Returns the first sentence of a comment's lines."""
    text = " ".join(line.strip().lstrip("-").strip() for line in comment)
    end = re.search(r"[.:](?= [A-Z])|\.$", text)
    return (text[: end.start()] if end else text).replace("|", "\\|").strip()


def definitions(lines):
    """Gives the name and the comment of each definition: those at the left, and those in a mutual block."""
    is_mutual, comment = False, []
    for line in lines:
        if line.lstrip().startswith("--"):
            comment = [] if line.lstrip().startswith("-- ----") else comment + [line]
            continue
        if line and not line.startswith(" "):
            is_mutual = line.split()[-1] == "mutual"
        found = DEFINITION.match(line)
        if found and found[2] not in ("mod", "use") and found[1] == ("  " if is_mutual else ""):
            yield found[2], comment
        comment = []


def index_of(path, crate):
    """Returns the lines of a file's part of the index."""
    with open(path, encoding="utf-8") as file:
        lines = file.read().split("\n")
    head = []
    while lines and lines[0].startswith("--"):
        head.append(lines.pop(0))
    name = os.path.relpath(path, os.path.join(ROOT, "crates", crate))
    about = " ".join(line.lstrip("-").strip() for line in head)
    told, bare = [], []
    for word, comment in definitions(lines):
        if comment:
            told.append(f"- `{word}`: {sentence(comment)}.")
        else:
            bare.append(f"`{word}`")
    if not told and not bare:
        return []
    text = [f"### {name}", "", about, ""] if about else [f"### {name}", ""]
    if bare:
        told.append(("- also " if told else "- ") + ", ".join(bare))
    return text + told + [""]


def index():
    """Returns the whole text."""
    text = [HEAD]
    for crate in crates():
        parts = [line for path in files_of(crate) for line in index_of(path, crate)]
        if parts:
            text += [f"## {crate}", ""] + parts
    return "\n".join(text).rstrip() + "\n"


def main():
    wanted = index()
    if sys.argv[1:] == ["--check"]:
        with open(INDEX, encoding="utf-8") as file:
            if file.read() == wanted:
                return 0
        print("docs/DEFINITIONS.md is not up to date: run python3 tools/definitions.py", file=sys.stderr)
        return 1
    if sys.argv[1:]:
        print(__doc__, file=sys.stderr)
        return 2
    with open(INDEX, "w", encoding="utf-8") as file:
        file.write(wanted)
    return 0


if __name__ == "__main__":
    sys.exit(main())
