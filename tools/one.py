#!/usr/bin/env python3
"""Proves one crate over the interfaces of the crates below, which are not proved again.

    tools/one.py check CRATE [flags of rattle check, e.g. --only NAME --allow-holes]    proves it
    tools/one.py build CRATE                                                            its interface, for the crates above it, in CLONE/.own: a minute or two behind a check

To be run anywhere in a clone. Interfaces come from CLONE/.own, then from the folders in BASES (clones in which `rt ci` has proved crates: each
BASE/crates/NAME/out/rlib), then from the kit."""
import os
import subprocess
import sys

KIT = "/opt/rattle"
ROOT = os.getcwd()
while not os.path.exists(f"{ROOT}/crates.txt"):
    ROOT = os.path.dirname(ROOT)
OWN = f"{ROOT}/.own"
PLACES = [f"{OWN}/{{0}}.rlib"]
PLACES += [f"{it}/crates/{{0}}/out/rlib/{{0}}.rlib" for it in os.environ.get("BASES", ROOT).split(":")]
PLACES += [f"{KIT}/rlibs/{{0}}.rlib"]


def read_crates():
    """The crates that each crate names, by crates.txt."""
    named = {}
    for line in open(f"{ROOT}/crates.txt"):
        name, _, below = line.split("#")[0].partition(":")
        if name.strip():
            named[name.strip()] = below.split()
    return named


def interface(name):
    """The folder of a crate's interface, or None."""
    return next((it.format(name) for it in PLACES if os.path.isdir(it.format(name))), None)


def below(named, name, seen):
    """Appends all crates on which a crate stands."""
    for it in named.get(name, []):
        if it not in seen:
            seen.append(it)
            below(named, it, seen)
    return seen


def command(verb, crate):
    """The words that check or build a crate in its folder, but for where it keeps what it did."""
    named = read_crates()
    words = [f"{KIT}/bin/rattle", verb, "--crate-name", crate, "src/lib.rt", "--extern", f"std={KIT}/rlibs/std.rlib"]
    found = [interface(it) for it in below(named, crate, [])]
    folders = dict.fromkeys(os.path.dirname(it) for it in found if it)
    for it in [*folders, f"{KIT}/rlibs"]:
        words += ["-L", f"dependency={it}"]
    for it in named[crate]:
        if not interface(it):
            sys.exit(f"no interface of {it}: prove it first, or name a clone that has it in BASES")
        words += ["--extern", f"{it}={interface(it)}"]
    words += ["--antt-project", f"{KIT}/rattle/logic/antt-project.json", "--logic-built", f"{KIT}/logic_built"]
    return words + ["--links", f"{crate}=", "--jobs", "1"]


def main():
    verb, crate, flags = sys.argv[1], sys.argv[2], sys.argv[3:]
    words = [*command(verb, crate), "--incremental", "out/incremental"]
    if verb == "build":
        os.makedirs(OWN, exist_ok=True)
        words += ["-o", f"{OWN}/{crate}.rlib"]
    os.chdir(f"{ROOT}/crates/{crate}")
    os.makedirs("out", exist_ok=True)
    sys.exit(subprocess.call(words + flags))


if __name__ == "__main__":
    main()
