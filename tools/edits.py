#!/usr/bin/env python3
"""Looks whether each text that a must-fail edit quotes stands exactly once in its file: those of the gate, and those in tools/wrong.

    tools/edits.py [CRATE ..]"""
import glob
import os
import sys

ROOT = os.path.dirname(os.path.dirname(os.path.abspath(__file__)))


def texts_of(edit):
    """The file and the text of each place of an edit."""
    file = None
    for line in open(edit).read().split("\n"):
        word, _, text = line.partition(": ")
        if word == "file":
            file = text.strip()
        elif word == "old":
            yield file, text


def main():
    seen = wrong = 0
    for edit in sorted([*glob.glob(f"{ROOT}/crates/*/must-fail/*.edit"), *glob.glob(f"{ROOT}/tools/wrong/*/*.edit")]):
        crate = os.path.relpath(edit, ROOT).split("/")[1 if "/must-fail/" in edit else 2]
        if sys.argv[1:] and crate not in sys.argv[1:]:
            continue
        for file, text in texts_of(edit):
            path = f"{ROOT}/crates/{crate}/{file}"
            count = open(path).read().count(text) if os.path.exists(path) else 0
            seen += 1
            if count != 1:
                wrong += 1
                print(f"{os.path.relpath(edit, ROOT)}: {count} times in {file}: {text}")
    print(f"{seen} texts, {wrong} do not stand exactly once")
    sys.exit(wrong > 0)


main()
