#!/usr/bin/env python3
"""Counts a program's instructions by callgrind, by the pair and by function.

    tools/speed/count.py PROGRAM FILE PAIRS [WORD..]     the file on standard input, the program's words behind"""
import re
import subprocess
import sys
import tempfile

program, file, pairs, words = sys.argv[1], sys.argv[2], int(sys.argv[3]), sys.argv[4:]
with tempfile.NamedTemporaryFile() as counts:
    tool = ["valgrind", "--tool=callgrind", f"--callgrind-out-file={counts.name}"]
    with open(file, "rb") as it:
        subprocess.run([*tool, program, *words], stdin=it, stdout=subprocess.DEVNULL, stderr=subprocess.DEVNULL)
    lines = subprocess.run(["callgrind_annotate", counts.name], capture_output=True, text=True).stdout.split("\n")
for line in lines:
    row = re.match(r"\s*([\d,]+) \([ \d.]+%\)\s+(?:\S*?:)?(.*?)(?: \[.*)?$", line)
    if row and int(row.group(1).replace(",", "")) / pairs >= 0.05:
        print("%9.2f  %s" % (int(row.group(1).replace(",", "")) / pairs, row.group(2)))
