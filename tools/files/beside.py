#!/usr/bin/env python3
"""beside.py: runs two programs of the same job beside each other on files as by chance, and prints where they differ.

usage: beside.py PROGRAM OTHER MAKER COUNT [--seed N] [--jobs N] [--keep DIR]

PROGRAM is the program of this repository, OTHER one that takes the same words, MAKER one that writes a file: `MAKER SHAPE ROWS [--version= --page= --group= --no-stats]`.
Each file is as it was made, or has one to three places changed, taken out or put in; the words are drawn as well. Compared are the status, the line on standard error and, where both
write a file, the rows: OTHER makes of both outputs, without words, the same bytes. The files of differences are kept in DIR, by their numbers: the same seed makes the same files.
"""

import argparse
import collections
import multiprocessing
import os
import random
import subprocess
import sys

SHAPES = ["sample", "deep", "wide", "strings", "ints", "opts", "dict", "delta", "lists", "longlists", "reqlists", "structs", "maps", "bools"]
WORDS = [[], [], [], ["--version=2"], ["--no-stats"], ["--delta"], ["--version=2", "--delta"], ["--page=64"], ["--page=1", "--version=2"], ["--chunk=7"], ["--chunk=1"], ["--chunk=100", "--delta"],
         ["--limit=4000"], ["--pairs=500"], ["--chunk=0"], ["--page=1000", "--chunk=33", "--no-stats"]]
FIXED = ["--ignore-key"]


def run(words, source):
    """Returns the status, the line and the output of a program."""
    done = subprocess.run(words, input=source, stdout=subprocess.PIPE, stderr=subprocess.PIPE, timeout=120, check=False)
    return done.returncode, done.stderr.decode("utf-8", "replace").strip(), done.stdout


def made(draw, maker):
    """Returns a file, and the words that it was made of."""
    rows = draw.choice([0, 1, 2, 3, 7, 8, 9, 30, 100, 100, 400])
    shape = draw.choice(SHAPES)
    rows = min(rows, 10) if shape in ("wide", "longlists") else rows
    words = [shape, str(rows)]
    if draw.random() < 0.5:
        words.append(f"--version={draw.choice([1, 2])}")
    if draw.random() < 0.5:
        words.append(f"--page={draw.choice([1, 16, 100, 1000])}")
    if draw.random() < 0.5:
        words.append(f"--group={draw.choice([1, 2, 5, 64])}")
    if draw.random() < 0.3:
        words.append("--no-stats")
    return words, run([maker, *words], b"")[2]


def damaged(draw, source):
    """Returns the file with one to three places changed."""
    text = bytearray(source)
    for _ in range(draw.choice([1, 1, 2, 3])):
        if not text:
            break
        # in the footer, in the first pages or anywhere
        place = draw.choice([draw.randrange(len(text)), draw.randrange(max(0, len(text) - 400), len(text)), draw.randrange(min(len(text), 60))])
        way = draw.random()
        if way < 0.4:
            text[place] = draw.randrange(256)
        elif way < 0.6:
            text[place] ^= 1 << draw.randrange(8)
        elif way < 0.75:
            text[place] = (text[place] + draw.choice([-2, -1, 1, 2])) % 256
        elif way < 0.9:
            del text[place : place + draw.choice([1, 1, 2, 5])]
        else:
            text[place:place] = bytes(draw.randrange(256) for _ in range(draw.choice([1, 1, 3])))
    return bytes(text)


def judge(task):
    """Returns what is told of one file: whether it is whole, the kind of difference, and the file with its words."""
    program, other, maker, seed, number = task
    draw = random.Random(seed * 1_000_003 + number)
    how, source = made(draw, maker)
    is_whole = draw.random() < 0.3
    if not is_whole:
        source = damaged(draw, source)
    words = FIXED + draw.choice(WORDS)
    ours, theirs = run([program, *words], source), run([other, *words], source)
    kind = None
    if ours[:2] != theirs[:2]:
        kind = f"{ours[1]} here, {theirs[1]} there"
    elif ours[0] == 0 and run([other], ours[2]) != run([other], theirs[2]):
        kind = "other rows"
    return number, is_whole, ours[0] == 0, kind, how, words, source if kind else None


def main():
    parser = argparse.ArgumentParser(description=__doc__, formatter_class=argparse.RawDescriptionHelpFormatter)
    parser.add_argument("program")
    parser.add_argument("other")
    parser.add_argument("maker")
    parser.add_argument("count", type=int)
    parser.add_argument("--seed", type=int, default=1)
    parser.add_argument("--jobs", type=int, default=2)
    parser.add_argument("--keep")
    asked = parser.parse_args()
    tasks = [(asked.program, asked.other, asked.maker, asked.seed, number) for number in range(asked.count)]
    whole, taken, kinds, worst = 0, 0, collections.Counter(), False
    with multiprocessing.Pool(asked.jobs) as pool:
        for number, is_whole, is_taken, kind, how, words, source in pool.imap(judge, tasks, 16):
            whole, taken = whole + is_whole, taken + is_taken
            if not kind:
                continue
            kinds[kind] += 1
            worst = worst or is_whole
            print(f"{number}{' (whole)' if is_whole else ''}: {' '.join(how)}; {' '.join(words)}: {kind}", flush=True)
            if asked.keep:
                os.makedirs(asked.keep, exist_ok=True)
                with open(f"{asked.keep}/{number}.parquet", "wb") as file:
                    file.write(source)
    print(f"{asked.count} files, {whole} of them whole, {taken} rewritten; {sum(kinds.values())} differences")
    for kind, count in kinds.most_common():
        print(f"{count:6} {kind}")
    return 1 if worst else 0


if __name__ == "__main__":
    sys.exit(main())
