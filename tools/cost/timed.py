#!/usr/bin/env python3
"""timed.py: what each function of many crates costs, noted while `tools/kept.py` proves them.

usage: TIMES=FOLDER tools/kept.py ..       notes in FOLDER/CRATE (and FOLDER/CRATE.tests) the processor seconds at which each function was checked
       timed.py FOLDER [N]                 prints each crate's seconds (all, before the first function, behind the last) and the N dearest functions

In a run of kept.py it stands in the place of `rattle`: a build is a check that tells its progress, and a build of what that check proved. A function's
seconds hold those of the lemma files and types that were checked right before it, and of a cycle of calls the first one's hold the whole."""
import glob
import os
import re
import shutil
import subprocess
import sys
import tempfile

RATTLE = "/opt/rattle/bin/rattle"
TICK = os.sysconf("SC_CLK_TCK")
CHECKED = re.compile(r"checked (\S+), \d+ of \d+")


def processor_seconds(pid):
    try:
        with open(f"/proc/{pid}/stat") as it:
            words = it.read().rpartition(")")[2].split()
        return sum(int(it) for it in words[11:15]) / TICK
    except OSError:
        return 0.0


def without(words, *flags):
    """The words but for these flags and the values behind them."""
    words = list(words)
    for flag in flags:
        if flag in words:
            at = words.index(flag)
            del words[at : at + (1 if flag in ("--statements", "--empty-contracts") else 2)]
    return words


def check(words, notes):
    """Runs a check, notes when each function ended, hands its other lines on and returns its status."""
    ran = subprocess.Popen([RATTLE, *words, "--progress"], stdout=subprocess.PIPE, stderr=subprocess.STDOUT, bufsize=0)
    rest = b""
    with open(notes, "w") as it:
        for part in iter(lambda: os.read(ran.stdout.fileno(), 65536), b""):
            *lines, rest = (rest + part).split(b"\n")
            for line in lines:
                text = line.decode(errors="replace")
                it.write(f"{processor_seconds(ran.pid):.2f} {text}\n")
                if not CHECKED.match(text):
                    print(text, flush=True)
    return ran.wait()


def stand_in(words):
    if words[:1] not in (["build"], ["check"]) or "--crate-name" not in words or "--help" in words or "--crate-checked" in words:
        os.execv(RATTLE, [RATTLE, *words])
    os.makedirs(os.environ["TIMES"], exist_ok=True)
    notes = f"{os.environ['TIMES']}/{words[words.index('--crate-name') + 1]}{'.tests' if '--test' in words else ''}"
    if words[0] == "check":
        return check(words, notes)
    with tempfile.TemporaryDirectory(prefix="timed-") as room:
        status = check(["check", *without(words[1:], "-o", "--toolchain", "--backend"), "-o", f"{room}/checked"], notes)
        if status:
            return status
        # its last line has words of its own, which the judge does not know
        again = ["build", *without(words[1:], "--logic-built", "--jobs", "--statements", "--empty-contracts"), "--crate-checked", f"{room}/checked"]
        ran = subprocess.run([RATTLE, *again], stdout=subprocess.PIPE, stderr=subprocess.STDOUT, text=True)
        if ran.returncode:
            print(ran.stdout, end="")
        return ran.returncode


def table(folder, most):
    crates, functions = {}, []
    for file in glob.glob(f"{folder}/*"):
        first = last = end = 0.0
        with open(file) as it:
            for line in it:
                at, _, text = line.partition(" ")
                end, told = float(at), CHECKED.match(text)
                if told:
                    if last:
                        functions.append((end - last, told[1]))
                    first, last = first or end, end
        crates[os.path.basename(file)] = end, first, end - last
    print("all, before the first function (with it), behind the last")
    for name, (end, first, behind) in sorted(crates.items(), key=lambda it: -it[1][0]):
        print(f"{end:8.0f} {first:6.0f} {behind:6.0f}  {name}")
    print("%8.0f %6.0f %6.0f  all" % tuple(sum(it[at] for it in crates.values()) for at in range(3)))
    for seconds, name in sorted(functions, reverse=True)[:most]:
        print(f"{seconds:8.1f}  {name}")


if len(sys.argv) > 1 and os.path.isdir(sys.argv[1]):
    table(sys.argv[1], int(sys.argv[2]) if len(sys.argv) > 2 else 40)
else:
    sys.exit(stand_in(sys.argv[1:]))
