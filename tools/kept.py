#!/usr/bin/env python3
"""kept.py: what `rt ci` does, over what earlier runs on this machine have proved of the very same files. It is for work between two gates; the gate is `rt ci`.

usage: kept.py [--no-edits] [--no-tests] [CRATE ..]     at the top of a clean clone: all crates, or those named over what they stand on, whose own tests and edits are left out
       kept.py --harvest CLONE LOG                       takes over what a run of `rt ci` in CLONE, with its output in LOG, has proved so far

Some kits' `rt ci` keeps nothing and takes no names, so that each run proves everything anew. This one keeps, for each crate, what it built under a sum of the
crate's files and of those of all crates below it (KEPT, or /tmp/kept), and proves only what changed. With TIMES=FOLDER it also notes what each function costs (tools/cost/timed.py). A run of `rt ci` need not have ended to be harvested.
"""
import hashlib
import os
import re
import shutil
import sys
import time
from importlib.machinery import SourceFileLoader

HOME = os.path.dirname(os.path.realpath(shutil.which("rt")))
sys.path.insert(0, HOME)
rt = SourceFileLoader("rtmain", f"{HOME}/rt").load_module()
rtlib = rt.rtlib
STORE = os.environ.get("KEPT", "/tmp/kept")
FLAGS = [it for it in sys.argv[1:] if it.startswith("--")]
NAMES = [it for it in sys.argv[1:] if not it.startswith("--")]


SUMS, SUM = {}, rt.Crate.stamp


def stamp(crate):
    """The kit's sum of the crate's files and those of all below, made once a run: change no file while one goes on."""
    if crate.folder not in SUMS:
        SUMS[crate.folder] = SUM(crate)
    return SUMS[crate.folder]


rt.Crate.stamp = stamp


def place(crate, what):
    return f"{STORE}/{crate.name}-{what}-{crate.stamp()[:24]}"


def built(crate, what):
    """The files and folders in out/ that a check of the crate, or of its tests, leaves for others."""
    out = f"{crate.folder}/out"
    if what == "tests":
        return [it for it in (f"{crate.name}_tests",) if os.path.isfile(f"{out}/{it}")]
    found = os.listdir(out) if os.path.isdir(out) else []
    return [it for it in found if not it.endswith(("_tests", ".o")) and it not in ("incremental", "stdout")]


def copy(source, target):
    shutil.rmtree(target, ignore_errors=True)
    if os.path.isdir(source):
        shutil.copytree(source, target, symlinks=True)
    else:
        shutil.copy2(source, target)


def keep(crate, what):
    to = place(crate, what)
    half = f"{to}.half{os.getpid()}"
    os.makedirs(half)
    for it in built(crate, what):
        copy(f"{crate.folder}/out/{it}", f"{half}/{it}")
    shutil.rmtree(to, ignore_errors=True)
    os.rename(half, to)


def take(crate, what):
    """Puts what is kept into the crate's out/, and returns whether there was any."""
    if not os.path.isdir(place(crate, what)):
        return False
    os.makedirs(f"{crate.folder}/out", exist_ok=True)
    for it in os.listdir(place(crate, what)):
        copy(f"{place(crate, what)}/{it}", f"{crate.folder}/out/{it}")
    return True


def ci(crate, flags, tests):
    what = "tests" if tests else "proof"
    if take(crate, what):
        rt.say(f"{crate.name}: {what} kept", crate.out)
        return 0
    if tests and ("--no-tests" in FLAGS or NAMES and crate.name not in NAMES):
        return 0
    start = time.time()
    status = PROVE(crate, flags, tests)
    if status == 0:
        keep(crate, what)
    print(f"{crate.name} {what}: {time.time() - start:.0f} s, {' '.join(flags)}", file=sys.stderr, flush=True)
    return status


def edit_place(crate, edit):
    with open(edit, "rb") as it:
        return f"{place(crate, 'edit')}-{hashlib.sha256(it.read()).hexdigest()[:16]}"


def must_fail_all(crate, edits, flags):
    if "--no-edits" in FLAGS or NAMES and crate.name not in NAMES:
        return []
    todo = [it for it in edits if not os.path.exists(edit_place(crate, it))]
    tried = dict(zip(todo, TRY(crate, todo, flags))) if todo else {}
    for edit, (refused, text) in tried.items():
        if refused:
            with open(edit_place(crate, edit), "w") as it:
                it.write(text)
    return [tried[it] if it in tried else (True, f"{open(edit_place(crate, it)).read()} (kept)") for it in edits]


def crates_of(root, aside):
    crates = ALL(root, aside)
    wanted = {name for it in crates if it.name in NAMES for name in (it.name, *(low.name for low in it.below()))}
    return [it for it in crates if it.name in wanted]


def harvest(clone, log):
    with open(log, errors="replace") as it:
        text = it.read()
    os.chdir(clone)
    rtlib.Crate = rt.Crate
    found = 0
    for crate in rtlib.crates_below(clone):
        said = {"proof": rf"^rt: {crate.name} proved$", "tests": rf"^rt: {crate.name}: its tests are proved$"}
        for what, line in said.items():
            if re.search(line, text, re.M) and not os.path.isdir(place(crate, what)) and built(crate, what):
                keep(crate, what)
                found += 1
        for line in re.finditer(rf"^rt: must-fail {crate.name}/(\S+\.edit): refused.*$", text, re.M):
            edit = f"{crate.folder}/must-fail/{line[1]}"
            if os.path.exists(edit) and not os.path.exists(edit_place(crate, edit)):
                with open(edit_place(crate, edit), "w") as it:
                    it.write(line[0][4:])
                found += 1
    print(f"{found} taken over")


os.makedirs(STORE, exist_ok=True)
if "--harvest" in FLAGS:
    harvest(*NAMES)
    sys.exit(0)
if os.environ.get("TIMES"):
    rtlib.RATTLE = f"{os.path.dirname(os.path.abspath(__file__))}/cost/timed.py"
PROVE, TRY, ALL = rt.Crate.ci, rt.must_fail_all, rt.crates_of
rt.Crate.ci, rt.must_fail_all = ci, must_fail_all
if NAMES:
    # the folders of crates that are not named are read by no check of this run
    rt.crates_of, rtlib.stop_on_unread = crates_of, lambda *_: None
sys.exit(rt.ci())
