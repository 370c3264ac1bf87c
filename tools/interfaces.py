#!/usr/bin/env python3
"""Links what `rt ci` keeps into a folder, as interfaces for `one.py` (BASES=FOLDER).

    tools/interfaces.py FOLDER [--newest] [--loop]

Of several proofs of a crate the first is taken, the last with --newest: interfaces serve only where all of them were proved over one another, so
a folder holds those of one chain. --loop looks again every twenty seconds."""
import glob
import json
import os
import shutil
import sys
import time

KEPT = "/opt/rattle-kept"


def chosen(newest):
    """For each crate the file that tells of the first proof of it, or of the last."""
    made = sorted(glob.glob(f"{KEPT}/proof-*/made.json"), key=os.path.getmtime, reverse=not newest)
    return {os.path.basename(os.path.dirname(it))[len("proof-"):].rsplit("-", 1)[0]: it for it in made}


def take(folder, crate, made):
    """Links one crate's files into its folder, whose name they get only when all of them are there."""
    out, part = f"{folder}/crates/{crate}/out", f"{folder}/crates/{crate}/part"
    if os.path.exists(f"{out}/from") and open(f"{out}/from").read() == made:
        return
    shutil.rmtree(part, ignore_errors=True)
    try:
        for number, (path, _) in enumerate(json.load(open(made))["files"]):
            os.makedirs(os.path.dirname(f"{part}/{path}"), exist_ok=True)
            os.link(f"{os.path.dirname(made)}/{number}", f"{part}/{path}")
    except (OSError, ValueError):
        # Still being kept, or set aside meanwhile: the next look takes it.
        return
    with open(f"{part}/from", "w") as it:
        it.write(made)
    shutil.rmtree(out, ignore_errors=True)
    os.rename(part, out)
    print(time.strftime("%H:%M"), crate, flush=True)


def main():
    while True:
        for crate, made in chosen("--newest" in sys.argv).items():
            take(sys.argv[1], crate, made)
        if "--loop" not in sys.argv:
            return
        time.sleep(20)


main()
