#!/usr/bin/env python3
"""Builds a program unproved, as LLVM builds it behind a proof: to measure a change before it is proved, and for nothing else.

    tools/speed/build.py CRATE OUT     a minute for a bench, three to four for the program (crate pq_main)

`rt try` runs a program with checks: it lowers the whole of it to one LLVM module and has clang compile that. This script runs it with a
clang of its own, which keeps the module and ends the run. What a checked run adds is taken out of the module (calls of checks, the poison in
locals), the inline attributes of the sources are put in, and the rest goes through the flags of a real build. Instructions that callgrind
counts differ from those of the proved build by 2 % at most (level_bench: 0.3 to 1.7 %)."""
import glob
import os
import re
import shutil
import signal
import subprocess
import sys
import tempfile
import time

KIT = "/opt/rattle"
ROOT = os.path.dirname(os.path.dirname(os.path.dirname(os.path.abspath(__file__))))
TARGET = "x86_64-unknown-linux-gnu"
KEEPING_CLANG = """#!/bin/sh
case "$*" in *fsanitize*) cp module.bc "{kept}.part" && mv "{kept}.part" "{kept}"; exit 1;; esac
exec {kit}/toolchain/bin/clang "$@"
"""
# The check that runs beside a try is of no use here.
NO_CHECK = """#!/bin/sh
exec sleep 600
"""
# As `rattle build` calls clang.
FLAGS = """-mllvm -no-trap-after-noreturn -ffunction-sections -fdata-sections -mllvm -trap-unreachable -mllvm -no-x86-call-frame-opt
    -mllvm -disable-machine-licm -mllvm -disable-postra-machine-licm -mllvm -sink-common-insts=false --no-default-config
    -no-canonical-prefixes -fintegrated-cc1 -fno-crash-diagnostics -march=x86-64 -O3 -Xclang -fmerge-functions
    -mllvm -mergefunc-use-aliases -fPIE -c -x ir""".split()
# The group of attributes for each set that a source has.
GROUPS = {
    frozenset(): (900, "nounwind"),
    frozenset(["cold", "inline(never)"]): (901, "cold noinline nounwind"),
    frozenset(["inline(never)"]): (902, "noinline nounwind"),
    frozenset(["inline(always)"]): (903, "alwaysinline nounwind"),
    frozenset(["inline"]): (904, "inlinehint nounwind"),
    frozenset(["cold"]): (905, "cold nounwind"),
}


def make_kit(folder, kept):
    """A kit in `folder` whose clang keeps the module of a checked run."""
    os.makedirs(f"{folder}/bin")
    os.makedirs(f"{folder}/toolchain/bin")
    for it in os.listdir(KIT):
        if it not in ("bin", "toolchain"):
            os.symlink(f"{KIT}/{it}", f"{folder}/{it}")
    for it in os.listdir(f"{KIT}/bin"):
        # `rt` finds its kit by where its own files really lie.
        make = shutil.copy if it in ("rt", "rtlib.py") else os.symlink
        make(f"{KIT}/bin/{it}", f"{folder}/bin/{it}")
    os.symlink(f"{KIT}/toolchain/lib", f"{folder}/toolchain/lib")
    for it in os.listdir(f"{KIT}/toolchain/bin"):
        if it != "clang":
            os.symlink(f"{KIT}/toolchain/bin/{it}", f"{folder}/toolchain/bin/{it}")
    os.remove(f"{folder}/bin/rattle")
    for name, text in (("toolchain/bin/clang", KEEPING_CLANG.format(kept=kept, kit=KIT)), ("bin/rattle", NO_CHECK)):
        with open(f"{folder}/{name}", "w") as it:
            it.write(text)
        os.chmod(f"{folder}/{name}", 0o755)


def share_alike(folder):
    """Gives the sessions that `rt` starts the share of the processors that this one has (a session's share is told by its autogroup)."""
    for it in subprocess.run(["pgrep", "-f", f"{folder}/kit"], capture_output=True, text=True).stdout.split():
        try:
            share = open("/proc/self/autogroup").read().split()[-1]
            open(f"/proc/{it}/autogroup", "w").write(share)
        except OSError:
            # No such groups here, or it ended meanwhile.
            pass


def keep_module(crate, folder):
    """The module that a checked run of the program compiles."""
    kept = f"{folder}/kept.bc"
    make_kit(f"{folder}/kit", kept)
    log = open(f"{folder}/log", "w")
    run = subprocess.Popen(
        [f"{folder}/kit/bin/rt", "try"],
        cwd=f"{ROOT}/crates/{crate}",
        stdin=subprocess.DEVNULL,
        stdout=log,
        stderr=log,
        start_new_session=True,
    )
    while run.poll() is None and not os.path.exists(kept):
        share_alike(folder)
        time.sleep(0.5)
    # The interpreter and the check beside it would go on.
    run.send_signal(signal.SIGTERM)
    run.wait()
    if not os.path.exists(kept):
        sys.exit(open(f"{folder}/log").read())
    return kept


def attributes_in(crate, folder, found):
    """Appends the inline attributes of a crate's functions: by crate and name, the module, the impl's head and the set."""
    for file in glob.glob(f"{folder}/src/**/*.rt", recursive=True):
        module = os.path.relpath(file, f"{folder}/src")[:-3].split("/")
        if module[-1] in ("lib", "main", "mod"):
            module = module[:-1]
        head, held = None, set()
        for line in open(file):
            word = line.strip()
            attribute = re.match(r"#\[(cold|inline(?:\((?:always|never)\))?)\]", word)
            name = re.match(r"(?:pub(?:\([a-z]+\))? )?(?:const )?(?:unsafe )?(?:extern \"C\" )?fn (\w+)", word)
            if re.match(r"(?:unsafe )?impl\b", line):
                head = word
            if attribute:
                held.add(attribute.group(1))
            elif name:
                if held:
                    of = head if line.startswith("    ") else None
                    found.setdefault((crate, name.group(1)), []).append((module, of, frozenset(held)))
                held = set()
            elif word and not word.startswith(("#[", "//", "ghost")):
                held = set()


def type_name(head):
    """The name of an impl's type and trait, as symbols have it."""
    while re.search(r"<[^<>]*>", head):
        head = re.sub(r"<[^<>]*>", "", head)
    parts = re.match(r"(?:unsafe )?impl\s*(?:([\w:]+) for )?&?(?:mut )?([\w:]+)", head)
    if not parts:
        return None
    trait, name = parts.groups()
    return name.split("::")[-1] + (trait.split("::")[-1] if trait else "")


def group_of(symbol, found):
    """The group of attributes of the function with this symbol."""
    path = symbol.split("::<")[0].split("::")
    for module, head, held in found.get((path[0], path[-1]), []):
        is_free = head is None and path[1:-1] == module
        if is_free or (head and len(path) > 2 and type_name(head) == path[-2]):
            return GROUPS.get(held, GROUPS[frozenset()])[0]
    return GROUPS[frozenset()][0]


SIZES = {"i8": 1, "i16": 2, "i32": 4, "i64": 8, "ptr": 8, "i128": 16}


def body_without_checks(lines):
    """A function's lines without calls of checks and poison; what clears a local stands at the entry, as in a real build."""
    locals_, sizes, clears, rest = [], {}, {}, []
    for line in lines:
        made = re.match(r"  (%r\d+) = alloca (?:\[(\d+) x i8\]|(\w+)),", line)
        filled = re.match(r"  call void @llvm\.memset\.p0\.i64\(ptr (%r\d+), i8 (-86|0), i64 (\d+), i1 false\)", line)
        if made:
            locals_.append(line)
            sizes[made.group(1)] = int(made.group(2)) if made.group(2) else SIZES.get(made.group(3))
        elif filled and sizes.get(filled.group(1)) == int(filled.group(3)):
            if filled.group(2) == "0":
                clears[filled.group(1)] = line
        elif not re.match(r'  call void @"rattle-(llvm-checks::|try::site)', line):
            rest.append(line)
    return locals_ + list(clears.values()) + rest


def write_without_checks(source, target):
    """Writes the module of a checked run as that of a real build."""
    found = {}
    for folder in [*glob.glob(f"{ROOT}/crates/*"), *glob.glob(f"{KIT}/rattle/*")]:
        attributes_in(os.path.basename(folder), folder, found)
    with open(source) as lines, open(target, "w") as out:
        head, body = None, []
        for line in lines:
            if head is None and line.startswith("define ") and "rattle-llvm-checks" not in line:
                symbol = re.search(r'@"?([^"(]+)', line).group(1)
                head = re.sub(r" #\d+ \{$", f" #{group_of(symbol, found)} {{", line)
            elif head is not None:
                body.append(line)
                if line == "}\n":
                    out.writelines([head, body[0], *body_without_checks(body[1:])])
                    head, body = None, []
            else:
                out.write(line.replace("sanitize_address ", "") if line.startswith("attributes #") else line)
        for number, words in GROUPS.values():
            size = '"probe-stack"="inline-asm" "stack-probe-size"="3072" "target-cpu"="x86-64-v2"'
            out.write(f"attributes #{number} = {{ {words} {size} }}\n")


def main():
    crate, target = sys.argv[1], os.path.abspath(sys.argv[2])
    clang = [f"{KIT}/toolchain/bin/clang", f"--target={TARGET}"]
    with tempfile.TemporaryDirectory(prefix="speed-") as folder:
        kept = keep_module(crate, folder)
        to_text = ["-S", "-emit-llvm", "-Xclang", "-disable-llvm-passes", "-x", "ir", kept, "-o", f"{folder}/kept.ll"]
        subprocess.run([*clang, *to_text], check=True)
        write_without_checks(f"{folder}/kept.ll", f"{folder}/real.ll")
        subprocess.run([*clang, *FLAGS, f"{folder}/real.ll", "-o", f"{folder}/real.o"], check=True)
        link = [f"{KIT}/bin/rattle-link", "--target", TARGET, "--toolchain", f"{KIT}/toolchain", "-o", target]
        files = [f"{folder}/real.o", f"{KIT}/c/libos_c.a", f"{KIT}/c/liblibc_c.a"]
        subprocess.run([*link, *files], check=True, stderr=subprocess.DEVNULL)


main()
