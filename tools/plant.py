#!/usr/bin/env python3
"""`rt plant` of one crate over the interfaces of the crates below, which are not proved again.

    tools/plant.py CRATE [--first] [flags of rt plant: --only WORD --max N --minutes N --jobs N --all]

`rt plant` checks a crate as `rt check` does, which proves all crates below first: an hour on a new machine. This script hands it the interfaces
that `tools/one.py` would take (CLONE/.own, then the folders in BASES, then the kit's), and the rest is the kit's own. Where LOGS names logs of
`rt ci` that tell of the crate's proof, that is taken for the check that comes first. --first tries the bodies that give up alone (an error, a
constant, an argument, nothing done), for which no function of the crate is proved again."""
import glob
import importlib.machinery
import os
import re
import subprocess
import sys
import types

KIT = "/opt/rattle"
ROOT = os.getcwd()
while not os.path.exists(f"{ROOT}/crates.txt"):
    ROOT = os.path.dirname(ROOT)
PLACES = [f"{ROOT}/.own/{{0}}.rlib"]
PLACES += [f"{it}/crates/{{0}}/out/rlib/{{0}}.rlib" for it in os.environ.get("BASES", ROOT).split(":")]


def load(name):
    """One of the kit's scripts, as a module."""
    module = types.ModuleType(name)
    module.__file__ = f"{KIT}/bin/{name}"
    importlib.machinery.SourceFileLoader(name, module.__file__).exec_module(module)
    return module


sys.dont_write_bytecode = True
kit = load("rt-plant")
rt = kit.rt
begin = rt.Crate.__init__
plant = kit.plant


def begin_with_interface(self, *args, **named):
    """Makes a crate of the kit's, whose interface is the one at hand."""
    begin(self, *args, **named)
    found = [it.format(self.name) for it in PLACES if os.path.isdir(it.format(self.name))]
    self.rlib = found[0] if found else self.rlib


def proved_before(crate):
    """The lines of a proof of the crate's functions, of which a log tells."""
    said = {}
    for log in glob.glob(os.environ.get("LOGS", "")):
        said.update(re.findall(rf"(?m)^fn ({crate}::\S+): (proved.*)", open(log, errors="replace").read()))
    return said


def check(_verb, *words):
    """Prints what `rt check` would, by a log of the crate's proof or by a check over these interfaces."""
    here = os.getcwd()
    crate = rt.Crate(here, rt.root_above(here) or here, {})
    os.makedirs("out", exist_ok=True)
    if said := proved_before(crate.name):
        print("".join(f"fn {name}: {how}\n" for name, how in said.items()) + f"crate {crate.name}: kept")
        return 0
    words = [KIT + "/bin/rattle", "check", *crate.words([*words, *rt.KEPT])]
    ran = subprocess.run(words, stdout=subprocess.PIPE, stderr=subprocess.STDOUT, text=True, errors="replace", check=False)
    print(ran.stdout)
    return ran.returncode


def plant_first(crate, copy, functions, _proved, most):
    """Plants, but none that calls the real function."""
    return plant(crate, copy, functions, [], most)


rt.Crate.__init__ = begin_with_interface
rt.main = check
if "--first" in sys.argv:
    sys.argv.remove("--first")
    kit.plant = plant_first
os.chdir(f"{ROOT}/crates/{sys.argv[1]}")
sys.exit(kit.main(*sys.argv[2:]))
