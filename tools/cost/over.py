#!/usr/bin/env python3
"""over.py: what the proof of one crate costs by function and by module, over interfaces that are there (tools/one.py), so that nothing below is proved.

usage: over.py CRATE FOLDER [flags of rattle check, e.g. --test, --only NAME]

FOLDER keeps what was checked: an empty one gives the costs from nothing, one of an earlier run those of what changed since. Printed are the dearest functions, then
the dearest modules, and what the modules of each function or cycle make together, in processor seconds. **A function's seconds hold all that is made before its line comes**, also of what calls it: a cycle's bodies are made before the
functions that they call are checked, so the modules tell where the time goes (of a function or a cycle, `Lts-..` is its body, and `Proof` its goals). A run that is
killed (the `rattle check` within) prints what it came to."""
import collections
import os
import subprocess
import sys
import threading

HERE = os.path.dirname(os.path.abspath(__file__))
sys.path[:0] = [HERE, os.path.dirname(HERE)]
import cost
import one


def main():
    crate, place, flags = sys.argv[1], os.path.abspath(sys.argv[2]), sys.argv[3:]
    os.makedirs(place, exist_ok=True)
    words = [*one.command("check", crate), "--incremental", place, "--progress", *flags]
    watched = cost.Watched(place)
    run = cost.metered(words, f"{one.ROOT}/crates/{crate}", echo=True, watched=watched)
    functions, rest = cost.by_function(run)
    print(f"{crate}: {run['seconds']:.1f} processor seconds, {run['wall']:.0f} wall, {rest:.1f} behind the last function")
    for name, seconds in sorted(functions, key=lambda it: -it[1])[:30]:
        print(f"{seconds:8.1f}  {name}")
    last, kinds, modules = 0.0, collections.Counter(), []
    for at, module in watched.seen:
        kinds[cost.kind_of(module, crate)[0]] += at - last
        modules.append((at - last, module))
        last = at
    print("by kind: " + ", ".join(f"{kind} {it:.1f}" for kind, it in kinds.most_common(12)))
    for seconds, module in sorted(modules, reverse=True)[:40]:
        print(f"{seconds:8.1f}  {module}")
    print("by the modules of a function or cycle:")
    together = collections.Counter()
    for seconds, module in modules:
        together[module.rpartition(".")[0] or module] += seconds
    for name, seconds in together.most_common(30):
        print(f"{seconds:8.1f}  {name}")


main()
