"""Tells what each function of a crate costs the prover: seconds of a check from nothing at one job, dearest first.

    python3 tests/dear.py CRATE... [--above SECONDS] [--kept] [--whole]

A check writes a file for each module that it has checked (in out/incremental), one after the other, so the time between two
stamps is what the later one took. Of each function they are parted into *search* (its module Proof: goals that nobody
answered by hand), *steps* (Lts: what the borrow checker walks through) and the rest. A crate's sum has its lemmas, types and
what a check takes before its first function, too.

Without --kept each crate is checked anew, in an empty folder, over the libraries below it; those are built first, where
they are not (as `rt lib` builds them). With it the stamps of the crate's out/incremental are read as they are: right after a
first check alone, since a later one takes from there what has not changed, and a function that costs twelve seconds
seems to cost one. Figures rise by a fifth where the machine is busy.

Prints the functions that take SECONDS (8) or more, with --whole all, then a line of each crate, and one of all.
"""

import argparse
import importlib.machinery
import importlib.util
import os
import shutil
import subprocess
import sys
import tempfile

TOP = os.path.dirname(os.path.dirname(os.path.abspath(__file__)))
ABOVE = 8.0
SEARCH, STEPS = "Proof", "Lts"


def kit():
    """The kit's own module that knows crates and the words of a check."""
    rt = shutil.which("rt")
    if not rt:
        sys.exit("there is no rt")
    file = os.path.join(os.path.dirname(os.path.realpath(rt)), "rtlib.py")
    loader = importlib.machinery.SourceFileLoader("rtlib", file)
    made = importlib.util.module_from_spec(importlib.util.spec_from_loader("rtlib", loader))
    sys.modules["rtlib"] = made
    sys.dont_write_bytecode = True
    loader.exec_module(made)
    return made


def stamps(folder):
    """The modules that a check wrote below a folder, each with the seconds since the one before, in the order of writing."""
    found = sorted((os.stat(f"{at}/{it}").st_mtime_ns, it) for at, _, files in os.walk(folder) for it in files if it.endswith(".oantt"))
    for (before, _), (now, name) in zip(found, found[1:]):
        yield name.removesuffix(".oantt").removesuffix(".decls"), (now - before) / 1e9


def costs(crate, folder):
    """The seconds of each function: search, steps and the rest; and of all that is of none."""
    modules = [*stamps(folder)]
    front = f"Rattle-{crate}-proofs."
    functions = {it.removesuffix(f".{STEPS}").removeprefix(front) for it, _ in modules if it.startswith(front) and it.endswith(f".{STEPS}")}
    found, others = {it: [0.0, 0.0, 0.0] for it in functions}, 0.0
    for name, seconds in modules:
        parts = name.removeprefix(front).split(".") if name.startswith(front) else []
        owner = next((it for at in range(len(parts), 0, -1) if (it := ".".join(parts[:at])) in functions), None)
        if owner is None:
            others += seconds
        else:
            found[owner][{SEARCH: 0, STEPS: 1}.get(parts[-1], 2)] += seconds
    return found, others


def check(rtlib, name, folder):
    """Checks a crate from nothing at one job, keeping what it checks in a folder."""
    crate = next((it for it in rtlib.crates_below(TOP) if it.name == name), None)
    if crate is None:
        sys.exit(f"there is no crate {name}")
    for it in crate.below():
        os.makedirs(f"{it.folder}/out", exist_ok=True)
        if it.build_rlib(["--jobs", "1"], anew=False):
            sys.exit(f"{it.name}, a library below {name}, is not proved")
    tests = crate.has_tests()
    words = [rtlib.RATTLE, "check", *crate.words(["--jobs", "1"], tests=tests), "--incremental", folder]
    ran = subprocess.run(words, cwd=crate.folder, stdin=subprocess.DEVNULL, stdout=subprocess.PIPE, stderr=subprocess.STDOUT, errors="replace")
    if ran.returncode:
        sys.exit(f"{name} is not proved:\n{ran.stdout[-2000:]}")


def measured(rtlib, name, is_kept):
    if is_kept:
        return costs(name, f"{TOP}/crates/{name}/out/incremental")
    with tempfile.TemporaryDirectory(prefix="dear-") as folder:
        check(rtlib, name, folder)
        return costs(name, folder)


def main():
    words = argparse.ArgumentParser(description=__doc__.split("\n", 1)[0])
    words.add_argument("crates", nargs="+")
    words.add_argument("--above", type=float, default=ABOVE)
    words.add_argument("--kept", action="store_true")
    words.add_argument("--whole", action="store_true")
    words = words.parse_args()
    rtlib = None if words.kept else kit()
    whole = dear = count = 0
    for name in words.crates:
        functions, others = measured(rtlib, name, words.kept)
        total = others + sum(map(sum, functions.values()))
        rows = sorted(functions.items(), key=lambda it: -sum(it[1]))
        shown = [(it, parts) for it, parts in rows if words.whole or sum(parts) >= words.above]
        for it, (search, steps, rest) in shown:
            print(f"{search + steps + rest:7.1f} s  search {search:5.1f}, steps {steps:5.1f}, rest {rest:5.1f}  {name}::{it.replace('.', '::')}")
        above = sum(sum(parts) >= words.above for parts in functions.values())
        print(f"{name}: {total:.0f} s, {len(functions)} functions, {above} of {words.above:g} s or more")
        whole, dear, count = whole + total, dear + above, count + len(functions)
    print(f"{whole:.0f} s, {count} functions, {dear} of {words.above:g} s or more")
    return 0


if __name__ == "__main__":
    sys.exit(main())
