#!/usr/bin/env python3
"""Measures what topologies cost that are not in the canonical form, against reading and building them anew.

    for p in topotool examples; do (cd crates/$p && rt run); done
    python3 bench/other_forms.py

Each row is a rewriting of one tiling's topology, which has to be normalized: in the form of topojson-server, whose arcs are
numbered by first use; with an arc that is cut where no junction is, doubled for one user, or used by nobody, the arcs in that
order or sorted, so that some checks pass before it shows. `merge` of the one file is compared with `examples merge whole
left`, which reads the text's features and builds their topology, in interleaved runs. Both print the same bytes. Times are processor
times (user and system), the least of some runs; a ratio above the goal of 1.15 is marked, and no test depends on it.
"""

import json
import os
import random
import sys
import tempfile

sys.dont_write_bytecode = True

from measuring import BENCH, TOOL, TOP, end_with, make_topologies, measure_both, need, parser_of, run_once, same_bytes

sys.path.insert(0, os.path.join(TOP, "tests"))

from rewritten_texts import Rewriter

GOAL = 1.15


def sort_arcs(rewriter):
    """The arcs by their positions, each in its lesser direction, without a look at what they are cut by."""
    lesser = [min(arc, arc[::-1]) for arc in rewriter.arcs]
    order = sorted(range(len(lesser)), key=lesser.__getitem__)
    numbers = {old: new if lesser[old] == rewriter.arcs[old] else ~new for new, old in enumerate(order)}
    rewriter.arcs = [lesser[old] for old in order]
    rewriter.replace(lambda old: [numbers[old]])


FORMS = {
    "numbered by first sight": [Rewriter.number_by_sight],
    "an arc is cut": [Rewriter.cut_an_arc],
    "an arc is cut, all are sorted": [Rewriter.cut_an_arc, sort_arcs],
    "an arc is doubled": [Rewriter.double_an_arc],
    "an arc is doubled, all are sorted": [Rewriter.double_an_arc, sort_arcs],
    "an arc is used by nobody": [Rewriter.add_unused_arc],
}


def write_form(text, seed, rewritings, name):
    """Writes a topology's text in another form."""
    rewriter = Rewriter(random.Random(seed), json.loads(text))
    for rewrite in rewritings:
        rewrite(rewriter)
    rewriter.write_arcs()
    with open(name, "w", encoding="utf-8") as file:
        json.dump(rewriter.topology, file, separators=(",", ":"))


def measure_form(folder, canonical, name, runs):
    """The command and the features read and built anew, once both have printed the canonical text."""
    command, anew = [TOOL, "merge", name], [BENCH, "merge", "whole", "left", name]
    out = os.path.join(folder, "out")
    for words in (command, anew):
        run_once(words, out)
        if not same_bytes(out, canonical):
            sys.exit(f"{' '.join(words[:2])}: another text than the canonical one")
    return measure_both(command, anew, out, runs)


def main():
    words = parser_of("Measures topologies that are not in the canonical form.").parse_args()
    need(TOOL, BENCH)
    with tempfile.TemporaryDirectory() as folder:
        count, canonical, _ = make_topologies(folder, words.positions, words.seed, 0)
        with open(canonical, encoding="utf-8") as file:
            text = file.read()
        print(f"{count} positions; goal: at most {GOAL} times\n")
        print("| Form | `merge` of the text | Read and built anew | Times |")
        print("|---|---|---|---|")
        for title, rewritings in FORMS.items():
            name = os.path.join(folder, "form.json")
            write_form(text, words.seed, rewritings, name)
            command, anew = measure_form(folder, canonical, name, words.runs)
            ratio = command.seconds / anew.seconds
            print(
                f"| {title} | {command.seconds:.3f} s | {anew.seconds:.3f} s | {ratio:.2f}{'!' if ratio > GOAL else ''} |",
                flush=True,
            )


if __name__ == "__main__":
    end_with(main)
