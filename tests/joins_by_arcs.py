"""Searches the code of joins and removals for calls that would make a map of features, or build a topology anew.

    python3 tests/joins_by_arcs.py

The join of two topologies and the removal of features work on arcs. Contracts fix what they answer and can't say how, so this
reads the code: cut.rt, cut_all.rt and remove.rt of crates/refine, stitching.rt and order.rt of crates/topo, each file that the
`use crate::` lines of these bring in, and so on, and all files of the crate that splits and heals arcs, and those
of crates/topo that number them anew. None may name what expands a topology, builds one, makes a shard of a map, or cuts lines or rings, nor index the
visits of a map. Files that are read by name bring in modules of their crate by such `use` lines alone.

First it looks that it would find such calls: WALKS has lines that have to be told, each as a line of a file that is read.
Prints the lines that are wrong, and ends with a line of counts, and with status 1 where there is one.
"""

import os
import re
import sys

TOP = os.path.dirname(os.path.dirname(os.path.abspath(__file__)))
NAMED = {"refine": ["cut.rt", "cut_all.rt", "remove.rt"], "topo": ["stitching.rt", "order.rt"]}
WHOLE = {"split_heal": [""], "arcs": ["new_lists"], "topo": ["geometry_order", "layer_laws", "rewritten"]}

CALLS = "expand|build|build_owned|from_map|cut_line|cut_ring"
MAKES = re.compile(rf"\b({CALLS})\s*(::<[^>]*>)?\s*\(|::\s*({CALLS})\b|\bVisitIndex::of\b|[{{,]\s*({CALLS})\s*[,}}]")
BRINGS = re.compile(r"(?:pub(?:\([a-z]+\))? )?use crate::([a-z_]+)(?:::[A-Za-z_{}, :]+)?;")
OTHERS = re.compile(r"\bcrate::|\bself::|\bsuper::|^\s*(pub(\([a-z]+\))? )?mod\b")

# A file, and a line that is wrong in it.
WALKS = [
    ("refine/src/cut.rt", "    let map = left.expand(alloc)?;"),
    ("refine/src/cut.rt", "    crate::whole::joined(alloc, left, right)"),
    ("refine/src/cut_all.rt", "    Topology::build(alloc, &grid, &union)"),
    ("refine/src/cut_all.rt", "    crate::whole::joined(alloc, shards)"),
    ("refine/src/remove.rt", "    Topology::build(alloc, &grid, &map)"),
    ("topo/src/rewritten.rt", "    let both = left.expand(alloc)?.union(alloc, &right.expand(alloc)?)?;"),
    ("topo/src/rewritten.rt", "    Topology::build(alloc, left.grid(), &both)"),
    ("topo/src/rewritten.rt", "use crate::building::build as made;"),
    ("arcs/src/new_lists.rt", "use chains::{ArcRef, cut_line, cut_ring};"),
    ("split_heal/src/split.rt", "    let cuts = VisitIndex::of(alloc, &map)?;"),
    ("split_heal/src/healing.rt", "    cut_ring(alloc, &index, ring)"),
    ("topo/src/stitching.rt", "    topology.expand(alloc)"),
    ("topo/src/order.rt", "    from_map(alloc, grid, map)"),
]


def lines_of(path):
    with open(f"{TOP}/crates/{path}", encoding="utf-8") as file:
        return file.read().split("\n")


def files_named(crate, left):
    """The files of a crate that are read: those named, and what their lines bring in."""
    found = []
    while left:
        name, left = left[0], left[1:]
        found.append(f"{crate}/src/{name}")
        brought = [it[1] for line in lines_of(found[-1]) if (it := BRINGS.fullmatch(line))]
        left += [file for it in brought if (file := f"{it}.rt") not in left and f"{crate}/src/{file}" not in found]
    return found


def whole_files():
    """The files that are read whole: of these crates, those whose paths below src begin so."""
    return [path for crate, begins in WHOLE.items() for path in files_of(crate)
            if path.partition("/src/")[2].startswith(tuple(begins))]


def files_of(crate):
    folder = f"{TOP}/crates/{crate}/src"
    return sorted(os.path.relpath(f"{at}/{it}", f"{TOP}/crates") for at, _, files in os.walk(folder) for it in files)


def is_wrong(path, line):
    """Whether a line of a file makes a map or builds anew, or brings in by another way what is then not read."""
    code = line.split("//")[0]
    if MAKES.search(code):
        return True
    is_named = path.split("/")[0] in NAMED and path not in whole_files()
    return is_named and bool(OTHERS.search(code)) and not BRINGS.fullmatch(line)


def main():
    files = [it for crate, names in NAMED.items() for it in files_named(crate, names)]
    files += [it for it in whole_files() if it not in files]
    wrong = [f"{path}:{number}: {line}" for path in files for number, line in enumerate(lines_of(path), 1) if is_wrong(path, line)]
    passed = [f"not found in {path}: {line}" for path, line in WALKS if path not in files or not is_wrong(path, line)]
    print("".join(f"{it}\n" for it in wrong + passed), end="")
    print(f"{len(files)} files, {len(wrong)} lines wrong; {len(WALKS)} ways round the search tried, {len(passed)} not found")
    return 1 if wrong or passed else 0


if __name__ == "__main__":
    sys.exit(main())
