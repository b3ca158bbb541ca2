#!/usr/bin/env python3
"""Writes the topologies of random maps as other tools would, and asks every command what they mean.

    python3 tests/rewritten_texts.py [--seed N] [--texts N] [--seconds N]

Each text is the topology of a random map, rewritten so that its features stay the same: arcs in another order, turned
around, cut at a vertex inside, doubled for one user, or used by nobody, with positions twice or of one position alone; closed
arcs and lists of rings begun elsewhere; features in another order or twice; members in another order or twice, a bbox that
is wrong or missing. From each, `merge` has to
print the canonical text of the map, which was built of its GeoJSON; `check` has to say whether it is that text; `mesh`,
`info`, `feature` and `neighbors` have to answer what they answer of the canonical text; and `remove` has to leave no
feature of it. With a limit of time it stops there. Ends with a line of counts, and with status 1 where a run did anything
else, or almost no text was tried.
"""

import json
import random
import sys
import tempfile

sys.dont_write_bytecode = True

from many_runs import LEAST_TEXTS, TOP, judged, told, topotool, words_of

sys.path.insert(0, f"{TOP}/bench")

from random_maps import random_map


def decoded(arc):
    """An arc's positions on the grid, of its steps."""
    here, positions = (0, 0), []
    for step in arc:
        here = (here[0] + step[0], here[1] + step[1])
        positions.append(here)
    return positions


def encoded(positions):
    befores = [(0, 0), *positions]
    return [[after[0] - before[0], after[1] - before[1]] for before, after in zip(befores, positions)]


def lists_of(geometry):
    """The lists of arcs of a geometry, each with what holds it, its place there, and whether it is a ring's."""
    kind = geometry["type"]
    if kind == "LineString":
        yield geometry, "arcs", False
    elif kind in ("MultiLineString", "Polygon"):
        for place in range(len(geometry["arcs"])):
            yield geometry["arcs"], place, kind == "Polygon"
    elif kind == "MultiPolygon":
        for polygon in geometry["arcs"]:
            for place in range(len(polygon)):
                yield polygon, place, True


class Rewriter:
    """A topology whose text is rewritten: its arcs as positions, its layers, and a member that is there twice."""

    def __init__(self, chance, topology):
        self.chance = chance
        self.topology = topology
        self.twice = None
        self.arcs = [decoded(arc) for arc in topology["arcs"]]

    def geometries(self):
        for layer in self.topology["objects"].values():
            yield from layer["geometries"]

    def lists(self):
        for geometry in self.geometries():
            yield from lists_of(geometry)

    def replace(self, pieces):
        """Puts the arcs that `pieces` gives of a number in the place of each used arc."""
        for holder, place, _ in self.lists():
            replaced = []
            for index in holder[place]:
                arcs = pieces(index if index >= 0 else ~index)
                replaced += arcs if index >= 0 else [~it for it in reversed(arcs)]
            holder[place] = replaced

    def order_arcs(self):
        """Another order of the arcs, some turned around."""
        order = self.chance.sample(range(len(self.arcs)), len(self.arcs))
        turned = [self.chance.random() < 0.5 for _ in order]
        self.arcs = [self.arcs[old][:: -1 if turned[new] else 1] for new, old in enumerate(order)]
        numbers = {old: ~new if turned[new] else new for new, old in enumerate(order)}
        self.replace(lambda old: [numbers[old]])

    def number_by_sight(self):
        """Arcs numbered in the order in which the features use them, in the direction of their first use."""
        seen = {}
        for holder, place, _ in self.lists():
            for index in holder[place]:
                old = index if index >= 0 else ~index
                seen.setdefault(old, (len(seen), index < 0))
        self.arcs = [self.arcs[old][:: -1 if turned else 1] for old, (_, turned) in seen.items()]
        self.replace(lambda old: [~seen[old][0] if seen[old][1] else seen[old][0]])

    def turn_loops(self):
        """Closed arcs that are rings by themselves begin elsewhere."""
        alone = {}
        for holder, place, is_ring in self.lists():
            for index in holder[place]:
                old = index if index >= 0 else ~index
                alone[old] = alone.get(old, True) and is_ring and len(holder[place]) == 1
        for number, is_alone in alone.items():
            if is_alone:
                ring = self.arcs[number][:-1]
                start = self.chance.randrange(len(ring))
                self.arcs[number] = [*ring[start:], *ring[: start + 1]]

    def turn_rings(self):
        for holder, place, is_ring in self.lists():
            if is_ring and holder[place]:
                start = self.chance.randrange(len(holder[place]))
                holder[place] = holder[place][start:] + holder[place][:start]

    def cut_an_arc(self):
        long = [number for number, arc in enumerate(self.arcs) if len(arc) > 2]
        if long:
            number = self.chance.choice(long)
            at = self.chance.randrange(1, len(self.arcs[number]) - 1)
            self.arcs.append(self.arcs[number][at:])
            self.arcs[number] = self.arcs[number][: at + 1]
            self.replace(lambda old: [old, len(self.arcs) - 1] if old == number else [old])

    def double_an_arc(self):
        """One list uses an arc of its own in the place of one that others may use too."""
        lists = [(holder, place) for holder, place, _ in self.lists() if holder[place]]
        if lists:
            holder, place = self.chance.choice(lists)
            at = self.chance.randrange(len(holder[place]))
            index = holder[place][at]
            self.arcs.append(list(self.arcs[index if index >= 0 else ~index]))
            holder[place][at] = len(self.arcs) - 1 if index >= 0 else ~(len(self.arcs) - 1)

    def add_unused_arc(self):
        begin = [self.chance.randint(0, 9), self.chance.randint(0, 9)]
        self.arcs.append(list(self.chance.choice([*self.arcs, [begin, [begin[0] + 1, begin[1]]]])))

    def repeat_positions(self):
        """A position of an arc twice or three times, at an end or inside."""
        if self.arcs:
            arc = self.chance.choice(self.arcs)
            for _ in range(self.chance.choice([1, 1, 2])):
                at = self.chance.randrange(len(arc))
                arc.insert(at, arc[at])

    def add_an_arc_of_one_position(self):
        """A list uses an arc of equal positions alone besides, where two of its arcs meet or at an end."""
        lists = [(holder, place) for holder, place, _ in self.lists() if holder[place]]
        if lists:
            holder, place = self.chance.choice(lists)
            at = self.chance.randrange(len(holder[place]) + 1)
            before = holder[place][at - 1 if at else 0]
            arc = self.arcs[before if before >= 0 else ~before]
            is_begin = (before >= 0) == (at == 0)
            self.arcs.append([arc[0] if is_begin else arc[-1]] * self.chance.choice([2, 2, 3]))
            added = len(self.arcs) - 1
            holder[place].insert(at, self.chance.choice([added, ~added]))

    def order_features(self):
        for layer in self.topology["objects"].values():
            self.chance.shuffle(layer["geometries"])

    def double_a_feature(self):
        for layer in self.topology["objects"].values():
            if layer["geometries"]:
                layer["geometries"].append(json.loads(json.dumps(self.chance.choice(layer["geometries"]))))

    def double_a_member(self):
        """A member that is there twice, of which the last one counts."""
        name = self.chance.choice(["arcs", "objects", "transform", "type"])
        first = self.chance.choice([None, "none", [], {}, [[[0, 0]]], {"a": {"type": "LineString", "arcs": [-1, 7]}}])
        self.twice = f"{json.dumps(name)}:{json.dumps(first)}"

    def change_bbox(self):
        self.topology["bbox"] = self.chance.choice([[1, 2, 3, 4], None, "none"])
        if self.chance.random() < 0.5:
            del self.topology["bbox"]

    def write_arcs(self):
        """Puts the arcs as they are now into the topology, by their steps."""
        self.topology["arcs"] = [encoded(arc) for arc in self.arcs]

    def text(self):
        self.write_arcs()
        members = self.chance.sample(list(self.topology.items()), len(self.topology))
        layers = self.topology["objects"]
        shuffled = {**dict(members), "objects": dict(self.chance.sample(list(layers.items()), len(layers)))}
        text = json.dumps(shuffled, indent=self.chance.choice([None, None, 1]))
        return text if self.twice is None else f"{{{self.twice},{text.lstrip()[1:]}"


REWRITINGS = [
    Rewriter.order_arcs, Rewriter.number_by_sight, Rewriter.turn_loops, Rewriter.turn_rings, Rewriter.cut_an_arc,
    Rewriter.double_an_arc, Rewriter.add_unused_arc, Rewriter.order_features, Rewriter.double_a_feature, Rewriter.change_bbox,
    Rewriter.repeat_positions, Rewriter.add_an_arc_of_one_position, Rewriter.double_a_member,
]


def rewritten(chance, text):
    """The text in another form, and what was done to it: nothing now and then, else one thing or some."""
    rewriter = Rewriter(chance, json.loads(text))
    done = chance.sample(REWRITINGS, chance.choice([1, 1, 2, 3, len(REWRITINGS)]))
    for rewrite in done:
        rewrite(rewriter)
    return rewriter.text().encode(), [rewrite.__name__ for rewrite in done]


def built(folder, seed):
    """The canonical text of a random map, built of its GeoJSON."""
    grid, files = random_map(seed)
    words = ["--grid", grid]
    for number, (name, text) in enumerate(files):
        path = f"{folder}/{number}.json"
        with open(path, "w", encoding="utf-8") as file:
            file.write(text)
        words.append(f"{name}={path}")
    return topotool("build", *words).stdout


def questions(file, layers):
    """What the commands answer of a text."""
    asked = [["mesh"], ["mesh", "--edges", "interior"], ["info", "--json"]]
    asked += [[command, "--layer", layer] for layer in layers for command in ("feature", "neighbors")]
    return [topotool(*words, file).stdout for words in asked]


def judge(seed):
    """Rewrites the topology of one map, and gives what is wrong with the runs on it."""
    with tempfile.TemporaryDirectory() as folder:
        canonical = built(folder, seed)
        text, done = rewritten(random.Random(seed), canonical)
        files = {"canonical": canonical, "text": text}
        for name, bytes_ in files.items():
            with open(f"{folder}/{name}", "wb") as file:
                file.write(bytes_)
        return [f"map {seed}, {', '.join(done)}: {it}" for it in complaints(folder, canonical, text)]


def complaints(folder, canonical, text):
    file, expected = f"{folder}/text", f"{folder}/canonical"
    if topotool("merge", file).stdout != canonical:
        yield "another canonical text"
    if topotool("check", file).returncode != (0 if text == canonical else 1):
        yield "check says something else"
    if topotool("check", expected).returncode != 0:
        yield "the built text is not canonical"
    layers = list(json.loads(canonical)["objects"])
    if questions(file, layers) != questions(expected, layers):
        yield "other answers"
    left = json.loads(topotool("remove", file, expected).stdout)
    if left["arcs"] or any(layer["geometries"] for layer in left["objects"].values()):
        yield "something is left"


def main():
    words = words_of(3000)
    wrong = done = 0
    for found in judged(judge, range(words.seed, words.seed + words.texts), words.seconds):
        done, wrong = done + 1, wrong + len(found)
        for it in found:
            print(it)
    print(f"seed {words.seed}: {told(done, words.texts, 'texts', words.seconds)}, {wrong} wrong")
    return 1 if wrong or done < min(LEAST_TEXTS, words.texts) else 0


if __name__ == "__main__":
    sys.exit(main())
