"""The merge driver of git for topologies: puts the merge of both sides in the place of ours.

    noshinka-git merge-driver BASE OURS THEIRS [TITLE]

is what git calls after `noshinka-git install`. The merge has the features of both sides, without those of the common base that
either side removed; a feature that was changed was removed, and another one added. If both sides changed the feature of an id in a
layer, and not alike, the driver merges the two (three_way.py). If they clash, the file has both versions, which differ only in what
clashes; if one side removed what the other changed, it has the changed version and that of the base. So the id is there twice, and
`topotool check --ids` refuses the file until one version is removed. Standard error has the lines by which `topotool diff` says what
each side changed, and the status is 1, so that git marks a conflict. If topotool refuses a file, its line is printed, and ours
stays as it was: git marks that too.
"""

import json
import os
import shutil
import subprocess
import sys
import tempfile
from collections import Counter

sys.dont_write_bytecode = True

import program
from three_way import merge_versions, spelled

SIDES = ("base", "ours", "theirs")
DECODER = json.JSONDecoder()


class Refused(Exception):
    """The program did not print a text; it ended with this status."""


class Maps:
    """Topologies in a folder; each is known by the name of its file, which says how it was made."""

    def __init__(self, folder):
        self.folder = folder
        self.program = program.topotool()
        self.read = {}

    def run(self, name, *words, statuses=(0,), **options):
        """Puts what the program prints for these words into a file."""
        with open(f"{self.folder}/{name}", "wb") as out:
            status = subprocess.run([self.program, *words], cwd=self.folder, stdout=out, **options).returncode
        if status not in statuses:
            raise Refused(status if status > 0 else 128 - status)
        return name

    def made(self, *words, **options):
        """What the program prints for these words, made once."""
        name = "-".join(words)
        return name if os.path.exists(f"{self.folder}/{name}") else self.run(name, *words, **options)

    def without(self, name, other):
        return self.made("remove", name, other)

    def topology(self, name):
        with open(f"{self.folder}/{name}", encoding="utf-8") as file:
            return json.load(file)

    def ids(self, name):
        """How many features each layer has of each id, which is None where there is none."""
        return Counter((layer, it.get("id")) for layer, held in self.topology(name)["objects"].items() for it in held["geometries"])

    def unlike(self, name, other):
        """The layers and ids of which the two have not the same features."""
        return {*self.ids(self.without(name, other)), *self.ids(self.without(other, name))}

    def merged(self):
        both = self.made("merge", "ours", "theirs")
        return self.without(self.without(both, self.without("base", "ours")), self.without("base", "theirs"))

    def conflicts(self):
        """The layers and ids of which both sides changed the features, and not alike."""
        found = self.unlike("base", "ours") & self.unlike("base", "theirs") & self.unlike("ours", "theirs")
        return {it for it in found if it[1] is not None} | {(layer, None) for layer in self.nameless_conflicts()}

    def nameless_conflicts(self):
        """The layers of which both sides removed one feature without an id, and did not add the same ones."""
        ours, theirs = (self.without("base", it) for it in ("ours", "theirs"))
        taken, by_ours_alone = self.ids(ours), self.ids(self.without(ours, theirs))
        added = self.unlike(self.without("ours", "base"), self.without("theirs", "base"))
        return [layer for layer, id in taken if id is None and taken[layer, id] > by_ours_alone[layer, id] and (layer, id) in added]

    def features(self, name, layer):
        """The features of a layer by their ids, a list for each."""
        if (name, layer) not in self.read:
            found = self.read[name, layer] = {}
            if layer in self.topology(name)["objects"]:
                made = self.run(f"features-{len(self.read)}", "feature", "--layer", layer, name)
                for it in self.topology(made)["features"]:
                    found.setdefault(it.get("id"), []).append(it)
        return self.read[name, layer]

    def versions(self, layer, id):
        """What the base, ours and theirs have of an id: None where it is not there. If one has several, there is no answer."""
        found = [self.features(name, layer).get(id, []) for name in SIDES]
        return None if any(len(it) > 1 for it in found) else [it[0] if it else None for it in found]

    def build(self, name, features):
        """The topology of features, each with its layer."""
        transform = self.topology("ours")["transform"]
        words = []
        for number, layer in enumerate(sorted({layer for layer, _ in features})):
            with open(f"{self.folder}/{name}-{number}", "w", encoding="utf-8") as file:
                json.dump({"type": "FeatureCollection", "features": [it for its, it in features if its == layer]}, file)
            words.append(f"{layer}={name}-{number}")
        grid = ",".join(map(str, [*transform["scale"], *transform["translate"]]))
        return self.run(name, "build", "--grid", grid, *words, stderr=subprocess.DEVNULL)

    def exchanged(self, name, old, new):
        """The topology with some features in place of others."""
        new = self.build("new", new)
        return self.made("merge", self.without(name, self.build("old", old)), new)

    def settled(self, merged, conflicts):
        """The merge with what doesn't clash in both versions, which then may be one; and the conflicts that are left."""
        old, new, removed, left = [], [], [], set()
        for layer, id in conflicts:
            versions = None if id is None or "=" in layer else self.versions(layer, id)
            if not versions or not all(versions):
                left.add((layer, id))
                removed += [(layer, it) for it in versions[:1] if it] if versions else []
                continue
            both = merge_versions(*versions)
            old += [(layer, it) for it in versions[1:]]
            new += [(layer, it) for it in both]
            if spelled(both[0]) != spelled(both[1]):
                left.add((layer, id))
        try:
            merged = self.exchanged(merged, old, new) if new else merged
        except Refused:
            # (the changes of both sides make no line or ring together)
            left = conflicts
        return (self.made("merge", merged, self.build("removed", removed)) if removed else merged), left

    def differences(self, side):
        """The lines by which `topotool diff` says what a side changed, each with the layer and the id that it names."""
        with open(f"{self.folder}/{self.made('diff', 'base', side, statuses=(0, 1))}", encoding="utf-8") as file:
            for line in file:
                if line[1:3] == ' "':
                    layer, end = DECODER.raw_decode(line, 2)
                    yield (layer, DECODER.raw_decode(line, end + 1)[0]), line.rstrip("\n")

    def lines(self, conflicts):
        """What each side changed of the features in conflict: by layer and id, numbers first."""
        found = [(it, side, line) for side in SIDES[1:] for it, line in self.differences(side) if it in conflicts]
        for _, side, line in sorted(found, key=lambda it: (it[0][0], it[0][1] is None, isinstance(it[0][1], str), it[0][1] or 0)):
            yield f"conflict, {side}: {line}"


def put(file, into):
    """Puts a copy of a file in the place of another, at once."""
    made = f"{into}.merged"
    try:
        shutil.copyfile(file, made)
        shutil.copymode(into, made)
        os.replace(made, into)
    finally:
        if os.path.exists(made):
            os.remove(made)


def merge(base, ours, theirs, title):
    """Merges into the file ours; returns the status."""
    with tempfile.TemporaryDirectory() as folder:
        maps = Maps(folder)
        for name, file in zip(SIDES, (base, ours, theirs)):
            shutil.copyfile(file, f"{folder}/{name}")
        if not os.path.getsize(base):
            # Both sides added the file: git has no base, which is then the map of no features on their grid.
            os.replace(f"{folder}/{maps.without('ours', 'ours')}", f"{folder}/base")
        merged, conflicts = maps.settled(maps.merged(), maps.conflicts())
        lines = [*maps.lines(conflicts)]
        put(f"{folder}/{merged}", ours)
    for line in lines:
        print(f"{title}: {line}", file=sys.stderr)
    return 1 if conflicts else 0


def main(words):
    if len(words) not in (3, 4):
        print("noshinka-git: the words are BASE OURS THEIRS [TITLE]", file=sys.stderr)
        return 2
    title = words[-1] if len(words) == 4 else words[1]
    try:
        return merge(*words[:3], title)
    except Refused as refused:
        (status,) = refused.args
    except OSError as fault:
        print(f"noshinka-git: {fault}", file=sys.stderr)
        status = 3
    print(f"{title}: not merged: it is as our side has it", file=sys.stderr)
    return status


if __name__ == "__main__":
    sys.exit(main(sys.argv[1:]))
