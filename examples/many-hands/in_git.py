"""Keeps a map in git, on branches that change, add and remove districts, and lets noshinka-git merge them, print the diffs and look
at commits.

    python3 in_git.py [NOSHINKA-GIT]

The command is the one beside this file, if no other is named. All is done in a repository in a temporary folder. Each text that git merges is compared with one build of what is
wanted, which is told below by the ids of districts, and not by merging. Ends with status 1 where a text is another one,
or git ends otherwise than it should.
"""

import json
import os
import subprocess
import sys
import tempfile

sys.dont_write_bytecode = True

import program
from shards import STEP, across, district

COMMAND = os.path.abspath(sys.argv[1] if sys.argv[1:] else os.path.join(os.path.dirname(__file__), "noshinka-git"))
TOPOTOOL = program.topotool()
GRID = "10,10,0,0"
SIDE = 5
MAP = "country.topo.json"

# The versions of the country: districts by their ids


def named(feature, name):
    return {**feature, "properties": {"name": name}}


def moved(feature, vertex):
    """The district with this vertex of its border moved by a step of the grid."""
    x, y = vertex
    (ring,) = feature["geometry"]["coordinates"]
    ring = [[x + 10, y + 10] if tuple(it) == vertex else it for it in ring]
    return {**feature, "geometry": {"type": "Polygon", "coordinates": [ring]}}


def without(districts, *ids):
    return {id: it for id, it in districts.items() if id not in ids}


WHOLE = {id: district(id % SIDE, id // SIDE, SIDE) for id in range(SIDE * SIDE)}
BASE = without(WHOLE, 24)
# A border that two districts share is moved for both: that of 2 and 7 in the north, that of 17 and 22 in the south.
NORTH_EDITED = {**BASE, 2: moved(BASE[2], across(2, 1)[2]), 7: moved(BASE[7], across(2, 1)[2]), 20: named(BASE[20], "Twenty"), 21: named(BASE[21], "Lea")}
NORTH_GROWN = {**NORTH_EDITED, 24: WHOLE[24]}
NORTH = without(NORTH_GROWN, 0, 14, 23)
SOUTH_EDITED = {**BASE, 17: moved(BASE[17], across(2, 4)[3]), 22: moved(BASE[22], across(2, 4)[3]), 8: named(BASE[8], "Eight"), 21: named(BASE[21], "Lea")}
SOUTH_GROWN = {**SOUTH_EDITED, 30: {**district(8, 8, SIDE), "id": 30}}
SOUTH = without(SOUTH_GROWN, 4, 10, 23)
# Both named 21 alike and took 23 away. Of the other changes each has one author.
WANTED = [
    *(BASE[id] for id in (1, 3, 5, 6, 9, 11, 12, 13, 15, 16, 18, 19)),
    *(NORTH[id] for id in (2, 7, 20, 24)),
    *(SOUTH[id] for id in (8, 17, 22, 30)),
    named(WHOLE[21], "Lea"),
]


# The repository


class Repository:
    """A repository with the driver, and the folder beside it for other files."""

    def __init__(self, folder):
        self.folder, self.top = folder, f"{folder}/map"
        inherited = {name: it for name, it in os.environ.items() if not name.startswith("GIT_")}
        self.env = {**inherited, "TOPOTOOL": TOPOTOOL, "GIT_CONFIG_GLOBAL": os.devnull, "GIT_CONFIG_NOSYSTEM": "1", "GIT_EDITOR": "true"}
        subprocess.run(["git", "init", "-q", self.top], check=True, env=self.env)
        self.git("checkout", "-q", "-b", "main")
        self.git("config", "user.name", "Many Hands")
        self.git("config", "user.email", "hands@example.org")
        subprocess.run([COMMAND, "install", self.top], check=True, env=self.env, stdout=subprocess.DEVNULL)
        self.git("add", ".gitattributes")
        self.git("commit", "-q", "-m", "Maps are merged by topotool")

    def git(self, *words, status=0):
        """Runs git, which has to end with this status; gives what it printed, on both outputs."""
        ran = subprocess.run(["git", *words], cwd=self.top, env=self.env, stdin=subprocess.DEVNULL, stdout=subprocess.PIPE, stderr=subprocess.STDOUT, text=True)
        if ran.returncode != status:
            sys.exit(f"many-hands: git {' '.join(words)} ended with {ran.returncode}:\n{ran.stdout}")
        return ran.stdout

    def branch(self, name, start):
        self.git("checkout", "-q", "-b", name, start)

    def build(self, districts, file=MAP):
        """Puts the topology of these districts into a file of the work tree."""
        with open(f"{self.folder}/given.json", "w", encoding="utf-8") as given:
            json.dump({"type": "FeatureCollection", "features": districts}, given)
        with open(f"{self.top}/{file}", "wb") as out:
            subprocess.run([TOPOTOOL, "build", "--grid", GRID, f"districts={self.folder}/given.json"], check=True, stdout=out)

    def commit(self, districts, message, file=MAP):
        self.build([*districts.values()], file)
        self.git("add", file)
        self.git("commit", "-q", "-m", message)

    def refused_by_hook(self, *lines):
        """A commit of everything is refused, with these lines, and nothing is committed."""
        before = self.git("rev-parse", "HEAD")
        printed = self.git("commit", "-q", "-a", "-m", "All", status=1)
        if printed.splitlines() != [f"{MAP}: {it}" for it in lines] or self.git("rev-parse", "HEAD") != before:
            sys.exit(f"many-hands: the hook should print {lines}, and printed\n{printed}")

    def same(self, districts, how):
        """Compares the map with one build of these districts."""
        self.build(districts, "wanted")
        subprocess.run(["cmp", MAP, "wanted"], cwd=self.top, check=True)
        os.remove(f"{self.top}/wanted")
        self.git("diff", "--exit-code")
        print(f"many-hands: git, {how}: the bytes of one build of what is wanted")

    def conflict(self, words, districts, told):
        """A merge in which both sides changed something: the lines that are printed, and what is left in the file."""
        printed = self.git(*words, status=1)
        found = [it for it in printed.splitlines() if it.startswith(f"{MAP}: ")]
        if found != [f"{MAP}: {it}" for it in told] or "CONFLICT" not in printed or self.git("status", "--short") != f"UU {MAP}\n":
            sys.exit(f"many-hands: git {' '.join(words)} should print a conflict:\n{told}\nand printed\n{printed}")
        self.build(districts, "both")
        subprocess.run(["cmp", MAP, "both"], cwd=self.top, check=True)
        os.remove(f"{self.top}/both")


# The day


def day(it):
    """The country, and a branch for the north and one for the south of it, of three commits each."""
    it.commit(BASE, "The country")
    for name, versions in (("north", (NORTH_EDITED, NORTH_GROWN, NORTH)), ("south", (SOUTH_EDITED, SOUTH_GROWN, SOUTH))):
        it.branch(name, "main")
        for number, districts in enumerate(versions):
            it.commit(districts, f"{name} {number}")


def merges(it):
    for name, ours, theirs in (("north-south", "north", "south"), ("south-north", "south", "north")):
        it.branch(name, ours)
        it.git("merge", "-q", "-m", f"{theirs} into {ours}", theirs)
        it.same(WANTED, f"{theirs} merged into {ours}")
    it.branch("third", "main")
    it.git("merge", "-q", "--no-ff", "-m", "north", "north")
    it.git("merge", "-q", "--no-ff", "-m", "south", "south")
    it.same(WANTED, "both merged into a third branch")


def other_ways(it):
    it.branch("rebased", "north")
    it.git("rebase", "-q", "south")
    it.same(WANTED, "north rebased onto south")
    it.branch("picked", "south")
    it.git("cherry-pick", "main..north")
    it.same(WANTED, "north cherry-picked onto south")


def crossed(it):
    """Each side has merged the other, and goes on: there are two common bases, which git merges first."""
    found = {it["id"]: it for it in WANTED}
    it.git("checkout", "-q", "north-south")
    it.commit(without(found, 24), "24 goes again")
    it.git("checkout", "-q", "south-north")
    it.commit({**found, 12: named(found[12], "Twelve")}, "12 has a name")
    it.git("merge", "-q", "-m", "both again", "north-south")
    it.same([*without({**found, 12: named(found[12], "Twelve")}, 24).values()], "branches that had merged each other")


def added_by_both(it):
    """A file that both sides add has no common base."""
    for name, ids in (("west", (0, 1, 2, 5)), ("east", (2, 3, 4))):
        it.branch(name, "main")
        it.commit({id: BASE[id] for id in ids}, f"The {name}", "coast.topo.json")
    it.git("merge", "-q", "-m", "The coast", "west")
    it.build([BASE[id] for id in range(6)], "wanted")
    subprocess.run(["cmp", "coast.topo.json", "wanted"], cwd=it.top, check=True)
    os.remove(f"{it.top}/wanted")
    print("many-hands: git, a file that both added: the bytes of one build of what is wanted")


def conflicts(it):
    """Both sides name 6, one changes 12 and the other removes it, and both add 24. The hook refuses the file with both versions."""
    mine = {**BASE, 6: named(BASE[6], "Six"), 12: named(BASE[12], "Twelve"), 24: WHOLE[24]}
    yours = {**without(BASE, 12, 18), 6: named(moved(BASE[6], across(1, 1)[2]), "Sixth"), 24: named(WHOLE[24], "New")}
    for name, districts in (("mine", mine), ("yours", yours)):
        it.branch(name, "main")
        it.commit(districts, name)
    # Only the names of 6 clash: both versions have the moved border. The 12 that one side removed is there beside the changed one.
    both = [*without(mine, 6, 18).values(), named(yours[6], "Six"), yours[6], BASE[12], yours[24]]
    it.conflict(["merge", "mine"], both, [
        'conflict, ours: ~ "districts" 6 "name": "District 6" -> "Sixth"; geometry: 1 vertex gone, 1 new',
        'conflict, theirs: ~ "districts" 6 "name": "District 6" -> "Six"',
        'conflict, ours: - "districts" 12 {"name":"District 12"}',
        'conflict, theirs: ~ "districts" 12 "name": "District 12" -> "Twelve"',
        'conflict, ours: + "districts" 24 {"name":"New"}',
        'conflict, theirs: + "districts" 24 {"name":"District 24"}',
    ])
    it.refused_by_hook(*(f'layer "districts": id {id} more than once: features {places}' for id, places in ((6, "6, 7"), (12, "13, 14"), (24, "25, 26"))))
    print("many-hands: git, three districts that both changed: a conflict, and the map with both versions, which the hook refuses")
    it.git("merge", "--abort")


# What two editors change of district 7, and what it is merged to: None for a conflict, behind which both versions may stand that
# are left, if they are others than those of the two.
LOW, HIGH = across(2, 1), across(2, 2)
SETTLED = [
    ("a name and a border", named(BASE[7], "Ash"), moved(BASE[7], LOW[2]), named(moved(BASE[7], LOW[2]), "Ash")),
    ("one border alike, and a name", named(moved(BASE[7], LOW[2]), "Ash"), moved(BASE[7], LOW[2]), named(moved(BASE[7], LOW[2]), "Ash")),
    ("two borders", moved(BASE[7], LOW[2]), moved(BASE[7], HIGH[3]), moved(moved(BASE[7], LOW[2]), HIGH[3])),
    ("one border alike, and another", moved(moved(BASE[7], LOW[2]), HIGH[3]), moved(BASE[7], LOW[2]), moved(moved(BASE[7], LOW[2]), HIGH[3])),
    ("the first vertex, and another", moved(BASE[7], LOW[0]), moved(BASE[7], HIGH[3]), moved(moved(BASE[7], LOW[0]), HIGH[3])),
    ("two vertices of one border, beside each other", moved(BASE[7], LOW[2]), moved(BASE[7], LOW[3]), None),
    ("one vertex, to two places", moved(BASE[7], LOW[2]), moved(moved(BASE[7], LOW[2]), (LOW[2][0] + 10, LOW[2][1] + 10)), None),
    ("two names", named(BASE[7], "Ash"), named(BASE[7], "Elm"), None),
    ("two names and a border", named(moved(BASE[7], LOW[2]), "Ash"), named(BASE[7], "Elm"), None,
     named(moved(BASE[7], LOW[2]), "Ash"), named(moved(BASE[7], LOW[2]), "Elm")),
    ("two places of a vertex and a name", named(moved(BASE[7], LOW[2]), "Ash"), moved(moved(BASE[7], LOW[2]), (LOW[2][0] + 10, LOW[2][1] + 10)), None,
     named(moved(BASE[7], LOW[2]), "Ash"), named(moved(moved(BASE[7], LOW[2]), (LOW[2][0] + 10, LOW[2][1] + 10)), "Ash")),
]


def settled(it):
    """What doesn't clash is one district; else there is a conflict."""
    for number, (how, ours, theirs, wanted, *both) in enumerate(SETTLED):
        for name, version in (("left", ours), ("right", theirs)):
            it.branch(f"{name}-{number}", "main")
            it.commit({**BASE, 7: version}, name)
        if wanted is not None:
            it.git("merge", "-q", "-m", "Both", f"left-{number}")
            it.same([*{**BASE, 7: wanted}.values()], f"{how}, of one district")
        else:
            it.git("merge", f"left-{number}", status=1)
            it.build([*without(BASE, 7).values(), *(both or (ours, theirs))], "both")
            subprocess.run(["cmp", MAP, "both"], cwd=it.top, check=True)
            os.remove(f"{it.top}/both")
            it.git("merge", "--abort")
            print(f"many-hands: git, {how}, of one district: a conflict")


def borders(it):
    """Two editors move two borders of one district, each for its neighbour too: every border is in both of its districts again."""
    ours, theirs = ({**BASE, **{id: moved(BASE[id], vertex) for id in ids}} for ids, vertex in (((2, 7), LOW[2]), ((7, 12), HIGH[3])))
    for name, districts in (("below", ours), ("above", theirs)):
        it.branch(name, "main")
        it.commit(districts, name)
    it.git("merge", "-q", "-m", "Both", "below")
    it.same([*{**ours, 7: moved(ours[7], HIGH[3]), 12: theirs[12]}.values()], "two borders of one district, each with its neighbour")


def readable(it):
    """A border of two districts is moved, at a vertex inside and at one where three borders meet: few lines of a diff change."""
    for name, vertex, ids, wanted in (("inner", across(2, 1)[2], (2, 7), 6), ("corner", across(2, 1)[0], (1, 2, 6, 7), 16)):
        it.branch(name, "main")
        it.commit({**BASE, **{id: moved(BASE[id], vertex) for id in ids}}, name)
        printed = it.git("diff", "-U0", "main", name, "--", MAP)
        count = sum(line.startswith(("+{", "-{", "+arc", "-arc")) for line in printed.splitlines())
        if count != wanted:
            sys.exit(f"many-hands: git diff should print {wanted} lines, and printed\n{printed}")
        print(f"many-hands: git diff of a moved vertex, {name}: {count} lines, of {len(it.git('show', '--textconv', f'{name}:{MAP}').splitlines())}")
    it.git("checkout", "-q", "main")
    with open(f"{it.top}/{MAP}", encoding="utf-8") as file:
        lined = json.dumps(json.load(file), indent=1)
    with open(f"{it.top}/{MAP}", "w", encoding="utf-8") as file:
        file.write(lined)
    it.refused_by_hook("not canonical")
    it.git("checkout", "-q", "--", MAP)
    print("many-hands: git, a map that another tool wrote: the hook refuses it")


def refusals(it):
    """A side that is no topology, or is on another grid: git marks the file, which stays as it was."""
    it.branch("broken", "main")
    with open(f"{it.top}/{MAP}", "w", encoding="utf-8") as file:
        file.write("no map\n")
    it.git("commit", "-q", "--no-verify", "-a", "-m", "No map")
    it.git("checkout", "-q", "mine")
    printed = it.git("merge", "broken", status=1)
    for line in ("topotool: theirs: 1 NotJson $", f"{MAP}: not merged: it is as our side has it"):
        if line not in printed.splitlines():
            sys.exit(f"many-hands: git should tell {line}, and told\n{printed}")
    with open(f"{it.top}/{MAP}", encoding="utf-8") as file:
        is_mine = file.read() == it.git("show", f"mine:{MAP}")
    if not is_mine or it.git("status", "--short") != f"UU {MAP}\n":
        sys.exit("many-hands: git changed the map, or did not mark it, although a side is no topology")
    it.git("merge", "--abort")
    print("many-hands: git, a side that is no topology: refused, and the map as it was")


def installs(it):
    """What noshinka-git writes where something is there already, and what it says where something is missing."""
    def command(*words, status=0, **env):
        ran = subprocess.run([COMMAND, *words], cwd=other, env={**it.env, **env}, stdin=subprocess.DEVNULL, capture_output=True, text=True)
        if ran.returncode != status:
            sys.exit(f"many-hands: noshinka-git {' '.join(words)} ended with {ran.returncode}:\n{ran.stdout}{ran.stderr}")
        return ran.stdout + ran.stderr

    def written(name, text):
        """Puts a text into a file; gives what tells whether it is still there."""
        with open(f"{other}/{name}", "w", encoding="utf-8") as file:
            file.write(text)
        return lambda: read(name) == text

    def read(name):
        with open(f"{other}/{name}", encoding="utf-8") as file:
            return file.read()

    def wants(holds, what):
        if not holds:
            sys.exit(f"many-hands: noshinka-git: {what}")

    other = f"{it.folder}/other"
    os.mkdir(other)
    wants("not a git repository" in command("install", status=3), "a folder that is no repository")
    subprocess.run(["git", "init", "-q", other], check=True, env=it.env)
    said = command("install", status=3, TOPOTOOL="/nowhere/topotool")
    wants("topotool not found: the variable TOPOTOOL names /nowhere/topotool" in said, said)
    wants(not os.path.exists(f"{other}/.gitattributes"), "without topotool something was written")
    written(".gitattributes", "*.png binary")
    is_kept = written(".git/hooks/pre-commit", "#!/bin/sh\nexit 0\n")
    for _ in range(2):
        said = command("install", ".")
        wants(is_kept() and ".git/hooks/pre-commit: kept as it is" in said and "pre-commit || exit 1" in said, f"the hook of another: {said}")
        wants(read(".gitattributes") == "*.png binary\n*.topo.json merge=topotool diff=topotool\n", "the line of .gitattributes")
    os.remove(f"{other}/.git/hooks/pre-commit")
    command("install")
    wants(os.access(f"{other}/.git/hooks/pre-commit", os.X_OK), "the hook")
    command("uninstall")
    wants("topotool" not in read(".git/config") and not os.path.exists(f"{other}/.git/hooks/pre-commit"), "what uninstall leaves")
    command("install", "--global", GIT_CONFIG_GLOBAL=f"{other}/global")
    wants("merge-driver %O %A %B %P" in read("global") and "topotool" not in read(".git/config"), "the lines of --global")
    command("uninstall", "--global", GIT_CONFIG_GLOBAL=f"{other}/global")
    wants("topotool" not in read("global"), "what uninstall --global leaves")
    command("install", "--global", ".", status=2)
    is_ours = written("ours", "no map")
    said = command("merge-driver", "ours", "ours", "ours", "map.topo.json", status=3, TOPOTOOL="/nowhere/topotool")
    wants(is_ours() and said.startswith("noshinka-git: topotool not found: ") and said.endswith("map.topo.json: not merged: it is as our side has it\n"), said)
    print("many-hands: noshinka-git: keeps the hook of another and says so, writes each line once, says what is missing")


def main():
    with tempfile.TemporaryDirectory() as folder:
        it = Repository(folder)
        for part in (day, merges, other_ways, crossed, added_by_both, conflicts, settled, borders, readable, refusals, installs):
            part(it)


if __name__ == "__main__":
    main()
