"""Runs topotool and togrid with each of their requests for memory refused in turn, and with all from each on.

    python3 tests/refused_memory.py [--seconds N]

A run has to give the right answer, or status 5, nothing on standard output and the line for want of memory, perhaps
behind the report of togrid. While the words of the command are read, it may also be status 2 with the reader's text.
tests/refusing.py tells what is needed, and how the runs stop; the limit of time is for each program. Ends with lines of
counts, and with status 1 where a run did anything else, or where they were too few.
"""

import shutil
import subprocess
import sys
import tempfile

sys.dont_write_bytecode = True

import refusing
from refusing import TOP

DEEP = '{"type":"Feature","geometry":null,"properties":{"a":' + "[" * 63 + "]" * 63 + "}}"
TWINS = """{"type":"FeatureCollection","features":[
{"type":"Feature","id":1,"geometry":{"type":"Point","coordinates":[1,2]},"properties":{"name":"a"}},
{"type":"Feature","id":1,"geometry":{"type":"Point","coordinates":[1,2]},"properties":{"name":"b"}}]}"""
LOOP = """{"type":"FeatureCollection","features":[
{"type":"Feature","geometry":{"type":"Polygon","coordinates":[[[0,0],[2,0],[0,2],[0,0]]]},"properties":{}},
{"type":"Feature","geometry":{"type":"LineString","coordinates":[[2,0],[3,0]]},"properties":{}}]}"""
OTHER = """{"type":"FeatureCollection","features":[
{"type":"Feature","id":2,"geometry":{"type":"LineString","coordinates":[[1,2],[3,3]]},"properties":{"name":"a"}},
{"type":"Feature","id":1,"geometry":{"type":"Point","coordinates":[1,2]},"properties":{"name":"c","size":[1]}}]}"""
MANY = """{"type":"FeatureCollection","features":[{"type":"Feature","id":7,"geometry":{"type":"Point","coordinates":[1.5]},"properties":{"a":1.5}},
{"type":"Feature","id":"b","geometry":{"type":"Polygon","coordinates":[[[0,0],[1,0]],5]}}]}"""
FAULTY = """{"type":"Topology","transform":{"scale":[0,1],"translate":[0]},"arcs":[[[0,0],[1,1]]],"objects":{"a":{"type":"LineString","id":1,"arcs":[0,0,5]}}}"""
LINE = '{"type":"LineString","coordinates":[[2,0],[3,0]]}'
POINT = '{"type":"Point","coordinates":[7.5,46.25]}'
FOLDED = """{"type":"FeatureCollection","features":[{"type":"Feature","id":1.5,"geometry":{"type":"MultiPolygon","coordinates":[
[[[0,0],[4,0],[9,0.2],[4,0.2],[4,4],[0,0]],[[1,0.9],[2,1],[2,2],[1,1]]],[[[7,7],[7.1,7],[7,7.1],[7,7]]]]},"properties":{"b":[2.50,{"c":7}],"a":1e3}},
{"type":"Feature","geometry":{"type":"LineString","coordinates":[[0,0],[5,0,3],[5,5],[5,0.2],[9,0]]}},{"type":"Feature","geometry":{"type":"LineString","coordinates":[]}}]}"""
COLLECTION = """{"type":"Feature","id":"x","properties":{"n":1,"area":0.25},"geometry":{"type":"GeometryCollection","geometries":[{"type":"Point","coordinates":[1.4,2]},
{"type":"GeometryCollection","geometries":[{"type":"LineString","coordinates":[[0,0],[1,1.6]]},{"type":"MultiPoint","coordinates":[[3,3],[4,4]]}]}]}}"""
NOISY = """{"type":"FeatureCollection","features":[{"type":"Feature","geometry":{"type":"Polygon","coordinates":[[[0,0],[5,0],[5.4,5],[0,5],[0,0]]]},"properties":{"n":1,"area":2}},
{"type":"Feature","geometry":{"type":"Polygon","coordinates":[[[5,0],[9,0],[9,5],[5.6,5],[5,0]]]},"properties":{"n":2.0,"area":2.5}},
{"type":"Feature","geometry":{"type":"LineString","coordinates":[[9,6],[9,5]]},"properties":{"n":"b"}}]}"""
FOREIGN = """{"coordinates":[[1.5]],"features":7,"type":"FeatureCollection","features":[{"geometry":{"coordinates":[[[]]],"type":"MultiPolygon","geometries":5},"features":[],"type":"Feature"}]}"""
WRONG = """{"type":"FeatureCollection","features":[{"type":"Feature","geometry":{"type":"LineString","coordinates":[[0,0],[0,0]]}},
{"type":"Feature","id":[],"properties":{"a":1.5},"geometry":{"type":"GeometryCollection","geometries":[{"type":"Polygon","coordinates":[[[0,0],[1,0],[1,1]],5]},{"type":"Point","coordinates":[1e99,"x"]}]}}]}"""


LINES = """{"type":"FeatureCollection","features":[{"type":"Feature"},{"type":"Feature","id":2.0}]}

{"type":"Point","coordinates":[1.5,2]}"""
MARKS = """\ufeff\x1e{"type":"Point",\n"coordinates":[1.5,2]}\n\x1e\x1e{"type":"Polygon","coordinates":[[[0,0],[4,0],[4,4.2]]]}\n"""
EQUAL = """{"type":"FeatureCollection","features":[{"type":"Feature","properties":{"a":1.0,"b":2.5}},{"type":"Feature","properties":{"b":25e-1,"a":1}},{"type":"Feature","properties":{"a":1,"b":2.5}}]}"""
OPEN = """{"type":"MultiPolygon","coordinates":[[[[0,0],[4,0],[4,4]],[[1,1],[2,1]]],[[[5,5],[6,5],[6,6],[5,5]]]]}"""

LIKE = """{"type":"Topology","objects":{},"transform":{"scale":[0.0036003600360036005,-25e-2],"translate":[-180,90.5]},"arcs":[]}"""

ATLAS = """{"type":"Topology","bbox":[0,0,9,9],"transform":{"scale":[0.5,1e0],"translate":[-1.25,2]},"arcs":[[[0,0],[4,0,7],[0,4]],[[4,4],[-4,-4]],[[9]],[[4,4],[0,0],[2,2]]],
"objects":{"a":{"type":"GeometryCollection","geometries":[{"type":"Polygon","arcs":[[0,1]],"id":"01001","properties":{"n":1.0,"b":2.5}},{"type":null}]},
"b":{"type":"GeometryCollection","geometries":[{"type":"GeometryCollection","geometries":[{"type":"MultiLineString","arcs":[[3],[-4]]},{"type":"MultiPoint","coordinates":[[1,2],[1,2]]}]}]}}}"""
WILD = """{"type":"Topology","arcs":[[[0,0],[4,0]],[[4,1],[4,4,"x"]],[]],"objects":{"a":{"type":"LineString","arcs":[0,1]},"b":{"type":"MultiPolygon","arcs":[[[0,-1,7,0.5],2]],"id":[]}}}"""


def lay(program, texts):
    for name, text in texts.items():
        with open(f"{program.folder}/{name}.json", "w", encoding="utf-8") as file:
            file.write(text)


def inputs(program):
    """Puts the texts of the runs into the folder, and gives the command lines."""
    lay(program, {"deep": DEEP, "twins": TWINS, "loop": LOOP, "line": LINE, "other": OTHER, "broken": "{", "many": MANY, "faulty": FAULTY})
    for name in ("squares", "west", "east"):
        shutil.copy(f"{TOP}/examples/{name}.json", program.folder)
    builds = [["build", "--grid", "1,1,0,0", f"a={it}.json"] for it in ("squares", "deep", "twins", "loop", "broken")]
    builds += [["build", "--grid", "10,10,0,0", f"d={it}.json"] for it in ("west", "east")]
    builds += [["build", "--grid", "1,1,0,0", f"a={it}.json"] for it in ("line", "other")]
    for number, words in enumerate(builds):
        with open(f"{program.folder}/{number}.topo.json", "wb") as file:
            file.write(subprocess.run([program.name, *words], cwd=program.folder, stdout=subprocess.PIPE, stderr=subprocess.DEVNULL).stdout)
    one, twins, seam, west, east, line, changed = (f"{it}.topo.json" for it in (0, 2, 3, 5, 6, 7, 8))
    queries = [["check", one], ["check", seam], ["check", "-"], ["feature", "--layer", "a", one], ["feature", "--layer", "no", one],
               ["mesh", one], ["mesh", "--edges", "interior", one], ["mesh", "--layer", "a", "--edges", "exterior", one],
               ["mesh", "--layer", "no", one], ["neighbors", "--layer", "a", one], ["neighbors", "--layer", "no", one],
               ["neighbors", "--ids", "--layer", "d", west], ["neighbors", "--ids", "--layer", "a", one],
               ["info", seam], ["info", "--json", seam],
               ["feature", "--seq", one], ["feature", "--seq", "--layer", "a", seam], ["feature", "--seq", "--layer", "no", one],
               ["neighbors", "--ids", "--keyed", "--layer", "d", west], ["neighbors", "--ids", "--keyed", "--layer", "a", one],
               ["check", "--ids", "--near", "100", one], ["check", "--ids", west], ["check", "--near", "0", one], ["mesh", "--by", "name", west],
               ["mesh", "--by", "name", "--layer", "a", one], ["mesh", "--by", "name", "--layer", "no", one],
               ["neighbors", "--by", "name", "--layer", "d", west], ["neighbors", "--by", "name", "--layer", "no", one],
               ["check", one, "-o", "/dev/null"], ["feature", "--layer", "no", one, "-o", "out.json"], ["mesh", one, "-o", "nowhere/out.json"]]
    merges = [["merge", west, east], ["merge", "--shape", "halves", west, east, west], ["merge", "--shape", "right", west, east, west],
              ["merge", west, one], ["merge", "broken.json"]]
    removals = [["remove", seam, line], ["remove", one, one], ["remove", west, east], ["remove", west, one], ["remove", one, "broken.json"], ["remove", one, "-"]]
    diffs = [["diff", seam, line], ["diff", one, one], ["diff", west, east], ["diff", "--json", "--key", "name", west, east], ["diff", "--layer", "no", west, east],
             ["diff", "--layer", "d", east, west], ["diff", west, one], ["diff", one, "broken.json"], ["diff", twins, changed], ["diff", "--key", "name", "--json", twins, changed]]
    errors = [["faults", one, "faulty.json"], ["faults", "--explain", "--grid", "1,1,0,0", "many.json", "squares.json"],
              ["faults", "--json", "--grid", "1,1,0,0", "squares.json", "many.json"], ["faults", "broken.json", "nowhere.json"], ["faults", "broken.json"]]
    usages = [["--help"], ["mesh", "--help"], ["--version"], ["merge"], ["merge", "-", "-"], ["remove", "-", "-"], ["build", "--grid", "x", "a=b"], ["check", "nowhere.json"]]
    return [*builds, *queries, *merges, *removals, *diffs, *errors, *usages]


def rounded(program):
    """The same for togrid."""
    lay(program, {"point": POINT, "folded": FOLDED, "collection": COLLECTION, "noisy": NOISY, "foreign": FOREIGN, "wrong": WRONG, "broken": '{"type":"Point"', "deep": DEEP,
                  "lines": LINES, "marks": MARKS, "equal": EQUAL, "open": OPEN, "like": LIKE,
                  "atlas": ATLAS, "wild": WILD})
    with open(f"{program.folder}/noisy.topo.json", "wb") as file:
        words = [program.name, "--build", "-q", "--step", "1", "a=noisy.json"]
        file.write(subprocess.run(words, cwd=program.folder, stdout=subprocess.PIPE, stderr=subprocess.DEVNULL).stdout)
    one = ["--step", "1"]
    plain = [["-q", "point.json"], ["point.json"], ["--strict", "-"], [*one, "folded.json"], ["-q", *one, "collection.json"], [*one, "foreign.json"], ["-q", "deep.json"],
             [*one, "--rewind", "rfc7946", "folded.json"], [*one, "--snap", "1", "noisy.json"], [*one, "--collapsed", "drop", "--strict", "folded.json"],
             [*one, "--id", "n", "--reals", "scale:area=10", "noisy.json"], [*one, "-o", ".", "--report", "report.out", "a=point.json", "b=folded.json"],
             ["--seq", "--number", "lines.json"], ["-q", "--seq", *one, "marks.json"], ["--strict", "--report", "report.out", "equal.json"], ["--reals", "text", "--unit", "0.001", *one, "equal.json"],
             [*one, "open.json"]]
    builds = [["--build", *one, "point.json"], ["--build", *one, "a=folded.json", "a=noisy.json"], ["--build", "-q", *one, "--snap", "2", "a=noisy.json", "b=folded.json"],
              ["--build", "-q", *one, "a=collection.json"], ["--build", *one, "--report", "report.out", "-o", "built.out", "a=noisy.json"]]
    wrong = [[*one, "wrong.json"], ["-q", "--seq", "--unclosed", "refuse", *one, "marks.json"], [*one, "--unclosed", "refuse", "open.json"], ["-q", "broken.json"], ["--build", *one, "--folded", "refuse", "a=point.json", "a=folded.json"], [*one, "--collapsed", "refuse", "folded.json"],
             [*one, "--id", "n", "folded.json"], [*one, "--collections", "refuse", "collection.json"], ["-q", *one, "--reals", "refuse", "folded.json"], ["nowhere.json"]]
    faults = [["--faults", *one, "wrong.json", "point.json"], ["--faults", "--seq", *one, "--unclosed", "refuse", "marks.json"], ["--faults", *one, "--collapsed", "refuse", "--reals", "refuse", "folded.json"], ["--faults", "broken.json"]]
    back = [["--back", "noisy.topo.json"], ["--back", "--rewind", "keep", "--unit", "0.25", "noisy.topo.json", "-o", "back.out"], ["--back", "point.json"],
            ["--back", "--quantize", "1000", "noisy.topo.json"],
            ["--back", "--like", "like.json", "noisy.topo.json"], ["--back", "--like", "point.json", "noisy.topo.json"], ["--back", "--like", "nowhere.json", "noisy.topo.json"]]
    topologies = [["--build", *one, "atlas.json"], ["--strict", *one, "--report", "report.out", "-o", ".", "atlas.json"], ["--build", "-q", *one, "--snap", "1", "atlas.json", "a=noisy.json"],
                  [*one, "atlas.json"], ["-q", *one, "wild.json"], ["--faults", *one, "--folded", "refuse", "wild.json", "atlas.json"]]
    usages = [["--help"], ["--version"], ["--step", "0", "point.json"], ["--unit", "1", "point.json"], ["--build", "-", "a=-"], ["--back", "--snap", "1", "noisy.topo.json"]]
    return [*plain, *builds, *wrong, *faults, *back, *topologies, *usages]


class Kinds:
    """Tells what kind of run it was. While the words of a command are read, status 2 is right too: so long as it has made
    no more requests than where no file is there, when the words are read and little more is done."""

    def __init__(self, name, program, commands):
        self.front = f"{name}: ".encode()
        with tempfile.TemporaryDirectory() as empty:
            self.of_words = {tuple(it): program.asked(it, empty)[1] for it in commands}

    def lines(self, task):
        """The line for want of memory; also behind the report of togrid, which comes before what is printed."""
        line = self.front + b"20 OutOfMemory\n"
        return line, (task.right[2] if task.right[0] in (0, 1) else b"") + line

    def __call__(self, task, end):
        status, printed, said = end
        if end[:2] == (5, b"") and end[2] in self.lines(task):
            return "status 5"
        if end == task.right:
            return "as with ample memory"
        is_of_words = task.place <= self.of_words[tuple(task.words)]
        if is_of_words and status == 2 and not printed and said and not said.startswith(self.front):
            return "status 2"
        return refusing.WRONG


PROGRAMS = {"topotool": (inputs, "0.topo.json"), "togrid": (rounded, "point.json")}


def judge(name):
    """Runs the commands of a program; gives whether anything was wrong."""
    of_program, given = PROGRAMS[name]
    with refusing.program(name.upper(), name) as program:
        commands = of_program(program)
        program.given = given
        tally = program.judge(commands, Kinds(name, program, commands))
    print(f"{name}: {len(commands)} commands, {tally}")
    return tally.is_wrong()


def main():
    return 1 if any([judge(name) for name in PROGRAMS]) else 0


if __name__ == "__main__":
    sys.exit(main())
