"""Puts the rows of tests/rows through the Python package, and compares its answers with what the program prints for them.

    python3 tests/bindings/rows_by_python.py

NOSHINKA_LIBRARY names the library, TOPOTOOL the program; where there is no program, the answers are compared with the rows
themselves. A row is left out if its words are none of a call: help, wrong usage, files that can't be read. An answer is what
the program would print and its status: the bytes of a text, or the line of an error. Rows of togrid, which TOGRID names, are put
through `round`, `build` and `back`, which read the files. Ends with a line of counts, and with status 1 where anything differs, or
less than most rows were compared.
"""

import contextlib
import itertools
import json
import os
import pathlib
import re
import sys
import tempfile

sys.dont_write_bytecode = True
TOP = os.path.dirname(os.path.dirname(os.path.dirname(os.path.abspath(__file__))))
sys.path[:0] = [f"{TOP}/tests", f"{TOP}/python"]

import many_runs
import rows

import noshinka

GRID = re.compile(r"-?[0-9]+(?:,-?[0-9]+){3}", re.ASCII)
OPTIONS = {
    "build": {"--grid": True},
    "merge": {"--shape": True},
    "remove": {},
    "check": {"--ids": False, "--near": True},
    "feature": {"--layer": True},
    "mesh": {"--layer": True, "--edges": True, "--by": True},
    "neighbors": {"--layer": True, "--ids": False, "--by": True, "--keyed": False},
    "info": {"--json": False},
    "diff": {"--layer": True, "--key": True, "--json": False},
    "faults": {"--grid": True, "--json": False},
}
WANTED = {"build": "--grid", "feature": "--layer", "neighbors": "--layer"}
CHOICES = {"--shape": rows.SHAPES, "--edges": ["all", "interior", "exterior"]}
FILES = {"remove": 2, "check": 1, "feature": 1, "mesh": 1, "neighbors": 1, "info": 1, "diff": 2}
# The options of togrid that calls take, with a value or not; and those of its way back.
VALUES = ["step", "unit", "snap", "id", "layer", "heights", "reals", "unclosed", "collapsed", "folded", "collections", "rewind"]
FLAGS = ["build", "number", "seq", "q"]
VALUES_BACK = ["unit", "like", "quantize", "reals", "rewind"]
FLAGS_BACK = ["back", "q"]
# What togrid alone refuses, of what it is told by words.
OF_WORDS = [b"several objects would be called", b"more than one file", b"bad reals", b"try '--help'"]
LEAST_COMPARED = 1000
LEAST_ROUNDED = 180


class NoCall(Exception):
    """The words are none that a call stands for."""


def parse(words):
    """The command, its options and its files."""
    if not words or words[0] not in OPTIONS:
        raise NoCall
    command, left, options, files = words[0], list(words[1:]), {}, []
    while left:
        name, equals, value = left.pop(0).partition("=")
        if not name.startswith("--"):
            files.append(name + equals + value)
            continue
        takes = OPTIONS[command].get(name)
        if takes is None or name in options or (not takes and equals):
            raise NoCall
        if takes and not equals and (not left or left[0].startswith("-")):
            raise NoCall
        options[name] = (value if equals else left.pop(0)) if takes else True
        if options[name] not in CHOICES.get(name, [options[name]]):
            raise NoCall
    if "--keyed" in options and "--ids" not in options or "--by" in options and "--edges" in options:
        raise NoCall
    if WANTED.get(command, "") not in ["", *options] or len(files) != FILES.get(command, len(files) or 1):
        raise NoCall
    return command, options, files


def call(command, options, names, texts):
    """The answer of a call: what the program prints of it, and its status."""
    if command == "build":
        layers = [(name.partition("=")[0], text) for name, text in zip(names, texts, strict=True)]
        return noshinka.build(layers, [int(it) for it in options["--grid"].split(",")]), 0
    if command == "merge":
        return noshinka.merge(texts), 0
    if command == "remove":
        return noshinka.remove(*texts), 0
    if command == "check":
        return checked(texts[0], "--ids" in options, options.get("--near"))
    if command == "feature":
        return noshinka.feature(texts[0], options["--layer"]), 0
    if command == "mesh":
        return noshinka.mesh(texts[0], options.get("--layer"), options.get("--edges", "all"), options.get("--by")), 0
    if command == "neighbors":
        asked = {"ids": "--ids" in options, "by": options.get("--by"), "keyed": "--keyed" in options}
        return noshinka.neighbors(texts[0], options["--layer"], **asked), 0
    if command == "diff":
        return differences(texts, options)
    if command == "faults":
        return listed(names, texts, options)
    return noshinka.info(texts[0], lines="--json" not in options), 0


def spelled(value):
    """A value as the program spells it."""
    return json.dumps(value, ensure_ascii=False, separators=(",", ":"), sort_keys=True)


def counted(count, what):
    """So many of something, in words."""
    return f"{count} {what}" if count == 1 else f"{count} {what}s"


def checked(text, ids, near):
    """What check prints of a text, and its status, which says whether nothing is wrong."""
    if near is not None and not re.fullmatch("[0-9]+", near):
        raise NoCall
    found = noshinka.check(text, ids=ids, near=None if near is None else int(near))
    lines = ["canonical" if getattr(found, "canonical", found) else "not canonical"]
    if ids or near is not None:
        layers = {it["name"]: noshinka.feature(text, it["name"]).json()["features"] for it in noshinka.info(text).json()["layers"]}
        lines += lines_of_ids(found.ids, layers) if ids else []
        lines += lines_of_near(found, int(near), layers) if near is not None else []
    return "".join(f"{it}\n" for it in lines).encode(), 0 if found else 1


def lines_of_ids(ids, layers):
    """What check prints of ids that are missing, and of those that are there more than once."""
    lines, counts = [], [0, 0]
    for it in ids:
        layer, features = spelled(it.layer), layers[it.layer]
        lines += [f"layer {layer}: feature {number} has no id" for number in it.missing]
        same = [(key, [*numbers]) for key, numbers in itertools.groupby(it.repeated, lambda number: spelled(features[number]["id"]))]
        lines += [f"layer {layer}: id {key} more than once: features {', '.join(map(str, numbers))}" for key, numbers in same]
        counts = [counts[0] + len(it.missing), counts[1] + len(same)]
    return [f"ids: {counted(counts[0], 'feature')} without an id, {counted(counts[1], 'id')} more than once", *lines]


def positions_in(value):
    """The positions in coordinates."""
    if value and isinstance(value[0], int):
        return {tuple(value)}
    return {position for it in value for position in positions_in(it)}


def place_of(here, there, layers):
    """Where a vertex is: the first feature that has it, and not the other one."""
    for layer, features in layers.items():
        for number, feature in enumerate(features):
            positions = positions_in((feature["geometry"] or {"coordinates": []})["coordinates"])
            if here in positions and there not in positions:
                name = f"id {spelled(feature['id'])}" if "id" in feature else f"feature {number}"
                return f"{spelled(here)} of layer {spelled(layer)} {name}"
    return f"{spelled(here)} of no feature"


def lines_of_near(found, steps, layers):
    """What check prints of vertices that are near each other."""
    more = f", the first {len(found.near_pairs)}" if found.near_count > len(found.near_pairs) else ""
    lines = [f"{place_of(one, other, layers)} and {place_of(other, one, layers)}" for one, other in found.near_pairs]
    return [f"near: {counted(found.near_count, 'pair')} of vertices at most {counted(steps, 'step')} apart{more}", *lines]


def listed(names, texts, options):
    """What faults prints of texts, and its status, which says whether there is any fault."""
    grid = [int(it) for it in options["--grid"].split(",")] if "--grid" in options else None
    lists = [(name, noshinka.faults(text, grid).json()) for name, text in zip(names, texts, strict=True)]
    status = 4 if any(found for _, found in lists) else 0
    if "--json" in options:
        objects = [spelled({**it, "file": name}) for name, found in lists for it in found]
        return ("[" + ",\n".join(objects) + "]\n").encode(), status
    lines = []
    for name, found in lists:
        for it in found:
            line = f"{name}:{it['line']}:{it['column']}: {it['number']} {it['name']} {it['path']}"
            lines.append(line + "".join(f" {key} {spelled(it[key])}" for key in ("id", "member") if key in it))
        if not found:
            lines.append(f"{name}: no faults")
    return "".join(f"{line}\n" for line in lines).encode(), status


def differences(texts, options):
    """What diff prints of two texts, and its status, which says whether anything differs."""
    asked = options.get("--layer"), options.get("--key")
    found = noshinka.diff(*texts, *asked)
    whole = found.json()
    differs = whole["differences"] or any(whole["layers"].values())
    return found if "--json" in options else noshinka.diff(*texts, *asked, lines=True), int(bool(differs))


def line_of(fault, files):
    """The line of the program for a fault: as it reads, with the name of the file."""
    front, said = f"{fault.layer or f'text {fault.place}'}:", str(fault)
    return f"{files[fault.place]}:{said.removeprefix(front)}" if said.startswith(front) else said


def answered(words, lent, given):
    """What the program would print on each output for some words, and its status, by the package."""
    command, options, names = parse(words)
    files = [it.partition("=")[2] if command == "build" else it for it in names]
    if any("=" not in it for it in names if command == "build") or files.count("-") > 1 or (given is False and "-" in files):
        raise NoCall
    if "--grid" in options and not GRID.fullmatch(options["--grid"]):
        raise NoCall
    if any(it != "-" and it not in lent for it in files):
        raise NoCall
    texts = [given if it == "-" else lent[it] for it in files]
    try:
        printed, status = call(command, options, names, texts)
        return bytes(printed), b"", status
    except noshinka.Fault as fault:
        return b"", f"topotool: {line_of(fault, files)}\n".encode(), 4
    except noshinka.Usage as usage:
        return b"", f"topotool: {usage}\n".encode(), 2


def rounding(words, values, flags):
    """The options of words of togrid, by the names of the calls, and the files with their names where they have one."""
    options, files, left = {}, [], list(words)
    while left:
        option, equals, value = left.pop(0).partition("=")
        name = option.lstrip("-")
        if not option.startswith("-") or option == "-":
            files.append((option, value) if equals else (None, option))
        elif name in flags and not equals:
            options[name] = True
        elif name in values and (equals or left) and (name not in options or name == "reals"):
            value = value if equals else left.pop(0)
            scale = re.fullmatch("scale:(.*)=(10*)", value)
            if name == "reals" and scale:
                options.setdefault("scales", {}).setdefault(scale[1], int(scale[2]))
            else:
                options[name] = value
        else:
            raise NoCall
    for name in ("snap", "quantize"):
        if not re.fullmatch("[0-9]+", options.get(name, "0")):
            raise NoCall
        options |= {name: int(options[name])} if name in options else {}
    options.pop("q", None)
    return options, files


def call_of_rounding(words, files):
    """The call that words of togrid stand for, and what is passed to it."""
    options, sources = rounding(words, VALUES, FLAGS)
    is_build = options.pop("build", False)
    if any(file not in files for _, file in sources) or not sources or not (is_build or len(sources) == 1):
        raise NoCall
    layers = [(name, pathlib.Path(file)) if name is not None else pathlib.Path(file) for name, file in sources]
    return noshinka.build if is_build else noshinka.round, layers, {**options, "report": False}


def numbers_of(words):
    """The properties of which words of togrid make numbers, or whether all columns are made some; and the other words."""
    asked = [it.partition("=")[2] for it in words if it.partition("=")[0] == "--numbers"]
    names = [name for it in asked for name in it.split(",")]
    if any(asked) and not all(names):
        raise NoCall
    numbers = names if any(asked) else bool(asked)
    return numbers, [it for it in words if it.partition("=")[0] != "--numbers"]


def call_of_way_back(words, files):
    """The call that words of togrid --back stand for, and what is passed to it."""
    numbers, others = numbers_of(words)
    options, sources = rounding(others, VALUES_BACK, FLAGS_BACK)
    if len(sources) != 1 or sources[0][0] is not None or "reals" in options:
        raise NoCall
    file = sources[0][1]
    if not {file, options.get("like", file)} <= files.keys():
        raise NoCall
    options |= {"like": pathlib.Path(options["like"])} if "like" in options else {}
    options.pop("back")
    return noshinka.back, pathlib.Path(file), {**options, "numbers": numbers}


def rounded(words, files):
    """What togrid would print for some words, and its status, by the package."""
    call, given, options = (call_of_way_back if "--back" in words else call_of_rounding)(words, files)
    try:
        return bytes(call(given, **options)), b"", 0
    except noshinka.Fault as fault:
        return b"", f"togrid: {fault}\n".encode(), 4
    except noshinka.Usage as usage:
        if usage.argument in ("layers", "seq"):
            raise NoCall from None
        return b"", f"togrid: {usage}\n".encode(), 2


def wanted(row, lent):
    """What the program prints, or what the row says; None where it says less than each byte."""
    program = row.get("program", "topotool")
    if os.path.isfile(rows.PROGRAMS[program]):
        with tempfile.TemporaryDirectory() as folder:
            for name, text in lent.items():
                rows.lay(folder, name, text)
            ran = rows.called(folder, row["words"], row.get("input", b""), program)
        return ran.stdout, ran.stderr, ran.returncode
    if program == "togrid" or {"answers", "complains", "help", "ending"} & row.keys():
        return None
    whole = {**rows.WHOLE, **row}
    return whole["stdout"], whole["stderr"], whole["status"]


def judge(run):
    """What came of a run of a theme, in a word, and what is wrong with it, in words."""
    theme, row = run
    lent = {name: text for name, text in row["files"].items() if "/" not in name}
    if row.get("program") == "togrid":
        return judge_rounded(theme, row, lent)
    try:
        for name, words in row.get("made", {}).items():
            lent[name] = answered(words, lent, b"")[0]
        came = answered(row["words"], lent, row.get("input", b""))
    except NoCall:
        return "left out", ""
    right = wanted(row, lent)
    if right is None:
        return "left out", ""
    return "compared", "" if came == right else f"{theme}: {row['title']}\n  wanted {right}\n  came   {came}\n"


def judge_rounded(theme, row, lent):
    """The same of a row of togrid, whose files are read by the package."""
    try:
        with tempfile.TemporaryDirectory() as folder, contextlib.chdir(folder):
            for name, text in lent.items():
                rows.lay(folder, name, text)
            came = rounded(row["words"], lent)
    except NoCall:
        return "left out", ""
    right = wanted(row, lent)
    if right is None or any(it in right[1] for it in OF_WORDS):
        return "left out", ""
    if "-q" not in row["words"] and right[2] == 0:
        right = (right[0], b"", 0)
    return "rounded", "" if came == right else f"{theme}: {row['title']}\n  words  {row['words']}\n  wanted {right}\n  came   {came}\n"


def main():
    inputs = rows.read(rows.INPUTS)
    themes = sorted(it.removesuffix(".toml") for it in os.listdir(rows.FOLDER) if it.endswith(".toml"))
    every = [(theme, row) for theme in themes if theme != rows.INPUTS for row in rows.rows_of(theme, inputs)]
    runs = [(theme, run) for theme, row in every for run in rows.runs_of(row)]
    counts, wrong = {"compared": 0, "rounded": 0, "left out": 0}, 0
    for kind, said in many_runs.judged(judge, runs, None):
        counts[kind] += 1
        wrong += bool(said)
        print(said, end="")
    by = "the program" if os.path.isfile(many_runs.PROGRAM) else "the rows"
    print(f"rows by Python: {counts['compared']:,} runs and {counts['rounded']} of togrid compared with {by}, {counts['left out']:,} left out, {wrong} wrong")
    return 1 if wrong or counts["compared"] < LEAST_COMPARED or counts["rounded"] < LEAST_ROUNDED else 0


if __name__ == "__main__":
    sys.exit(main())
