"""Runs the built programs on the rows of tests/rows/*.toml, each in a new folder, and compares what it prints, byte by byte.

    python3 tests/rows.py [THEME...]

A theme is a file of rows; without one all are run. A row says in which `words` the `program` is called, which is topotool
unless it says togrid, and what has to come:
`stdout` and `stderr`, of which each is empty unless it is given, and `status`, which is 0. Before that its `files` are laid in
the folder, by their names, and those of `made` are what the program prints for their words, in turn. `input` is the text of
standard input, which is empty without it; where `input` is false it can't be read. `fault` is what the line of a refused text
says behind the name of the file in `faulty`: nothing is printed then, and the status is 4. `left` are files that the run
writes, by their names, and their texts; no other is changed, added or removed, also where a row doesn't say it. A text that
begins with `@` names one of the table `texts` of its file, or of tests/rows/inputs.toml. Where `timed` is true the seconds
that standard error tells are replaced by S.

Three keys ask for less than each byte: `complains` (nothing is printed, and something told), `answers` (either something is
printed, or the text is refused) and `help` (a part of what is printed; `ending`: its end), where no line is too long for a
terminal. A table has `rows` of values for its `columns`, of which each is a key or the name of a file; what else it says holds
for each. `RULES` below are the keys by which one row stands for many runs. Ends with a line of counts, and with status 1 where
a run did anything else, or there was none.
"""

import itertools
import os
import re
import subprocess
import sys
import tempfile
import tomllib

sys.dont_write_bytecode = True

import many_runs

FOLDER = f"{many_runs.TOP}/tests/rows"
PROGRAMS = {"topotool": os.path.abspath(many_runs.PROGRAM), "togrid": os.path.abspath(many_runs.TOGRID)}
INPUTS = "inputs"
SHAPES = ["left", "right", "halves"]
TERMINAL = 80  # bytes of a line, with which it is too long
TEXTS = ["input", "stdout", "stderr", "help", "ending"]
SECONDS = re.compile(rb", [0-9]+\.[0-9]{3} s$", re.MULTILINE)
WHOLE = {"stdout": b"", "stderr": b"", "status": 0}


def in_each_way(row, ways):
    """The row once for each of several lists of words."""
    return ({**row, "words": words} for words in ways)


def in_each_order(row, files):
    """Merges the files in each order, and in each grouping."""
    orders = itertools.product(SHAPES, itertools.permutations(files))
    return ({**row, "words": ["merge", "--shape", shape, *order]} for shape, order in orders)


def with_arrays(row, depth):
    """Puts arrays in one another, so many, in the place of ARRAYS: in the files, and in what is printed."""
    arrays = b"[" * depth + b"]" * depth
    files = {name: text.replace(b"ARRAYS", arrays) for name, text in row["files"].items()}
    return [{**row, "files": files, "stdout": row.get("stdout", b"").replace(b"ARRAYS", arrays)}]


def with_beginnings(row, name):
    """Each proper beginning of a file, in its place."""
    text = row["files"][name]
    return ({**row, "files": {**row["files"], name: text[:length]}} for length in range(len(text)))


def with_bytes(row, replaced):
    """Each byte of a file replaced by each of some others, in turn."""
    name, others = replaced
    text = row["files"][name]
    texts = (text[:at] + bytes([it]) + text[at + 1 :] for it in others for at in range(len(text)))
    return ({**row, "files": {**row["files"], name: it}} for it in texts)


RULES = {"ways": in_each_way, "orders": in_each_order, "arrays": with_arrays, "beginnings": with_beginnings, "bytes": with_bytes}
KEYS = {"title", "program", "words", "files", "made", "left", "timed", "fault", "faulty", "complains", "answers", *TEXTS, *WHOLE, *RULES}


def runs_of(row):
    """The runs that a row stands for."""
    rule = next((it for it in RULES if it in row), None)
    if rule is None:
        yield row
        return
    without = {key: value for key, value in row.items() if key != rule}
    for made in RULES[rule](without, row[rule]):
        yield from runs_of(made)


def rows_of_table(table):
    """The rows of a table, each with what holds for all."""
    columns, shared = table["columns"], {key: it for key, it in table.items() if key not in ("columns", "rows")}
    for values in table["rows"]:
        row = dict(zip(columns, values, strict=True))
        files = {name: row.pop(name) for name in columns if name not in KEYS}
        yield {**shared, **row, "files": {**shared.get("files", {}), **files}}


def text_of(text, texts):
    """The bytes of a text, or of the one that it names."""
    if not isinstance(text, str):
        return text
    return (texts[text[1:]] if text.startswith("@") else text).encode()


def filled(row, texts):
    """A row with the texts that it names, and with the line of its fault."""
    if unknown := row.keys() - KEYS:
        sys.exit(f"{row.get('title')}: no such keys: {sorted(unknown)}")
    files, left = ({name: text_of(text, texts) for name, text in row.get(key, {}).items()} for key in ("files", "left"))
    row = {**row, "files": files, "left": left, **{key: text_of(row[key], texts) for key in TEXTS if key in row}}
    if "fault" in row:
        row |= {"stderr": f"{row.get('program', 'topotool')}: {row['faulty']}: {row['fault']}\n".encode(), "status": 4}
    return row


def read(theme):
    with open(f"{FOLDER}/{theme}.toml", "rb") as file:
        return tomllib.load(file)


def rows_of(theme, inputs):
    """The rows of a file, of which there has to be one."""
    document = read(theme)
    texts = {**inputs, **document.get("texts", {})}
    tables = map(rows_of_table, document.get("table", []))
    rows = [filled(it, texts) for it in itertools.chain(document.get("row", []), *tables)]
    return rows or sys.exit(f"{theme}: no rows")


def called(folder, words, text=b"", program="topotool"):
    """Runs a program in a folder, with a standard input that holds this text; where that is false it is the folder, which can't be read."""
    how = {"cwd": folder, "capture_output": True, "executable": PROGRAMS[program]}
    words = [program.encode(), *(it.encode() for it in words)]
    if text is not False:
        return subprocess.run(words, input=text, **how)
    unreadable = os.open(folder, os.O_RDONLY)
    try:
        return subprocess.run(words, stdin=unreadable, **how)
    finally:
        os.close(unreadable)


def lay(folder, name, text):
    with open(f"{folder}/{name}", "wb") as file:
        file.write(text)


def held(folder):
    """The files of a folder, by their names."""
    found = {}
    for name in os.listdir(folder):
        with open(f"{folder}/{name}", "rb") as file:
            found[name] = file.read()
    return found


def make(folder, made):
    """Makes files of what the program prints; gives the runs that failed."""
    for name, words in made.items():
        ran = called(folder, words)
        lay(folder, name, ran.stdout)
        if ran.returncode or ran.stderr:
            yield ran


def is_answer(ran):
    """Whether something was printed and nothing told, or nothing printed and the text refused."""
    return bool(ran.stdout) and not ran.stderr if ran.returncode == 0 else ran.returncode == 4 and not ran.stdout and bool(ran.stderr)


def is_help(row, ran):
    is_whole = ran.returncode == 0 and not ran.stderr and all(len(it) < TERMINAL for it in ran.stdout.split(b"\n"))
    return is_whole and row.get("help", b"") in ran.stdout and ran.stdout.endswith(row.get("ending", b""))


def is_right(row, ran):
    """Whether a run did what its row says."""
    if "answers" in row:
        return is_answer(ran)
    if "complains" in row:
        return ran.returncode == row["status"] and not ran.stdout and bool(ran.stderr)
    if "help" in row or "ending" in row:
        return is_help(row, ran)
    wanted = {**WHOLE, **row}
    said = SECONDS.sub(b", S s", ran.stderr) if row.get("timed") else ran.stderr
    return (wanted["stdout"], wanted["stderr"], wanted["status"]) == (ran.stdout, said, ran.returncode)


def judge(run):
    """Gives what is wrong with a run of a theme, in words."""
    theme, row = run
    with tempfile.TemporaryDirectory() as folder:
        for name, text in row["files"].items():
            lay(folder, name, text)
        failed = [*make(folder, row.get("made", {}))]
        before = held(folder)
        ran = called(folder, row["words"], row.get("input", b""), row.get("program", "topotool"))
        after = held(folder)
    if not failed and is_right(row, ran) and after == {**before, **row["left"]}:
        return []
    came = {"stdout": ran.stdout, "stderr": ran.stderr, "status": ran.returncode, "left": {name: text for name, text in after.items() if before.get(name) != text}}
    return [f"{theme}: {row['title']}\n  wanted {WHOLE | row}\n  came   {came}\n", *(f"  before {it}\n" for it in failed)]


def main():
    many_runs.look_for_program()
    inputs, wrong = read(INPUTS), 0
    themes = sys.argv[1:] or sorted(it.removesuffix(".toml") for it in os.listdir(FOLDER) if it.endswith(".toml"))
    rows = [(theme, row) for theme in themes if theme != INPUTS for row in rows_of(theme, inputs)]
    runs = [(theme, run) for theme, row in rows for run in runs_of(row)]
    for found in many_runs.judged(judge, runs, None):
        wrong += bool(found)
        print("".join(found), end="")
    print(f"rows: {len(rows):,} rows, {len(runs):,} runs, {wrong} wrong")
    return 1 if wrong or not runs else 0


if __name__ == "__main__":
    sys.exit(main())
