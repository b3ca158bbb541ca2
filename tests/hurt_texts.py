"""Runs every command on topologies that were hurt at random: bytes, members and elements changed.

    python3 tests/hurt_texts.py [--seed N] [--texts N] [--seconds N]

Each run has to end with status 0, 1 (`check` alone) or 4; with 4 nothing is printed, and standard error has one
line; all commands refuse the same texts, for the same fault; what `merge` prints is canonical by `check`, and is
printed again by a second merge; and so is what `remove` leaves of a text without its own features, which are put
back by a merge. `feature --seq` prints the same features. `faults` begins with the same fault. With a limit of time it stops there. Ends with a line of counts, and with status 1 where a run did
anything else, almost no text was tried, or of many none was accepted.
"""

import json
import os
import random
import re
import sys
import tempfile

sys.dont_write_bytecode = True

from many_runs import LEAST_TEXTS, TOP, judged, told, topotool, words_of

SURE_TEXTS = 200  # of so many some are accepted
LOOP = {"type": "FeatureCollection", "features": [
    {"type": "Feature", "id": "loop", "geometry": {"type": "Polygon", "coordinates": [[[0, 0], [2, 0], [0, 2], [0, 0]]]}, "properties": {"n": 1}},
    {"type": "Feature", "geometry": {"type": "LineString", "coordinates": [[2, 0], [3, 0]]}, "properties": {}},
    {"type": "Feature", "id": 7, "geometry": {"type": "MultiPoint", "coordinates": [[1, 1], [1, 1]]}, "properties": {"a": [None, True]}}]}


def whole_texts(folder):
    """The texts that are hurt: canonical ones, and the same in the spelling of another tool."""
    with open(f"{folder}/loop.json", "w", encoding="utf-8") as file:
        json.dump(LOOP, file)
    builds = [("1,1,0,0", f"{TOP}/examples/squares.json"), ("10,10,0,0", f"{TOP}/examples/west.json"), ("1,1,0,0", f"{folder}/loop.json")]
    texts = [topotool("build", "--grid", grid, f"a={file}").stdout for grid, file in builds]
    return texts + [json.dumps({it: json.loads(text)[it] for it in ("type", "transform", "objects", "arcs")}).encode() for text in texts]


def hurt_bytes(chance, text):
    """A byte replaced, removed, doubled or swapped with another, or all behind it cut off."""
    bytes_, at = bytearray(text), chance.randrange(len(text))
    kind = chance.randrange(5)
    if kind == 0:
        bytes_[at] = chance.choice(b'\0\xff"{}[],:0123456789-.eE tfn\\/')
    elif kind == 1:
        del bytes_[at]
    elif kind == 2:
        bytes_.insert(at, bytes_[at])
    elif kind == 3:
        other = chance.randrange(len(text))
        bytes_[at], bytes_[other] = bytes_[other], bytes_[at]
    else:
        del bytes_[at:]
    return bytes(bytes_)


def places(value):
    """Each place of a value: what holds it, and its name or index there."""
    for key in value if isinstance(value, dict) else range(len(value)):
        yield value, key
        if isinstance(value[key], (dict, list)):
            yield from places(value[key])


def hurt_value(chance, text):
    """Two members or elements exchanged, one taken away or doubled, or a number moved."""
    value = json.loads(text)
    found = [*places(value)]
    holder, key = chance.choice(found)
    kind = chance.randrange(4)
    if kind == 0:
        other, there = chance.choice(found)
        copy = json.loads(json.dumps([holder[key], other[there]]))
        holder[key] = copy[1]
        other[there] = copy[0]
    elif kind == 1:
        del holder[key]
    elif kind == 2 and isinstance(holder, list):
        holder.insert(key, json.loads(json.dumps(holder[key])))
    else:
        numbers = [it for it in found if isinstance(it[0][it[1]], int)]
        holder, key = chance.choice(numbers)
        holder[key] += chance.choice([-2, -1, 1, 2, 10**9, -(10**18)])
    return json.dumps(value, separators=(",", ":")).encode()


def hurt(chance, texts):
    text = chance.choice(texts)
    for _ in range(chance.choice([1, 1, 1, 2, 3])):
        try:
            text = chance.choice([hurt_bytes, hurt_value])(chance, text)
        except (ValueError, IndexError, RecursionError):
            text = hurt_bytes(chance, text or b" ")
    return text


def is_refusal(ran):
    return ran.returncode == 4 and not ran.stdout and ran.stderr.count(b"\n") == 1


def is_listed(file, merge, faults):
    """Whether `faults` begins with what `merge` is refused for, or has nothing where it isn't."""
    said = merge.stderr.removeprefix(f"topotool: {file}: ".encode())[:-1]
    wanted = rb":\d+:\d+: " + re.escape(said) if merge.returncode else rb": no faults\n\Z"
    return faults.returncode == merge.returncode and not faults.stderr and re.match(re.escape(file.encode()) + wanted, faults.stdout)


def judge(file):
    """Runs the commands on one text; gives whether it is accepted, and what is wrong with the runs."""
    merge = topotool("merge", file)
    with open(file, "rb") as text:
        return merge.returncode == 0, [f"{it}: {text.read()!r}" for it in complaints(file, merge)]


def complaints(file, merge):
    """What is wrong with the runs on one text, of which that of `merge` is done."""
    check, mesh, info = (topotool(it, file) for it in ("check", "mesh", "info"))
    remove, diff = (topotool(it, file, file) for it in ("remove", "diff"))
    layered = [topotool(it, "--layer", "a", file) for it in ("feature", "neighbors")]
    sequences = [topotool("feature", "--seq", *it, file) for it in ((), ("--layer", "a"))]
    runs = [check, merge, remove, diff, mesh, info, *layered, *sequences]
    if any(it.returncode not in (0, 4) and not (it is check and it.returncode == 1) for it in runs):
        yield f"statuses {[it.returncode for it in runs]}"
    if any(it.returncode == 4 and not is_refusal(it) for it in runs):
        yield "a refusal that prints"
    if not is_listed(file, merge, topotool("faults", file)):
        yield "another first fault"
    if merge.returncode == 4:
        if {it.stderr for it in runs} != {merge.stderr}:
            yield f"other faults {[it.stderr for it in runs]}"
        return
    if (diff.returncode, diff.stdout) != (0, b"0 added, 0 removed, 0 changed\n"):
        yield f"the text differs from itself: {diff.stdout!r}"
    folder = os.path.dirname(file)
    with tempfile.NamedTemporaryFile(dir=folder) as merged, tempfile.NamedTemporaryFile(dir=folder) as left:
        for held, ran in ((merged, merge), (left, remove)):
            held.write(ran.stdout)
            held.flush()
        if topotool("check", merged.name).returncode or topotool("merge", merged.name).stdout != merge.stdout:
            yield "a merge that is not canonical"
        if topotool("check", left.name).returncode or topotool("merge", left.name, file).stdout != merge.stdout:
            yield "a removal that is not canonical, or is not undone by a merge"
    if any(it.returncode == 4 and it.stderr != b"topotool: 19 NoLayer a\n" for it in [*layered, *sequences]):
        yield "a layer that is refused"
    lines = sequences[1].stdout.split(b"\n")
    if sequences[1].returncode == 0 and layered[0].stdout != b'{"features":[' + b",".join(lines[:-1]) + b'],"type":"FeatureCollection"}':
        yield "other features a line each"
    if sequences[0].returncode or sequences[1].stdout not in sequences[0].stdout:
        yield "other lines of all layers"


def main():
    words = words_of(10000)
    chance, wrong, done, accepted = random.Random(words.seed), 0, 0, 0
    with tempfile.TemporaryDirectory() as folder:
        texts = whole_texts(folder)
        files = [f"{folder}/{number}.json" for number in range(words.texts)]
        for name in files:
            with open(name, "wb") as file:
                file.write(hurt(chance, texts))
        for is_accepted, found in judged(judge, files, words.seconds):
            done, accepted, wrong = done + 1, accepted + is_accepted, wrong + len(found)
            for it in found:
                print(it)
    print(f"seed {words.seed}: {told(done, words.texts, 'texts', words.seconds)}, {accepted:,} accepted, {wrong} wrong")
    is_enough = done >= min(LEAST_TEXTS, words.texts) and (accepted or done < SURE_TEXTS)
    return 1 if wrong or not is_enough else 0


if __name__ == "__main__":
    sys.exit(main())
