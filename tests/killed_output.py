"""Ends topotool and togrid at each step by which they write the file of `-o FILE`, and lets each of these steps fail.

    python3 tests/killed_output.py [--seconds N]

A step makes the file, writes to it, syncs it, renames it or removes it. Where the program is ended at one of them FILE has to
stand as it was, and the next run has to replace it. Where one fails the status has to be 6 with the line for it, FILE has to
stand as it was, and nothing may be left beside it; where all behind it fail too, so that nothing can be removed, FILE has to
stand. FILE is a file of its own, or one that the command reads; or it has the longest name, or is a symbolic link that leads
by another one to a file that isn't there yet: then that file is made, and both stay links. tests/refusing.py tells what is
needed. Ends with a line of counts, and with status 1 where a run did anything else, or where they were too few.
"""

import json
import os
import signal
import sys

sys.dont_write_bytecode = True

import refusing

KILLED = -signal.SIGKILL
POINTS = 9000  # some hundred kilobytes, which are written in several pieces
LEAST_STEPS = 4  # made, written, synced, renamed
LINKS = {"link.json": "./other.json", "other.json": "far.json"}  # the last one is not there
LONGEST = 250 * "n" + ".json"  # as many bytes as a name may have


def inputs(program):
    """Puts the texts of the runs into the folder, and gives the commands, each with the file that it replaces."""
    points = [{"type": "Feature", "id": it, "geometry": {"type": "Point", "coordinates": [it, -it]}} for it in range(POINTS)]
    lay(program, "points.json", json.dumps({"type": "FeatureCollection", "features": points}).encode())
    build = ["build", "--grid", "1,1,0,0", "a=points.json"]
    (status, text, _), _ = program.run(build, {})
    if status or len(text) < 200000:
        sys.exit(f"no topology was built: status {status}")
    lay(program, "points.topo.json", text)
    lay(program, "old.json", b"what was there")
    lay_links(program)
    merge, feature, info = ["merge", "points.topo.json"], ["feature", "--layer", "a", "points.topo.json"], ["info", "points.topo.json"]
    return [(build, "old.json"), (build, "points.json"), (feature, "old.json"), (feature, "points.topo.json"), (info, "old.json"), (merge, "new.json"),
            (info, "link.json"), (info, LONGEST)]


def rounded(program):
    """The same for togrid, of points in degrees."""
    points = [{"type": "Feature", "geometry": {"type": "Point", "coordinates": [it / 1000, -it / 1000]}} for it in range(POINTS)]
    lay(program, "degrees.json", json.dumps({"type": "FeatureCollection", "features": points}).encode())
    lay(program, "old.json", b"what was there")
    build = ["-q", "--build", "a=degrees.json"]
    (status, text, _), _ = program.run(build, {})
    if status or len(text) < 200000:
        sys.exit(f"no topology was built: status {status}")
    lay(program, "degrees.topo.json", text)
    lay_links(program)
    return [(build, "old.json"), (build, "link.json"), (build, LONGEST), (build, "degrees.json"), (["-q", "--back", "degrees.topo.json"], "degrees.topo.json")]


PROGRAMS = {"topotool": inputs, "togrid": rounded}


def lay(program, name, text):
    with open(f"{program.folder}/{name}", "wb") as file:
        file.write(text)


def lay_links(program):
    for name, target in LINKS.items():
        os.symlink(target, f"{program.folder}/{name}")


def led_to(name):
    """The name of the file that a name leads to."""
    return led_to(os.path.normpath(LINKS[name])) if name in LINKS else name


def held(program):
    """The files of the folder, by their names: the bytes of a file, and of a link what it says."""
    texts = {}
    for name in os.listdir(program.folder):
        path = f"{program.folder}/{name}"
        if os.path.islink(path):
            texts[name] = os.readlink(path)
            continue
        with open(path, "rb") as file:
            texts[name] = file.read()
    return texts


def put_back(program, before):
    found = held(program)
    for name in found:
        if name not in before or isinstance(found[name], str) != isinstance(before[name], str):
            os.remove(f"{program.folder}/{name}")
    for name, text in before.items():
        if isinstance(text, bytes):
            lay(program, name, text)
        elif not os.path.islink(f"{program.folder}/{name}"):
            os.symlink(text, f"{program.folder}/{name}")


class Runs:
    """Runs of a command that replaces a file, each begun with the same files."""

    def __init__(self, program, crate, words, name):
        self.program, self.words, self.name, self.before = program, [*words, "-o", name], name, held(program)
        self.failure = (6, b"", f"{crate}: 21 Write\n".encode())
        (_, printed, _), _ = program.run(words, {})
        end, self.steps = program.run(self.words, {"STEPS_TOLD": None})
        self.whole = {**self.before, led_to(name): printed}
        self.is_right = end == (0, b"", b"") and held(program) == self.whole and self.steps >= LEAST_STEPS
        put_back(program, self.before)

    def after(self, settings):
        """How a run ends, what is in the folder then, and whether the files that were there before are as they were."""
        end, _ = self.program.run(self.words, settings)
        found = held(self.program)
        return end, found, all(found.get(name) == text for name, text in self.before.items())

    def killed(self, step, half):
        """A run that is ended at a step; and the next one, beside what that one left."""
        (status, printed, _), found, stands = self.after({"END_AT": step, **({"END_HALF": 1} if half else {})})
        left = {**found, **self.whole}
        again, found, _ = self.after({})
        return status == KILLED and not printed and stands and again == (0, b"", b"") and found == left

    def failed(self, step):
        end, found, _ = self.after({"FAIL_AT": step})
        return end == self.failure and found == self.before

    def failed_on(self, step):
        end, _, stands = self.after({"FAIL_AT": step, "FAIL_ON": 1})
        return end == self.failure and stands

    def judge(self):
        """What was tried, and whether it went well."""
        yield "not ended", self.is_right
        for step in range(1, self.steps + 1):
            for what, is_right in ((f"ended at step {step}", lambda: self.killed(step, False)), (f"ended in step {step}", lambda: self.killed(step, True)),
                                   (f"step {step} failed", lambda: self.failed(step)), (f"all from step {step} on failed", lambda: self.failed_on(step))):
                yield what, is_right()
                put_back(self.program, self.before)


def main():
    done = wrong = 0
    for crate, inputs_of in PROGRAMS.items():
        with refusing.program(crate.upper(), crate) as program:
            for words, name in inputs_of(program):
                runs = Runs(program, crate, words, name)
                for what, is_right in runs.judge():
                    done += 1
                    wrong += not is_right
                    if not is_right:
                        print(f"{crate} {' '.join(runs.words)}: {what} of {runs.steps}: wrong")
    print(f"{done:,} runs ended or failed at a step of writing a file, {wrong} wrong")
    return 1 if wrong or done < refusing.LEAST_RUNS else 0


if __name__ == "__main__":
    sys.exit(main())
