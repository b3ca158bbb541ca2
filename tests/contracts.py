"""Compares the contracts of the calls that the library promises with those of an earlier commit.

    python3 tests/contracts.py [COMMIT]

tests/contracts.toml lists the calls by their crates, and the commit (`base`) where none is given. A call may gain a clause. It
has to be there, with the signature that it had; no `requires` may come or change, and no `ensures` may go or change; and each
definition that a clause of it reaches, through others, has to be the text that it was. Where one stands is no matter, so calls and
definitions may move to another file or crate; those of crates that no listed call stands on are not read. What has changed all the same is told in the same file under its name, with the
reason why it promises no less: `Type::call`, `crate::call`, or the definition's own name. A name there that has not changed is
an error too. Files are read as `rt fmt` lays them out.

Prints what differs, and a line of counts, with status 1 where something differs that is not told. Where the history doesn't have
the commit it says that it was skipped.
"""

import glob
import os
import re
import subprocess
import sys
import tempfile
import tomllib

sys.dont_write_bytecode = True

from conditions import FUNCTION, METHODS, TOP, TRAIT, signature

LIST = "tests/contracts.toml"
CLAUSE = re.compile(r" *(requires|ensures)\b")
ITEM = re.compile(r"(?:(?:pub|abbrev|data|record|opaque|unfoldable) )*([^\s:({]+)")
WORD = re.compile(r"[^\s(){}\[\],;.λ]+")


def text_of(path):
    with open(path, encoding="utf-8") as file:
        return file.read()


def one_line(lines):
    return " ".join(" ".join(lines).split())


class Contract:
    """The signature of a call, and its clauses, each as one line."""

    def __init__(self, lines):
        self.signature, clauses = signature(lines).rstrip("{; "), []
        for line in lines:
            if CLAUSE.match(line):
                clauses.append([])
            elif line.strip() == "{" or not clauses and line.endswith((" {", ";")):
                break
            if clauses:
                clauses[-1].append(line)
                if line.endswith(";"):
                    break
        clauses = {one_line(it).removesuffix(";") for it in clauses}
        self.requires = {it for it in clauses if it.startswith("requires")}
        self.ensures = clauses - self.requires


def calls_of(root):
    """Each public call, by its crate and its name with its type or trait."""
    found = {}
    for path in glob.glob(f"{root}/crates/*/src/**/*.rt", recursive=True):
        crate, lines, owner, is_trait = path.removeprefix(f"{root}/crates/").split("/")[0], text_of(path).split("\n"), None, False
        for at, line in enumerate(lines):
            if line and not line.startswith((" ", "}", ")")):
                is_trait, block = TRAIT.match(line), TRAIT.match(line) or METHODS.match(line)
                owner = block and block[1]
            call = FUNCTION.match(line)
            if call and (call[2] or is_trait):
                found.setdefault(f"{owner or crate}::{call[3]}", []).append(Contract(lines[at:]))
    return found


def below(root, crates):
    """The crates of the repository that these stand on, with themselves."""
    lines = [it.split(":") for it in text_of(f"{root}/crates.txt").split("\n") if ":" in it and not it.startswith("#")]
    used, found, left = {name.split()[0]: words.split() for name, words in lines}, set(), {*crates}
    while left:
        crate = left.pop()
        if crate in used and crate not in found:
            found.add(crate)
            left |= {*used[crate]}
    return found


def definitions_of(root, crates):
    """The texts of each definition of specs/ that these crates can name, by its name."""
    found = {}
    for path in [it for crate in below(root, crates) for it in glob.glob(f"{root}/crates/{crate}/specs/**/*.antt", recursive=True)]:
        name, block = None, []
        for line in [*text_of(path).split("\n"), "end"]:
            line = line.split("--")[0].rstrip()
            if not line:
                continue
            head = None if line.startswith((" ", "}", ")")) else ITEM.match(line)
            if head and head[1] != name:
                if name and name not in ("use", "module"):
                    found.setdefault(name, set()).add(one_line(block))
                name, block = head[1], []
            block.append(line)
    return found


def reached(words, definitions):
    """The definitions that words name, and those that these name."""
    found, left = set(), {*words}
    while left:
        name = left.pop()
        if name in definitions and name not in found:
            found.add(name)
            left |= {word for text in definitions[name] for word in WORD.findall(text)}
    return found


def differences(old, new, names):
    """Each name that is weaker or another than it was, with what differs."""
    (calls, definitions), (calls_now, definitions_now) = old, new
    words = set()
    for name in names:
        was, now = calls.get(name), calls_now.get(name)
        if not now:
            yield name, "is not there"
        if not now or not was:
            continue
        for it in was:
            words |= {word for clause in it.requires | it.ensures for word in WORD.findall(clause)}
        if {it.signature for it in was} != {it.signature for it in now}:
            yield name, f"has another signature: {now[0].signature}"
        for clause in set.union(*(it.requires for it in now)) - set.union(*(it.requires for it in was)):
            yield name, f"has a condition that it had not: {clause}"
        for clause in set.union(*(it.ensures for it in was)) - set.union(*(it.ensures for it in now)):
            yield name, f"has lost a clause: {clause}"
    for name in reached(words, definitions):
        if definitions[name] - definitions_now.get(name, set()):
            yield name, "is no definition any more" if name not in definitions_now else "is defined otherwise"


def extracted(commit, folder):
    """Puts the crates of a commit into a folder; answers whether the history has it."""
    archive = subprocess.run(["git", "-C", TOP, "archive", commit, "crates", "crates.txt"], capture_output=True)
    return archive.returncode == 0 and subprocess.run(["tar", "-x", "-C", folder], input=archive.stdout).returncode == 0


def main():
    listed = tomllib.loads(text_of(f"{TOP}/{LIST}"))
    commit = sys.argv[1] if sys.argv[1:] else listed["base"]
    names = [it if "::" in it else f"{crate}::{it}" for crate, found in listed["calls"].items() for it in found]
    with tempfile.TemporaryDirectory() as folder:
        if not extracted(commit, folder):
            print(f"skipped: the history has no commit {commit}; 0 calls, 0 wrong")
            return 0
        old, new = [(calls_of(it), definitions_of(it, listed["calls"])) for it in (folder, TOP)]
    found = sorted(set(differences(old, new, names)))
    changed = listed["changed"] if commit == listed["base"] else {}
    for name, what in found:
        print(f"{name} {what}" + (f"\n    told: {changed[name]}" if name in changed else ""))
    untold = {name for name, _ in found} - {*changed}
    unchanged = {*changed} - {name for name, _ in found}
    for name in sorted(unchanged):
        print(f"{name} is told in {LIST}, and has not changed")
    print(f"{len(names)} calls compared with {commit}, {len(found)} differences, {len(untold) + len(unchanged)} wrong")
    return 1 if untold or unchanged else 0


if __name__ == "__main__":
    sys.exit(main())
