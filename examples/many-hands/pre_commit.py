"""The pre-commit hook of git: refuses topologies that are not canonical, or that `topotool check --ids` refuses.

    noshinka-git pre-commit

is what the hook calls that `noshinka-git install` writes. It looks at what is to be committed of the files *.topo.json. In each layer
every feature needs an id that no other has. A file in which a conflict was not settled has two versions of a feature, so an id
twice. `git commit --no-verify` commits all the same.
"""

import subprocess
import sys

import program


def git(*words):
    return subprocess.run(["git", *words], check=True, stdout=subprocess.PIPE).stdout


def findings(topotool, data):
    """What is wrong with a topology: lines of the program."""
    ran = subprocess.run([topotool, "check", "--ids", "-"], input=data, stdout=subprocess.PIPE, stderr=subprocess.STDOUT)
    lines = ran.stdout.decode(errors="replace").splitlines()
    return [it for it in lines if it != "canonical" and not it.startswith("ids: ")] if ran.returncode else []


def main():
    named = git("diff", "--cached", "--name-only", "--diff-filter=d", "-z", "--", "*.topo.json").decode().split("\0")
    names = [*filter(None, named)]
    try:
        topotool = program.topotool() if names else None
        found = [(name, it) for name in names for it in findings(topotool, git("show", f":{name}"))]
    except OSError as fault:
        found = [("pre-commit", fault)]
    for name, it in found:
        print(f"{name}: {it}", file=sys.stderr)
    return 1 if found else 0
