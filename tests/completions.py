"""Asks bash and fish for the completions of command lines of topotool, togrid and noshinka-git, by the files in completions/, in a
folder with some files.

    python3 tests/completions.py

Ends with a line of counts, and with status 1 where a shell answers anything else. Where there is no bash it says that it was skipped.
Where there is no fish, the words in the files for fish are compared with those in the files for bash, and a line says so. That the
completions name the words of the programs is compared by docs/manual.py.
"""

import os
import re
import shutil
import subprocess
import sys
import tempfile

TOP = os.path.dirname(os.path.dirname(os.path.abspath(__file__)))
FILES = ["east.json", "east.topo.json", "west.json"]
COMMANDS = {"build", "check", "faults", "merge", "remove", "diff", "feature", "mesh", "neighbors", "info", "help"}

# All of togrid's.
OPTIONS = {
    *"--build --back --faults --step --unit --snap --id --number --heights --reals --unclosed --collapsed --folded --collections".split(),
    *"--seq --layer --like --quantize --numbers --rewind".split(),
    *"-o --output --report -q --quiet --strict -h --help -V --version".split(),
}

# The words of a line as bash parts them, where a `=` is a word, and what may stand in place of the last one.
ROWS = [
    (["topotool", ""], COMMANDS | {"-h", "--help", "-V", "--version"}),
    (["topotool", "me"], {"merge", "mesh"}),
    (["topotool", "--v"], {"--version"}),
    (["topotool", "zz"], set()),
    (["topotool", "mesh", "--e"], {"--edges"}),
    (["topotool", "mesh", "--edges", ""], {"all", "interior", "exterior"}),
    (["topotool", "mesh", "--edges", "i"], {"interior"}),
    (["topotool", "mesh", "--edges", "=", "ex"], {"exterior"}),
    (["topotool", "mesh", "--edges", "="], {"all", "interior", "exterior"}),
    (["topotool", "mesh", "--layer", "e"], set()),
    (["topotool", "mesh", "--b"], {"--by"}),
    (["topotool", "mesh", "--by", "e"], set()),
    (["topotool", "check", "--n"], {"--near"}),
    (["topotool", "check", "--near", "1", "--i"], {"--ids"}),
    (["topotool", "faults", "--e"], {"--explain"}),
    (["topotool", "merge", "--sh"], {"--shape"}),
    (["topotool", "merge", "--shape", "h"], {"halves"}),
    (["topotool", "merge", "e"], {"east.json", "east.topo.json"}),
    (["topotool", "merge", "east.json", "w"], {"west.json"}),
    (["topotool", "merge", "-o", "w"], {"west.json"}),
    (["topotool", "merge", "--output", "=", "w"], {"west.json"}),
    (["topotool", "build", "--grid", "1"], set()),
    (["topotool", "build", "a", "=", "w"], {"west.json"}),
    (["topotool", "build", "--g"], {"--grid"}),
    (["topotool", "feature", "--s"], {"--seq"}),
    (["topotool", "neighbors", "--ids", "--k"], {"--keyed"}),
    (["topotool", "neighbors", "--b"], {"--by"}),
    (["topotool", "info", "--p"], {"--progress"}),
    (["togrid", "--b"], {"--build", "--back"}),
    (["togrid", "--st"], {"--step", "--strict"}),
    (["togrid", "-"], OPTIONS),
    (["togrid", ""], set(FILES)),
    (["togrid", "zz"], set()),
    (["togrid", "--build", "a", "=", "w"], {"west.json"}),
    (["togrid", "--un"], {"--unit", "--unclosed"}),
    (["togrid", "--n"], {"--number", "--numbers"}),
    (["togrid", "--l"], {"--layer", "--like"}),
    (["togrid", "--layer", "w"], set()),
    (["togrid", "--step", "1"], set()),
    (["togrid", "--unclosed", ""], {"close", "refuse"}),
    (["togrid", "--collapsed", ""], {"null", "drop", "refuse"}),
    (["togrid", "--collapsed", "=", "d"], {"drop"}),
    (["togrid", "--rewind", "r"], {"rfc7946"}),
    (["togrid", "--reals", "t"], set()),
    (["togrid", "-o", "w"], {"west.json"}),
    (["togrid", "--report", "=", "w"], {"west.json"}),
    (["noshinka-git", ""], {"install", "uninstall", "merge-driver", "textconv", "pre-commit", "-h", "--help", "-V", "--version"}),
    (["noshinka-git", "p"], {"pre-commit"}),
    (["noshinka-git", "install", "--g"], {"--global"}),
    (["noshinka-git", "textconv", "w"], {"west.json"}),
]

ASK = 'source "$1"; shift; COMP_WORDS=("$@"); COMP_CWORD=$(($# - 1)); "_$1"; printf "%s\\n" "${COMPREPLY[@]}"'


FISH_ASK = "source $argv[1]; complete --do-complete $argv[2]"


def bash(words):
    """What bash answers for a line."""
    ran = subprocess.run(["bash", "-c", ASK, "bash", f"{TOP}/completions/{words[0]}.bash", *words], capture_output=True, text=True)
    return set(filter(None, ran.stdout.split("\n")))


def fish(words):
    """What fish answers for a line: whole words, with what is before a `=`, which is left out here."""
    line = re.sub(" ?= ?", "=", " ".join(words))
    ran = subprocess.run(["fish", "--no-config", "-c", FISH_ASK, f"{TOP}/completions/{words[0]}.fish", line], capture_output=True, text=True)
    found = {it.split("\t")[0] for it in ran.stdout.split("\n") if it}
    return {it.partition("=")[2] for it in found} if "=" in words[-2:] else found


def shell_rows():
    """What is asked: the shell, the line, and what is to come. fish names no option before a `-` is typed."""
    for words, wanted in ROWS:
        yield bash, words, wanted
        if shutil.which("fish"):
            yield fish, words, {it for it in wanted if words[-1].startswith("-") or not it.startswith("-")}


def words_for_bash(program):
    """The commands and options in a file for bash, by the command that they come behind."""
    with open(f"{TOP}/completions/{program}.bash", encoding="utf-8") as file:
        found = re.findall(r'^ +(?:""|([\w-]+))\) words="(.*)" ;;$', file.read(), re.MULTILINE)
    return {command: {*words.split()} for command, words in found}


def words_for_fish(program):
    found = {}
    with open(f"{TOP}/completions/{program}.fish", encoding="utf-8") as file:
        for line in file:
            command = re.search(r"-n '__fish_seen_subcommand_from ([\w-]+)'", line)
            words = found.setdefault(command[1] if command else "", set())
            options = line.partition(" -d ")[0]
            words |= {*re.findall(r" -a ([\w-]+)$", options)} if " -l " not in options else set()
            words |= {f"-{it}" for it in re.findall(r" -s (\w)", options)} | {f"--{it}" for it in re.findall(r" -l ([\w-]+)", options)}
    return found


def main():
    if not shutil.which("bash"):
        print("skipped: no bash; 0 lines, 0 wrong")
        return 0
    count = wrong = 0
    with tempfile.TemporaryDirectory() as folder:
        os.chdir(folder)
        for name in FILES:
            open(name, "w", encoding="utf-8").close()
        for shell, words, wanted in shell_rows():
            came = shell(words)
            count += 1
            if came != wanted:
                wrong += 1
                print(f"{shell.__name__}: {' '.join(words)}: wanted {sorted(wanted)}, came {sorted(came)}")
        os.chdir(TOP)
    for program in [] if shutil.which("fish") else ["topotool", "togrid", "noshinka-git"]:
        print(f"no fish: the words of completions/{program}.fish are compared with those for bash, and not tried")
        count += 1
        if words_for_fish(program) != words_for_bash(program):
            wrong += 1
            print(f"completions/{program}.fish has other words than {program}.bash")
    print(f"completions: {count} lines, {wrong} wrong")
    return 1 if wrong else 0


if __name__ == "__main__":
    sys.exit(main())
