"""Makes the manual pages and the completions from what `topotool --help`, `topotool COMMAND --help` and `togrid --help` print, and
noshinka-git in the same way.

    python3 docs/manual.py [--check]

It writes for each program, as for topotool, docs/topotool.1, completions/topotool.bash, completions/topotool.fish and
completions/_topotool (for zsh). With --check it writes nothing, and compares: it ends with a line of counts, and with status 1 where
a file is not what would be written. The programs are crates/topotool/out/topotool and crates/togrid/out/togrid, or those that the
variables TOPOTOOL and TOGRID name.
"""

import os
import re
import subprocess
import sys
from typing import NamedTuple

TOP = os.path.dirname(os.path.dirname(os.path.abspath(__file__)))
PROGRAMS = {it: os.path.abspath(os.environ.get(it.upper(), f"{TOP}/crates/{it}/out/{it}")) for it in ("topotool", "togrid")}
PROGRAMS["noshinka-git"] = f"{TOP}/examples/many-hands/noshinka-git"
# It has no version but that of topotool.
ENV = {**os.environ, "TOPOTOOL": PROGRAMS["topotool"]}
SEE_ALSO = {
    "topotool": ["docs/COMMANDS.md, docs/FAULTS.md and docs/LIBRARY.md of the repository.", ".BR togrid (1),", ".BR noshinka-git (1),", ".BR ogr2ogr (1),", ".BR jq (1)"],
    "togrid": ["docs/TOGRID.md and docs/FAULTS.md of the repository.", ".BR topotool (1),", ".BR ogr2ogr (1),", ".BR jq (1)"],
    "noshinka-git": ["examples/many-hands/README.md of the repository.", ".BR topotool (1),", ".BR git (1),", ".BR gitattributes (5)"],
}
OPTION = re.compile(r"(?:(-\w), |    )(--[\w-]+)(?: <([^>]+)>)?")
OPTIONAL = re.compile(r"(--[\w-]+)\[=<([^>]+)>\]$")


class Row(NamedTuple):
    """A row of a list of help: a word, and what it says of it."""
    word: str
    text: str

    def option(self):
        """Its letter and name, and what it calls the value; the letter and the value may be missing."""
        return OPTION.match(self.word.rjust(len(self.word) + 4) if self.word.startswith("--") else self.word).groups()

    def optional(self):
        """Its name, and what it calls a value that it may have behind a `=`, if it may."""
        return OPTIONAL.match(self.word)


class Help(NamedTuple):
    """A help in its parts."""
    about: list
    usage: str
    rows: dict
    after: list


def called(program, *words):
    ran = subprocess.run([program, *words], executable=PROGRAMS[program], env=ENV, stdin=subprocess.DEVNULL, capture_output=True)
    return ran.stdout.decode(), ran.stderr.decode()


def paragraphs(text):
    return [it for it in text.strip("\n").split("\n\n") if it]


def rows_of(part):
    """The rows of a list; a row that is longer goes on in the column of its text."""
    rows = []
    for line in part.split("\n")[1:]:
        found = re.match(r" {2,6}(\S.*?)(?: {2,}(\S.*))?$", line)
        if found and not re.match(r" {7,}\S", line):
            rows.append(Row(found[1], found[2] or ""))
        else:
            rows[-1] = Row(rows[-1].word, f"{rows[-1].text} {line.strip()}".strip())
    return rows


def help_of(*words):
    """The help of a program, or of one of its commands."""
    text, _ = called(*words, "--help")
    parts = paragraphs(text)
    at = next(place for place, it in enumerate(parts) if it.startswith("Usage: "))
    lists = [it for it in parts[at + 1:] if re.match(r"(Commands|Arguments|Options):\n", it)]
    rows = {it.split(":")[0]: rows_of(it) for it in lists}
    return Help(parts[:at], parts[at].removeprefix("Usage: "), rows, [it for it in parts[at + 1:] if it not in lists])


def values_of(words, option):
    """The words that an option of a program or command takes, where they are few: the program names them when it is given
    another."""
    _, said = called(*words, f"{option}=?")
    found = re.search(r"\[possible values: ([^\]]+)\]", said)
    return found[1].split(", ") if found else []


# ---- the manual page


def roff(text):
    """A text in the language of manual pages."""
    text = text.replace("\\", "\\e").replace("-", "\\-")
    return re.sub(r"^([.'])", r"\\&\1", text, flags=re.MULTILINE)


def paragraph(text):
    """A paragraph; lines that begin with blanks, and examples, stay as they are."""
    if re.match(r"(Example|Status): ", text) or "\n  " in text:
        return [".PP", ".nf", *roff(text).split("\n"), ".fi"]
    return [".PP", *roff(text).split("\n")]


def entries(rows):
    for it in rows:
        yield from (".TP", f".B {roff(it.word)}", roff(it.text) or "\\&")


def command_section(name, found):
    yield f".SS {name}"
    yield from (".B", roff(found.usage))
    for it in found.about:
        yield from paragraph(it)
    for it in ("Arguments", "Options"):
        yield from entries(found.rows.get(it, []))
    for it in found.after:
        yield from paragraph(it)


def manual(program, whole, commands):
    """The manual page of a program."""
    title = whole.about[0].split("\n")[0]
    version = called(program, "--version")[0].strip()
    yield '.\\" Made by docs/manual.py from the help of the program.'
    yield f'.TH {program.upper()} 1 "" "{version}" "User Commands"'
    yield from (".SH NAME", f"{program} \\- {roff(title[0].lower() + title[1:])}")
    yield from (".SH SYNOPSIS", ".B", roff(whole.usage))
    yield ".SH DESCRIPTION"
    for it in whole.about[1:]:
        yield from paragraph(it)
    if "Arguments" in whole.rows:
        yield ".SH ARGUMENTS"
        yield from entries(whole.rows["Arguments"])
    yield ".SH OPTIONS"
    yield from entries(whole.rows["Options"])
    if commands:
        yield ".SH COMMANDS"
    for name, found in commands.items():
        yield from command_section(name, found)
    yield ".SH NOTES"
    for it in whole.after:
        yield from paragraph(it)
    yield from (".SH SEE ALSO", *SEE_ALSO[program])


# ---- completions

BASH = r"""# Completion of PROGRAM for bash: source it, or put it into bash-completion's folder. Made by docs/manual.py.
_PROGRAM() {
    local word cur=${COMP_WORDS[COMP_CWORD]} before=${COMP_WORDS[COMP_CWORD-1]} command= words=
    COMPREPLY=()
    # A `=` is a word of its own.
    if [[ $before == = ]]; then before=${COMP_WORDS[COMP_CWORD-2]}; fi
    if [[ $cur == = ]]; then cur=; fi
FIND
    case $before in
VALUES
    esac
    case $command in
OPTIONS
    esac
    if [[ ALONE$cur == -* ]]; then
        COMPREPLY=($(compgen -W "$words" -- "$cur"))
        return
    fi
    compopt -o filenames 2> /dev/null
    mapfile -t COMPREPLY < <(compgen -f -- "$cur")
}
complete -F _PROGRAM PROGRAM
"""

# Finds which command a line names.
BASH_FIND = r"""    for word in "${COMP_WORDS[@]:1:COMP_CWORD-1}"; do
        case $word in
            COMMANDS) command=$word; break ;;
        esac
    done"""

ZSH_LAYERS = """# A layer's name is typed; behind its `=` comes a file.
_PROGRAM_layers() {
    if compset -P '*='; then _files; else _message 'a name of a layer, and ='; fi
}
"""

# A file may stand alone.
ZSH_NAMED = """# A file, or a layer's name, which is typed, a `=` and a file.
_PROGRAM_layers() {
    compset -P '*='
    _files
}
"""

ZSH = """#compdef PROGRAM
# Completion of PROGRAM for zsh: put it into a folder of $fpath. Made by docs/manual.py.
LAYERS_PROGRAM() {
BODY
}
_PROGRAM "$@"
"""

# Where a line names a command first.
ZSH_COMMANDS = """    local context state line
    typeset -A opt_args
    local -a commands
    commands=(
COMMANDS
    )
    _arguments -C GENERAL '1: :->command' '*:: :->rest'
    case $state in
        command) _describe command commands ;;
        rest)
            case $words[1] in
CASES
            esac ;;
    esac"""


def words_of(rows):
    """The letters and names of options."""
    return [it for row in rows for it in row.option()[:2] if it]


def bash(program, whole, commands):
    values, general = {}, [*(it.word for it in whole.rows.get("Commands", [])), *words_of(whole.rows["Options"])]
    options = [f'        "") words="{" ".join(general)}" ;;']
    options += [f'        {name}) words="{" ".join(words_of(found.rows["Options"]))}" ;;' for name, found in commands.items()]
    for words, found in [([program], whole), *(([program, name], found) for name, found in commands.items())]:
        for row in found.rows["Options"]:
            letter, option, value = row.option()
            if value and value not in ("FILE", "PATH"):
                values["|".join(filter(None, (letter, option)))] = values_of(words, option)
    cases = [f'        {it}) COMPREPLY=($(compgen -W "{" ".join(words)}" -- "$cur")); return ;;' if words else f"        {it}) return ;;" for it, words in values.items()]
    text = BASH if cases else BASH.replace("    case $before in\nVALUES\n    esac\n", "")
    text = text.replace("FIND\n", BASH_FIND.replace("COMMANDS", "|".join(commands)) + "\n" if commands else "")
    text = text.replace("ALONE", "-z $command || " if commands else "").replace("VALUES", "\n".join(cases))
    return text.replace("OPTIONS", "\n".join(options)).replace("PROGRAM", program)


def quoted(text):
    return "'" + text.replace("'", "'\\''") + "'"


def zsh_option(of, row):
    """What `_arguments` is told of an option."""
    letter, option, value = row.option()
    text = re.sub(r"([\[\]:\\])", r"\\\1", row.text)
    if row.optional():
        return quoted(f"{option}=-[{text}]::{row.optional()[2]}: ")
    if value is None:
        alone = "- *" if option in ("--help", "--version") else f"{letter} {option}"
        return f"'({alone})'{{{letter},{option}}}{quoted(f'[{text}]')}" if letter else quoted(f"{option}[{text}]")
    words = values_of(of, option)
    takes = "_files" if value in ("FILE", "PATH") else f"({' '.join(words)})" if words else " "
    told = f"[{text}]:{value}:{takes}"
    return f"'({letter} {option})'{{{letter}+,{option}=}}{quoted(told)}" if letter else quoted(f"{option}={told}")


def zsh_arguments(program, of, found, files, indent):
    """What completes the options and files of a program or command."""
    options = [zsh_option(of, it) for it in found.rows["Options"]]
    return "_arguments \\\n" + " \\\n".join(f"{indent}{it}" for it in [*options, *([quoted(files)] if files else [])])


def zsh(program, whole, commands):
    if commands:
        told = [f"        {quoted(it.word + ':' + it.text.replace(':', chr(92) + ':'))}" for it in whole.rows["Commands"]]
        general = " ".join(zsh_option([program], it) for it in whole.rows["Options"])
        cases = []
        for name, found in commands.items():
            files = f"*:NAME=FILE:_{program}_layers" if name == "build" else "*:FILE:_files" if "Arguments" in found.rows else None
            cases.append(f"                {name}) {zsh_arguments(program, [program, name], found, files, ' ' * 20)} ;;")
        body = ZSH_COMMANDS.replace("COMMANDS", "\n".join(told)).replace("CASES", "\n".join(cases)).replace("GENERAL", general)
    else:
        body = "    " + zsh_arguments(program, [program], whole, f"*:[NAME=]FILE:_{program}_layers", " " * 8)
    layers = ZSH_LAYERS if "build" in commands else "" if commands else ZSH_NAMED
    return ZSH.replace("BODY", body).replace("LAYERS", layers).replace("PROGRAM", program)


FISH = """# Completion of PROGRAM for fish: put it into ~/.config/fish/completions. Made by docs/manual.py.
LINES
"""


def fish_quoted(text):
    return "'" + text.replace("\\", "\\\\").replace("'", "\\'") + "'"


def fish_option(program, of, row, where):
    """The line of fish for an option of a program, or of one of its commands, which is that of `where`."""
    letter, option, value = row.option()
    words = values_of(of, option) if value else []
    takes = " -r -F" if value in ("FILE", "PATH") else f" -x -a {fish_quoted(' '.join(words))}" if words else " -x" if value else ""
    short = f" -s {letter[1:]}" if letter else ""
    return f"complete -c {program}{where}{short} -l {option[2:]}{takes} -d {fish_quoted(row.text)}"


def fish(program, whole, commands):
    """A program's completions; where it has commands, no file comes before one, nor behind one that takes none."""
    first = " -n __fish_use_subcommand" if commands else ""
    lines = [f"complete -c {program} -f"] if commands else []
    lines += [f"complete -c {program}{first} -a {it.word} -d {fish_quoted(it.text)}" for it in whole.rows.get("Commands", [])]
    lines += [fish_option(program, [program], it, first) for it in whole.rows["Options"]]
    for name, found in commands.items():
        where = f" -n '__fish_seen_subcommand_from {name}'"
        lines += [f"complete -c {program}{where} -F"] if "Arguments" in found.rows else []
        lines += [fish_option(program, [program, name], it, where) for it in found.rows["Options"]]
    return FISH.replace("LINES", "\n".join(lines)).replace("PROGRAM", program)


def made_of(program):
    """The names and texts of what is made of a program, and how many commands it has."""
    whole = help_of(program)
    names = [it.word for it in whole.rows.get("Commands", []) if it.word != "help"]
    commands = {it: help_of(program, it) for it in names}
    return {
        f"docs/{program}.1": "\n".join(manual(program, whole, commands)) + "\n",
        f"completions/{program}.bash": bash(program, whole, commands),
        f"completions/{program}.fish": fish(program, whole, commands),
        f"completions/_{program}": zsh(program, whole, commands),
    }, len(names)


def main():
    made, count = {}, 0
    for program, file in PROGRAMS.items():
        if not os.path.isfile(file):
            sys.exit(f"{file} is not there: rt run in crates/{program} builds it, or set {program.upper()}")
        texts, commands = made_of(program)
        made.update(texts)
        count += commands
    wrong = 0
    for name, text in made.items():
        if "--check" not in sys.argv[1:]:
            os.makedirs(os.path.dirname(f"{TOP}/{name}"), exist_ok=True)
            with open(f"{TOP}/{name}", "w", encoding="utf-8") as file:
                file.write(text)
            continue
        there = open(f"{TOP}/{name}", encoding="utf-8").read() if os.path.isfile(f"{TOP}/{name}") else ""
        if there != text:
            wrong += 1
            print(f"{name}: not as python3 docs/manual.py makes it")
    print(f"manual pages and completions of {len(PROGRAMS)} programs and {count} commands: {len(made)} files, {wrong} wrong")
    return 1 if wrong or not count else 0


if __name__ == "__main__":
    sys.exit(main())
