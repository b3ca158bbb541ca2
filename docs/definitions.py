"""Makes docs/DEFINITIONS.md from the `--` comments at the definitions that contracts are written in.

    python3 docs/definitions.py [--check]

A definition is a public name at the top level of a file in crates/*/specs; its comment is the `--` lines right above it. The page
has each one that has a comment: by crate, in the order of crates.txt, with the first sentence of its src/lib.rt, and by file, with
the comment that the file begins with. A comment may end with a public source in brackets, as in [TopoJSON, 2.1.4]. From the heading
RULES on, the page is written by hand, and stays as it is.

With --check nothing is written: what differs is printed, and so is each definition without a comment that a contract in src/ of a
product crate cites. Ends with a line of counts, and then with status 1 where there is any.
"""

import argparse
import glob
import os
import re
import sys

sys.dont_write_bytecode = True

TOP = os.path.dirname(os.path.dirname(os.path.abspath(__file__)))
sys.path.insert(0, f"{TOP}/tests")

import house

PAGE = "docs/DEFINITIONS.md"
RULES = "## From a rule to its code, its definition and its proof"
INTRODUCTION = """# Definitions

The definitions that contracts use, each with its comment in `specs/`. `python3 docs/definitions.py` makes this page from these comments, so correct a comment and make it again. Definitions are by crate, and then by file. A comment may refer to the one before it in its file.

The last column is the public source that a definition follows. 'Own' marks what the source leaves open and this project fixes. Without a source, a definition is a helper, plain words about lists and the like, or this project's own rule. The sources are these:

- **TopoJSON** is the TopoJSON Format Specification 1.0 (quantized topologies, section 2; bounding boxes, section 3).
- **RFC 7946** is the GeoJSON format, sections 3 and 4. **RFC 8259** is the JSON format.
- **topojson-server** is the tool whose rule for cutting lines and rings into arcs is followed.
- **topojson-client** is the tool whose README describes `feature`, `mesh` and `neighbors`.

"""
DEFINED = re.compile(r"^(?:(?:abbrev|unfoldable|opaque) )*pub (?:(?:abbrev|unfoldable|opaque|data|record) )*([^\s:({]+)(?=[\s:({]|$)")
SOURCE = re.compile(r"\s*\[((?:[A-Z]|topojson-)[^\]]*)\]$")
GHOST = re.compile(r"ghost use Rattle\.(\w+)\.specs\.([\w.]+?)(\.\{.*\};|\.[\w'-]+;| as \w+;)$")
WITHIN = re.compile(r"(\w+)\.([\w'-]+)")
SYMBOL = re.compile(r"[\w◌≡≤⊎⟨⟩'-]+")


def text_of(line):
    return line.lstrip("-").strip()


def definitions(path):
    """Gives each public definition of a file, with its comment, which is empty where there is none."""
    comment = []
    for line in house.read_lines(path):
        found = DEFINED.match(line)
        if line.startswith("--"):
            comment.append(text_of(line))
            continue
        if found and found[1] not in ("mod", "use"):
            yield found[1], " ".join(comment)
        comment = []


def specs():
    """Gives each file of definitions, with its crate, in the order of crates.txt."""
    for crate in house.edges():
        for path in sorted(glob.glob(f"{TOP}/crates/{crate}/specs/**/*.antt", recursive=True)):
            yield crate, path


def imported(lines):
    """What the `ghost use` lines of a file bring in: of each word the definitions, each by its crate, its module and its name."""
    names, modules = {}, {}
    for line in lines:
        found = GHOST.match(line.strip())
        if not found:
            continue
        crate, module, rest = found.groups()
        if rest.startswith("."):
            for it in rest.strip(".{}; ").split(","):
                name, _, word = it.strip().partition(" as ")
                names[word or name] = (crate, module, name)
        else:
            modules[rest.removeprefix(" as ").rstrip("; ")] = (crate, module)
    return names, modules


def cited():
    """The definitions that contracts in src/ of product crates name, each by its crate, its module and its name."""
    found = set()
    for crate in house.edges():
        if house.matches(crate, house.OTHERS):
            continue
        for path in glob.glob(f"{TOP}/crates/{crate}/src/**/*.rt", recursive=True):
            lines, open_braces = house.read_lines(path), 0
            names, modules = imported(lines)
            for line in lines:
                if open_braces > 0 or house.CONTRACT.match(line):
                    open_braces += line.count("{") - line.count("}")
                    found |= {names[it] for it in SYMBOL.findall(line) if it in names}
                    found |= {(*modules[module], name) for module, name in WITHIN.findall(line) if module in modules}
    return found


def without_comment():
    """Gives each definition that a contract cites and that has no comment."""
    words = cited()
    for crate, path in specs():
        module = os.path.relpath(path, f"{TOP}/crates/{crate}/specs")[:-5].replace("/", ".")
        for name, comment in definitions(path):
            if (crate, module, name) in words and not comment:
                yield f"{os.path.relpath(path, TOP)}: {name} has no comment"


def purpose(crate):
    """The first sentence of a crate's src/lib.rt, or of its src/main.rt."""
    lines = []
    for line in house.read_lines(min(glob.glob(f"{TOP}/crates/{crate}/src/lib.rt") + glob.glob(f"{TOP}/crates/{crate}/src/main.rt"))):
        if not line.startswith("//! "):
            break
        lines.append(line[4:].strip())
    return re.split(r"(?<=\.) ", " ".join(lines))[0]


def heading(path):
    """The comment that a file begins with."""
    lines = []
    for line in house.read_lines(path):
        if not line.startswith("--"):
            break
        lines.append(text_of(line))
    return " ".join(lines)


def cell(text):
    """A comment as Markdown: outside of backticks nothing is markup."""
    parts = text.replace("|", "\\|").split("`")
    return "`".join(part if at % 2 and at + 1 < len(parts) else re.sub(r"[*_<]", r"\\\g<0>", part) for at, part in enumerate(parts))


def rows(path):
    """Gives the rows of the definitions of a file that have a comment."""
    for name, comment in definitions(path):
        source = SOURCE.search(comment)
        if comment:
            yield f"| `{name}` | {cell(SOURCE.sub('', comment))} | {source[1] if source else ''} |"


def made():
    """Gives the lines of the page that are made."""
    before = None
    for crate, path in specs():
        table = [*rows(path)]
        if table and crate != before:
            yield f"## {crate}\n\n{purpose(crate)} Files are in `crates/{crate}/specs/`.\n"
            before = crate
        if table:
            name = os.path.relpath(path, f"{TOP}/crates/{crate}/specs")
            yield f"### {name[:-5]}\n\n{cell(heading(path))}\n\n| Definition | What it is | Source |\n|---|---|---|"
            yield from table
            yield ""


def page(old):
    """The text of the page, where `old` is the text that it has, and how many definitions it lists."""
    lines = [*made()]
    _, rules, by_hand = old.partition(f"\n{RULES}\n")
    text = INTRODUCTION + "\n".join(lines) + rules + by_hand
    return text, sum(it.startswith("| `") for it in lines)


def faults(old, new):
    """Gives what is wrong with the page: where it first differs from its definitions, and what has no comment."""
    if old != new:
        lines, others = old.split("\n"), new.split("\n")
        at = next((n for n, (it, other) in enumerate(zip(lines, others)) if it != other), min(len(lines), len(others)))
        yield f"{PAGE}:{at + 1}: is not what python3 docs/definitions.py makes: {(others + [''])[min(at, len(others))][:120]}"
    yield from without_comment()


def read_page():
    with open(f"{TOP}/{PAGE}", encoding="utf-8") as file:
        return file.read()


def checked():
    """Prints what is wrong with the page; returns how many definitions it lists, and how much is wrong."""
    old = read_page()
    new, count = page(old)
    wrong = [*faults(old, new)]
    print("".join(f"{it}\n" for it in wrong), end="")
    return count, len(wrong)


def main():
    parser = argparse.ArgumentParser()
    parser.add_argument("--check", action="store_true")
    if not parser.parse_args().check:
        text, _ = page(read_page())
        with open(f"{TOP}/{PAGE}", "w", encoding="utf-8") as file:
            file.write(text)
    count, wrong = checked()
    print(f"{count} definitions, {wrong} wrong")
    return 1 if wrong else 0


if __name__ == "__main__":
    sys.exit(main())
