"""Runs the examples of the documents as they are printed there, and compares what they print; checks quoted code,
definitions, calls with a condition, links, and how the documents are written.

    python3 tests/documents.py [DOCUMENT...]

An example is a line that begins with `$ `, in a fenced block or indented by four spaces, and the lines below
it. Those of a document run in turn in a folder of its own, where `examples` is that of the repository and
`topotool` is crates/topotool/out/topotool, or the program that TOPOTOOL names, which has to be built before; so is `togrid`, and
`noshinka-git` is that of examples/many-hands. Those that need a program of OPTIONAL that is not installed are skipped, and so are
those that read what a skipped one writes. A
fenced block whose first line names a file of the repository has to be in that file, line by line. docs/DEFINITIONS.md
has to be what docs/definitions.py makes of the comments at the definitions, and each definition that a contract cites has
to have one. The calls that docs/PROOFS.md lists as those with a condition have to be the public functions that have one,
as tests/conditions.py finds them.

Of every document, links have to lead to a file, and to a heading where they name one, and each docs/NAME.md and each file of
a crate that is mentioned has to be there. Of PLAIN documents, so has each path into examples, tests and bench; a paragraph has
at most PARAGRAPH characters, a sentence at most SENTENCE words and AVERAGE on average (a colon or a semicolon ends one too), a
document at most PAGE words, and there is no word of AVOID. README.md has at most README_BYTES bytes, and names the kit as
`rt version` does, where that is installed; its table and docs/COMMANDS.md have each command that the program's help lists, and
the table of the latter each message of wrong usage.
All documents but docs/DEFINITIONS.md, CHANGELOG.md and the forms in .github have at most WORDS words together: those of
prose and tables, and not those of code. The folders at the top have a README.md.

So has each crate, of at most README_LINES lines. These pages are PLAIN too, and their words are not among the WORDS. A function that
one links is in the file of the link, and a name or a path in backticks is one of the crate, of a file that the page links, or of
crates.txt. At least one function is of another folder, as a caller: its contract or code has a function or definition of the crate that
the page links; or it is what a linked function of the crate calls, as those of tests do.

`///` and `//!` comments of product crates have no word of AVOID either. The version is the same in all files that have it. Examples
run with nothing set but PATH, HOME and a locale. Ends with a line of counts, and with status 1 where anything is wrong.
"""

import glob
import os
import re
import shutil
import subprocess
import sys
import tempfile

sys.dont_write_bytecode = True

TOP = os.path.dirname(os.path.dirname(os.path.abspath(__file__)))
sys.path.insert(0, f"{TOP}/docs")

import conditions
import definitions
import house

PROGRAM = os.path.abspath(os.environ.get("TOPOTOOL", f"{TOP}/crates/topotool/out/topotool"))
TOGRID = os.path.abspath(os.environ.get("TOGRID", f"{TOP}/crates/togrid/out/togrid"))
FOLDERS = ["bench", "c", "completions", "crates", "dist", "docs", "examples", "python", "rust", "tests"]
DOCUMENTS = ["README.md", *(f"docs/{it}.md" for it in ("COMMANDS", "SESSIONS", "HEADLINE", "FAULTS", "LIBRARY", "GLOSSARY", "EDITORS", "TOGRID", "FROM_OTHER_TOOLS")),
             "CONTRIBUTING.md", "SECURITY.md", "CHANGELOG.md"]
# The pages of crates, whether they are there or not. They have a limit of lines, so their words aren't counted with the others'.
CRATES = sorted(f"{os.path.dirname(os.path.relpath(it, TOP))}/README.md" for it in glob.glob(f"{TOP}/crates/*/src"))
README_LINES = 20
PLAIN = [*DOCUMENTS, *(f"docs/{it}.md" for it in ("ARCHITECTURE", "DECISIONS", "PROOFS", "TESTS", "SPEED", "README")), *CRATES,
         *(f"{it}/README.md" for it in FOLDERS if it != "docs"), *(f"examples/{it}/README.md" for it in ("own-map", "many-hands", "map", "python"))]
PROOFS = "docs/PROOFS.md"
# Where the messages of wrong usage are defined.
MESSAGES = "crates/command_line/specs/Refusal.antt"
OPTIONAL = ["jq", "ogr2ogr"]
README_BYTES = 8000
PARAGRAPH = 600
SENTENCE = 28
AVERAGE = 15
PAGE = 2600
WORDS = 20000
# Where else the version is, and what is before it.
VERSIONS = {
    "crates/command_line/src/togrid.rt": "VERSION: &str = ",
    "python/noshinka/__init__.py": "^__version__ = ",
    "rust/Cargo.toml": "^version = ",
    "rust/serde/Cargo.toml": "^version = ",
    "rust/Cargo.lock": 'name = "noshinka"\nversion = ',
    "docs/topotool.1": '"topotool ',
    "tests/rows/usage.toml": '"topotool ',
}
# Words that readers don't expect or search for, and what to write instead.
AVOID = {
    r"want of memory|memory is wanting": "out of memory",
    r"by turns": "interleaved",
    r"g(?:ive|ives|iven|ave) up": "returns, is dropped",
    r"(?:is|are|be|was|were) told|tells?|telling": "says, is reported",
    r"the least (?:is|of)|least fault": "the first error",
    r"mend(?:s|ed|ing)?": "fix",
    r"hand(?:s|ed)? (?:over|in|out)": "pass",
    r"(?:many|all|other|two|their) hands": "editors",
    r"reckon(?:s|ed|ing)?": "calculate, expect",
    r"anew": "again",
    r"judge[sd]?|judging": "validate, check",
    r"stands?(?! for\b)": "is, is stored",
    r"lent|lends?": "borrows",
    r"come to a vertex|comes to a vertex": "visits, passes through",
    r"hurt": "damaged",
}


def examples(text):
    """Gives each command with the lines that it is to print."""
    command, printed, fenced = None, [], False
    for line in text.split("\n"):
        is_fence = line.startswith("```")
        inside = line if fenced else line[4:] if line.startswith("    ") else None
        if is_fence or inside is None or inside.startswith("$ "):
            if command is not None:
                yield command, printed
            command, printed = None, []
        if is_fence:
            fenced = not fenced
        elif inside is not None and inside.startswith("$ "):
            command = inside[2:]
        elif inside is not None and command is not None:
            printed.append(inside)


def quotations(text):
    """Gives each fenced block that names a file, with that name."""
    return re.findall(r"^```[a-z]+ (\S+)\n(.*?)^```$", text, re.MULTILINE | re.DOTALL)


def misquoted(document, text):
    """How many of the document's quotations don't stand in their files."""
    wrong = 0
    for name, block in quotations(text):
        with open(f"{TOP}/{name}", encoding="utf-8") as file:
            if "\n" + block not in "\n" + file.read():
                wrong += 1
                print(f"{document}: this doesn't stand in {name}:\n{block}")
    return wrong


def run(command, folder):
    """Returns what a command of a document prints, on either output."""
    env = {"PATH": f"{folder}/bin:{os.environ['PATH']}", "HOME": folder, "LC_ALL": "C.UTF-8"}
    ran = subprocess.run(["bash", "-c", command], cwd=folder, env=env,
                         stdin=subprocess.DEVNULL, stdout=subprocess.PIPE, stderr=subprocess.STDOUT, text=True)
    return [it for it in re.sub(r"\n\Z", "", ran.stdout).split("\n") if it or ran.stdout]


def skipped(commands):
    """Gives the commands that need a program that is not installed, or read what one of these writes."""
    missing = [it for it in OPTIONAL if shutil.which(it) is None]
    lost = []
    for command in commands:
        needs = [it for it in missing if re.search(rf"(?:^|[|;&(]\s*){it}\s", command)]
        if needs or any(re.search(rf"(?<![\w./-]){re.escape(it)}(?![\w-])", command) for it in lost):
            lost += re.findall(r"> ?([\w./-]+)", command)
            yield command


def tried(document):
    """Runs the examples of a document; returns how many there are, with its quotations, and how many are wrong."""
    with open(f"{TOP}/{document}", encoding="utf-8") as file:
        text = file.read()
    found, wrong = [*examples(text)], misquoted(document, text)
    left_out = {*skipped([command for command, _ in found])}
    if left_out:
        print(f"{document}: {len(left_out)} examples skipped: they need {', '.join(OPTIONAL)}, which is not installed")
    found = [it for it in found if it[0] not in left_out]
    with tempfile.TemporaryDirectory() as folder:
        os.symlink(f"{TOP}/examples", f"{folder}/examples")
        os.mkdir(f"{folder}/bin")
        os.symlink(PROGRAM, f"{folder}/bin/topotool")
        os.symlink(TOGRID, f"{folder}/bin/togrid")
        os.symlink(f"{TOP}/examples/many-hands/noshinka-git", f"{folder}/bin/noshinka-git")
        for command, printed in found:
            got = run(command, folder)
            if got != printed:
                wrong += 1
                print(f"{document}: $ {command}\n  is to print {printed}\n  and printed {got}")
    return len(found) + len(quotations(text)), wrong


def listed_conditions(text):
    """Gives each call that the rows of 'Calls with a condition' name, as tests/conditions.py gives them."""
    for section in re.findall(r"^## Calls with a condition$(.*?)(?=^## |\Z)", text, re.MULTILINE | re.DOTALL):
        for row in re.findall(r"^\| (`.*?) \|", section, re.MULTILINE):
            for name in re.findall(r"`([^`]+)`", row):
                crate, *front, last = name.split("::")
                yield crate, next((it for it in front if it[0].isupper()), ""), last


def told_of(document):
    """How many calls with a condition the document lists, and how many of them have none, or are missing."""
    with open(f"{TOP}/{document}", encoding="utf-8") as file:
        listed = [*listed_conditions(file.read())]
    found = conditions.public_conditions()
    wrong = {**{it: "is listed twice" for it in listed if listed.count(it) > 1},
             **{it: "has no condition" for it in listed if it not in found},
             **{it: "has a condition, and is not listed" for it in found if it not in listed}}
    for call, what in sorted(wrong.items()):
        print(f"{document}: {'::'.join(filter(None, call))} {what}")
    return len(listed), len(wrong)


def prose(text):
    """The lines of a document that are no code: neither fenced nor indented; comments are left out."""
    fenced = False
    for line in re.sub(r"<!--.*?-->", "", text, flags=re.DOTALL).split("\n"):
        if line.lstrip().startswith("```"):
            fenced = not fenced
        elif not fenced and not line.startswith("    "):
            yield line
        else:
            yield ""


def paragraphs(text):
    """The paragraphs of a document and the items of its lists, without headings and tables."""
    lines = []
    for line in [*prose(text), ""]:
        begins = re.match(r"\s*(?:[-*]|\d+\.) ", line)
        if lines and (begins or not line.strip() or line.startswith(("#", "|"))):
            yield " ".join(lines)
            lines = []
        if line.strip() and not line.startswith(("#", "|")):
            lines.append(line.strip())


def sentences(text):
    """The sentences of a document's paragraphs, without code and the targets of links; quotations are left out."""
    for paragraph in paragraphs(text):
        plain = re.sub(r"\[([^\]]*)\]\([^)]*\)", r"\1", re.sub(r"`[^`]*`", "X", paragraph))
        if not plain.startswith(">"):
            yield from re.split(r"(?<=[.!?])[*)'\"]* |[:;] ", plain)


def words_of(text):
    """The words of a document's prose and tables: what has a letter."""
    return [it for it in " ".join(prose(text)).split() if re.search(r"[^\W\d_]", it)]


def slugs(text):
    """The names by which links name the headings of a document."""
    for heading in re.findall(r"^#+ (.*)$", "\n".join(prose(text)), re.MULTILINE):
        yield re.sub(r"[^\w\- ]", "", heading.lower()).replace(" ", "-")


def dead_links(document, text):
    """Gives the links of a document that lead nowhere."""
    for target in re.findall(r"\[[^\]]*\]\(([^)\s]+)\)", re.sub(r"`[^`\n]*`", "", "\n".join(prose(text)))):
        name, _, heading = target.partition("#")
        path = os.path.normpath(f"{TOP}/{os.path.dirname(document)}/{name}") if name else f"{TOP}/{document}"
        if "://" in target or target.startswith("mailto:"):
            continue
        if not os.path.exists(path):
            yield target
        elif heading:
            with open(path, encoding="utf-8") as file:
                if heading not in slugs(file.read()):
                    yield target


def dead_mentions(document, text):
    """Gives the paths that a document mentions and that are not there: those into docs, those of files of crates, which may lack
    `crates/`, and of PLAIN documents those into examples, tests and bench."""
    folders = "docs|examples|tests|bench" if document in PLAIN else "docs"
    lines = "\n".join(prose(text))
    found = re.findall(rf"(?<![\w/.$-])((?:{folders})/[\w./*-]*\w)", lines)
    found += [f"crates/{it}" for it in re.findall(r"`(?:crates/)?(\w+/(?:src|specs|proofs|must-fail)/[\w/+.*-]*\w)`", lines)]
    for path in found:
        if "NAME" not in path and not glob.glob(f"{TOP}/{path}"):
            yield path


def badly_written(document, text):
    """Gives what a PLAIN document is not to have: long paragraphs, and words that readers don't expect."""
    for it in paragraphs(text):
        if len(it) > PARAGRAPH:
            yield f"a paragraph of {len(it)} characters: {it[:60]}.."
    counts = []
    for it in sentences(text):
        counts += [len(words_of(it))] if words_of(it) else []
        if counts and counts[-1] > SENTENCE:
            yield f"a sentence of {counts[-1]} words: {it[:60]}.."
    if sum(counts) > AVERAGE * len(counts):
        yield f"{sum(counts) / len(counts):.1f} words in a sentence on average"
    if len(words_of(text)) > PAGE:
        yield f"{len(words_of(text))} words"
    for line in re.sub(r"`[^`\n]*`|\]\([^)\n]*\)", "", "\n".join(prose(text))).split("\n"):
        for words, better in AVOID.items():
            for found in re.findall(rf"\b(?:{words})\b", line, re.IGNORECASE):
                yield f"'{found}' (write: {better}) in: {line[:80]}"
    size = len(text.encode())
    if document == "README.md" and size > README_BYTES:
        yield f"{size} bytes"


def bodies(path, name):
    """The texts of the functions of a name in a source file, from the signature to the end, without comments. Of other files than .rt and
    .rs it is the whole text, where a line begins with the name, or with a few words and the name, as definitions do."""
    with open(path, encoding="utf-8") as file:
        text = re.sub(r"//.*|^ *--.*", "", file.read(), flags=re.MULTILINE)
    *owner, word = name.split("::")
    if not path.endswith((".rt", ".rs")):
        return [text] if re.search(rf"^(?:\w+ )*{word}\b", text, re.MULTILINE) else []
    if owner and not re.search(rf"^(?:pub )?(?:impl|trait)\b.*\b{owner[-1]}\b", text, re.MULTILINE):
        return []
    function = rf"^( *)(?:pub(?:\(\w+\))? )?(?:extern \"C\" )?(?:const |final |unsafe )*fn {word}\b.*?^\1(?:\}}|\{{\}})$"
    return [it[0] for it in re.finditer(function, text, re.MULTILINE | re.DOTALL)]


def is_named(name, texts):
    """Whether one of the texts has the name of a function; that of a method is behind its type or a point."""
    *owner, word = name.split("::")
    found = rf"\b{owner[-1]}::{word}\b|\.{word}\b" if owner else rf"\b{word}\b"
    return any(re.search(found, it) for it in texts)


def unlinked(folder, text):
    """Gives what is wrong with the functions that the page of a crate links: that one isn't in its file; that one of another folder
    neither names one of the crate that is linked too, nor is named by it; that there is none of another folder."""
    own, others = {}, {}
    for name, target in re.findall(r"\[`([\w:]+)`\]\(([^)\s#]+)\)", text):
        path = os.path.normpath(f"{folder}/{target}")
        found = bodies(path, name) if os.path.isfile(path) else []
        if not found:
            yield f"{name} isn't in {target}"
        (own if path.startswith(f"{folder}/") else others)[name] = found
    for name, texts in others.items():
        if texts and not any(is_named(it, texts) or is_named(name, mine) for it, mine in own.items()):
            yield f"{name} calls none of {', '.join(own)}, and none of these calls it"
    if not others:
        yield "it links no function of another folder, as a caller"


def lost_names(folder, text):
    """Gives the names in backticks on the page of a crate that aren't in its sources, in a file that it links or in crates.txt; and the
    paths that aren't there."""
    plain = "\n".join(prose(text))
    paths = [f"{TOP}/crates.txt", *(f"{folder}/{it}" for it in re.findall(r"\]\(([^)\s#:]+)\)", plain))]
    paths += [it for kind in ("src/**/*.rt", "specs/**/*.antt") for it in glob.glob(f"{folder}/{kind}", recursive=True)]
    words = set()
    for path in filter(os.path.isfile, paths):
        with open(path, encoding="utf-8") as file:
            words |= {*re.findall(r"\w+", file.read())}
    for name in re.findall(r"`([\w:./*-]+)`", plain):
        if re.fullmatch(r"args|stdin|stdout|data|(?:data|src|specs|proofs|must-fail)/.*", name):
            if not glob.glob(f"{folder}/{name}"):
                yield f"{name} is not there"
        elif re.fullmatch(r"\w+(?:::\w+)*", name) and not words.issuperset(name.split("::")):
            yield f"{name} is in no source of the crate"


def of_a_crate(document, text):
    """Gives what is wrong with the page of a crate beside its links and how it is written."""
    folder = f"{TOP}/{os.path.dirname(document)}"
    if len(text.splitlines()) > README_LINES:
        yield f"{len(text.splitlines())} lines"
    yield from unlinked(folder, text)
    yield from lost_names(folder, text)


def all_documents():
    """Every document of the repository, by its path."""
    places = ["*.md", *(f"{it}/*.md" for it in FOLDERS), "examples/*/*.md", ".github/*.md", ".github/*/*.md", "crates/*/README.md"]
    return sorted(os.path.relpath(it, TOP) for place in places for it in glob.glob(f"{TOP}/{place}"))


def read_through():
    """How many documents and words there are, and how many things are wrong with their links and words."""
    wrong = words = 0
    documents = all_documents()
    for document in documents:
        with open(f"{TOP}/{document}", encoding="utf-8") as file:
            text = file.read()
        if document not in (definitions.PAGE, "CHANGELOG.md", *CRATES) and not document.startswith(".github"):
            words += len(words_of(text))
        told = [*(f"{it} leads nowhere" for it in dead_links(document, text)),
                *(f"{it} is not there" for it in dead_mentions(document, text)),
                *(badly_written(document, text) if document in PLAIN else []),
                *(of_a_crate(document, text) if document in CRATES else [])]
        wrong += len(told)
        for it in told:
            print(f"{document}: {it}")
    missing = [it for it in [*PLAIN, "docs/README.md"] if it not in documents]
    for it in missing:
        print(f"{it} is not there")
    if words > WORDS:
        print(f"documents have {words} words together, more than {WORDS}")
    return len(documents), words, wrong + len(missing) + (words > WORDS)


def undescribed():
    """Gives what README.md and docs/COMMANDS.md don't say: the kit that `rt version` names, commands of the program, and messages."""
    readme, pages, messages = (open(f"{TOP}/{it}", encoding="utf-8").read() for it in ("README.md", "docs/COMMANDS.md", MESSAGES))
    for message in re.findall(r'^usage_words .*= codes "(.*?) *"$', messages, re.MULTILINE):
        if not re.search(rf"^\| (?:.*, )?`{re.escape(message)}\b", pages, re.MULTILINE):
            yield f"docs/COMMANDS.md: its table has no message '{message}'"
    if shutil.which("rt"):
        kit = subprocess.run(["rt", "version"], stdin=subprocess.DEVNULL, capture_output=True, text=True).stdout.strip()
        logic = " ".join(kit.split()[-2:])
        if f"`{logic}`" not in readme:
            yield f"README.md: the kit ends in {logic}"
    said = subprocess.run([PROGRAM, "--help"], stdin=subprocess.DEVNULL, capture_output=True, text=True).stdout
    for command in re.findall(r"^  (\w+)  ", said.partition("Commands:\n")[2].partition("\n\n")[0], re.MULTILINE):
        if command != "help" and not re.search(rf"^\| `{command}\b", readme, re.MULTILINE):
            yield f"README.md: its table has no {command}"
        if command != "help" and f"\n## {command}\n" not in pages:
            yield f"docs/COMMANDS.md: it has no section on {command}"


def other_versions():
    """Gives the files that have another version than the program's, which is written once in its source."""
    def version_in(path, before):
        with open(f"{TOP}/{path}", encoding="utf-8") as file:
            found = re.search(rf'{before}"?(\d+\.\d+\.\d+)', file.read(), re.MULTILINE)
        return found[1] if found else "none"

    version = version_in("crates/command_line/src/arguments.rt", "VERSION: &str = ")
    for path, before in VERSIONS.items():
        if version_in(path, before) != version:
            yield f"{path}: its version is {version_in(path, before)}, and the program's is {version}"


def avoided_in_comments():
    """Gives the words of AVOID in the comments of product crates that documentation is made of."""
    for crate in house.edges():
        if house.matches(crate, house.OTHERS):
            continue
        for path in glob.glob(f"{TOP}/crates/{crate}/src/**/*.rt", recursive=True):
            comments = " ".join(it.strip() for it in house.read_lines(path) if it.lstrip().startswith(("///", "//!")))
            plain = re.sub(r"//[/!]|`[^`]*`", "", comments)
            for words, better in AVOID.items():
                for found in re.findall(rf"\b(?:{words})\b", plain, re.IGNORECASE):
                    yield f"{os.path.relpath(path, TOP)}: '{found}' in a comment (write: {better})"


def main(documents):
    if not os.path.isfile(PROGRAM):
        sys.exit(f"{PROGRAM} is not there: rt run in crates/topotool builds it")
    if not os.path.isfile(TOGRID):
        sys.exit(f"{TOGRID} is not there: rt run in crates/togrid builds it")
    count = wrong = 0
    for document in documents:
        more, bad = tried(document)
        count, wrong = count + more, wrong + bad
    names, lost = definitions.checked()
    calls, missed = told_of(PROOFS)
    pages, words, faulty = read_through()
    lacking = [*undescribed(), *other_versions(), *avoided_in_comments()]
    for it in lacking:
        print(it)
    wrong += lost + missed + faulty + len(lacking)
    print(f"{count} examples, {names} definitions, {calls} calls with a condition, {pages} documents, "
          f"{len(CRATES)} of them of crates and {words} words in the others, {wrong} wrong")
    return 1 if wrong else 0


if __name__ == "__main__":
    sys.exit(main(sys.argv[1:] or DOCUMENTS))
