"""Tries edits, as tests/edits.py --try has it: applies each to a copy of its crate, and wants the prover to refuse it.

The functions that an edit changes are found in the text of their files, as `rt fmt` lays it out. They are checked alone, by
`rattle check --only`, and so are those that they call. First they are checked as they are, once for all edits of a crate: that
has to prove them, and what it proved is there for the edits. It goes on from what earlier checks kept in the crate's out/, of
which it takes a copy, and without such from nothing. Then each edit is tried over a copy of that work. What changes more than
functions, as a derive does, is tried with a check of the whole crate, and so is each edit of which the functions alone are
proved: their callers may refuse it.

Whether an answer of the prover is a refusal is for rt to say, whose functions are called here as those of a module.
"""

import functools
import hashlib
import importlib.machinery
import importlib.util
import itertools
import os
import queue
import re
import shutil
import signal
import subprocess
import sys
import tempfile
import threading
import time
import traceback

import edits

TOP = edits.TOP
NOTE = "tests/edits/TRIED"
CHECK_MEMORY = 4_000_000_000  # bytes, which is more than a check was seen to take
VISIBLE = r"(?:pub(?:\([^)]*\))? )?"
FUNCTION = re.compile(rf"( *){VISIBLE}(?:const |final |unsafe |extern \"C\" )*fn (\w+)")
OWNER = re.compile(rf"( *){VISIBLE}(?:impl\b|trait (?P<name>\w+))")
END = re.compile(r"( *)\}")
# Lines outside of functions that an edit may change beside functions.
ASIDE = re.compile(rf"\s*(?://|{VISIBLE}use\b|$)")
# What rt's must_fail answers for a refusal: kit 13b a truth, 13f a word, also where the prover met a limit of its own.
REFUSALS = (True, "refused", "limit")
# The last line of a check of functions alone, which rt does not know.
COUNTED = re.compile(r"^only=\d+ proved=\d+$(?=\s*\Z)", re.MULTILINE)


# ---- which functions an edit changes

def block_above(lines, place, head, before=None):
    """The nearest line, at a place or above it, that begins a block around it. It is indented by less than `before`."""
    closed = set()
    for number in range(place, -1, -1):
        found = head.match(lines[number])
        if found and len(found[1]) not in closed and (before is None or len(found[1]) < before):
            return number, found
        end = END.fullmatch(lines[number])
        if end and number < place:
            closed.add(len(end[1]))
    return None


def without_brackets(text):
    """A text without what is in angle brackets."""
    kept, depth = [], 0
    for part in re.split(r"(->|[<>])", text):
        depth += {"<": 1, ">": -1}.get(part, 0)
        if depth == 0 and part != ">":
            kept.append(part)
    return "".join(kept)


def last_word(path):
    """The last name of a type's path; of a reference what rattle calls it."""
    return "Ref" if path.startswith("&") else (re.findall(r"\w+", path) or [""])[-1]


def passed_words(path):
    """The names of what a type or a trait is passed in angle brackets, without those inside."""
    passed = path.partition("<")[2].rpartition(">")[0]
    return [last_word(it.strip()) for it in without_brackets(passed).split(",") if it.strip() and not it.strip().startswith("'")]


def impl_word(head):
    """What rattle calls an impl: its type, behind it the trait, and behind each what it is passed, but for parameters."""
    head = head.split(" where ")[0].strip().removeprefix("impl")
    ends = [it.end() for it in re.finditer(">", head) if not without_brackets(head[: it.end()])]
    parameters, head = (head[: ends[0]], head[ends[0] :]) if head.startswith("<") else ("", head)
    parameters = re.findall(r"(?:<|, )(?:const )?(\w+)", parameters)
    the_trait, is_for, the_type = head.strip().partition(" for ")
    if not is_for:
        return last_word(without_brackets(the_trait))
    named = [(last_word(without_brackets(it)), passed_words(it)) for it in (the_type, the_trait)]
    return "".join(word + "".join(it for it in passed if it not in parameters) for word, passed in named)


def head_of(lines, place):
    """The text of the head of a block, which may have several lines."""
    end = next(it for it in range(place, len(lines)) if lines[it].endswith("{"))
    return " ".join(it.strip() for it in lines[place : end + 1]).removesuffix("{").strip()


def module_of(file):
    """The path of a file's module: of src/lib.rt an empty one."""
    words = file.removeprefix("src/").removesuffix(".rt").split("/")
    return "" if words in (["lib"], ["main"]) else "::".join(words) + "::"


def function_at(file, lines, place):
    """The path of the function around a line, if there is one. A check prints it so, or its end stands for it."""
    found = block_above(lines, place, FUNCTION)
    if not found:
        return None
    number, head = found
    owner = block_above(lines, number, OWNER, len(head[1]))
    if not owner:
        return f"{module_of(file)}{head[2]}"
    number, block = owner
    word = block["name"] or impl_word(head_of(lines, number))
    is_here = block["name"] or " for " in head_of(lines, number) or any(re.match(rf"{VISIBLE}(?:struct|enum) {word}\b", it) for it in lines)
    # Methods of a type are below its own module.
    return f"{module_of(file) if is_here else ''}{word}::{head[2]}"


def changed_functions(crate, path):
    """The paths of the functions that an edit changes; None where it changes something else."""
    texts, found = {}, set()
    with open(f"{TOP}/{path}", encoding="utf-8") as file:
        pairs = [*edits.pairs_of(file.read())]
    for name, old, new in pairs:
        text = texts.get(name) or edits.source(crate, name)
        place = text.count("\n", 0, text.index(old) + len(os.path.commonprefix([old, new])))
        lines = text.split("\n")
        function = function_at(name, lines, place)
        if not function and not ASIDE.match(lines[place]):
            return None
        found |= {function} - {None}
        texts[name] = text.replace(old, new)
    return sorted(found) or None


# ---- the kit

def load_kit():
    """The program rt as a module."""
    path = shutil.which("rt")
    if not path:
        sys.exit("rt is not on the path: README.md says where to get the kit")
    loader = importlib.machinery.SourceFileLoader("rt", os.path.realpath(path))
    made = importlib.util.module_from_spec(importlib.util.spec_from_loader("rt", loader))
    sys.modules["rt"] = made
    loader.exec_module(made)
    # A stamp is asked for along each way from a crate to a library below it.
    made.rtlib.Crate.stamp = functools.cache(made.rtlib.Crate.stamp)
    made.rtlib.guarded()
    return made


def was_built_by_gate(kit, library):
    """Whether rt ci has left a library, and nothing that it was made of has changed since. It leaves no stamp."""
    made = f"{library.rlib}/format"
    if os.path.exists(f"{os.path.dirname(library.rlib)}/stamp") or not os.path.isfile(made):
        return False
    files = [*kit.rtlib.files_of(library.folder), *(f"{it.rlib}/format" for it in library.deps)]
    folders = {os.path.dirname(it) for it in files if it.startswith(f"{library.folder}/")}
    return max(map(os.path.getmtime, [*files, *folders])) <= os.path.getmtime(made)


def kept_by_gate(kit):
    """The names of the libraries that rt ci of kit 13f left, of this run or of an earlier one: it knows them by sums of all that they were made of."""
    if not hasattr(kit, "Kept"):
        return set()
    kit.Crate.allowed = kit.handles_of(TOP)
    every = kit.crates_of(TOP)
    kept, found = kit.Kept(every, False), set()
    for crate in every:
        is_ready = not crate.is_program and os.path.isdir(crate.rlib) and all(it.name in found for it in crate.below())
        if is_ready and kept.at and os.path.isdir(kept.place(crate, False, kept.key(crate))):
            kept.is_built(crate)
            found.add(crate.name)
    return found


def build_libraries(kit, crates):
    """Builds what is missing of the libraries below the crates. Those of rt ci fit one another, and no others."""
    missing, kept = [], kept_by_gate(kit)
    for crate in crates:
        of_gate = all(it.name in kept or was_built_by_gate(kit, it) for it in crate.below())
        if not all(it.is_built() for it in crate.below()) and not of_gate:
            missing += [it for it in crate.below() if it not in missing]
    for library in missing:
        if not library.is_built():
            print(f"building {library.name}, which has to be proved first", flush=True)
        if library.build_rlib(["--jobs", "1"], anew=False):
            sys.exit(f"{library.name} is not proved, so nothing above it can be tried")


class Checker:
    """Has rattle check copies of crates, until the time is over."""

    def __init__(self, kit, end):
        self.kit, self.end, self.running = kit, end, []
        # must_fail of rt judges what this answers.
        kit.checked = self.check

    def check(self, crate, texts, flags, kept=None):
        """What rattle says of a copy of the crate with these texts in place of its own. It keeps its work where `kept` says."""
        with tempfile.TemporaryDirectory(prefix="edit-") as room:
            for part in self.kit.rtlib.PARTS:
                if os.path.isdir(f"{crate.folder}/{part}"):
                    shutil.copytree(f"{crate.folder}/{part}", f"{room}/{part}")
            for path, text in texts.items():
                with open(f"{room}/{path}", "w", encoding="utf-8") as file:
                    file.write(text)
            words = [*self.kit.rtlib.guarded(), self.kit.rtlib.RATTLE, "check", *crate.words(flags, keeps=False), "--incremental", kept]
            ran = self.run(words, room)
            if ran.returncode == -signal.SIGKILL:
                # Most likely for memory, which may be free by now.
                ran = self.run(words, room)
        ran.stdout = COUNTED.sub("logic=not-proved", ran.stdout) if ran.returncode == 1 else ran.stdout
        return ran

    def is_over(self):
        return self.end is not None and time.monotonic() >= self.end

    def run(self, words, folder):
        left = None if self.end is None else self.end - time.monotonic()
        how = {"stdin": subprocess.DEVNULL, "stdout": subprocess.PIPE, "stderr": subprocess.STDOUT, "text": True, "errors": "replace"}
        with subprocess.Popen(words, cwd=folder, **how) as started:
            self.running.append(started)
            try:
                said, _ = started.communicate(timeout=left)
            finally:
                started.kill()
                self.running.remove(started)
        return subprocess.CompletedProcess(words, started.returncode, said)

    def stop(self):
        """Ends what runs, and begins no more."""
        self.end = 0
        for it in [*self.running]:
            it.kill()


# ---- the tries

class Lanes:
    """Does tasks side by side, those of the least rank first. A task may add others."""

    def __init__(self, count):
        self.tasks, self.number = queue.PriorityQueue(), itertools.count()
        self.failed = self.stopped = False
        for _ in range(count):
            threading.Thread(target=self.work, daemon=True).start()

    def add(self, rank, call, *given):
        self.tasks.put((rank, next(self.number), call, given))

    def work(self):
        while True:
            _, _, call, given = self.tasks.get()
            try:
                call(*given)
            except Exception:
                if not self.stopped:
                    traceback.print_exc()
                self.failed = True
            self.tasks.task_done()


def flags_for(functions):
    """The words of a check of these functions; without them of the whole crate."""
    return ["--jobs", "1", *(word for it in functions or [] for word in ("--only", it))]


def link_or_copy(old, new):
    """Lends a file of kept work. A check puts new files in the place of those of modules, so these need no copy on the same disk."""
    try:
        return os.link(old, new) if old.endswith(".oantt") else shutil.copyfile(old, new)
    except OSError:
        return shutil.copyfile(old, new)


class Tries:
    """Tries the edits of crates, tells of each, and counts those that were refused, and that were not."""

    def __init__(self, checker, room, lanes):
        self.checker, self.room, self.lanes = checker, room, lanes
        self.lock, self.refused, self.wrong, self.left = threading.Lock(), set(), set(), {}

    def tell(self, path, is_refused, said):
        with self.lock:
            (self.refused if is_refused else self.wrong).add(path)
            print(f"{path}: {said}", flush=True)

    def end(self, kept):
        """Removes kept work that no edit needs any more."""
        with self.lock:
            self.left[kept] -= 1
        if not self.left[kept]:
            shutil.rmtree(kept)

    def applicable(self, crate, paths):
        """Those of a crate's edits that can be applied; of the others it tells why they can't."""
        found = []
        for path in paths:
            why = self.checker.kit.read_edit(f"{TOP}/{path}", crate.folder)[1]
            if why:
                self.tell(path, False, f"BAD EDIT: {why}")
            else:
                found.append(path)
        return found

    def prove(self, crate, functions, kept):
        """Checks what edits change as it is. Where a path fits no function, or several, that is the whole crate, for each edit."""
        is_whole = None in functions.values()
        wanted = [] if is_whole else sorted({it for found in functions.values() for it in found})
        ran = self.checker.check(crate, {}, flags_for(wanted), kept)
        if ran.returncode != 2 or is_whole:
            return ran, functions
        return self.checker.check(crate, {}, flags_for(None), kept), dict.fromkeys(functions)

    def try_crate(self, crate, paths):
        """Checks what the edits of a crate change as it is, and then has each edit tried over that work."""
        paths = self.applicable(crate, paths)
        if self.checker.is_over() or not paths:
            return
        kept = f"{self.room}/{crate.name}"
        self.left[kept] = len(paths)
        if crate.has_kept():
            shutil.copytree(f"{crate.folder}/out/incremental", kept, copy_function=link_or_copy)
        else:
            os.mkdir(kept)
        try:
            ran, functions = self.prove(crate, {it: changed_functions(crate.name, it) for it in paths}, kept)
        except subprocess.TimeoutExpired:
            return
        for path in paths:
            if ran.returncode:
                lines = [it for it in ran.stdout.split("\n") if "error" in it] or ran.stdout.split("\n")[-2:]
                self.tell(path, False, f"NOT TRIED: what it changes is not proved as it is: {lines[0][:200]}")
            else:
                self.lanes.add(0, self.try_edit, crate, path, functions[path], kept)

    def try_edit(self, crate, path, functions, kept):
        """Tries an edit. Where the functions that it changes are proved all the same, it tries the whole crate."""
        if self.checker.is_over():
            return
        must_fail = self.checker.kit.must_fail
        with tempfile.TemporaryDirectory(prefix="kept-") as own:
            try:
                shutil.copytree(kept, own, copy_function=link_or_copy, dirs_exist_ok=True)
                answer, said = must_fail(crate, f"{TOP}/{path}", flags_for(functions), own)
                if answer not in REFUSALS and ": NOT REFUSED: " in said and functions:
                    answer, said = must_fail(crate, f"{TOP}/{path}", flags_for(None), own)
                self.tell(path, answer in REFUSALS, said.partition(f"{os.path.basename(path)}: ")[2])
            except subprocess.TimeoutExpired:
                pass
        self.end(kept)


# ---- which edits, in which order

def git(*words):
    """What git prints, or None where it fails."""
    ran = subprocess.run(["git", "-C", TOP, *words], capture_output=True, text=True)
    return None if ran.returncode else ran.stdout


def noted_commits():
    """The commit at which the edits of a crate were last tried, all of them refused, by the crate's name."""
    if not os.path.isfile(f"{TOP}/{NOTE}"):
        return {}
    with open(f"{TOP}/{NOTE}", encoding="utf-8") as file:
        return dict(re.findall("^([a-z_]+) ([0-9a-f]{40})$", file.read(), re.MULTILINE))


@functools.cache
def changed_files(commit):
    """The files that differ from a commit, or None where there is no such commit."""
    changed = git("diff", "--name-only", commit, "--")
    others = git("ls-files", "--others", "--exclude-standard")
    return None if changed is None else [*changed.split("\n"), *(others or "").split("\n")]


def differs(crate, noted):
    """Whether a file of the crate, of a crate below, or of its edits has changed since they were tried."""
    changed = changed_files(noted[crate.name]) if crate.name in noted else None
    folders = [f"crates/{it.name}/{part}/" for it in [crate, *crate.below()] for part in ("src", "specs", "proofs")]
    folders.append(f"{edits.APART.format(crate.name)}/")
    return changed is None or any(it.startswith(folder) for it in changed for folder in folders)


def in_order(found, noted):
    """The crates, with their edits: first those that differ, and otherwise in an order that is drawn from the commit."""
    head = git("rev-parse", "HEAD") or ""
    drawn = {it: hashlib.sha256(f"{head.strip()} {it.name}".encode()).digest() for it in found}
    return sorted(found.items(), key=lambda it: (not differs(it[0], noted), drawn[it[0]]))


def wanted_edits(kit, words):
    """The edits that are to be tried, by their crates."""
    crates = {it.name: it for it in kit.rtlib.crates_below(TOP)}
    found = {}
    for place in [edits.APART, *([edits.GATE] if words.all else [])]:
        for name, paths in edits.crates_with(place):
            if name in crates and (not words.crates or name in words.crates):
                found.setdefault(crates[name], []).extend(paths)
    missing = {*words.crates} - {it.name for it in found}
    if missing:
        sys.exit(f"no edits of {', '.join(sorted(missing))} are to be tried (of those in must-fail with --all)")
    return found


def note(crates, noted):
    """Notes this commit for crates whose edits were all tried and refused."""
    if git("status", "--porcelain", "--", "crates", "crates.txt", "tests/edits", f":!{NOTE}") != "":
        print(f"{NOTE} is as it was: what was tried is not all committed")
        return
    head = git("rev-parse", "HEAD").strip()
    lines = sorted({**noted, **{it.name: head for it in crates}}.items())
    with open(f"{TOP}/{NOTE}", "w", encoding="utf-8") as file:
        file.writelines(f"{name} {commit}\n" for name, commit in lines)


def main(words):
    begun = time.monotonic()
    signal.signal(signal.SIGTERM, lambda *_: sys.exit(128 + signal.SIGTERM))
    kit = load_kit()
    os.chdir(TOP)
    found = wanted_edits(kit, words)
    number = int(os.environ.get("RT_JOBS") or 0) or min(kit.processors(), 1 + kit.free() // CHECK_MEMORY)
    noted = noted_commits()
    order = in_order(found, noted)
    build_libraries(kit, [*found])
    lanes = Lanes(words.jobs or number)
    with tempfile.TemporaryDirectory(prefix="edits-", ignore_cleanup_errors=True) as room:
        tempfile.tempdir = room
        checker = Checker(kit, None if words.seconds is None else begun + words.seconds)
        tries = Tries(checker, room, lanes)
        for rank, (crate, paths) in enumerate(order):
            lanes.add(1 + rank, tries.try_crate, crate, paths)
        try:
            lanes.tasks.join()
        finally:
            lanes.stopped = True
            checker.stop()
            lanes.tasks.join()
    count, tried = sum(map(len, found.values())), len(tries.refused) + len(tries.wrong)
    if words.note:
        note([it for it, paths in found.items() if tries.refused.issuperset(paths)], noted)
    stopped = "" if tried == count else f"stopped after {time.monotonic() - begun:.0f} s: "
    print(f"{stopped}{tried} of {count} edits tried, {len(tries.refused)} refused, {len(tries.wrong)} not")
    return 0 if tries.refused and not tries.wrong and not lanes.failed else 1
