"""Finds the public functions, for tests/growths.py, and those that have a condition, a `requires`, for tests/documents.py.

A function is public here where it can be named from the root of its crate: through public modules, or passed on by a
`pub use`; a method where its type can be. The crates are the program's, and those that it uses.
The files are read as `rt fmt` lays them out. A function is a tuple of the crate, the type of a method, and the name.
"""

import os
import re

TOP = os.path.dirname(os.path.dirname(os.path.abspath(__file__)))
ROOTS = ["topotool"]
FUNCTION = re.compile(r"( *)(pub )?(?:const |final |unsafe )*fn (\w+)")
ITEM = re.compile(r"pub (?:struct|enum|trait|type) (\w+)")
TRAIT = re.compile(r"(?:pub )?trait (\w+)")
METHODS = re.compile(r"impl(?:<.*?>)? (\w+)(?:<.*>)?(?: where .*)? \{$")


def product():
    """The crates that ROOTS stand on, and these."""
    with open(f"{TOP}/crates.txt", encoding="utf-8") as file:
        lines = [it.split("#")[0].partition(":") for it in file]
    below = {name.strip(): used.split() for name, _, used in lines}
    found, left = set(), [*ROOTS]
    while left:
        name = left.pop()
        if name in below and name not in found:
            found.add(name)
            left += below[name]
    return sorted(found)


def passed_on(text):
    """Gives the name of each item or module that a file passes on by a `pub use`, and the path that it stands for."""
    for used in re.findall(r"^pub use ([^;]+);", text, re.MULTILINE):
        front, _, listed = used.partition("{")
        for it in listed.rstrip("} \n").split(",") if listed else [""]:
            if it.strip() or not listed:
                old, _, new = f"{front}{it.strip()}".partition(" as ")
                path = old.split("::")
                yield new or path[-1], path


class Module:
    """What a file of a crate has at its top level."""

    def __init__(self, text):
        self.inner = {name: bool(pub) for pub, name in re.findall(r"^(pub )?(?:pub\(\w+\) )?mod (\w+);", text, re.MULTILINE)}
        self.uses = dict(passed_on(text))
        self.public, self.functions, self.conditions = set(), {}, set()
        owner, lines = None, text.split("\n")
        for at, line in enumerate(lines):
            if line and not line.startswith((" ", "}", ")")):
                block = TRAIT.match(line) or METHODS.match(line)
                owner, is_trait = (block[1], bool(TRAIT.match(line))) if block else (None, False)
            item, function = ITEM.match(line), FUNCTION.match(line)
            if item:
                self.public.add(item[1])
            if function and (function[2] or owner and is_trait) and len(function[1]) == (4 if owner else 0):
                if not owner:
                    self.public.add(function[3])
                self.functions[owner, function[3]] = signature(lines[at:])
                if has_condition(lines[at:], function[1]):
                    self.conditions.add((owner, function[3]))


def signature(lines):
    """The function at the first of these lines, up to its contract or its body."""
    words = []
    for line in lines:
        if re.match(r" *(?:requires|ensures|\{)", line):
            break
        words.append(line.strip())
        if line.endswith((" {", ";")):
            break
    return " ".join(words)


def has_condition(lines, indent):
    """Whether the function at the first of these lines has a `requires` before its body or its end."""
    for line in lines:
        if re.match(r" *requires\b", line):
            return True
        if line.endswith((" {", ";")) or line in (f"{indent}{{", f"{indent}{{}}"):
            return False
    return False


def modules(crate):
    """The modules of a crate, each by its path."""
    folder = f"{TOP}/crates/{crate}/src"
    root = next(it for it in ["lib", "main"] if os.path.isfile(f"{folder}/{it}.rt"))
    found, left = {}, [()]
    while left:
        path = left.pop()
        with open(f"{folder}/{'/'.join(path) or root}.rt", encoding="utf-8") as file:
            found[path] = Module(file.read())
        left += [(*path, it) for it in found[path].inner if os.path.isfile(f"{folder}/{'/'.join((*path, it))}.rt")]
    return found


def reachable(found):
    """The items, each a module's path and a name, that can be named from the root of the crate of these modules."""
    items, seen, left = set(), set(), [()]
    while left:
        path = left.pop()
        if path in seen:
            continue
        seen.add(path)
        if path not in found:
            left += through(found, path, items)
            continue
        module = found[path]
        items |= {(path, it) for it in module.public}
        left += [(*path, it) for it, is_public in module.inner.items() if is_public]
        left += [from_root(path, used) for used in module.uses.values()]
    return items


def through(found, path, items):
    """Notes an item by its path, and gives the path of what it is where its module passes it on only."""
    *front, name = path
    module = found.get(tuple(front))
    if module is None:
        return
    items.add((tuple(front), name))
    if name in module.uses:
        yield from_root(front, module.uses[name])


def from_root(path, used):
    """The path from the crate's root of what a module uses by a path. That of another crate leads nowhere."""
    return tuple(used[1:]) if used[0] == "crate" else (*path, *used)


def public_functions(crate, kept):
    """The public functions of a crate of those that `kept` gives of each module: tuples of the type and the name."""
    found = modules(crate)
    items = reachable(found)
    types = {name for _, name in items}
    for path, module in found.items():
        for owner, name in kept(module):
            if owner in types or not owner and (path, name) in items:
                yield path, owner, name


def public_conditions():
    """The public functions that have a condition."""
    return {(crate, owner or "", name) for crate in product() for _, owner, name in public_functions(crate, lambda it: it.conditions)}
