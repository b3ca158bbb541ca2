"""Prints a topology with one arc and one feature a line, for `git diff`.

    noshinka-git textconv FILE

is what git calls after `noshinka-git install`. An arc's name is made of its positions, and features name their arcs by it (`-`
before it: reversed). So a line changes only where that arc or feature did, and not because others were numbered anew. A file that
is no topology is printed as it is.
"""

import hashlib
import json
import sys


def compact(value):
    return json.dumps(value, ensure_ascii=False, separators=(",", ":"))


def renamed(refs, names):
    """Lists of arcs, as deep as they are, with names in place of numbers."""
    if isinstance(refs, list):
        return [renamed(it, names) for it in refs]
    return names[refs] if refs >= 0 else f"-{names[~refs]}"


def lines(topology):
    yield compact({name: it for name, it in topology.items() if name not in ("arcs", "objects")})
    texts = [*map(compact, topology["arcs"])]
    names = [hashlib.sha1(it.encode()).hexdigest()[:8] for it in texts]
    for name, held in topology["objects"].items():
        yield f"layer {compact(name)}"
        for it in held["geometries"] if held["type"] == "GeometryCollection" else [held]:
            first = {key: it[key] for key in ("id", "properties", "type") if key in it}
            rest = {key: value for key, value in it.items() if key not in first}
            yield compact({**first, **rest, **({"arcs": renamed(it["arcs"], names)} if "arcs" in it else {})})
    for name, text in zip(names, texts):
        yield f"arc {name} {text}"


def main(file):
    with open(file, "rb") as given:
        data = given.read()
    try:
        printed = [*lines(json.loads(data))]
    except (ValueError, LookupError, TypeError, AttributeError):
        sys.stdout.buffer.write(data)
        return
    sys.stdout.buffer.write("".join(f"{it}\n" for it in printed).encode(errors="surrogatepass"))


if __name__ == "__main__":
    main(sys.argv[1])
