"""Makes the wheel of the package `noshinka` with nothing but the standard library.

    python3 python/make_wheel.py LIBRARY FOLDER

LIBRARY is libnoshinka.so.1, which goes into the wheel; FOLDER is where the wheel is put. It calls the library by ctypes, so
one wheel serves every version of Python. The times in it are SOURCE_DATE_EPOCH, or 1980: the same files give the same bytes.
"""

import base64
import hashlib
import os
import re
import sys
import time
import zipfile

HERE = os.path.dirname(os.path.abspath(__file__))
NAME = "noshinka"
TAG = "py3-none-manylinux2014_x86_64"
LEAST_TIME = 315532800  # 1980, before which a zip file has no times
SUMMARY = "TopoJSON topologies built, merged and queried in memory, by a library that is proved"


def version():
    with open(f"{HERE}/{NAME}/__init__.py", encoding="utf-8") as file:
        return re.search(r'^__version__ = "(.*)"$', file.read(), re.M)[1]


def metadata():
    """The metadata, with the first lines of the package's documentation."""
    with open(f"{HERE}/README.md", encoding="utf-8") as file:
        said = file.read()
    fields = {
        "Metadata-Version": "2.1",
        "Name": NAME,
        "Version": version(),
        "Summary": SUMMARY,
        "License": "MIT OR Apache-2.0",
        "Requires-Python": ">=3.9",
        "Description-Content-Type": "text/markdown",
    }
    return "".join(f"{key}: {value}\n" for key, value in fields.items()) + f"\n{said}"


def files(library):
    """The names and bytes of what is in the wheel, but for its record."""
    package = f"{HERE}/{NAME}"
    found = {f"{NAME}/{it}": f"{package}/{it}" for it in sorted(os.listdir(package)) if it.endswith((".py", ".typed"))}
    found[f"{NAME}/libnoshinka.so.1"] = library
    info = f"{NAME}-{version()}.dist-info"
    for name in ("LICENSE-APACHE", "LICENSE-MIT"):
        found[f"{info}/{name}"] = f"{HERE}/../{name}"
    for name, path in found.items():
        with open(path, "rb") as file:
            yield name, file.read()
    yield f"{info}/METADATA", metadata().encode()
    yield f"{info}/WHEEL", f"Wheel-Version: 1.0\nGenerator: {NAME}\nRoot-Is-Purelib: false\nTag: {TAG}\n".encode()


def put(wheel, name, data):
    made = time.gmtime(max(LEAST_TIME, int(os.environ.get("SOURCE_DATE_EPOCH", LEAST_TIME))))[:6]
    entry = zipfile.ZipInfo(name, made)
    entry.create_system, entry.external_attr, entry.compress_type = 3, 0o100644 << 16, zipfile.ZIP_DEFLATED
    wheel.writestr(entry, data)


def make(library, folder):
    """Makes the wheel, and returns its name."""
    name = f"{NAME}-{version()}-{TAG}.whl"
    record = f"{NAME}-{version()}.dist-info/RECORD"
    lines = []
    with zipfile.ZipFile(f"{folder}/{name}", "w") as wheel:
        for file, data in files(library):
            digest = base64.urlsafe_b64encode(hashlib.sha256(data).digest()).rstrip(b"=").decode()
            lines.append(f"{file},sha256={digest},{len(data)}\n")
            put(wheel, file, data)
        put(wheel, record, "".join([*lines, f"{record},,\n"]).encode())
    return name


if __name__ == "__main__":
    print(make(*sys.argv[1:]))
