"""Installs a package in a root of its own, runs the examples of README.md for an installed program there, and removes it again.

    unshare --mount python3 dist/in_root.py FOLDER PACKAGE

The root is this system's, under an overlay: what is written goes to memory, and is gone with the mounts when the namespace ends, so
nothing is unmounted or removed here. FOLDER is empty, and becomes the place of the mounts. /usr/local, the homes, /tmp and this
repository are empty in the root, so nothing is found but what the system and the package have. PACKAGE is the .deb, which dpkg
installs, or the .tar.gz, which goes below /usr/local. The examples are the lines that begin with `$ ` of README.md, and
those of examples/many-hands/README.md on git, as tests/documents.py finds them; `examples` is the folder that the package has.
Prints what is wrong; ends with a line of counts, and with status 1 if anything is. Status 3: there is no such root on this system.
"""

import os
import re
import shutil
import subprocess
import sys

sys.dont_write_bytecode = True

TOP = os.path.dirname(os.path.dirname(os.path.abspath(__file__)))
sys.path.insert(0, f"{TOP}/tests")

import documents

EMPTY = ["/usr/local", "/root", "/home", "/tmp", TOP]
DEVICES = ["/dev/null", "/dev/zero", "/dev/random", "/dev/urandom"]
ENV = {"PATH": "/usr/local/bin:/usr/bin:/bin:/usr/sbin:/sbin", "HOME": "/tmp", "LC_ALL": "C.UTF-8"}


def mount(*words):
    ran = subprocess.run(["mount", *words], stdin=subprocess.DEVNULL, capture_output=True, text=True)
    if ran.returncode:
        print(f"no root of its own: mount {' '.join(words)}: {ran.stderr.strip()}")
        sys.exit(3)


def make_root(folder):
    """The system's root under an overlay."""
    root = f"{folder}/root"
    mount("-t", "tmpfs", "tmpfs", folder)
    for it in ("upper", "work", "root"):
        os.mkdir(f"{folder}/{it}")
    mount("-t", "overlay", "overlay", "-o", f"lowerdir=/,upperdir={folder}/upper,workdir={folder}/work", root)
    for it in EMPTY:
        if os.path.isdir(f"{root}{it}"):
            mount("-t", "tmpfs", "tmpfs", f"{root}{it}")
    mount("--rbind", "/proc", f"{root}/proc")
    for it in DEVICES:
        with open(f"{root}{it}", "ab"):
            mount("--bind", it, f"{root}{it}")
    return root


class Root:
    def __init__(self, folder):
        self.folder = folder

    def run(self, command, place="/"):
        """What a line prints, on either output, as lines; and its status."""
        ran = subprocess.run(["chroot", self.folder, "/bin/bash", "-c", f"cd {place} && {command}"], env=ENV,
                             stdin=subprocess.DEVNULL, stdout=subprocess.PIPE, stderr=subprocess.STDOUT, text=True)
        return re.sub(r"\n\Z", "", ran.stdout).split("\n") if ran.stdout else [], ran.returncode

    def done(self, command, place="/"):
        printed, status = self.run(command, place)
        if status:
            sys.exit("\n".join([f"{command}: status {status}", *printed]))
        return printed

    def take(self, file):
        """Puts a copy of a file into /tmp, and returns its name."""
        name = os.path.basename(file)
        with open(file, "rb") as given, open(f"{self.folder}/tmp/{name}", "wb") as copy:
            copy.write(given.read())
        return name


def install(root, package):
    """Installs the package; returns the folder below which its `share` is, the command that removes it, and its files."""
    name = root.take(package)
    if name.endswith(".deb"):
        root.done(f"dpkg -i /tmp/{name}")
        return "/usr", "dpkg -P noshinka", root.done("dpkg -L noshinka")
    root.done(f"tar -xzf /tmp/{name} -C /tmp && mv /tmp/noshinka-*/ /tmp/unpacked && sh /tmp/unpacked/install.sh /usr/local")
    return "/usr/local", "sh /tmp/unpacked/install.sh --uninstall /usr/local", root.done("sh /tmp/unpacked/install.sh --list /usr/local")


def sections():
    """The documents' examples for an installed program: README.md, and what examples/many-hands says of git."""
    pages = [("README.md", None), ("examples/many-hands/README.md", "## Branches in git")]
    if not all(map(shutil.which, ("git", "python3"))):
        print(f"{pages.pop()[0]}: skipped: there is no git or no python3")
    for name, heading in pages:
        with open(f"{TOP}/{name}", encoding="utf-8") as file:
            text = file.read()
        found = [*documents.examples(text[text.index(f"\n{heading}\n"):] if heading else text)]
        left_out = {*documents.skipped([command for command, _ in found])}
        if left_out:
            print(f"{name}: {len(left_out)} examples skipped: they need {', '.join(documents.OPTIONAL)}")
        yield name, [it for it in found if it[0] not in left_out]


def lines_right(root, prefix):
    """Runs the examples, each document's in a folder of its own; returns how many there are, and how many print something else."""
    count = wrong = 0
    for name, found in sections():
        place = root.done("mktemp -d")[0]
        root.done(f"cp -R {prefix}/share/doc/noshinka/examples .", place)
        for command, printed in found:
            got, _ = root.run(command, place)
            count += 1
            if got != printed:
                wrong += 1
                print(f"{name}: $ {command}\n  is to print {printed}\n  and printed {got}")
    return count, wrong


def missing(files):
    """What a package is to have that is not among its files."""
    names = ("topotool", "togrid", "noshinka-git")
    ends = [it for name in names for it in (f"/bin/{name}", f"/man/man1/{name}.1", f"/completions/{name}", f"/vendor_completions.d/{name}.fish", f"/_{name}")]
    return [it for it in ends if not any(file.removesuffix(".gz").endswith(it) for file in files)]


def main(folder, package):
    root = Root(make_root(folder))
    prefix, remove, files = install(root, package)
    count, wrong = lines_right(root, prefix)
    lost = missing(files)
    root.done(remove)
    # (dpkg lists folders of the system too, as /usr/bin)
    own = [it for it in files if "noshinka" in it or not os.path.isdir(root.folder + it)]
    left = [it for it in [*own, f"{prefix}/share/noshinka", f"{prefix}/share/doc/noshinka"] if os.path.lexists(root.folder + it)]
    for it in lost:
        print(f"the package has no {it}")
    for it in left:
        print(f"{it} is left when the package is removed")
    print(f"{count} examples, {wrong + len(lost) + len(left)} wrong")
    return 1 if wrong or lost or left or not count else 0


if __name__ == "__main__":
    sys.exit(main(*sys.argv[1:]))
