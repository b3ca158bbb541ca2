"""The programs that answers are compared with: those of TOGRID and TOPOTOOL, or of crates/*/out."""
import os
import subprocess

TOP = os.path.dirname(os.path.dirname(os.path.dirname(os.path.abspath(__file__))))
PROGRAMS = {it: os.path.abspath(os.environ.get(it.upper(), f"{TOP}/crates/{it}/out/{it}")) for it in ("togrid", "topotool")}
ARE_THERE = all(map(os.path.isfile, PROGRAMS.values()))


def ran(program, *words):
    """What a program prints for some words."""
    return subprocess.run([PROGRAMS[program], *words], stdin=subprocess.DEVNULL, stdout=subprocess.PIPE, check=True).stdout
