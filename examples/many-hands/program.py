"""Finds the program that the scripts beside this one run."""

import os
import subprocess

WHICH = os.path.join(os.path.dirname(os.path.realpath(__file__)), "..", "which")


def topotool():
    """The path of topotool, as examples/which finds it. Where there is none, the error has its line, which says what to do."""
    ran = subprocess.run(["sh", WHICH, "topotool"], stdin=subprocess.DEVNULL, capture_output=True, text=True)
    if ran.returncode:
        raise FileNotFoundError(ran.stderr.strip())
    return ran.stdout.rstrip("\n")
