"""What the scripts share that run the program very many times: all processors, and a limit of time."""

import argparse
import functools
import multiprocessing
import os
import subprocess
import sys
import time

TOP = os.path.dirname(os.path.dirname(os.path.abspath(__file__)))
PROGRAM = os.environ.get("TOPOTOOL", f"{TOP}/crates/topotool/out/topotool")
TOGRID = os.environ.get("TOGRID", f"{TOP}/crates/togrid/out/togrid")
LEAST_TEXTS = 20


def topotool(*words):
    return subprocess.run([PROGRAM, *words], capture_output=True)


def look_for_program(program=PROGRAM):
    """Ends the script where there is no program."""
    if not os.path.isfile(program):
        sys.exit(f"{program} is not there: rt run in crates/{os.path.basename(program)} builds it")


def words_of(texts):
    """The words of a script that tries so many texts, unless they say another number. Ends it where there is no program."""
    words = argparse.ArgumentParser()
    words.add_argument("--seed", type=int, default=1)
    words.add_argument("--texts", type=int, default=texts)
    words.add_argument("--seconds", type=float, help="stop after so long")
    words = words.parse_args()
    look_for_program()
    return words


def judged_before(end, judge, task):
    """What `judge` answers for a task, alone in a list; nothing where the end is past."""
    return [judge(task)] if end is None or time.monotonic() < end else []


def judged(judge, tasks, seconds):
    """Gives what `judge` answers for each task, as they are done. When the seconds are over no other is begun; None is no limit."""
    end = None if seconds is None else time.monotonic() + seconds
    with multiprocessing.Pool(len(os.sched_getaffinity(0))) as pool:
        for answers in pool.imap_unordered(functools.partial(judged_before, end, judge), tasks):
            yield from answers
        # The workers end by themselves: one that is ended may never tell that it did.
        pool.close()
        pool.join()


def told(done, total, what, seconds):
    """How many were done, and of how many where the time was over before."""
    return f"{done:,} {what}" if done == total else f"stopped after {seconds} s: {done:,} of {total:,} {what}"
