"""Merges shards over the workers of Dask, neighbours first; the texts stay on a disk that all workers see.

    python3 by_dask.py [--address SCHEDULER] [--workers N] [--retries N] [--folder DIR] [-o WHOLE] GRID LAYER SHARD... > WHOLE

Without an address N workers are made in this process. Only paths travel: a worker has `topotool` read a shard, and write its
topology into a new folder, in DIR, beside WHOLE, or, without an address, where temporary files are. Sixteen results that are next
to each other are merged into one, and then removed; give the shards in an order in which neighbours are near. No more than four
tasks for each worker are submitted at a time.

Each worker needs `topotool` on its PATH, or named by its variable TOPOTOOL. A result is there as a whole or not at all. A task
whose worker is lost runs again on another one, and one that fails for want of memory or a program is tried again. If topotool
refuses a shard, its name and the error are printed, and the status is 4; no shard's bytes go into a log.
"""

import argparse
import heapq
import os
import shutil
import subprocess
import sys
import tempfile

sys.dont_write_bytecode = True

from dask.distributed import Client, KilledWorker, LocalCluster, as_completed

import program

AT_ONCE = 16
FOR_EACH = 4  # tasks that are submitted for each thread of a worker
REFUSED = 4


def topotool(words, result, name):
    """Has topotool write a result, and gives None; or, of a shard with a name, why it is refused."""
    program = os.environ.get("TOPOTOOL", "topotool")
    ran = subprocess.run([program, *words, "-o", result], stdin=subprocess.DEVNULL, stdout=subprocess.DEVNULL, stderr=subprocess.PIPE)
    line = ran.stderr.decode(errors="replace").strip().removeprefix("topotool: ")
    if ran.returncode == REFUSED and name:
        return f"{name}: {line.removeprefix(f'{os.path.abspath(name)}: ')}"
    if ran.returncode:
        raise RuntimeError(f"topotool ended with {ran.returncode}: {line}")
    return None


class Task:
    """A shard that is built, or a merge of the results of other tasks."""

    def __init__(self, result, words, parts=(), shard=None):
        self.result, self.words, self.shard = result, words, shard
        self.parts, self.missing, self.above = parts, len(parts), None
        for it in parts:
            it.above = self

    def in_order(self):
        """What has to be done for a task, in the order of the shards, and it."""
        for it in self.parts:
            yield from it.in_order()
        yield self


def planned(folder, grid, layer, shards):
    """The task of the whole: a tree over the shards, in their order."""
    row = [Task(f"{folder}/0-{place}", ["build", "--grid", grid, f"{layer}={os.path.abspath(it)}"], shard=it) for place, it in enumerate(shards)]
    level = 0
    while len(row) > 1:
        level += 1
        groups = [row[place:place + AT_ONCE] for place in range(0, len(row), AT_ONCE)]
        row = [Task(f"{folder}/{level}-{place}", ["merge", *(it.result for it in group)], group) for place, group in enumerate(groups)]
    return row[0]


def run(client, whole, retries):
    """Runs the tasks, and gives why shards are refused; after the first of them nothing more is submitted."""
    order = [*whole.in_order()]
    place_of = {it: place for place, it in enumerate(order)}
    # A list in order is a heap. A merge is before all shards behind it, so that few results stand there at a time.
    ready = [place for place, it in enumerate(order) if not it.missing]
    done, running, refused = as_completed(), {}, []

    def submit():
        most = FOR_EACH * max(1, sum(client.nthreads().values()))
        while ready and not refused and len(running) < most:
            task = order[heapq.heappop(ready)]
            future = client.submit(topotool, task.words, task.result, task.shard, pure=False, retries=retries)
            running[future] = task
            done.add(future)

    submit()
    for future in done:
        task, why = running.pop(future), future.result()
        refused += [why] if why else []
        # The worker needs the parts no longer: its answer is here, so the task doesn't run again.
        for it in task.parts:
            os.remove(it.result)
        if task.above:
            task.above.missing -= 1
            if not task.above.missing:
                heapq.heappush(ready, place_of[task.above])
        submit()
    return refused


def deliver(whole, out):
    """Puts a file in the place of another one, as a whole or not at all; or prints it."""
    if not out:
        with open(whole, "rb") as file:
            shutil.copyfileobj(file, sys.stdout.buffer, 1 << 20)
        return
    try:
        os.replace(whole, out)
    except OSError:
        # They are on two disks.
        shutil.copyfile(whole, f"{out}.part")
        os.replace(f"{out}.part", out)


def main():
    words = argparse.ArgumentParser()
    words.add_argument("--address")
    words.add_argument("--workers", type=int, default=4)
    words.add_argument("--retries", type=int, default=2)
    words.add_argument("--folder", help="where results are written: a disk that all workers see")
    words.add_argument("-o", "--output", help="the file that is replaced by the whole; without it the whole is printed")
    words.add_argument("grid")
    words.add_argument("layer")
    words.add_argument("shards", nargs="+")
    given = words.parse_args()
    out = given.output and os.path.realpath(given.output)
    if given.address and not (out or given.folder):
        words.error("with --address, -o or --folder names a disk that all workers see")
    if out and os.path.exists(out) and not os.path.isfile(out):
        words.error(f"{given.output} is no file")
    where = given.folder or (os.path.dirname(out) if out else tempfile.gettempdir())
    place = given.address or LocalCluster(n_workers=given.workers, threads_per_worker=1, processes=False, dashboard_address=None)
    if not given.address:
        os.environ["TOPOTOOL"] = program.topotool()
    # A task of a worker that was taken for lost may still write there.
    beside = tempfile.TemporaryDirectory(prefix="by_dask-", dir=os.path.abspath(where), ignore_cleanup_errors=True)
    with Client(place) as client, beside as folder:
        whole = planned(folder, given.grid, given.layer, given.shards)
        refused = run(client, whole, given.retries)
        if not refused:
            deliver(whole.result, out)
    if not given.address:
        place.close()
    for it in refused:
        print(f"by_dask.py: {it}", file=sys.stderr)
    return REFUSED if refused else 0


if __name__ == "__main__":
    try:
        sys.exit(main())
    except (OSError, RuntimeError, KilledWorker) as fault:
        sys.exit(f"by_dask.py: {fault}")
