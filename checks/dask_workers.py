#!/usr/bin/env python3
"""What checks/dask.sh runs: a scheduler and four workers of Dask on this machine read files in parts.

    checks/dask_workers.py FILE FOLDER

FILE has the paths of the files, a line for each. FOLDER takes what the scheduler and the workers write.
"""

import contextlib
import logging
import os
import signal
import subprocess
import sys
import time
from pathlib import Path

from distributed import Client

import line_protocol.dask

PARTS = 40
WORKERS = 4


def told(columns):
    """Columns with all that their faults say."""
    faults = [
        (fault.kind, fault.text, fault.side, fault.item, fault.line, fault.offset, fault.piece_line, fault.piece_offset, fault.refused)
        for fault in columns.faults]
    return columns.tables, faults


def whole(paths):
    """What files have one after another, in blocks. Each ends in a newline."""
    for path in paths:
        with open(path, "rb") as file:
            while block := file.read(1 << 17):
                yield block


@contextlib.contextmanager
def started(command, folder, name):
    """A process that runs meanwhile; what it says is kept in a file."""
    with open(folder / name, "wb") as said:
        process = subprocess.Popen([sys.executable, "-B", "-m", *command], stdout=said, stderr=said, cwd=folder)
    try:
        yield process
    finally:
        process.terminate()
        process.wait()


@contextlib.contextmanager
def cluster(folder):
    """A client of a scheduler with its workers, all on loopback. A worker that ends is not started again."""
    at = folder / "scheduler.json"
    at.unlink(missing_ok=True)
    common = ["--host", "127.0.0.1", "--no-dashboard", "--scheduler-file", str(at)]
    worker = ["distributed.cli.dask_worker", *common, "--nthreads", "1", "--no-nanny", "--memory-limit", "0", "--death-timeout", "600"]
    with contextlib.ExitStack() as stack:
        stack.enter_context(started(["distributed.cli.dask_scheduler", *common, "--port", "0"], folder, "scheduler"))
        for number in range(WORKERS):
            stack.enter_context(started(worker, folder, f"worker{number}"))
        client = stack.enter_context(Client(scheduler_file=str(at), timeout=600))
        client.wait_for_workers(WORKERS, timeout=600)
        yield client


def kill_one(client, future):
    """Kills the worker that holds most of the parts that were read, and gives how many of all were."""
    pids = client.run(os.getpid)
    while not future.done():
        held = {worker: [key for key in keys if key.startswith("read_part")] for worker, keys in client.has_what().items()}
        worker = max(held, key=lambda one: len(held[one]))
        if held[worker]:
            read = sum(map(len, held.values()))
            os.kill(pids[worker], signal.SIGKILL)
            return read
        time.sleep(0.005)
    sys.exit("dask: all was read before a worker was killed")


def timed(call):
    """What a call gives, and how many seconds it took."""
    start = time.monotonic()
    found = call()
    return found, time.monotonic() - start


def compare(what, found, wanted):
    if told(found) != wanted:
        sys.exit(f"dask: {what} gives other columns than one process")


def main():
    logging.getLogger("asyncio").setLevel(logging.CRITICAL)  # Dask leaves behind what a worker that was killed raised
    paths, folder = Path(sys.argv[1]).read_text(encoding="utf-8").split("\n")[:-1], Path(sys.argv[2])
    size = sum(os.path.getsize(path) for path in paths)
    single, took = timed(lambda: line_protocol.columns(whole(paths), use_numpy=False))
    wanted = told(single)
    print(f"dask: one process reads {size} bytes with {len(single.faults)} faults in {took:.1f} s")
    with cluster(folder) as client:
        found, took = timed(lambda: client.compute(line_protocol.dask.read_columns(paths, PARTS, use_numpy=False)).result())
        compare("a run", found, wanted)
        print(f"dask: {WORKERS} workers give the same from {PARTS} parts, in {took:.1f} s")
        parts = [future.result() for future in client.compute(line_protocol.dask.read_parts(paths, PARTS, use_numpy=False))]
        if [fault for part in parts for fault in told(part)[1]] != wanted[1]:
            sys.exit("dask: the parts have other faults than the whole")
    with cluster(folder) as client:
        future = client.compute(line_protocol.dask.read_columns(paths, PARTS, use_numpy=False))
        read, took = timed(lambda: kill_one(client, future))
        found, more = timed(future.result)
        left = len(client.scheduler_info()["workers"])
        compare("a run that loses a worker", found, wanted)
        if left != WORKERS - 1 or read == PARTS:
            sys.exit(f"dask: {left} workers are left, and {read} parts were read when one was killed")
        print(f"dask: so do they if one is killed once {read} parts are read, in {took + more:.1f} s")


if __name__ == "__main__":
    main()
