#!/usr/bin/env python3
"""Tests the addresses of a file, a line each, on several processes of this machine by Dask: over_dask.py FILE [WORKERS..]

Prints a table: how many rows a second the library tests over columns that the workers hold, from the file, and from the file by
pandas, with each number of workers (1, 2 and 4), the best of three times. Wants the package bech32_proved, NumPy, and Dask (Debian:
python3-distributed and python3-pandas). Scheduler and workers listen on 127.0.0.1 alone.
"""
import os
import sys
import time

import numpy as np
from bech32_proved import columns


def counted(column):
    """How many rows have each number, and the processor time that it took."""
    start = time.process_time()
    return np.bincount(columns.decode(column, hrp="bc").numbers, minlength=256), time.process_time() - start


def whole(block):
    start = time.process_time()
    return counted(columns.of_lines(block))[0], time.process_time() - start


def of_frame(frame):
    return counted(frame["a"])


def timed(client, work, parts):
    """Rows a second by the clock, nanoseconds of processor a row, rows, and how many are accepted: the best of three times."""
    best = (0,)
    for _ in range(3):
        start = time.perf_counter()
        found = client.gather(client.compute([work(part) for part in parts]))
        clock = time.perf_counter() - start
        numbers, processor = sum(it[0] for it in found), sum(it[1] for it in found)
        rows = int(numbers.sum())
        best = max(best, (rows / clock, processor / rows * 1e9, rows, int(numbers[0])))
    return best


def measured(file, workers):
    """What is done, and its times, for each way to the rows."""
    import dask
    import dask.bytes
    import dask.dataframe
    from dask.distributed import Client, LocalCluster, wait

    cluster = LocalCluster(n_workers=workers, threads_per_worker=1, processes=True, host="127.0.0.1", dashboard_address=None,
                           worker_dashboard_address=None, memory_limit=0)
    with cluster, Client(cluster) as client:
        _, files = dask.bytes.read_bytes(os.path.abspath(file), delimiter=b"\n", blocksize=8 << 20, sample=False)
        blocks = [block for one in files for block in one]
        held = client.persist([dask.delayed(columns.of_lines)(block) for block in blocks])
        wait(held)
        yield "held as columns", timed(client, dask.delayed(counted), held)
        del held
        yield "from the file", timed(client, dask.delayed(whole), blocks)
        frame = dask.dataframe.read_csv(file, header=None, names=["a"], dtype=str, blocksize="16MB")
        yield "from the file by pandas", timed(client, dask.delayed(of_frame), frame.to_delayed())


def main(words):
    print("|what|workers|rows|rows a second by the clock|ns of processor a row|accepted|\n|---|---|---|---|---|---|")
    for workers in [int(it) for it in words[1:]] or [1, 2, 4]:
        for what, (speed, processor, rows, accepted) in measured(words[0], workers):
            print(f"|{what}|{workers}|{rows:,}|{speed:,.0f}|{processor:.0f}|{accepted:,}|", flush=True)
    print(f"load {os.getloadavg()[0]:.1f} on {os.cpu_count()} processors")


if __name__ == "__main__":
    if "--help" in sys.argv[1:] or not sys.argv[1:]:
        sys.exit(print(__doc__.strip()))
    main(sys.argv[1:])
