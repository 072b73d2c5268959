"""The parts of `measure` in Python:

    measured.py addresses FILE ASKED ROWS               makes addresses, a line each, one of a hundred with another character, and the
                                                        same as lines for b32
    measured.py tables FILE FEW BY_B32 PSQL USER        measures, and prints the tables; FEW rows by what is slow
"""
import collections
import concurrent.futures
import itertools
import os
import subprocess
import sys
import time

import numpy as np
import over_dask
import plain_python
from bech32_proved import Refused, columns, segwit

WORKERS = 1, 2, 4
# Rows a second by each number of workers, for each way.
speeds = collections.defaultdict(dict)


def make(file, asked, rows):
    draw = np.random.default_rng(1)
    lengths = np.where(np.arange(rows) % 10 < 6, 20, 32)
    ends = np.cumsum(lengths)
    drawn = draw.integers(0, 256, int(ends[-1]), np.uint8)
    programs = columns.Lines(np.concatenate([[0], ends]), drawn)
    texts = columns.encode("bc", (np.arange(rows) % 10 > 6).astype(np.uint8), programs).texts.to_list()
    for i in range(0, rows, 100):
        texts[i] = texts[i][:19] + ("p" if texts[i][19] == "q" else "q") + texts[i][20:]
    with open(file, "w", encoding="ascii") as to:
        to.writelines(f"{it}\n" for it in texts)
    with open(asked, "w", encoding="ascii") as to:
        to.writelines(f"segwit-decode {it}\n" for it in texts)


def best(rows, accepted, work):
    """Rows a second by the clock, the best of three times, of work that counts the accepted rows."""
    clock = 1e9
    for _ in range(3):
        start = time.perf_counter()
        found = work()
        clock = min(clock, time.perf_counter() - start)
        if found != accepted:
            sys.exit(f"{found} of {rows} rows are accepted, and not {accepted}")
    return rows / clock


def of_package(texts):
    found = 0
    for text in texts:
        try:
            found += segwit.decode(text).hrp == "bc"
        except Refused:
            pass
    return found


def over_processes(work, texts, accepted, workers):
    parts = [texts[i::workers] for i in range(workers)]
    with concurrent.futures.ProcessPoolExecutor(workers) as pool:
        # So that all are there before it begins.
        list(pool.map(len, parts))
        return best(len(texts), accepted, lambda: sum(pool.map(work, parts)))


def by_python(file, few):
    with open(file, "rb") as lines:
        held = columns.of_lines(lines.read())
    rows, accepted = len(held.offsets) - 1, int((columns.decode(held, hrp="bc").numbers == 0).sum())
    with open(file, encoding="ascii") as lines:
        texts = [line.rstrip("\n") for line in itertools.islice(lines, few)]
    of_few = int((columns.decode(texts, hrp="bc").numbers == 0).sum())
    for workers in WORKERS:
        speeds["plain Python, processes"][workers] = over_processes(plain_python.count, texts, of_few, workers)
        speeds["`segwit.decode`, processes"][workers] = over_processes(of_package, texts, of_few, workers)

        def work(threads=workers):
            return int((columns.decode(held, hrp="bc", threads=threads).numbers == 0).sum())

        speeds["`columns.decode`, threads"][workers] = best(rows, accepted, work)
    return rows, accepted, of_few


def by_dask(file, accepted):
    for workers in WORKERS:
        for what, (speed, _, _, found) in over_dask.measured(file, workers):
            if found != accepted:
                sys.exit(f"Dask, {what}: {found} rows are accepted, and not {accepted}")
            speeds[f"Dask, {what}"][workers] = speed


def by_postgresql(psql, user, counts):
    prefix = ["runuser", "-u", "postgres", "--"] if user == "0" else []

    def times(table, where, workers):
        """The time that the server says of each of three queries; the leader is one of the workers."""
        words = [*prefix, psql, "-X", "-A", "-t", "-d", "postgres", "-c", f"SET max_parallel_workers_per_gather = {workers - 1}",
                 "-c", "SET min_parallel_table_scan_size = 0", "-c", "SET parallel_setup_cost = 0", "-c", "SET parallel_tuple_cost = 0",
                 "-c", f"SELECT count(*) FROM {table} WHERE {where}", "-c", "\\timing on"]
        words += ["-c", f"SELECT count(*) FROM {table} WHERE {where}"] * 3
        said = subprocess.run(words, stdout=subprocess.PIPE, text=True, check=True).stdout.split("\n")
        return [float(it.split()[1]) / 1000 for it in said if it.startswith("Time:")], {int(it) for it in said if it.isdigit()}

    for what, table, where in [
        ("PostgreSQL, bare scan", "texts", "octet_length(a) > 0"),
        ("PostgreSQL, `segwit_check`", "texts", "segwit_check(a, 'bc')"),
        ("PL/pgSQL", "few", "segwit_check_plpgsql(a)"),
    ]:
        rows, accepted = counts[table]
        for workers in WORKERS:
            clocks, found = times(table, where, workers)
            if found != ({rows} if where.startswith("octet") else {accepted}):
                sys.exit(f"{what}: {found} rows, and not {accepted}")
            speeds[what][workers] = rows / min(clocks)


def of_b32(file):
    """The lines of over_b32: what, processes, lines and bytes a second."""
    with open(file, encoding="utf-8") as lines:
        found = {(words[1], words[2]): words for words in (line.split("|") for line in lines) if len(words) == 7}
    for what, one in (("parallel --pipepart -k", "one process"),):
        speeds["`b32`, GNU parallel"] = {1: float(found[one, "1"][3]), **{it: float(found[what, str(it)][3]) for it in WORKERS[1:]}}
    return [(what, float(found[what, "1"][4])) for what in ("cat, through a pipe", "one process, through pipes", "one process")]


def rounded(number):
    """Three digits of a number."""
    digits = max(0, len(f"{number:.0f}") - 3)
    return f"{round(number, -digits):,.0f}"


def length(seconds):
    return f"{seconds:.0f}s" if seconds < 100 else f"{seconds / 60:.0f}min" if seconds < 6000 else f"{seconds / 3600:.0f}h"


def tables(file, few, by_b32, psql, user):
    few = int(few)
    pipes = of_b32(by_b32)
    rows, accepted, of_few = by_python(file, few)
    by_postgresql(psql, user, {"texts": (rows, accepted), "few": (few, of_few)})
    by_dask(file, accepted)
    plain = speeds["plain Python, processes"][1]
    print("|rows a second|1|2|4|plain Python is 1|10⁹ rows|on ten|\n|---|---|---|---|---|---|---|")
    for what, by in sorted(speeds.items(), key=lambda it: it[1][1]):
        print(f"|{what}|" + "|".join(rounded(by[it]) for it in WORKERS)
              + f"|{rounded(by[1] / plain) if by[1] >= 10 * plain else f'{by[1] / plain:.1f}'}|{length(1e9 / by[4])}|{length(1e8 / by[4])}|")
    print("\n|bytes in and out|MB a second|of `cat`|\n|---|---|---|")
    for what, speed in pipes:
        what = what.replace("cat", "`cat`").replace("one process", "`b32`")
        print(f"|{what}|{speed / 1e6:,.0f}|{speed / pipes[0][1]:.2f}|")
    print(f"\n{rows:,} rows ({few:,} by Python and PL/pgSQL); load {os.getloadavg()[0]:.1f} on {os.cpu_count()} processors.")


if __name__ == "__main__":
    if sys.argv[1] == "addresses":
        make(sys.argv[2], sys.argv[3], int(sys.argv[4]))
    else:
        tables(*sys.argv[2:])
