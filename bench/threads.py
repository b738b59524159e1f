#!/usr/bin/env python3
"""Measures what workers in threads gain and cost: threads.py PROGRAM, for instance threads.py crates/pool_bench/out/pool_bench.

The job has 4,096 pieces, of no work and of about 100 microseconds each. Without shards the pieces are performed alone; with
shards their parts enter a map too. The times by the clock are the program's own, of the job alone: the least and the median of
five runs. "us a piece" is the median over the pieces, and "times" how often faster it is than that of one worker. "cpu us"
is the processor time of the whole program over the pieces, the median too, which tells most on a machine that is busy.
"""
import os
import statistics
import subprocess
import sys
import tempfile

from run import processor

PIECES = 4096
WORKERS = (1, 2, 3, 4, 16)
SHARDS = (0, 1, 16, 64)
RUNS = 5


def once(program, rounds, workers, shards, pieces=PIECES):
    """Nanoseconds of one run by the clock, and seconds of processor time."""
    command = [program, *map(str, (pieces, rounds, workers, shards))]
    with tempfile.TemporaryFile("w+") as out, tempfile.TemporaryFile("w+") as err:
        child = subprocess.Popen(command, stdin=subprocess.DEVNULL, stdout=out, stderr=err)
        _, status, usage = os.wait4(child.pid, 0)
        child.returncode = os.waitstatus_to_exitcode(status)
        out.seek(0)
        err.seek(0)
        count, time = out.read().strip(), err.read().strip()
    if child.returncode != 0 or int(count) != pieces * max(shards, 1):
        raise SystemExit("%s gave %s, with status %d" % (" ".join(command), count, child.returncode))
    return int(time), usage.ru_utime + usage.ru_stime


def rounds_of(program, nanoseconds):
    """How many rounds take about so long."""
    rounds = 10**5
    return max(1, round(rounds * nanoseconds / min(once(program, rounds, 1, 0, 1)[0] for _ in range(20))))


def main():
    program = os.path.abspath(sys.argv[1])
    print("%s, %d processors" % (processor(), os.cpu_count()))
    print("%8s %8s %8s %12s %12s %12s %8s %12s" % ("rounds", "shards", "workers", "least ms", "median ms", "us a piece", "times", "cpu us"))
    for rounds in (0, rounds_of(program, 100_000)):
        for shards in SHARDS:
            alone = None
            for workers in WORKERS:
                runs = [once(program, rounds, workers, shards) for _ in range(RUNS)]
                times = [time for time, _ in runs]
                median = statistics.median(times)
                cpu = statistics.median(cpu for _, cpu in runs)
                alone = alone or median
                print("%8d %8d %8d %12.2f %12.2f %12.2f %8.2f %12.2f" % (rounds, shards, workers, min(times) / 1e6, median / 1e6, median / 1e3 / PIECES, alone / median, cpu * 1e6 / PIECES), flush=True)


main()
