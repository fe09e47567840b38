#!/usr/bin/env python3
"""Writes records of k-mer graphs as a bench meets them, region by region, for tools/bench_sg.sh. The same on every run.

    bench/regions.py FOLDER [COUNT]

The files are FOLDER/region-0001.sgr and so on, 400 if COUNT is left out. Each is a window of 300 to 500 bases with 2 to 8
relatives of it, in k-mers of 10 and of 25 bases in turn, and conversion accepts it. All are drawn from a seed: no data of a
sample is available, so none is among them.
"""
import os
import random
import sys

ROOT = os.path.dirname(os.path.dirname(os.path.abspath(__file__)))
sys.path.insert(0, os.path.join(ROOT, "oracle"))
sys.dont_write_bytecode = True

import graphs  # noqa: E402
from model import outcome_of  # noqa: E402
from records import FROM_ASSEMBLY_GRAPH as CONVERT  # noqa: E402
from records import SGR1  # noqa: E402

COUNT = 400
SIZES = (10, 25)
BASES = (300, 500)
RELATIVES = (2, 8)


def drawn(rng, k):
    graph = graphs.kmer_graph(rng, k, rng.randint(*BASES), rng.randint(*RELATIVES))
    return graphs.kmer_record(SGR1, k, graph)


def region(number):
    """The record of this number. Chance repeats a k-mer now and then, and so closes a cycle; then it is drawn again."""
    for seed in range(1000):
        rng = random.Random("region %d %d" % (number, seed))
        record = drawn(rng, SIZES[number % len(SIZES)])
        if not isinstance(outcome_of(CONVERT, record, 0, ()), int):
            return record
    raise SystemExit("no k-mer graph without a cycle was found")


def main():
    if len(sys.argv) not in (2, 3):
        raise SystemExit("usage: bench/regions.py FOLDER [COUNT]")
    folder, count = sys.argv[1], int(sys.argv[2]) if len(sys.argv) == 3 else COUNT
    os.makedirs(folder, exist_ok=True)
    for number in range(1, count + 1):
        with open(os.path.join(folder, "region-%04d.sgr" % number), "wb") as f:
            f.write(region(number))


if __name__ == "__main__":
    main()
