#!/usr/bin/env python3
"""Writes the benchmark's records to standard output, for oracle's program `bench`. The same on every run.

Each is a frame (four bytes of length, then that many bytes, little-endian): the call in four bytes (1 conversion,
2 simplification, 3 cleanup), its marks in four bytes (1 where the Rust takes minutes, 2 for a region of the row that grows,
their sum for both, else 0), the length of the name in four bytes, the name, and the record.
"""
import os
import random
import struct
import sys

ROOT = os.path.dirname(os.path.dirname(os.path.abspath(__file__)))
sys.path.insert(0, os.path.join(ROOT, "oracle"))
sys.dont_write_bytecode = True

import examples  # noqa: E402
import graphs  # noqa: E402
import limits  # noqa: E402
from model import outcome_of  # noqa: E402
from records import CLEANUP_SEQ_GRAPH as CLEAN_UP  # noqa: E402
from records import FROM_ASSEMBLY_GRAPH as CONVERT  # noqa: E402
from records import SIMPLIFY_GRAPH as SIMPLIFY  # noqa: E402
from records import SEQUENCE, SGR1, SGR2, encode  # noqa: E402

SLOW, GROWING = 1, 2
# The Rust takes time by the square of the edges to build a sequence graph: of a region of more k-mers than this, minutes.
SLOW_REGION = 10000


def sequence_record(graph, form=SGR1):
    return encode(form, SEQUENCE, 0, 10, *graph)


def structural_graph(rng, k, length, count):
    """The k-mers of a reference and relatives with long pieces dropped, added or turned round."""
    return graphs.kmers_of(rng, k, graphs.structural_haplotypes(rng, length, count))


def accepted_kmers(form, draw, k, length, count, least, most):
    """The k-mers of a reference and its relatives: the first seed whose graph has no cycle and so many vertices."""
    for seed in range(1000):
        rng = random.Random("benchmark %d %d %d" % (k, length, seed))
        graph = draw(rng, k, length, count)
        if not least <= len(graph[0]) <= most:
            continue
        record = graphs.kmer_record(form, k, graph)
        outcome = outcome_of(CONVERT, record, 0, ())
        if not isinstance(outcome, int):
            return len(graph[0]), record, outcome[0]
    raise SystemExit("no k-mer graph without a cycle was found")


def region(mark, name, draw, k, length, count, least, most):
    """A region converted, and what was made of it simplified and cleaned up; as SGR2 where SGR1 cannot hold so many."""
    form = SGR1 if most <= SGR1.max_vertices else SGR2
    vertices, kmers, converted = accepted_kmers(form, draw, k, length, count, least, most)
    name = "%s, k %d, %d k-mers" % (name, k, vertices)
    slow = SLOW if vertices > SLOW_REGION else 0
    yield CONVERT, mark, name, kmers
    yield SIMPLIFY, mark + slow, name, converted
    yield CLEAN_UP, mark + slow, name, converted


def around(vertices):
    """As many, within a fiftieth."""
    return vertices - vertices // 50, vertices + vertices // 50


def kmer_records():
    for k, length, count in ((10, 300, 8), (10, 1400, 12), (25, 300, 8), (25, 1300, 10)):
        yield from region(0, "haplotypes", graphs.kmer_graph, k, length, count, 0, SGR1.max_vertices)
    # About as large as SGR1 admits. A change in a relative adds up to k k-mers, so with a large k there are fewer relatives.
    for k, length, count in ((10, 1750, 16), (25, 1400, 16), (60, 1300, 8)):
        yield from region(0, "haplotypes", graphs.kmer_graph, k, length, count, 2000, SGR1.max_vertices)
    # Length and relatives grow with the vertices: changes lie as close in a large region as in a small one.
    for vertices, length, count in ((500, 350, 4), (1000, 700, 8), (2000, 1400, 16), (8000, 5425, 62), (30000, 20300, 232)):
        yield from region(GROWING, "growing", graphs.kmer_graph, 25, length, count, *around(vertices))
    # Few relatives with long changes, as in windows around structural variants.
    for k, vertices, length, count in ((25, 2000, 1300, 4), (25, 8000, 5400, 4), (25, 30000, 19000, 6), (60, 30000, 17000, 6)):
        yield from region(0, "structural", structural_graph, k, length, count, *around(vertices))


def deep_suffixes(sources, length):
    """Predecessors of one bottom that end alike, each with a source of its own and a different first byte."""
    rng = random.Random("benchmark, suffixes")
    suffix = graphs.word(rng, length, length)
    sequences, edges = [b"G"], []
    for s in range(sources):
        v = len(sequences)
        sequences += [bytes([s % 256]) + suffix, b"T"]
        edges += [(v, 0, 1, 0), (v + 1, v, 1, 0)]
    return sequences, edges


def star(sources):
    """One bottom of so many sources that share their last byte."""
    sequences = [b"G"] + [bytes([s % 251, s // 251, 65]) for s in range(sources)]
    return sequences, [(1 + s, 0, 1, int(s == 0)) for s in range(sources)]


def forks(count):
    """One bottom of twice so many predecessors, each two of them below a top of their own.

    No two of them are all of the bottom's predecessors, so there is no diamond; but at each top that is asked.
    """
    sequences, edges = [b"G"], []
    for _ in range(count):
        v = len(sequences)
        sequences += [b"T", b"CA", b"CT"]
        edges += [(v, v + 1, 1, 0), (v, v + 2, 1, 0), (v + 1, 0, 1, 0), (v + 2, 0, 1, 0)]
    return sequences, edges


def forks_and_bubbles(count, bubbles):
    """Forks, and behind them in number bubbles in a row: after each rewrite of a bubble the forks are tried again."""
    (above, into), (row, between) = forks(count), limits.many_bubbles(bubbles)
    return above + row, into + [(len(above) + a, len(above) + b, s, r) for a, b, s, r in between]


def nest(depth):
    """Each diamond's one middle is itself a diamond between two vertices."""
    sequences, edges = [b"A", b"T"], []
    top, bottom = 0, 1
    for _ in range(depth):
        v = len(sequences)
        sequences += [b"CAG", b"CA", b"AG"]
        edges += [(top, v, 1, 0), (v, bottom, 1, 0), (top, v + 1, 2, 1), (v + 2, bottom, 2, 1)]
        top, bottom = v + 1, v + 2
    return sequences, edges + [(top, bottom, 2, 1)]


def random_graph(vertices, edges, letters, longest):
    return graphs.dense(random.Random("benchmark, dense, %d" % longest), vertices, edges, letters, longest)


def ladder(rungs):
    return graphs.ladder(random.Random("benchmark, ladder"), rungs)


def shuffled_ladder(rungs):
    """A ladder of A and AA under shuffled numbers: the sequences stay as they are long before the edges do."""
    sequences, edges = ladder(rungs)
    sequences = [s.replace(b"C", b"A") for s in sequences]
    return graphs.renumbered(random.Random("benchmark, shuffled ladder"), sequences, edges)


def repeating(count):
    """The smallest graph that ends repeated, so many times side by side."""
    at = range(0, 3 * count, 3)
    return [b"G", b"A", b"CA"] * count, [(v + i, v, 1, 0) for v in at for i in (1, 2)]


def sequence_records():
    yield SIMPLIFY, 0, "document 01's case 1, 4 vertices", sequence_record(examples.NINE[0])
    yield SIMPLIFY, 0, "chain of 2,048 vertices", sequence_record(limits.long_chain(SGR1.max_vertices))
    yield SIMPLIFY, 0, "200 bubbles in a row", sequence_record(limits.many_bubbles(200))
    yield SIMPLIFY, 0, "680 bubbles in a row", sequence_record(limits.many_bubbles(680))
    yield SIMPLIFY, 0, "dense, 92 vertices, 4,095 edges", sequence_record(limits.dense_before_reference(4095))
    yield SIMPLIFY, 0, "random, 2,048 vertices, 4,096 edges", sequence_record(random_graph(2048, 4096, b"AC", 4))
    yield SIMPLIFY, 0, "random, 1,400 vertices, 4,096 edges", sequence_record(random_graph(1400, 4096, b"A", 5))
    yield SIMPLIFY, 0, "64 sources with a suffix of 120", sequence_record(deep_suffixes(64, 120))
    yield SIMPLIFY, 0, "640 tails of 12", sequence_record(limits.many_tails(640))
    yield SIMPLIFY, 0, "star of 2,047 sources", sequence_record(star(2047))
    yield SIMPLIFY, 0, "682 forks into one vertex", sequence_record(forks(682))
    yield SIMPLIFY, 0, "400 forks into one, then 200 bubbles", sequence_record(forks_and_bubbles(400, 200))
    yield SIMPLIFY, 0, "nest of 680 diamonds", sequence_record(nest(680))
    yield SIMPLIFY, 0, "ladder of 102 rungs", sequence_record(ladder(102))
    yield SIMPLIFY, 0, "ladder of 98 rungs, shuffled", sequence_record(shuffled_ladder(98))
    yield SIMPLIFY, 0, "682 graphs that repeat, side by side", sequence_record(repeating(682))
    yield SIMPLIFY, SLOW, "ladder of 1,023 rungs", sequence_record(ladder(1023))
    # Past SGR1's limits: twice the rungs, to see how the slowest record known grows.
    yield SIMPLIFY, SLOW, "ladder of 2,046 rungs", sequence_record(ladder(2046), SGR2)


def main():
    for records in (kmer_records(), sequence_records()):
        for call, mark, name, record in records:
            name = name.encode()
            body = struct.pack("<3I", call, mark, len(name)) + name + record
            sys.stdout.buffer.write(struct.pack("<I", len(body)) + body)


if __name__ == "__main__":
    main()
