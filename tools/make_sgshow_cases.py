#!/usr/bin/env python3
"""Writes the stored cases of sgshow: NAME.in, what it reads, and NAME.out, what it must write, by the model.

    tools/make_sgshow_cases.py FOLDER

The names of SGR2 records begin with sgr2.
"""
import os
import random
import sys

ROOT = os.path.dirname(os.path.dirname(os.path.abspath(__file__)))
sys.path.insert(0, os.path.join(ROOT, "oracle"))
sys.dont_write_bytecode = True

import examples  # noqa: E402
import graphs  # noqa: E402
import limits  # noqa: E402
from damage import Draft, with_number, with_whole_length  # noqa: E402
from printed import MOST, text_of  # noqa: E402
from records import FORMS, KMER, MAX_U32, SEQUENCE, SGR1, SGR2, encode, layout  # noqa: E402

WORDS = [b"ACA", b"CGT", b"GAC", b"TTG", b"AGG", b"CCT"]


def of(form, graph, k=10, status=0):
    return encode(form, SEQUENCE, status, k, *graph)


def all_pairs(count):
    """An edge from each vertex to each later one: more edges than vertices."""
    return WORDS[:count], [(a, b, a + b, int(b == a + 1)) for b in range(count) for a in range(b)]


def accepted(form):
    for i, graph in enumerate(examples.NINE):
        yield "example-%d" % (i + 1), of(form, graph)
    yield "no-vertices", of(form, ([], []), 25)
    yield "cleaned-before", of(form, examples.NINE[0], 128, 2)
    yield "empty-sequences", of(form, ([b"", b"", b""], []))
    yield "empty-beside-others", of(form, ([b"A", b"", b"C", b"T"], examples.BUBBLE))
    yield "every-byte", of(form, ([bytes(range(256))], []))
    yield "round-the-letters", of(form, ([b"@AZ[", b"`az{"], []))
    yield "surplus-minus-1", of(form, ([b"A"], []))
    yield "surplus-minus-12", of(form, (WORDS * 2, []))
    yield "surplus-0", of(form, all_pairs(3))
    yield "surplus-2", of(form, all_pairs(4))
    yield "surplus-9", of(form, all_pairs(6))
    yield "supports", of(form, ([b"CC", b"GA", b"TA"], [(0, 1, MAX_U32, 1), (0, 2, 0, 0)]))
    for i, graph in enumerate(examples.CAPPED):
        yield "capped-%02d" % (i + 1), of(form, graph)
    yield "end-repeated", of(form, ([b"G", b"A", b"CA"], [(1, 0, 1, 0), (2, 0, 1, 0)]))
    yield "end-full", of(form, graphs.ladder(random.Random("sgshow"), 102))


def forks(count):
    """So many tops, each with two tails: simplified, each has 20 bytes more as SGR2."""
    sequences, edges = [], []
    for _ in range(count):
        top = len(sequences)
        sequences += [b"", b"T" + b"A" * 10, b"G" + b"A" * 10]
        edges += [(top, top + 1, 1, 0), (top, top + 2, 1, 0)]
    return sequences, edges


def forks_that_become(whole):
    """818 forks and a lone vertex with as many bytes as make the simplified SGR2 record so long."""
    sequences, edges = forks(818)
    return sequences + [b"C" * (whole - layout(SGR2, 4 * 818 + 1, 4 * 818, 12 * 818)[3])], edges


def largest_of_sgr1():
    yield "all-vertices", of(SGR1, limits.many_vertices(SGR1.max_vertices))
    yield "all-bytes", of(SGR1, limits.many_bytes(SGR1.max_bytes), 2)
    yield "all-edges", of(SGR1, limits.dense_before_reference(SGR1.max_edges))
    yield "refused-3-vertices", of(SGR1, limits.many_vertices(SGR1.max_vertices + 1))
    yield "refused-3-edges", of(SGR1, limits.dense_before_reference(SGR1.max_edges + 1))
    yield "refused-3-bytes", of(SGR1, limits.many_bytes(SGR1.max_bytes + 1))


def largest_of_sgr2():
    """Past SGR1's limits; inputs of 65,536 bytes; answers of as many and of one more."""
    yield "vertices-2049", of(SGR2, limits.many_vertices(2049))
    yield "bytes-8193", of(SGR2, limits.many_bytes(8193))
    yield "edges-4097", of(SGR2, limits.dense_before_reference(4097))
    yield "most-vertices", of(SGR2, ([b""] * 16375, []))
    yield "most-bytes", of(SGR2, ([bytes(65496)], []))
    yield "most-edges", of(SGR2, ([b""] * 101, limits.dense_before_reference(5007)[1]))
    yield "answer-65536", of(SGR2, forks_that_become(MOST))
    yield "refused-11", of(SGR2, forks_that_become(MOST + 1))


def changed(form, **fields):
    d = Draft(form, SEQUENCE, 10, examples.NINE[0])
    for name, value in fields.items():
        setattr(d, name, value)
    return d.record()


def refused(form):
    good = of(form, examples.NINE[0])
    header, edges_at, bytes_at, _ = layout(form, 4, 4, 8)

    def with_edges(edges):
        return of(form, (examples.NINE[0][0], edges))

    yield "refused-1-short", with_whole_length(good)[: header - 1]
    yield "refused-1-longer", good + b"A"
    yield "refused-2-kind", encode(form, KMER, 0, 2, [b"AC", b"CG"], [(0, 1, 1, 1)])
    yield "refused-2-status", changed(form, status=3)
    yield "refused-3-k-low", changed(form, k=1)
    yield "refused-3-k-high", changed(form, k=129)
    yield "refused-4-offset", changed(form, offsets=[header, edges_at, bytes_at + 1])
    yield "refused-4-lengths", changed(form, lengths=[2, 3, 3, 3])
    yield "refused-4-longer", with_whole_length(good + b"A")
    yield "refused-5-end", with_edges(examples.BUBBLE + [(3, 4, 1, 0)])
    yield "refused-5-flag", with_edges(examples.BUBBLE[:3] + [(2, 3, 2, 4)])
    yield "refused-6", with_edges(examples.BUBBLE + [(0, 1, 1, 0)])
    yield "refused-7-self", with_edges(examples.BUBBLE + [(2, 2, 1, 0)])
    yield "refused-7-cycle", with_edges(examples.BUBBLE + [(3, 0, 1, 0)])
    yield "refused-3-before-7", of(form, (examples.NINE[0][0], examples.BUBBLE + [(3, 0, 1, 0)]), 1)
    # so many bytes are read, and refused for what they are; with one more they are not looked at
    for name, size in (("input-65536", MOST), ("input-65537", MOST + 1)):
        yield name, with_whole_length(good + bytes(size - len(good)))


def refused_of_sgr1():
    yield "refused-1-nothing", b""
    yield "refused-1-zeros", bytes(SGR1.header.size)
    yield "refused-2-mark", changed(SGR1, mark=b"SGR3")
    yield "input-70000", with_whole_length(of(SGR1, examples.NINE[0]).ljust(70000, b"\0"))


def refused_of_sgr2():
    """Headers too short for SGR2 that would do for SGR1; other marks; counts past the limits; right only if a sum wraps."""
    for length in range(SGR1.header.size, SGR2.header.size):
        short = of(SGR2, examples.NINE[0])[:length]
        yield "refused-1-of-%d" % length, with_number(short, SGR1.header.size - 4, 4, length)
    yield "refused-1-body-of-sgr1", changed(SGR1, mark=SGR2.mark)
    yield "refused-1-mark-of-sgr1", changed(SGR2, mark=SGR1.mark)
    yield "refused-1-mark", changed(SGR2, mark=b"SGR3")
    for name, counts in (("vertices", [32769, 4, 8]), ("edges", [4, 65537, 8]), ("bytes", [4, 4, 131073])):
        yield "refused-3-" + name, changed(SGR2, counts=counts)
    yield "refused-4-at-limits", changed(SGR2, counts=[32768, 65536, 131072])
    yield "refused-4-offsets-of-sgr1", changed(SGR2, offsets=[n - 4 for n in layout(SGR2, 4, 4, 8)[:3]])
    yield "refused-4-wrapped-lengths", changed(SGR2, lengths=[2, 3, MAX_U32, 4])


def named_cases():
    for form in FORMS:
        prefix = "" if form == SGR1 else "sgr2-"
        of_form = [largest_of_sgr1, refused_of_sgr1] if form == SGR1 else [largest_of_sgr2, refused_of_sgr2]
        for found in (accepted(form), refused(form), *(make() for make in of_form)):
            for name, data in found:
                yield prefix + name, data


def main(folder):
    os.makedirs(folder, exist_ok=True)
    for name, data in named_cases():
        with open(os.path.join(folder, name + ".in"), "wb") as f:
            f.write(data)
        with open(os.path.join(folder, name + ".out"), "w", newline="") as f:
            f.write(text_of(data))


main(*sys.argv[1:])
