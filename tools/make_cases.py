#!/usr/bin/env python3
"""Writes seeded cases with the model's answers to standard output, for oracle's program `compare`.

    tools/make_cases.py short|long [SEED]

The layout of a case is the one of tools/make_vectors.py; a frame of number 7 names the cases after it and says who
judges them, and the last one says "end". Each tallied call is made by one of the sixteen callers, and about each fifth
once more by a caller above 15. Of the graphs by chance each third is an SGR2 record.
"""
import os
import random
import sys

ROOT = os.path.dirname(os.path.dirname(os.path.abspath(__file__)))
sys.path.insert(0, os.path.join(ROOT, "oracle"))
sys.dont_write_bytecode = True

import cases  # noqa: E402
import damage  # noqa: E402
import examples  # noqa: E402
import graphs  # noqa: E402
import limits  # noqa: E402
import records  # noqa: E402
from records import FORMS, SGR1, SGR2  # noqa: E402

# How often the parts by chance are repeated.
TIMES = {"short": 1, "long": 30}
KS = [2, 3, 5, 8, 11, 25, 40]
# The calls that take k-mers.
KMER_CALLS = (records.VERTEX_SEQUENCE, records.FROM_ASSEMBLY_GRAPH)
# Who calls: drawn apart, so that what is drawn for the inputs does not depend on it.
CALLERS = random.Random()


def many(count, make):
    return (make() for _ in range(count))


def sequence_graphs(rng):
    """(label, graphs)"""
    pick = rng.randint
    yield "all shapes of 3 vertices", graphs.small_shapes(rng, 3)
    yield "all shapes of 4 vertices", graphs.small_shapes(rng, 4)
    yield "all shapes of 5 vertices", graphs.small_shapes(rng, 5)
    yield "random", many(2500, lambda: graphs.random_graph(rng, pick(1, 30)))
    yield "random, larger", many(40, lambda: graphs.random_graph(rng, pick(100, 300)))
    yield "chains", many(500, lambda: graphs.chain(rng, pick(1, 30)))
    yield "stacked diamonds", many(1000, lambda: graphs.stacked_diamonds(rng, pick(1, 8)))
    yield "stacked diamonds, many", many(5, lambda: graphs.stacked_diamonds(rng, pick(40, 80)))
    yield "nested diamonds", many(700, lambda: graphs.nested_diamonds(rng, pick(1, 8)))
    yield "tails", many(1000, lambda: graphs.tails(rng, pick(1, 5)))
    yield "shared suffixes", many(1500, lambda: graphs.shared_suffixes(rng, pick(1, 6)))
    yield "ladders", many(20, lambda: graphs.ladder(rng, pick(1, 20)))
    for make in (graphs.random_graph, graphs.chain, graphs.stacked_diamonds, graphs.tails, graphs.shared_suffixes):
        yield "capped", many(400, lambda: graphs.with_marks(rng, make(rng, pick(1, 8))))


def kmer_graphs(rng):
    """(label, (k, graph)s)"""

    def related(low, high, size):
        k = rng.choice(KS[low:high])
        return k, graphs.kmer_graph(rng, k, rng.randint(k + 4, size), rng.randint(1, 5))

    def overlapping(size, cycles):
        k = rng.choice(KS)
        return k, graphs.overlapping_kmers(rng, k, rng.randint(0, size), cycles)

    def scattered():
        k = rng.choice(KS)
        return k, graphs.scattered_kmers(rng, k, rng.randint(0, 20))

    def capped(k, graph):
        return k, graphs.with_marks(rng, graph)

    yield "k-mers of haplotypes", many(800, lambda: related(2, 5, 80))
    yield "k-mers of haplotypes, many cycles", many(200, lambda: related(0, 3, 60))
    yield "k-mers of haplotypes, larger", many(6, lambda: related(5, 7, 600))
    yield "overlapping k-mers", many(600, lambda: overlapping(25, 0.05))
    yield "overlapping k-mers, many cycles", many(100, lambda: overlapping(25, 1))
    yield "overlapping k-mers, larger", many(20, lambda: overlapping(200, 0))
    yield "scattered k-mers", many(200, scattered)
    yield "capped k-mers", many(200, lambda: capped(*related(2, 5, 80)))


def emit(label, found, judges=cases.MODEL_AND_RUST):
    sys.stdout.buffer.write(cases.label_frame(label, judges))
    for case in found:
        for called in cases.by_callers(CALLERS, case):
            sys.stdout.buffer.write(cases.frame(called))


def emit_if_long(mode, *what):
    if mode == "long":
        emit(*what)


def with_forms(found, turn):
    """Each third of what is found is SGR2; which third depends on the turn."""
    return ((SGR2 if (i + turn) % 3 == 0 else SGR1, x) for i, x in enumerate(found))


def emit_by_chance(rng, turn):
    for label, found in sequence_graphs(rng):
        for form, graph in with_forms(found, turn):
            emit(label, cases.cases_of_graph(rng, form, graph))
    for label, found in kmer_graphs(rng):
        for form, (k, graph) in with_forms(found, turn):
            emit(label, cases.cases_of_kmers(rng, form, k, graph))


def small_draft(rng, form, kind):
    k = rng.choice(KS[:4])
    if kind == records.KMER:
        return damage.Draft(form, kind, k, graphs.overlapping_kmers(rng, k, rng.randint(2, 8)))
    return damage.Draft(form, kind, k, graphs.random_graph(rng, rng.randint(1, 6)))


def drafts_with_edges(rng, form):
    """A draft of each kind, with two edges or more."""
    for kind in (records.SEQUENCE, records.KMER):
        draft = small_draft(rng, form, kind)
        while len(draft.edges) < 2:
            draft = small_draft(rng, form, kind)
        yield draft


def emit_record(rng, label, record, calls=records.CALLS):
    for call in calls:
        emit(label, cases.cases_of(rng, call, record, rng.randint(0, 1)))


def emit_damage(rng, turn):
    for form in FORMS:
        for draft in drafts_with_edges(rng, form):
            for record in damage.damaged(draft.record()):
                emit_record(rng, "every field, byte and length", record)
        for draft in drafts_with_edges(rng, form):
            for record in damage.with_flags(draft.record()):
                emit_record(rng, "every flag", record)
        for draft in drafts_with_edges(rng, form):
            for record in damage.form_faults(draft):
                emit_record(rng, "another form, wrapped sums", record)
    for form, _ in with_forms(range(1500), turn):
        for kind in (records.SEQUENCE, records.KMER):
            emit_record(rng, "up to three faults", damage.random_faults(rng, small_draft(rng, form, kind)))
    for form, _ in with_forms(range(1500), turn):
        record = damage.overlap_faults(rng, small_draft(rng, form, records.KMER))
        emit_record(rng, "faults of overlap", record, KMER_CALLS)


def emit_by_hand(rng):
    for form in FORMS:
        for graph in examples.SEQUENCE_GRAPHS:
            emit("by hand", cases.cases_of_graph(rng, form, graph, all_rooms=True))
        for k, graph in examples.KMER_GRAPHS:
            emit("by hand", cases.cases_of_kmers(rng, form, k, graph, all_rooms=True))
        for graph in examples.CAPPED:
            emit("capped by hand", cases.cases_of_graph(rng, form, graph, all_rooms=True))
        for k, graph in examples.KMER_CAPPED:
            emit("capped by hand", cases.cases_of_kmers(rng, form, k, graph, all_rooms=True))
        for _, k, graph in examples.KMER_OVERLAP:
            emit("overlap by hand", cases.cases_of_kmers(rng, form, k, graph, all_rooms=True))
        for graph in examples.SETTLING:
            emit("settling late", cases.cases_of_graph(rng, form, graph, all_rooms=True))


def emit_limits(rng):
    for _, graph in limits.at_limits(SGR1):
        emit("limits", cases.cases_of_graph(rng, SGR1, graph, all_rooms=True))
    for _, k, graph in limits.kmers_at_limits(SGR1):
        emit("limits of k-mers", cases.cases_of_kmers(rng, SGR1, k, graph, all_rooms=True))
    for k in (8, 33, 64, 127):
        emit_converted_bytes(rng, SGR1, k)


def emit_converted_bytes(rng, form, k):
    """k-mers whose conversion has as many bytes as are taken, some more and some less."""
    for total in range(form.max_bytes - 1, form.max_bytes + 3):
        found = limits.kmers_of_bytes(total, k)
        emit("limits of k-mers", cases.cases_of_kmers(rng, form, k, found))
        stray = graphs.kmer_record(form, k, limits.with_stray_edge(found))
        emit("limits of k-mers", cases.cases_of(rng, records.FROM_ASSEMBLY_GRAPH, stray, all_rooms=True))


def emit_large(rng, mode):
    for graph in limits.large(SGR1.max_vertices, *(150, 150) if mode == "short" else (680, 700)):
        emit("large", cases.cases_of_graph(rng, SGR1, graph))
    for graph in limits.large_with_fault(SGR1.max_vertices):
        emit("large with a fault", cases.cases_of_graph(rng, SGR1, graph))
    emit("large with a fault", cases.cases_of_kmers(rng, SGR1, 8, limits.equal_last_kmers(SGR1.max_vertices)))
    for k in (8, 128):
        emit_large_kmers(rng, "large k-mers", SGR1, k)


def emit_large_kmers(rng, label, form, k):
    for graph in limits.large_kmers(form.max_vertices, k):
        emit_record(rng, label, graphs.kmer_record(form, k, graph), KMER_CALLS)


def emit_full(rng, mode):
    """Ladders around the length from which no round repeats within a hundred. The Rust gets each one as SGR1."""
    for rungs in (102,) if mode == "short" else (99, 100, 101, 102, 103, 110, 150, 200, 300):
        graph = graphs.ladder(rng, rungs)
        emit("ladders, long", cases.cases_of_graph(rng, SGR1, graph))
        emit_if_long(mode, "ladders, long", cases.cases_of_graph(rng, SGR2, graph), cases.MODEL_ALONE)


# Past SGR1's limits, in SGR2. The Rust is slow on large graphs, most of all to build one edge by edge; one that it has
# converted is not built again.


def emit_past_limits(rng):
    """One past SGR1's limits: SGR2 takes them."""
    for name, graph in limits.at_limits(SGR1):
        if name.endswith("past"):
            emit("one past SGR1's limits", cases.cases_of_graph(rng, SGR2, graph, all_rooms=True))
    for name, k, graph in limits.kmers_at_limits(SGR1):
        if name.endswith("past"):
            emit("one past SGR1's limits", cases.cases_of_kmers(rng, SGR2, k, graph, all_rooms=True))


def emit_wide_limits(rng, mode):
    """SGR2's own limits; where a graph has 65,536 edges that are not converted, the model judges alone."""
    for name, graph in limits.at_limits(SGR2):
        found = cases.cases_of_graph(rng, SGR2, graph, all_rooms=True)
        if name.startswith("edges") and name.endswith("at"):
            emit_if_long(mode, "limits of SGR2", found, cases.MODEL_ALONE)
        else:
            emit("limits of SGR2", found)
    for _, k, graph in limits.kmers_at_limits(SGR2):
        if mode == "short":
            emit_record(rng, "limits of SGR2, k-mers", graphs.kmer_record(SGR2, k, graph), KMER_CALLS)
        else:
            emit("limits of SGR2, k-mers", cases.cases_of_kmers(rng, SGR2, k, graph, all_rooms=True))
    for k in (8, 33, 64, 127) if mode == "long" else ():
        emit_converted_bytes(rng, SGR2, k)


def region(rng, k, length, make):
    """The k-mers of a reference of that length and its relatives, drawn until they have no cycle and pass no limit."""
    while True:
        graph = graphs.kmers_of(rng, k, make(length))
        if not isinstance(cases.converted_unasked(graphs.kmer_record(SGR2, k, graph)), int):
            return graph


def regions(rng, mode):
    """(k, graph): some 5,000 k-mers; in the long run up to 30,000, and so close changes that their bubbles join."""

    def of(relatives, make=graphs.haplotypes):
        return lambda length: make(rng, length, relatives)

    sizes = [(25, 4000, of(30)), (40, 3000, of(3, graphs.structural_haplotypes))]
    if mode == "long":
        sizes += [(25, 8000, of(80)), (25, 12000, of(400)), (40, 20000, of(120)), (60, 26000, of(40))]
        sizes += [(k, n, of(4, graphs.structural_haplotypes)) for k, n in ((25, 5000), (40, 12000), (100, 20000))]
    for k, length, make in sizes:
        yield k, region(rng, k, length, make)


def emit_regions(rng, mode):
    label = "regions past SGR1's limits"
    for k, graph in regions(rng, mode):
        emit(label, cases.cases_of_kmers(rng, SGR2, k, graph, all_rooms=True))
        converted, _, _ = cases.converted_unasked(graphs.kmer_record(SGR2, k, graph))
        start, numbers = cases.whole_walk(rng, converted)
        for chosen in (numbers, numbers[:-2], numbers[:-1], numbers + numbers[:2]):
            emit(label, cases.cases_of(rng, records.PATH_BASES_BYTES, converted, start, chosen, all_rooms=True))


def emit_wide(rng, mode):
    """Large graphs by kind of rewrite and by chance, and the largest with a fault."""
    label = "large, past SGR1's limits"
    few = [limits.long_chain(2500, 2500), limits.many_tails(700)]
    for graph in few if mode == "short" else limits.large(4096, 1000, 700):
        emit(label, cases.cases_of_graph(rng, SGR2, graph, all_rooms=True))
    for vertices, edges in [(2500, 5000)] if mode == "short" else [(2500, 5000), (16384, 32768), (32768, 65536)]:
        graph = graphs.rising_kmers(rng, vertices, edges)
        emit(label, cases.cases_of_kmers(rng, SGR2, 2, graph, all_rooms=True))
    calls = (records.VERTEX_SEQUENCE, records.SIMPLIFY_GRAPH) if mode == "short" else records.CALLS
    for graph in limits.large_with_fault(SGR2.max_vertices):
        emit("large with a fault, SGR2", cases.cases_of_graph(rng, SGR2, graph, calls))
    emit("large with a fault, SGR2", cases.cases_of_kmers(rng, SGR2, 8, limits.equal_last_kmers(SGR2.max_vertices)))
    for k in (8,) if mode == "short" else (8, 128):
        emit_large_kmers(rng, "large k-mers, SGR2", SGR2, k)


def emit_widest(rng):
    """Graphs as large as SGR2 takes them, or nearly. The Rust takes too long for them, so the model judges alone."""
    chosen = [*limits.large(SGR2.max_vertices, 3000, 3000)]
    chosen += [graphs.dense(rng, SGR2.max_vertices, *more, 4) for more in ((40000, b"AC"), (65536, b"ACGT"))]
    for graph in chosen:
        emit("largest", cases.cases_of_graph(rng, SGR2, graph, all_rooms=True), cases.MODEL_ALONE)


def main():
    if len(sys.argv) not in (2, 3) or sys.argv[1] not in TIMES:
        sys.exit(__doc__)
    mode, seed = sys.argv[1], sys.argv[2] if len(sys.argv) == 3 else "1"
    rng = random.Random("cases, seed " + seed)
    CALLERS.seed("callers, seed " + seed)
    emit_by_hand(rng)
    emit_limits(rng)
    emit_large(rng, mode)
    emit_full(rng, mode)
    emit_past_limits(rng)
    emit_wide_limits(rng, mode)
    emit_wide(rng, mode)
    emit_regions(rng, mode)
    if mode == "long":
        emit_widest(rng)
    for turn in range(TIMES[mode]):
        emit_by_chance(rng, turn)
        emit_damage(rng, turn)
    emit("end", [])


if __name__ == "__main__":
    try:
        main()
    except BrokenPipeError:
        sys.exit("the reader stopped")
