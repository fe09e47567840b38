#!/usr/bin/env python3
"""Runs the inputs of docs/DIFFERENCES.md through the Rust and the model and prints what each does.

    tools/show_differences.py

Stops with status 1 if one of them does something else than is written there.
"""
import os
import struct
import subprocess
import sys
from collections import namedtuple

ROOT = os.path.dirname(os.path.dirname(os.path.abspath(__file__)))
sys.path.insert(0, os.path.join(ROOT, "oracle"))
sys.dont_write_bytecode = True

import examples  # noqa: E402
import limits  # noqa: E402
import model  # noqa: E402
import records  # noqa: E402
import rust  # noqa: E402
from records import FORMS, SGR1, SGR2  # noqa: E402

SECONDS = 5
PANIC = 101

# forms: those in which the record is refused with the number.
Input = namedtuple("Input", "name forms call k graph start numbers expected number")


def given(name, call, graph, expected, number, k=10, start=0, numbers=(), forms=FORMS):
    return Input(name, forms, call, k, graph, start, numbers, expected, number)


def lone_kmers(count):
    return limits.kmers(count, 128), []


CONVERT, SIMPLIFY = records.FROM_ASSEMBLY_GRAPH, records.SIMPLIFY_GRAPH
CLEAN, REFERENCE, PATH = records.CLEAN_NON_REF_PATHS, records.REFERENCE_PATH_BYTES, records.PATH_BASES_BYTES
LOOP = [(0, 1, 1, 1), (1, 1, 1, 1), (0, 2, 1, 1)]
EDGES_OF_SGR2 = limits.kmers_of_edges(65537, limits.shared_bytes(SGR2))

INPUTS = [
    given("doubled edge", CLEAN, ([b"A", b"C"], [(0, 1, 1, 0), (0, 1, 2, 0)]), "A C; 0>1 3 -", 6),
    given("equal k-mers", CONVERT, ([b"AC", b"AC"], []), "AC;", 6, k=2),
    given("k-mer of another length", CONVERT, ([b"ACG"], []), "ACG;", 4, k=2),
    given("k-mers without overlap", CONVERT, ([b"AA", b"CC"], [(0, 1, 1, 0)]), "AA C; 0>1 1 -", 15, k=2),
    given("self edge without overlap", CONVERT, ([b"AC"], [(0, 0, 1, 0)]), "C; 0>0 1 -", 15, k=2),
    given("k-mer with a self edge", CONVERT, ([b"AA"], [(0, 0, 1, 0)]), "A; 0>0 1 -", 7, k=2),
    given("self edge", SIMPLIFY, ([b"A"], [(0, 0, 1, 0)]), "AA;", 7),
    given("cycle in a chain", SIMPLIFY, ([b"A", b"C", b"G"], [(0, 1, 1, 0), (1, 0, 1, 0), (1, 2, 1, 0)]), "ACG;", 7),
    given("reference path into a cycle", REFERENCE, ([b"A", b"C", b"G"], LOOP), "does not end", 7),
    given("no such edge", PATH, ([b"A", b"C"], []), "AC", 9, numbers=(0, 1)),
    given("another start", PATH, ([b"A", b"C"], [(0, 1, 1, 0)]), "AC", 9, start=1, numbers=(0, 1)),
    given("broken path", PATH, ([b"A", b"C"], [(0, 1, 1, 0)]), "ACC", 9, numbers=(0, 1, 0, 1)),
    given("no such vertex", PATH, ([b"A"], []), "panics", 9, numbers=(0, 1)),
    given("no such start", PATH, ([b"A"], []), "panics", 9, start=1),
    given("k 129", CONVERT, ([b"A" * 129], []), "129 bytes in 1 vertices, 0 edges", 3, k=129),
    given("2,049 vertices", CLEAN, limits.many_vertices(2049), "A A; 0>1 1 r", 3, forms=[SGR1]),
    given("8,193 bytes", CLEAN, limits.many_bytes(8193), "8193 bytes in 3 vertices, 2 edges", 3, forms=[SGR1]),
    given("4,097 edges", CLEAN, limits.dense_before_reference(4097), "A A A; 1>2 1 r; 0>2 1 -", 3, forms=[SGR1]),
    given("8,320 converted bytes", CONVERT, lone_kmers(65), "8320 bytes in 65 vertices, 0 edges", 8, 128, forms=[SGR1]),
    given("32,769 vertices", CLEAN, limits.many_vertices(32769), "A A; 0>1 1 r", 3, forms=[SGR2]),
    given("131,073 bytes", CLEAN, limits.many_bytes(131073), "131073 bytes in 3 vertices, 2 edges", 3, forms=[SGR2]),
    given("65,537 edges", CONVERT, EDGES_OF_SGR2, "4144 bytes in 2064 vertices, 65537 edges", 3, 3, forms=[SGR2]),
    given(
        "131,200 converted bytes", CONVERT, lone_kmers(1025), "131200 bytes in 1025 vertices, 0 edges", 8, 128, forms=[SGR2]
    ),
]


# Of each of examples.SETTLING: rounds of the Rust as it stands, rounds here, and whether the record is the same.
SETTLING = [(8, 9, True), (8, 10, False)]


def record_of(form, x):
    return records.encode(form, records.KMER if x.call == CONVERT else records.SEQUENCE, 0, x.k, *x.graph)


def show_graph(data):
    """As read, without checks: a graph that the Rust made of a refused record."""
    v, e, b = records.counts_of(data)
    if len(data) > 150:
        return "%d bytes in %d vertices, %d edges" % (b, v, e)
    sequences = [s.decode() for s in records.sequences_in(data)]
    edges = ["%d>%d %d %s" % (a, b, s, "r" if f else "-") for a, b, s, f in records.edges_in(data)]
    return "; ".join([" ".join(sequences), *edges]) if edges else " ".join(sequences) + ";"


def ask(driver, call, record, start=0, numbers=()):
    body = struct.pack("<4I", call, start, len(record), len(numbers)) + record
    body += struct.pack("<%dI" % len(numbers), *numbers)
    return subprocess.run([driver], input=struct.pack("<I", len(body)) + body, capture_output=True, timeout=SECONDS)


def ask_rust(driver, form, x):
    try:
        done = ask(driver, x.call, record_of(form, x), x.start, x.numbers)
    except subprocess.TimeoutExpired:
        return "does not end"
    if done.returncode:
        return "panics" if done.returncode == PANIC else "status %d" % done.returncode
    made = done.stdout[20:]
    return show_graph(made) if made[:4] == form.mark else made.decode()


def show_settling(driver, graph, expected):
    """Simplification of a graph of which the Rust ends before the edges settle; whether all is as written."""
    record = records.encode(SGR1, records.SEQUENCE, 0, 10, *graph)
    made = ask(driver, rust.UNCHANGED_SIMPLIFY_GRAPH, record).stdout
    rounds, end = struct.unpack_from("<2I", made, 12)
    here = model.answer(SIMPLIFY, record, 0, (), 10**6, 0, model.NO_COUNTS)
    same = made[20:] == here.output
    as_written = (rounds, here.fields[1], same) == expected and end == here.fields[2] == model.REPEATED
    note = "" if as_written else "  NOT AS WRITTEN"
    told = "%d rounds, the Rust %d, %s" % (here.fields[1], rounds, "the same record" if same else "another record")
    name = "settling, %d vertices" % len(graph[0])
    print("%-28s SGR1  call %d  repeated: %s%s" % (name, SIMPLIFY, told, note))
    return as_written


def main():
    rust.build()
    driver = os.path.join(rust.target_folder(), "release", "oracle")
    wrong = 0
    for form, x in [(form, x) for x in INPUTS for form in x.forms]:
        got = ask_rust(driver, form, x)
        number = model.answer(x.call, record_of(form, x), x.start, x.numbers, 10**6, 0, model.NO_COUNTS).number
        as_written = got == x.expected and number == x.number
        wrong += not as_written
        note = "" if as_written else "  NOT AS WRITTEN"
        mark = form.mark.decode()
        print("%-28s %s  call %d  refused %2d  the Rust: %s%s" % (x.name, mark, x.call, number, got, note))
    for graph, expected in zip(examples.SETTLING, SETTLING, strict=True):
        wrong += not show_settling(driver, graph, expected)
    sys.exit(1 if wrong else 0)


if __name__ == "__main__":
    main()
