"""The commands that make a call, against the model: number, every field, every byte; and the tallies."""
import os
import random
import struct

from harness import CASE_1, CASE_1_AS_SGR2, CORES, CYCLE, KMERS, contents, failed, put, put_all, run, run_all, told
from inputs import damaged_records, kmer_records, overlapping_records, sequence_records

import examples
import graphs
import limits
from model import outcome_of, vertex_sequence
from records import CLEAN_NON_REF_PATHS, CLEANUP_SEQ_GRAPH, FORMS, FROM_ASSEMBLY_GRAPH, PATH_BASES_BYTES
from records import REFERENCE_PATH_BYTES, SEQUENCE, SGR2, SIMPLIFY_GRAPH, encode

COMMANDS = {
    "convert": FROM_ASSEMBLY_GRAPH, "simplify": SIMPLIFY_GRAPH, "cleanup": CLEANUP_SEQ_GRAPH,
    "clean-non-ref": CLEAN_NON_REF_PATHS, "reference": REFERENCE_PATH_BYTES,
}
END = {1: "quiet", 2: "repeated", 3: "full"}
STATUS = {1: "just reference", 2: "some variation"}


def mixed_records(rng):
    """Good and damaged, of both kinds and both forms."""
    drawn = [*sequence_records(rng, 150), *kmer_records(rng, 80), *overlapping_records()]
    named = [encode(form, SEQUENCE, 0, 10, *graph) for form in FORMS for graph in examples.SEQUENCE_GRAPHS]
    return named + drawn + rng.sample(list(damaged_records(rng, 0)), 150)


def fields_of(command, outcome):
    fields = {"length": len(outcome[0])}
    if command == "simplify":
        rewrites, rounds, end = outcome[1]
        fields.update(rewrites=rewrites, rounds=rounds, end=END[end])
    if command == "cleanup":
        fields.update(status=STATUS[outcome[1][0]])
    return fields


def agree(command, outcome, said, made):
    """That a command gave the model's outcome."""
    if isinstance(outcome, int):
        assert (said["result"], said["number"], made) == ("refused", outcome, None), (command, outcome, said)
        return
    assert (said["result"], made) == ("accepted", outcome[0]), (command, said)
    assert all(said[name] == value for name, value in fields_of(command, outcome).items()), (command, said, outcome[1])


def check_calls(folder):
    data = mixed_records(random.Random("sg, calls"))
    inputs = put_all(os.path.join(folder, "in"), data)
    for command, call in COMMANDS.items():
        work = os.path.join(folder, command)
        os.mkdir(work)
        objects, made = run_all(work, command, inputs)
        for record, said, output in zip(data, objects, made):
            agree(command, outcome_of(call, record, 0, ()), said, output)
        results = [said["result"] for said in objects]
        assert results.count("accepted") > 50 and results.count("refused") > 100, (command, len(results))


def check_paths(folder):
    """Paths and sequences: of vertices that are there and of others."""
    data = mixed_records(random.Random("sg, paths"))[:120]
    inputs = put_all(os.path.join(folder, "in"), data)
    for i, vertices in enumerate([[0], [0, 1], [0, 1, 3], [0, 2, 3], [1], [3, 0], [70000], [0, 0]]):
        work = os.path.join(folder, "path %d" % i)
        os.mkdir(work)
        words = ["--vertices", ",".join(map(str, vertices))]
        objects, made = run_all(work, "path", inputs, *words)
        numbers = [v for edge in zip(vertices, vertices[1:]) for v in edge]
        for record, said, output in zip(data, objects, made):
            agree("path", outcome_of(PATH_BASES_BYTES, record, vertices[0], numbers), said, output)
    for vertex in (0, 1, 4294967295):
        work = os.path.join(folder, "vertex %d" % vertex)
        os.mkdir(work)
        objects, made = run_all(work, "sequence", inputs, "-n", str(vertex))
        for record, said, output in zip(data, objects, made):
            agree("sequence", sequence_by_model(record, vertex), said, output)


def sequence_by_model(record, vertex):
    answer = vertex_sequence(record, vertex)
    return answer.number or (answer.output, answer.fields)


def check_large(folder):
    """Records that need a thread of their own, many at a time."""
    rng = random.Random("sg, large")
    data = [encode(SGR2, SEQUENCE, 0, 10, *graph) for graph in (
        limits.long_chain(32768), limits.many_bubbles(3000), limits.many_vertices(32768), graphs.ladder(rng, 40),
        limits.many_bytes(131072), graphs.stacked_diamonds(rng, 200),
    )] * 3
    inputs = put_all(os.path.join(folder, "in"), data)
    due = [outcome_of(CLEAN_NON_REF_PATHS, record, 0, ()) for record in data[:6]] * 3
    objects, made = run_all(folder, "clean-non-ref", inputs, "-j", "6")
    for outcome, said, output in zip(due, objects, made):
        agree("clean-non-ref", outcome, said, output)
    one, many = os.path.join(folder, "one"), os.path.join(folder, "many")
    for out, jobs in ((one, "1"), (many, "6")):
        status, _, noted = run("simplify", "-q", "-j", jobs, "-d", out, *inputs[:6])
        assert (status, noted) == (0, b""), noted
    assert all(contents(os.path.join(one, n)) == contents(os.path.join(many, n)) for n in os.listdir(one))
    assert len(os.listdir(one)) == len(os.listdir(many)) == 6


def check_single(folder):
    """One file: what the call told is said in a line, and -q leaves it out."""
    record, out = put(folder, "case 1.sgr", CASE_1), os.path.join(folder, "out.sgr")
    status, _, noted = run("simplify", "case 1.sgr", "-o", "out.sgr", cwd=folder)
    assert (status, noted) == (0, b"case 1.sgr: rewrites 3, rounds 2, end quiet, length 84\n"), noted
    assert contents(out) == outcome_of(SIMPLIFY_GRAPH, CASE_1, 0, ())[0]
    assert run("cleanup", record, "-q")[1:] == (outcome_of(CLEANUP_SEQ_GRAPH, CASE_1, 0, ())[0], b"")
    assert run("cleanup", "-", given=CASE_1)[2] == b"standard input: status some variation, length 84\n"
    assert run("convert", "-q", "-", given=KMERS)[0] == 0
    assert run("reference", "-q", record) == (0, b"AACTGTT", b"")
    assert run("path", "-q", "-p0,2,3", record) == (0, b"AACAGTT", b"")
    assert run("sequence", "-q", "--vertex=2", record) == (0, b"CAG", b"")
    assert run("reference", "-q", "--fasta", record) == (0, b">case_1\nAACTGTT\n", b"")
    assert run("sequence", "-q", "-n", "0", "--fasta", "-", given=KMERS) == (0, b">standard_input\nACG\n", b"")
    long = encode(SGR2, SEQUENCE, 0, 10, [b"A" * 121], [])
    assert run("sequence", "-q", "-n0", "--fasta", "-", given=long)[1] == b">standard_input\n" + (b"A" * 60 + b"\n") * 2 + b"A\n"
    odd = encode(SGR2, SEQUENCE, 0, 10, [b"A\n"], [])
    failed(run("sequence", "-n0", "--fasta", "-", given=odd), 1, b"sg: standard input: the string holds the byte \\x0a")
    failed(run("simplify", "-", given=CYCLE), 1, b"sg: standard input: refused 7: a cycle, a self edge included\n")
    failed(run("path", "-p", "0,3", record), 1, b"sg: " + record.encode() + b": refused 9: ")


def tallies(path):
    numbers = struct.unpack("<48I", contents(path))
    return [numbers[i : i + 3] for i in range(0, 48, 3)]


def check_tallies(folder):
    """Each caller's counts are what its calls make of them, whatever the number of threads; they stop at the top."""
    data = mixed_records(random.Random("sg, tallies"))
    inputs = put_all(os.path.join(folder, "in"), data)
    outcomes = [outcome_of(SIMPLIFY_GRAPH, record, 0, ()) for record in data]
    refused = sum(isinstance(outcome, int) for outcome in outcomes)
    due = (len(data) - refused, refused, sum(outcome[2] for outcome in outcomes if not isinstance(outcome, int)))
    for jobs in (1, CORES, 7):
        table = os.path.join(folder, "tallies %d" % jobs)
        for runs in (1, 2):
            words = ["-j", str(jobs), "-c", "3", "-t", table, "-d", os.path.join(folder, "%d %d" % (jobs, runs))]
            assert run("simplify", *words, *inputs)[0] == 1
            assert tallies(table)[3] == tuple(runs * n for n in due), (jobs, runs)
            assert sum(map(sum, tallies(table))) == runs * sum(due)
    # another caller's calls leave this one's counts as they are
    assert run("reference", "-q", "--caller", "15", "--tallies", table, "-", given=CASE_1)[0] == 0
    assert (tallies(table)[3], tallies(table)[15]) == (tuple(2 * n for n in due), (1, 0, 0))
    full = put(folder, "full", b"\xff" * 192)
    assert run("simplify", "-q", "-c0", "-t", full, "-", given=CASE_1)[0] == 0
    assert contents(full) == b"\xff" * 192


def full_table(folder):
    return put(folder, "full table", b"\xff" * 192)


def check_callers(folder):
    """A caller above 15 is refused by the library and counted nowhere; a file that is no table stops the run at once."""
    table, out = os.path.join(folder, "table"), os.path.join(folder, "out")
    failed(run("simplify", "--caller", "16", "-t", table, "-", given=CASE_1), 1, b"sg: standard input: refused 18: ")
    assert contents(table) == bytes(192)
    short = put(folder, "short", bytes(191))
    record = put(folder, "in.sgr", CASE_1)
    failed(run("simplify", "-t", short, record, "-o", out), 3, b"sg: " + short.encode() + b": no table of tallies")
    assert not os.path.exists(out) and contents(short) == bytes(191)
    # a table that cannot be written is told before the work, a link that leads nowhere too
    os.symlink("nowhere", os.path.join(folder, "link"))
    for bad, why in ((os.path.join(folder, "none", "table"), b"No such file or directory"), (folder, b"Is a directory")):
        failed(run("simplify", "-t", bad, record, "-o", out), 3, b"sg: " + bad.encode() + b": " + why + b"\n")
        assert not os.path.exists(out), bad
    status, _, noted = run("simplify", "-q", "-t", os.path.join(folder, "link"), record, "-o", out)
    assert (status, noted.split(b": ")[-1]) == (3, b"it is a link that leads nowhere\n"), noted
    # asking what a file is, or making one, is no call of a caller
    for command in ("check", "make", "text", "sequence"):
        assert run(command, "-t", table, record)[0] == 2, command
    assert run("cleanup", "-q", "-c", "2", "-t", table, "-", given=CASE_1)[0] == 0
    status, text, _ = run("caller", table)
    lines = text.decode().splitlines()
    assert status == 0 and len(lines) == 17 and lines[3] == "2\t1\t0\t3", lines
    said = told(run("caller", "--json", table)[1])[0]
    assert said["answered"] == [0, 0, 1] + [0] * 13 and said["rewrites"][2] == 3, said
    status, text, _ = run("caller", "-q", table, full_table(folder))
    assert status == 0 and text.count(b"\n") == 36 and text.startswith(table.encode() + b":\ncaller\t"), text
    failed(run("caller", short), 1, b"sg: " + short.encode() + b": it has 191 bytes; a table of tallies has 192\n")
    as_sgr2 = run("simplify", "-q", "-", given=CASE_1_AS_SGR2)
    assert as_sgr2[1] == outcome_of(SIMPLIFY_GRAPH, CASE_1_AS_SGR2, 0, ())[0]


CHECKS = [check_calls, check_paths, check_large, check_single, check_tallies, check_callers]
