#!/usr/bin/env python3
"""Writes the stored list of cases, one file for each call.

    tools/make_vectors.py FOLDER

The list is the same on every run. Each graph and string in it was made by the Rust (oracle/), and the model's
(oracle/model.py) was equal to it; numbers, counts of rewrites and tallies are the model's. Whether k-mers overlap and
whether they have a cycle the Rust's own check has said as well.

A file is a row of cases, those of SGR1 records first and those of SGR2 records behind them. All numbers have four bytes
and are little-endian. A case has at most 65,536 bytes, eighteen numbers behind the first:

    the length of the rest of the case
    call          0 vertex_sequence, 1 from_assembly_graph, 2 simplify_graph, 3 cleanup_seq_graph,
                  4 clean_non_ref_paths, 5 reference_path_bytes, 6 path_bases_bytes
    start         the start of call 6, the vertex of call 0; the other calls have none
    room          length of the lent output, at most 65,536; 0 in call 0
    caller        0 in call 0
    answered, refused, rewrites      the caller's tally before the call; 0 for a caller above 15, and in call 0
    number, length                   the answer
    field 1, field 2, field 3        rewrites, rounds, end of call 2; status, 0, 0 of call 3;
                                     offset in the record, 0, 0 of call 0; else 0
    answered, refused, rewrites      the caller's tally after the call; 0 for a caller above 15, and in call 0
    record length, count of list numbers, output length
    the record's bytes
    the list's numbers (call 6)
    the output's bytes: what the first `length` bytes of the lent output hold then; in call 0 the part of
                  the record that is handed back

Before the call every byte of the lent output is 0xA5, and those behind `length` are so afterwards: all of
them when the call is refused. The tallies of the other callers i, 0 to 15, hold 3i + 1 answered, 3i + 2 refused and
3i + 3 rewrites before the call and after it: all sixteen where the caller is above 15.
"""
import itertools
import os
import random
import sys

ROOT = os.path.dirname(os.path.dirname(os.path.abspath(__file__)))
sys.path.insert(0, os.path.join(ROOT, "oracle"))
sys.dont_write_bytecode = True

import cases  # noqa: E402
import damage  # noqa: E402
import examples  # noqa: E402
import graphs  # noqa: E402
import limits  # noqa: E402
import model  # noqa: E402
import records  # noqa: E402
from records import FORMS, SGR1, SGR2  # noqa: E402
from rust import Rust  # noqa: E402

MAX_CASE = 65536
NAMES = [
    "vertex_sequence", "from_assembly_graph", "simplify_graph", "cleanup_seq_graph", "clean_non_ref_paths",
    "reference_path_bytes", "path_bases_bytes",
]
KS = [2, 3, 5, 8, 11, 25]
RECORD_NUMBERS = set(range(8))
TALLIED_NUMBERS = RECORD_NUMBERS | {11, model.UNKNOWN_CALLER}
NUMBERS = [
    RECORD_NUMBERS | {9}, TALLIED_NUMBERS | {8, 15}, TALLIED_NUMBERS, TALLIED_NUMBERS,
    TALLIED_NUMBERS, TALLIED_NUMBERS | {10}, TALLIED_NUMBERS | {9},
]
# Callers whose tallies come to their ends: the first, one between, the last.
FULL_CALLERS = (0, 7, 15)
ENDS = (records.MAX_U32 - 1, records.MAX_U32)
# Of each number so many cases are made again by callers above 15.
STRANGE_CASES = 9


def random_graphs(rng):
    yield from graphs.small_shapes(rng, 3)
    yield from rng.sample(list(graphs.small_shapes(rng, 4)), 32)
    for _ in range(90):
        yield graphs.random_graph(rng, rng.randint(1, 24))
    for _ in range(25):
        yield graphs.chain(rng, rng.randint(1, 12))
        yield graphs.stacked_diamonds(rng, rng.randint(1, 4))
        yield graphs.nested_diamonds(rng, rng.randint(1, 4))
        yield graphs.tails(rng, rng.randint(1, 4))
        yield graphs.shared_suffixes(rng, rng.randint(1, 5))
    for rungs in (2, 3, 7, 12):
        yield graphs.ladder(rng, rungs)


def random_kmers(rng):
    for _ in range(60):
        k = rng.choice(KS)
        yield k, graphs.scattered_kmers(rng, k, rng.randint(0, 16))
    for _ in range(60):
        k = rng.choice(KS[3:])
        yield k, graphs.kmer_graph(rng, k, rng.randint(k + 4, 50), rng.randint(1, 3))


def cases_of_kmers(rng, form, call, k, graph, all_rooms):
    """The cases of this call on a k-mer graph, or on the sequence graph that stands for it."""
    found = cases.cases_of_kmers(rng, form, k, graph, all_rooms)
    return [c for c in found if c.call == call]


def by_hand(rng, form, call):
    for graph in examples.SEQUENCE_GRAPHS:
        yield from cases.cases_of_graph(rng, form, graph, [call], all_rooms=True)
    for k, graph in examples.KMER_GRAPHS:
        yield from cases_of_kmers(rng, form, call, k, graph, True)
    if call == records.VERTEX_SEQUENCE:
        for graph in examples.NINE:
            record = cases.sequence_record(rng, form, graph)
            for v in range(len(graph[0]) + 1):
                yield from cases.cases_of(rng, call, record, v)
    if call == records.SIMPLIFY_GRAPH:
        for rungs in (110, 130):
            yield from cases.cases_of_graph(rng, form, graphs.ladder(rng, rungs), [call])


def by_chance(rng, form, call):
    for graph in random_graphs(rng):
        yield from cases.cases_of_graph(rng, form, graph, [call])
    for k, graph in random_kmers(rng):
        yield from cases_of_kmers(rng, form, call, k, graph, False)


def faulty(rng, form, call):
    kind = records.KMER if call == records.FROM_ASSEMBLY_GRAPH else records.SEQUENCE
    k, graph = 3, ([b"ACG", b"CGT", b"CGA"], [(0, 1, 5, 1), (0, 2, 2, 0)])
    good = records.encode(form, kind, 0, k, *graph)
    some = rng.sample(list(damage.damaged_bytes(good)), 120) + rng.sample(list(damage.damaged_lengths(good)), 40)
    for record in [*damage.damaged_fields(good), *some]:
        yield from cases.cases_of(rng, call, record)
    for _ in range(300):
        kind = rng.randint(0, 1) if call == records.VERTEX_SEQUENCE else kind
        record = damage.random_faults(rng, draft(rng, form, kind))
        yield from cases.cases_of(rng, call, record, rng.randint(0, 2))


def draft(rng, form, kind):
    """Of k-mers mostly one whose edges overlap, so that the faults behind 15 count too."""
    if kind == records.KMER:
        k = rng.choice(KS[:4])
        make = graphs.overlapping_kmers if rng.random() < 0.8 else graphs.scattered_kmers
        return damage.Draft(form, kind, k, make(rng, k, rng.randint(1, 6)))
    return damage.Draft(form, kind, rng.choice(KS), graphs.random_graph(rng, rng.randint(1, 6)))


def is_stored_limit(form, name, call):
    """Of the graphs with very many edges one that the call makes a short answer of; of SGR2 what is past a limit."""
    rewrites, past = call in (records.SIMPLIFY_GRAPH, records.CLEANUP_SEQ_GRAPH), name.endswith("past")
    if form == SGR2 and name.endswith("at"):
        return False
    if name.startswith("edges in a diamond"):
        return rewrites and (form == SGR2 or not past or call == records.SIMPLIFY_GRAPH)
    if name.startswith("edges before the reference"):
        return not rewrites and (form == SGR2 or not past)
    return True


def first_that_fits(found):
    """The first case short enough to be stored: with too little room if the answer is long."""
    return [c for c in found if len(cases.frame(c)) <= MAX_CASE][:1]


def at_limits(rng, form, call):
    """At SGR1's limits and one past them, which SGR2 takes too."""
    for name, graph in limits.at_limits(SGR1):
        if is_stored_limit(form, name, call):
            yield from first_that_fits(cases.cases_of_graph(rng, form, graph, [call], all_rooms=True))
    if call in (records.VERTEX_SEQUENCE, records.FROM_ASSEMBLY_GRAPH):
        for name, k, graph in limits.kmers_at_limits(SGR1):
            if is_stored_limit(form, name, call):
                record = graphs.kmer_record(form, k, graph)
                yield from first_that_fits(cases.cases_of(rng, call, record, all_rooms=True))


def settling(rng, form, call):
    if call in (records.SIMPLIFY_GRAPH, records.CLEANUP_SEQ_GRAPH):
        for graph in examples.SETTLING:
            yield from cases.cases_of_graph(rng, form, graph, [call])


def capped(rng, form, call):
    for graph in examples.CAPPED:
        yield from cases.cases_of_graph(rng, form, graph, [call])
    for k, graph in examples.KMER_CAPPED:
        yield from cases_of_kmers(rng, form, call, k, graph, False)
    for make in (graphs.random_graph, graphs.stacked_diamonds, graphs.tails, graphs.shared_suffixes):
        for _ in range(15):
            yield from cases.cases_of_graph(rng, form, graphs.with_marks(rng, make(rng, rng.randint(2, 6))), [call])
    for _ in range(15):
        k = rng.choice(KS[3:])
        graph = graphs.with_marks(rng, graphs.kmer_graph(rng, k, rng.randint(k + 4, 50), rng.randint(1, 3)))
        yield from cases_of_kmers(rng, form, call, k, graph, False)


def flags(rng, form, call):
    kind = records.KMER if call == records.FROM_ASSEMBLY_GRAPH else records.SEQUENCE
    k, graph = examples.KMER_GRAPHS[2]
    for record in damage.with_flags(records.encode(form, kind, 0, k, *graph)):
        yield from cases.cases_of(rng, call, record)


def overlap_by_hand(rng, form, call):
    for number, k, graph in examples.KMER_OVERLAP:
        found = cases_of_kmers(rng, form, call, k, graph, True)
        due = 0 if number == 8 and form == SGR2 else number
        assert call == records.VERTEX_SEQUENCE or found[0].answer.number == due, (number, k, graph)
        yield from found
    if call == records.FROM_ASSEMBLY_GRAPH:
        for k in (8, 33, 64):
            record = graphs.kmer_record(form, k, limits.kmers_of_bytes(SGR1.max_bytes + 1, k))
            yield from cases.cases_of(rng, call, record)


def overlapping_draft(rng, form):
    k = rng.choice(KS[:4])
    return damage.Draft(form, records.KMER, k, graphs.overlapping_kmers(rng, k, rng.randint(2, 8), 0.2))


def overlap_by_chance(rng, form, call):
    count = 120 if call == records.FROM_ASSEMBLY_GRAPH else 30
    for _ in range(count):
        k = rng.choice(KS)
        yield from cases_of_kmers(rng, form, call, k, graphs.overlapping_kmers(rng, k, rng.randint(0, 24), 0.2), False)
    for _ in range(count):
        for faults in (damage.random_faults, damage.overlap_faults):
            yield from cases.cases_of(rng, call, faults(rng, overlapping_draft(rng, form)), rng.randint(0, 2))


def overlap(rng, form, call):
    """k-mers that overlap, and some that do not, for the two calls that take k-mers."""
    if call not in cases.SEQUENCE_CALLS:
        yield from overlap_by_hand(rng, form, call)
        yield from overlap_by_chance(rng, form, call)


def other_forms(rng, call):
    """Of SGR2 every field, what is taken for the other form, and what is right only if a sum wraps."""
    kind = records.KMER if call == records.FROM_ASSEMBLY_GRAPH else records.SEQUENCE
    k, graph = examples.KMER_GRAPHS[2]
    draft = damage.Draft(SGR2, kind, k, graph)
    for record in [*damage.damaged_fields(draft.record()), *damage.form_faults(draft)]:
        yield from cases.cases_of(rng, call, record)


def region(rng, call):
    """Some 2,300 vertices: those of a region past SGR1's limits, converted, with a path through it."""
    if call in cases.SEQUENCE_CALLS:
        kmers = graphs.kmer_record(SGR2, 25, graphs.kmer_graph(rng, 25, 2000, 12))
        record = cases.converted_unasked(kmers)[0]
        arguments = cases.whole_walk(rng, record) if call == records.PATH_BASES_BYTES else ()
        yield from first_that_fits(cases.cases_of(rng, call, record, *arguments, all_rooms=True))


def many_bytes(rng, call):
    """More bytes than the calls that rewrite have in the arrays for records of SGR1's size."""
    if call in (records.SIMPLIFY_GRAPH, records.CLEANUP_SEQ_GRAPH):
        yield from first_that_fits(cases.cases_of_graph(rng, SGR2, limits.many_bytes(10300), [call], all_rooms=True))


def drafts(form, call):
    """The inputs, in an order that the callers have no part in; the caller is 0. Of SGR2 each third of most parts."""
    if form == SGR1:
        rng = random.Random("stored list, call %d" % call)
        for part in (by_hand, by_chance, faulty, at_limits, settling, capped, flags, overlap):
            yield from part(rng, form, call)
    else:
        rng = random.Random("stored list, SGR2, call %d" % call)
        for part in (by_hand, by_chance, faulty, capped, overlap):
            yield from list(part(rng, form, call))[::3]
        for part in (at_limits, settling, flags):
            yield from part(rng, form, call)
        for part in (other_forms, region, many_bytes):
            yield from part(rng, call)


def full_input(form, call):
    """Record and list of an input that is answered, by simplification and cleanup with several rewrites."""
    if call == records.FROM_ASSEMBLY_GRAPH:
        return graphs.kmer_record(form, *examples.KMER_GRAPHS[2]), ()
    numbers = (0, 1, 1, 3) if call == records.PATH_BASES_BYTES else ()
    return records.encode(form, records.SEQUENCE, 0, 10, *examples.NINE[0]), numbers


def full_tallies(form, call):
    """Every count at its end and one before it: an answer, one that the output is too short for, a record cut short."""
    record, numbers = full_input(form, call)
    exact = len(model.outcome_of(call, record, 0, numbers)[0])
    for caller, count in itertools.product(FULL_CALLERS, ENDS):
        tally = model.Tally(count, count, count)
        for data, room in ((record, exact), (record, exact - 1), (record[:-1], exact)):
            answer = model.answer(call, data, 0, numbers, room, caller, tally)
            yield cases.Case(call, 0, room, caller, tally, data, numbers, answer)


def number_in(form, case):
    """The case's number; where its record has the mark of another form, 2."""
    return case.answer.number if records.form_of(case.record) == form else 2


def by_strangers(rng, form, call, found):
    """Of each number that the call gives some cases again, by callers above 15; of long ones only two."""
    strangers = itertools.cycle(cases.STRANGERS)
    for number in sorted(numbers_of(form, call)):
        of_number = [c for c in found if number_in(form, c) == number]
        some = [c for c in of_number if len(c.record) < 1000] or of_number[:2]
        for case in rng.sample(some, min(STRANGE_CASES, len(some))):
            yield cases.by_caller(case, next(strangers))


def stored(form, call):
    if call == records.VERTEX_SEQUENCE:
        return list(drafts(form, call))
    name = "" if form == SGR1 else "SGR2, "
    callers = random.Random("callers of the stored list, %scall %d" % (name, call))
    found = [cases.by_caller(c, callers.randrange(model.CALLERS)) for c in drafts(form, call)]
    found += full_tallies(form, call)
    return found + list(by_strangers(callers, form, call, found))


def numbers_of(form, call):
    """An SGR2 record that 8 refuses has more bytes than a case."""
    return NUMBERS[call] - ({8} if form == SGR2 else set())


def check_numbers(form, call, found):
    missing = numbers_of(form, call) ^ {c.answer.number for c in found}
    assert not missing, "call %d: these numbers are missing or impossible: %s" % (call, missing)


def check_callers(call, found):
    """Every caller, and every one of those above 15, has a case; call 0 has none."""
    expected = [0] if call == records.VERTEX_SEQUENCE else [*range(model.CALLERS), *cases.STRANGERS]
    assert sorted({c.caller for c in found}) == expected, call


def raised(case):
    """By how much the call raises each count."""
    if case.answer.number:
        return model.Tally(0, 1, 0)
    return model.Tally(1, 0, model.outcome_of(case.call, case.record, case.start, case.numbers)[2])


def check_tallies(call, found):
    """Each count that the call raises stops at its end, and comes to it, in tallies of each of FULL_CALLERS."""
    rewrites = call in (records.SIMPLIFY_GRAPH, records.CLEANUP_SEQ_GRAPH)
    counts = model.Tally._fields if rewrites else ("answered", "refused")
    expected = set() if call == records.VERTEX_SEQUENCE else set(itertools.product(FULL_CALLERS, counts, ENDS))
    seen = set()
    for c in found:
        if c.caller in FULL_CALLERS and set(ENDS) & set(c.tally):
            for name, before, more in zip(model.Tally._fields, c.tally, raised(c)):
                seen |= {(c.caller, name, before)} if more and before in ENDS else set()
    assert seen == expected, (call, expected ^ seen)


def check_kinds(found):
    """Every rewrite, end and status is in the list."""
    kinds = [0] * 5
    for c in found:
        if c.call == records.SIMPLIFY_GRAPH and c.answer.number == 0:
            record = records.read_record(c.call, c.record)
            done, _, _ = model.simplify(model.Graph(record.k, records.sequences_in(c.record), record.edges))
            kinds = [a + b for a, b in zip(kinds, done)]
    assert all(kinds), kinds
    ends = {c.answer.fields[2] for c in found if c.call == records.SIMPLIFY_GRAPH}
    assert {model.QUIET, model.REPEATED, model.FULL} <= ends, ends
    statuses = {c.answer.fields[0] for c in found if c.call == records.CLEANUP_SEQ_GRAPH}
    assert {1, 2} <= statuses, statuses
    print("rewrites by kind (zip, diamond, tails, split, merge): %s" % kinds)


def write(folder, call, found):
    data = b"".join(cases.frame(c) for c in found)
    with open(os.path.join(folder, NAMES[call] + ".bin"), "wb") as file:
        file.write(data)
    refused = sum(c.answer.number != 0 for c in found)
    print("%-22s %5d cases, %5d refused, %7d bytes" % (NAMES[call], len(found), refused, len(data)))
    return len(data)


def checked(rust, form, call):
    """The stored cases of records of this form."""
    found = stored(form, call)
    for case in found:
        assert len(cases.frame(case)) <= MAX_CASE and case.room <= MAX_CASE
        rust.check(case)
    check_numbers(form, call, found)
    check_callers(call, found)
    check_tallies(call, found)
    return found


def main():
    if len(sys.argv) != 2:
        sys.exit(__doc__)
    rust, total, everything = Rust(), 0, {form: [] for form in FORMS}
    os.makedirs(sys.argv[1], exist_ok=True)
    for call in records.CALLS:
        found = {form: checked(rust, form, call) for form in FORMS}
        total += write(sys.argv[1], call, [c for form in FORMS for c in found[form]])
        for form in FORMS:
            everything[form] += found[form]
    for form in FORMS:
        check_kinds(everything[form])
    print("%d cases, %d bytes" % (sum(map(len, everything.values())), total))


if __name__ == "__main__":
    main()
