"""Cases: a call's whole input with the model's whole answer, and the inputs to make them from.

The layout of a case is set out in tools/make_vectors.py.
"""
import struct
from collections import namedtuple

import graphs
from model import (
    CALLERS, NO_COUNTS, Tally, answer, encode_graph, finish, from_assembly_graph, outcome_of, vertex_sequence,
)
from records import (
    CALLS, FROM_ASSEMBLY_GRAPH, MAX_U32, PATH_BASES_BYTES, SEQUENCE, VERTEX_SEQUENCE, Refused, encode, edges_in, form_of,
    read_record, sequences_in,
)

LABEL = 7
# Who judges the cases behind a label: the model and the Rust, or the model alone.
MODEL_AND_RUST, MODEL_ALONE = 0, 1
NO_OVERLAP = 15
SEQUENCE_CALLS = [c for c in CALLS if c not in (VERTEX_SEQUENCE, FROM_ASSEMBLY_GRAPH)]
# Callers above 15: the next ones; some whose low bits are a caller's; ends of ranges; some at which twelve bytes for
# each caller come round to the table in 32 bits.
STRANGERS = [
    16, 17, 31, 32, 255, 256, 263, 65536, 65551, 2**28, 2**30, 2**30 + 7, 2**31 - 1, 2**31, 2**31 + 15, MAX_U32 - 15,
    MAX_U32 - 1, MAX_U32,
]

# The tally is the caller's before the call, no counts where there is none; answer has the one after it.
Case = namedtuple("Case", "call start room caller tally record numbers answer")


def frame(case):
    a = case.answer
    head = (case.call, case.start, case.room, case.caller, *case.tally, a.number, a.length, *a.fields, *a.tally,
            len(case.record), len(case.numbers), len(a.output))
    body = struct.pack("<18I", *head) + case.record
    body += struct.pack("<%dI" % len(case.numbers), *case.numbers) + a.output
    return struct.pack("<I", len(body)) + body


def label_frame(text, judges):
    body = struct.pack("<2I", LABEL, judges) + text.encode()
    return struct.pack("<I", len(body)) + body


# Callers, rooms and tallies


def by_caller(case, caller):
    """The same call by another caller. One above 15 has no tally."""
    if caller < CALLERS:
        return case._replace(caller=caller)
    told = answer(case.call, case.record, case.start, case.numbers, case.room, caller, NO_COUNTS)
    return case._replace(caller=caller, tally=NO_COUNTS, answer=told)


def by_callers(rng, case):
    """A tallied call by one of the sixteen callers, and now and then also by one above 15."""
    if case.call == VERTEX_SEQUENCE:
        yield case
        return
    yield by_caller(case, rng.randrange(CALLERS))
    if rng.random() < 0.2:
        yield by_caller(case, rng.choice(STRANGERS + [rng.randrange(CALLERS, MAX_U32)]))


def random_tally(rng):
    if rng.random() < 0.7:
        return Tally(*(rng.randrange(1000) for _ in range(3)))
    return Tally(*(rng.choice([0, MAX_U32, MAX_U32 - 1, MAX_U32 - 7]) for _ in range(3)))


def rooms_for(rng, outcome, all_rooms):
    """Of an accepted outcome: as long as the result, one shorter, longer, none; of a refused one any."""
    if isinstance(outcome, int):
        return [rng.choice([0, 1, 64, 1000])]
    exact = len(outcome[0])
    rooms = [exact, exact + rng.randint(1, 40)] + ([exact - 1, 0] if exact else [])
    return rooms if all_rooms else [exact] if rng.random() < 0.7 else [rng.choice(rooms)]


def converted_unasked(record):
    """The outcome of conversion if it did not ask whether the k-mers overlap."""
    try:
        graph = from_assembly_graph(read_record(VERTEX_SEQUENCE, record))
    except Refused as refused:
        return refused.number
    return encode_graph(form_of(record), graph, 0), (0, 0, 0), 0


def cases_of(rng, call, record, start=0, numbers=(), all_rooms=False):
    """The cases of one input: one, or one for each room. The caller is 0."""
    if call == VERTEX_SEQUENCE:
        return [Case(call, start, 0, 0, NO_COUNTS, record, (), vertex_sequence(record, start))]
    outcome = outcome_of(call, record, start, numbers)
    # Refused with 15, it gets the rooms of what it would give else: a call that writes first, or says 11, is seen there.
    measured = converted_unasked(record) if outcome == NO_OVERLAP else outcome
    found = []
    for room in rooms_for(rng, measured, all_rooms):
        tally = random_tally(rng)
        found.append(Case(call, start, room, 0, tally, record, tuple(numbers), finish(outcome, room, tally)))
    return found


# Inputs of a graph's record


def sequence_record(rng, form, graph):
    return encode(form, SEQUENCE, rng.randrange(3), rng.choice([2, 10, 25, 128]), *graph)


def walk_from(rng, graph, start, often):
    """The list of a path from this vertex, which goes on so often."""
    followers = {}
    for a, b, _, _ in graph[1]:
        followers.setdefault(a, []).append(b)
    numbers, v = [], start
    while v in followers and rng.random() < often:
        w = rng.choice(followers[v])
        numbers += [v, w]
        v = w
    return numbers


def random_walk(rng, graph):
    """A start and the list of a path from it."""
    start = rng.randrange(len(graph[0])) if graph[0] else 0
    return start, walk_from(rng, graph, start, 0.85)


def whole_walk(rng, record):
    """Start and list of a path through the record's graph, from one end to another."""
    graph = sequences_in(record), edges_in(record)
    inner = {x[1] for x in graph[1]}
    start = rng.choice([x[0] for x in graph[1] if x[0] not in inner])
    return start, walk_from(rng, graph, start, 1)


def spoiled_walk(rng, graph):
    """A start and list near a path's; mostly no path."""
    start, numbers = random_walk(rng, graph)
    how = rng.randrange(6)
    if how == 0:
        start = rng.choice([len(graph[0]), MAX_U32, start + 65536])
    elif how == 1:
        numbers.append(rng.randrange(4))
    elif how == 2:
        numbers += [rng.randrange(max(1, len(graph[0]))) for _ in range(2)]
    elif numbers:
        at = rng.randrange(len(numbers))
        if how == 3:
            del numbers[at]
        else:
            numbers[at] = (numbers[at] + rng.choice([1, 2, 65536, MAX_U32])) & MAX_U32
    return start, numbers


def vertex_for(rng, graph):
    last = len(graph[0])
    return rng.choice([rng.randrange(last) if last else 0, last, max(0, last - 1), MAX_U32, last + 65536])


def cases_of_graph(rng, form, graph, calls=CALLS, all_rooms=False):
    """Every call that takes a sequence graph, with arguments that fit and that do not."""
    record = sequence_record(rng, form, graph)
    for call in calls:
        if call == VERTEX_SEQUENCE:
            yield from cases_of(rng, call, record, vertex_for(rng, graph))
        elif call == PATH_BASES_BYTES:
            yield from cases_of(rng, call, record, *random_walk(rng, graph), all_rooms)
            yield from cases_of(rng, call, record, *spoiled_walk(rng, graph))
        elif call != FROM_ASSEMBLY_GRAPH:
            yield from cases_of(rng, call, record, all_rooms=all_rooms)


def cases_of_kmers(rng, form, k, graph, all_rooms=False):
    """Conversion and the sequence call; the other calls on what conversion makes, or would make if it did not ask 15."""
    record = graphs.kmer_record(form, k, graph)
    yield from cases_of(rng, VERTEX_SEQUENCE, record, vertex_for(rng, graph))
    yield from cases_of(rng, FROM_ASSEMBLY_GRAPH, record, all_rooms=all_rooms)
    outcome = converted_unasked(record)
    if not isinstance(outcome, int):
        for call in SEQUENCE_CALLS:
            yield from cases_of(rng, call, outcome[0], all_rooms=all_rooms)
