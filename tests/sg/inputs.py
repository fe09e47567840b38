"""Records to test with: stored ones, drawn ones, and damaged ones."""
import glob
import os

from harness import ROOT, contents

import damage
import examples
import graphs
from records import FORMS, KMER, SEQUENCE, encode


def stored_records():
    found = glob.glob(os.path.join(ROOT, "tests", "**", "*.in"), recursive=True)
    return [contents(path) for path in sorted(found + glob.glob(os.path.join(ROOT, "crates", "*", "stdin")))]


def random_record(rng):
    """Of any numbers: most are not sound."""
    top = rng.choice([4, 255])
    sequences = [bytes(rng.choices(range(256), k=rng.choice([0, 1, 2, 40]))) for _ in range(rng.randrange(12))]
    ends = rng.choice([len(sequences) + 1, 65536])
    edges = [
        (rng.randrange(ends), rng.randrange(ends), rng.choice([0, 1, rng.randrange(2**32), 2**32 - 1]), rng.randrange(top))
        for _ in range(rng.randrange(12))
    ]
    return encode(rng.choice(FORMS), rng.randrange(top), rng.randrange(top), rng.randrange(65536), sequences, edges)


def sequence_records(rng, count):
    for _ in range(count):
        graph = graphs.random_graph(rng, rng.randint(0, 24))
        yield encode(rng.choice(FORMS), SEQUENCE, rng.randrange(3), rng.randint(2, 128), *graph)


def kmer_records(rng, count):
    for _ in range(count):
        k = rng.randint(2, 12)
        graph = graphs.kmer_graph(rng, k, rng.randint(k + 4, 50), rng.randint(1, 3))
        yield encode(rng.choice(FORMS), KMER, 0, k, *graph)


def overlapping_records():
    """K-mers that follow one another, or do not."""
    for form in FORMS:
        yield from (encode(form, KMER, 0, k, *graph) for _, k, graph in examples.KMER_OVERLAP)


def damaged_records(rng, count):
    for form in FORMS:
        draft = damage.Draft(form, SEQUENCE, 10, examples.NINE[0])
        yield from damage.damaged(draft.record())
        yield from damage.form_faults(draft)
    for _ in range(count):
        data = bytearray(random_record(rng))
        for _ in range(rng.randint(1, 4)):
            data[rng.randrange(len(data))] = rng.randrange(256)
        yield bytes(data[: rng.choice([len(data), rng.randrange(len(data))])])


def all_records(rng):
    drawn = [random_record(rng) for _ in range(400)]
    drawn += [*sequence_records(rng, 400), *kmer_records(rng, 400), *damaged_records(rng, 400)]
    return [*stored_records(), *overlapping_records(), *drawn]
