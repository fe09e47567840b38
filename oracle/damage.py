"""Records with faults: each field, each byte and each length of a good one, and several faults at once."""
from records import FORMS, KMER, MAX_K, MAX_U32, MIN_K, SEQUENCE, SGR1, SGR2, counts_of, edges_in, form_of, layout


def header_fields(form):
    """(place, size) of each field of the header."""
    sizes = [4, 1, 1, 2, form.word.size, form.word.size, 4, 4, 4, 4, 4]
    return [(sum(sizes[:i]), size) for i, size in enumerate(sizes)]


def with_number(record, at, size, value):
    return record[:at] + (value % 256**size).to_bytes(size, "little") + record[at + size :]


def with_whole_length(record):
    """The same bytes, stating their own length, if they are long enough to state one."""
    header = form_of(record).header.size
    return with_number(record, header - 4, 4, len(record)) if len(record) >= header else record


def limits_of(form):
    return [form.max_vertices, form.max_edges, form.max_bytes]


def field_values(form, value):
    """Near this value, past a limit, the last; in SGR2 also at limits, and such that four times as much wraps."""
    values = {0, 1, MIN_K - 1, MAX_K, MAX_K + 1, value - 1, value + 1, value + 65536, -1}
    values |= {limit + 1 for limit in limits_of(form)}
    if form == SGR2:
        values |= {value - 4, value + 4, *limits_of(SGR1), *limits_of(SGR2)}
        values |= {value + 2**30, value + 2**31, 2**30 - form.header.size // 4}
    return values


def damaged_fields(record):
    """Each header field: its neighbours, the ends of its range and the limits."""
    form = form_of(record)
    for at, size in header_fields(form):
        value = int.from_bytes(record[at : at + size], "little")
        for other in sorted({n % 256**size for n in field_values(form, value)} - {value}):
            yield with_number(record, at, size, other)


def damaged_bytes(record):
    for at, value in enumerate(record):
        for other in sorted({0, 1, 2, 255, value ^ 1, value ^ 128, (value + 1) % 256} - {value}):
            yield record[:at] + bytes([other]) + record[at + 1 :]


def damaged_lengths(record):
    for n in range(len(record)):
        yield record[:n]
        if n >= form_of(record).header.size:
            yield with_whole_length(record[:n])
    for more in (b"\0", b"A", record):
        yield record + more
        yield with_whole_length(record + more)


def damaged(record):
    yield from damaged_fields(record)
    yield from damaged_bytes(record)
    yield from damaged_lengths(record)


def with_flags(record):
    """Each of the record's edges with each flag that is taken and with some that are not."""
    form = form_of(record)
    _, edges_at, _, _ = layout(form, *counts_of(record))
    for edge in range(1, 1 + len(edges_in(record))):
        for flag in (0, 1, 2, 3, 4, 5, 6, 7, 8, 127, 128, 129, 130, 131, 254, 255):
            yield with_number(record, edges_at + form.edge.size * edge - 1, 1, flag)


class Draft:
    """A record field by field, so that it can be wrong in one of them and right in the others."""

    def __init__(self, form, kind, k, graph):
        self.form, self.mark, self.kind, self.status, self.k = form, form.mark, kind, 0, k
        self.lengths = [len(s) for s in graph[0]]
        self.edges = [list(e) for e in graph[1]]
        self.data = b"".join(graph[0])
        self.settle()

    def settle(self):
        """Counts, offsets and whole length as the contents have them."""
        self.counts = [len(self.lengths), len(self.edges), len(self.data)]
        *self.offsets, self.whole = layout(self.form, *self.counts)

    def record(self):
        v, e, b = self.counts
        head = self.form.header.pack(self.mark, self.kind, self.status, self.k, v, e, b, *self.offsets, self.whole)
        lengths = b"".join(self.form.word.pack(n) for n in self.lengths)
        return head + lengths + b"".join(self.form.edge.pack(*e) for e in self.edges) + self.data


# Records that are taken for another form, or that only look right.


def marks_near(form):
    """The other form's mark, and marks of which one letter is another."""
    near = {other.mark for other in FORMS}
    for at in range(4):
        for letter in (form.mark[at] - 1, form.mark[at] + 1, form.mark[at] ^ 32, 0):
            near.add(form.mark[:at] + bytes([letter]) + form.mark[at + 1 :])
    return sorted(near - {form.mark})


def with_other_mark(record):
    """The same bytes behind other marks, as they are and stating their length where the mark's form has it."""
    for mark in marks_near(form_of(record)):
        yield mark + record[4:]
        yield with_whole_length(mark + record[4:])


def cut_headers(record):
    """A header cut in each place; where SGR1 would have the whole length, it is the length."""
    for n in range(SGR2.header.size + 1):
        cut = record[:n]
        yield cut
        if n >= SGR1.header.size:
            yield with_number(cut, SGR1.header.size - 4, 4, n)


def other_offsets(draft):
    """Offsets by the sizes of either form and behind the header of either: one of the four is right."""
    for sizes in FORMS:
        at, edges_at, bytes_at, _ = layout(sizes, *draft.counts)
        for start in (SGR1.header.size, SGR2.header.size):
            draft.offsets = [n - at + start for n in (at, edges_at, bytes_at)]
            yield draft.record()


def wrapping_counts(form):
    """K-mer records shorter than their counts ask for, unless sums wrap: the count of bytes makes up for the rest."""
    most = form.max_vertices, form.max_edges
    for v, e in ((1, 0), (9, 0), (0, 1), (0, 4), (7, 5), (most[0], 0), (0, most[1]), most):
        lengths_at, edges_at, bytes_at, _ = layout(form, v, e, 0)
        for length in (lengths_at, lengths_at + 1, lengths_at + 4):
            if length < bytes_at:
                head = [v, e, 2**32 + length - bytes_at, lengths_at, edges_at, bytes_at, length]
                yield form.header.pack(form.mark, KMER, 0, 2, *head).ljust(length, b"\2")


def wrapping_lengths(draft):
    """Lengths whose sum is the count of bytes only if it wraps at the size of a length."""
    n, turn = len(draft.data), 256**draft.form.word.size
    for lengths in ([turn - 1, n + 1], [n + 1, turn - 1], [turn // 2, turn // 2 + n], [turn // 2 + n, 0, turn // 2]):
        draft.lengths = lengths
        draft.settle()
        yield draft.record()


def form_faults(draft):
    """All of these faults of one draft's record."""
    good = draft.record()
    yield from with_other_mark(good)
    yield from cut_headers(good)
    yield from other_offsets(draft)
    yield from wrapping_counts(draft.form)
    yield from wrapping_lengths(draft)


# Faults in the contents; counts and offsets follow them.


def wide(d, *values):
    """These values are drawn in SGR2 alone, whose fields have four bytes."""
    return values if d.form == SGR2 else ()


def double_edge(rng, d):
    if d.edges and d.counts[1] < d.form.max_edges:
        a, b, _, _ = rng.choice(d.edges)
        d.edges.insert(rng.randint(0, len(d.edges)), [a, b, rng.randrange(9), rng.randint(0, 1)])


def self_edge(rng, d):
    if d.lengths:
        v = rng.randrange(len(d.lengths))
        d.edges.insert(rng.randint(0, len(d.edges)), [v, v, 1, 0])


def back_edge(rng, d):
    if d.edges:
        a, b, _, _ = rng.choice(d.edges)
        d.edges.append([b, a, 1, 0])


def edge_end(rng, d):
    if d.edges:
        v = len(d.lengths)
        rng.choice(d.edges)[rng.randint(0, 1)] = rng.choice([v, v + 1, 65535, *wide(d, v + 65535, MAX_U32)])


def edge_flag(rng, d):
    if d.edges:
        rng.choice(d.edges)[3] = rng.choice([4, 5, 128, 255])


def equal_vertices(rng, d):
    """The last vertex gets the first one's bytes: a fault among k-mers only."""
    n = d.lengths[-1] if d.lengths else 0
    if len(d.lengths) > 1 and d.lengths[0] == n:
        d.data = d.data[: len(d.data) - n] + d.data[:n]


def one_length(rng, d):
    """A length of another size; the byte count follows or not."""
    if d.lengths:
        d.lengths[rng.randrange(len(d.lengths))] += 1
        d.data += b"A" * rng.randint(0, 1)


CONTENT_FAULTS = [double_edge, self_edge, back_edge, edge_end, edge_flag, equal_vertices, one_length]


# Faults in the fields of the header.


def mark(rng, d):
    at = rng.randrange(4)
    d.mark = d.mark[:at] + bytes([d.mark[at] ^ rng.choice([1, 32, 128, *wide(d, 3)])]) + d.mark[at + 1 :]


def kind(rng, d):
    d.kind = rng.choice([KMER, SEQUENCE, 2, 255])


def status(rng, d):
    d.status = rng.choice([1, 2, 3, 255])


def k(rng, d):
    d.k = rng.choice([0, MIN_K - 1, MAX_K + 1, 256, 65535])


def count(rng, d):
    at = rng.randrange(3)
    n, limit = d.counts[at], limits_of(d.form)[at]
    d.counts[at] = rng.choice([n + 1, max(0, n - 1), limit, limit + 1, 65535, *wide(d, n + 2**30, n + 2**31, MAX_U32)])


def offset(rng, d):
    at = rng.randrange(3)
    d.offsets[at] = (d.offsets[at] + rng.choice([1, -1, 2**31, 9, *wide(d, 4, -4, 65536)])) % 2**32


def whole(rng, d):
    d.whole = (d.whole + rng.choice([1, -1, 2**31, *wide(d, 4, -4)])) % 2**32


FIELD_FAULTS = [mark, kind, status, k, count, offset, whole]


def with_faults(rng, draft, chosen):
    """The record with these faults: those of the contents first, in their order."""
    for fault in chosen:
        if fault not in FIELD_FAULTS:
            fault(rng, draft)
    draft.settle()
    for fault in chosen:
        if fault in FIELD_FAULTS:
            fault(rng, draft)
    return draft.record()


def random_faults(rng, draft):
    """One to three faults, of which the first in the order of the numbers counts."""
    chosen = rng.sample(CONTENT_FAULTS + FIELD_FAULTS, rng.choice([1, 1, 2, 3]))
    record = with_faults(rng, draft, chosen)
    return with_whole_length(record + b"A") if rng.random() < 0.05 else record


# Faults of overlap, in drafts of k-mers; each vertex still has k bytes.


def kmer(d, v):
    return d.data[d.k * v : d.k * (v + 1)]


def change_byte(rng, d, v, at):
    """Puts another byte in this place of the vertex's k-mer."""
    place = d.k * v + at
    d.data = d.data[:place] + bytes([d.data[place] ^ rng.choice([1, 2, 128])]) + d.data[place + 1 :]


def add_edge(rng, d, overlapping):
    """A new edge between two k-mers that overlap, or between two that do not."""
    vertices = range(len(d.lengths))
    pairs = {(a, b) for a in vertices for b in vertices if (kmer(d, a)[1:] == kmer(d, b)[:-1]) == overlapping}
    pairs -= {(a, b) for a, b, _, _ in d.edges}
    if pairs:
        d.edges.insert(rng.randint(0, len(d.edges)), [*rng.choice(sorted(pairs)), 1, 0])


def edge_without_overlap(rng, d):
    add_edge(rng, d, False)


def edge_with_overlap(rng, d):
    """No fault of overlap; it may close a cycle."""
    add_edge(rng, d, True)


def broken_overlap(rng, d):
    """Of what an edge's two k-mers share, the first byte, the last or any is changed in one of them."""
    if d.edges:
        a, b, _, _ = rng.choice(d.edges)
        at = rng.choice([0, d.k - 2, rng.randrange(d.k - 1)])
        change_byte(rng, d, *rng.choice([(a, at + 1), (b, at)]))


def beside_overlap(rng, d):
    """No fault: of a k-mer that nothing leads to the first byte, of one that leads nowhere the last: no overlap has them."""
    starts, ends = {x[0] for x in d.edges}, {x[1] for x in d.edges}
    free = [(v, 0) for v in sorted(starts - ends)] + [(v, d.k - 1) for v in sorted(ends - starts)]
    if free:
        change_byte(rng, d, *rng.choice(free))


def swapped_ends(rng, d):
    if d.edges:
        x = rng.choice(d.edges)
        x[0], x[1] = x[1], x[0]


OVERLAP_FAULTS = [
    edge_without_overlap, broken_overlap, broken_overlap, swapped_ends, edge_with_overlap, beside_overlap,
]
# Of the numbers asked right before 15 and right behind it, 6 and 7.
NEAR_OVERLAP = [double_edge, equal_vertices, self_edge, back_edge]


def overlap_faults(rng, draft):
    """One fault of overlap, alone or with one or two that are asked before it or behind it."""
    near = rng.sample(NEAR_OVERLAP, rng.choice([0, 0, 1, 2]))
    return with_faults(rng, draft, [rng.choice(OVERLAP_FAULTS), *near])
