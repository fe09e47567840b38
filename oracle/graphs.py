"""Graphs to try the calls on: a graph is (sequences, edges), an edge (from, to, support, flag).

Every function takes a random.Random and gives the same graph for the same seed.
"""
import itertools

from records import KMER, MAX_U32, encode

SUPPORTS = [0, 1, 1, 2, 3, 5, 9, 1000]
HIGH_SUPPORTS = [MAX_U32, MAX_U32 - 1, 2**31, 2**31 - 1, 1, 0]


def word(rng, low, high, letters=b"ACGT"):
    return bytes(rng.choice(letters) for _ in range(rng.randint(low, high)))


def support(rng, high=False):
    return rng.choice(HIGH_SUPPORTS if high else SUPPORTS)


def renumbered(rng, sequences, edges, shuffle_edges=True):
    """The same graph with its vertices, and its edges, in another order."""
    order = list(range(len(sequences)))
    rng.shuffle(order)
    place = {old: new for new, old in enumerate(order)}
    moved = [(place[a], place[b], s, r) for a, b, s, r in edges]
    if shuffle_edges:
        rng.shuffle(moved)
    return [sequences[v] for v in order], moved


def random_path(rng, vertices, pairs):
    """Pairs of a walk along rising numbers, as far as it goes."""
    followers = {}
    for a, b in pairs:
        followers.setdefault(a, []).append(b)
    starts = [v for v in range(vertices) if v in followers]
    path, v = set(), rng.choice(starts) if starts else None
    while v in followers:
        w = rng.choice(followers[v])
        path.add((v, w))
        v = w
    return path


def flagged(rng, vertices, pairs):
    """Edges of these pairs with a reference of one of several shapes."""
    shape = rng.choice(["path", "path", "path", "none", "all", "random", "two"])
    paths = random_path(rng, vertices, pairs)
    if shape == "two":
        paths |= random_path(rng, vertices, pairs)
    high = rng.random() < 0.1
    is_ref = {
        "path": lambda p: p in paths,
        "two": lambda p: p in paths,
        "none": lambda p: False,
        "all": lambda p: True,
        "random": lambda p: rng.random() < 0.4,
    }[shape]
    return [(a, b, support(rng, high), int(is_ref((a, b)))) for a, b in pairs]


def small_shapes(rng, vertices):
    """All graphs of so many vertices up to numbering, each with random sequences and flags."""
    pairs = list(itertools.combinations(range(vertices), 2))
    for chosen in itertools.product([False, True], repeat=len(pairs)):
        kept = [p for p, c in zip(pairs, chosen) if c]
        letters = rng.choice([b"A", b"AC", b"ACGT"])
        sequences = [word(rng, 0, rng.choice([1, 2, 4]), letters) for _ in range(vertices)]
        yield renumbered(rng, sequences, flagged(rng, vertices, kept))


def random_graph(rng, vertices):
    letters = rng.choice([b"A", b"AC", b"AC", b"ACGT", bytes(range(256))])
    longest = rng.choice([1, 2, 3, 6, 14])
    degree = rng.choice([0.5, 0.9, 1.2, 1.6, 2.5])
    reach = rng.choice([2, 3, 5, vertices])
    pairs = set()
    for _ in range(int(degree * vertices)):
        a = rng.randrange(vertices)
        b = a + rng.randint(1, reach)
        if b < vertices:
            pairs.add((a, b))
    pairs = sorted(pairs)
    rng.shuffle(pairs)
    sequences = [word(rng, rng.choice([0, 1, 1]), longest, letters) for _ in range(vertices)]
    return renumbered(rng, sequences, flagged(rng, vertices, pairs))


def dense(rng, vertices, edges, letters, longest):
    """So many edges among so many vertices, along rising numbers, then renumbered."""
    pairs = set()
    while len(pairs) < edges:
        a, b = sorted(rng.sample(range(vertices), 2))
        pairs.add((a, b))
    sequences = [word(rng, 1, longest, letters) for _ in range(vertices)]
    return renumbered(rng, sequences, flagged(rng, vertices, sorted(pairs)))


def chain(rng, vertices):
    pairs = [(v, v + 1) for v in range(vertices - 1)]
    start, end = sorted((rng.randint(0, vertices), rng.randint(0, vertices)))
    edges = [(a, b, support(rng), int(start <= a < end)) for a, b in pairs]
    return renumbered(rng, [word(rng, 0, 3) for _ in range(vertices)], edges)


def middles(rng, count):
    """Sequences that share a prefix, a suffix, both or nothing; some are only those, some are equal."""
    prefix, suffix = word(rng, 0, 3, b"AC"), word(rng, 0, 3, b"AC")
    rest = [word(rng, 0, 3, b"AC") for _ in range(rng.randint(1, count))]
    return [prefix + rng.choice(rest) + suffix for _ in range(count)]


class Builder:
    """A graph that grows; flags are those of one path through it and of chance."""

    def __init__(self, rng):
        self.rng, self.sequences, self.edges = rng, [], []

    def vertex(self, sequence):
        self.sequences.append(sequence)
        return len(self.sequences) - 1

    def edge(self, a, b, is_ref=0, high=False):
        self.edges.append((a, b, support(self.rng, high), is_ref))

    def done(self):
        return renumbered(self.rng, self.sequences, self.edges)


def stacked_diamonds(rng, count):
    b, high = Builder(rng), rng.random() < 0.3
    top = b.vertex(word(rng, 0, 3))
    for _ in range(count):
        bottom = b.vertex(word(rng, 0, 3))
        width = rng.randint(2, 4)
        ref = rng.randrange(width + 1)
        for i, s in enumerate(middles(rng, width)):
            m = b.vertex(s)
            b.edge(top, m, int(i == ref), high)
            b.edge(m, bottom, int(i == ref), high)
        top = bottom
    return b.done()


def nested_diamonds(rng, depth):
    """A middle of each diamond is itself a diamond between two vertices."""
    b = Builder(rng)
    top, bottom = b.vertex(word(rng, 1, 3)), b.vertex(word(rng, 1, 3))
    for level in range(depth):
        plain, inner_top, inner_bottom = (b.vertex(s) for s in middles(rng, 3))
        b.edge(top, plain, int(level == depth - 1))
        b.edge(plain, bottom, int(level == depth - 1))
        b.edge(top, inner_top, int(level < depth - 1))
        b.edge(inner_bottom, bottom, int(level < depth - 1))
        top, bottom = inner_top, inner_bottom
    b.edge(top, bottom)
    return b.done()


def tails(rng, count):
    """Tails whose shared ends are around the minimum of 10."""
    b, top = Builder(rng), None
    suffix = word(rng, 7, 13, rng.choice([b"A", b"AC"]))
    prefix = word(rng, 0, 2, b"A")
    root = b.vertex(word(rng, 1, 3))
    for _ in range(rng.randint(1, 3)):
        top = b.vertex(word(rng, 0, 3))
        b.edge(root, top, rng.randint(0, 1))
        ref = rng.randrange(count + 1)
        for i in range(count):
            rest = word(rng, 0, 2)
            b.edge(top, b.vertex(prefix + rest + suffix), int(i == ref))
    return b.done()


def shared_suffixes(rng, count):
    """A bottom of many sources that share a suffix; some are only that, some are reference sources."""
    b = Builder(rng)
    suffix = word(rng, 0, 3, b"AC")
    bottom = b.vertex(word(rng, 0, 2))
    root = b.vertex(word(rng, 1, 2))
    for _ in range(count):
        s = b.vertex(word(rng, 0, 2, b"AC") + suffix)
        b.edge(s, bottom, int(rng.random() < 0.3))
        if rng.random() < 0.6:
            b.edge(root, s, int(rng.random() < 0.3))
    if rng.random() < 0.5:
        b.edge(bottom, b.vertex(word(rng, 0, 2)), rng.randint(0, 1))
    return b.done()


def ladder(rng, rungs):
    """Each vertex is the bottom of a source that is just the shared suffix and of the next rung.

    Every round splits and zips each rung again, so that the order of the vertices moves on: about a hundred
    rungs keep it from coming back within a hundred rounds.
    """
    b = Builder(rng)
    below = b.vertex(b"G")
    for _ in range(rungs):
        leaf, rung = b.vertex(b"A"), b.vertex(b"CA")
        b.edge(leaf, below)
        b.edge(rung, below)
        below = rung
    return b.sequences, b.edges


def haplotypes(rng, length, count):
    """A reference and relatives of it with changed, added and dropped bytes."""
    reference = word(rng, length, length)
    found = [reference]
    for _ in range(count):
        s = bytearray(reference)
        for _ in range(rng.randint(1, 3)):
            # a short one may have lost all that lies between its ends
            if len(s) < 3:
                break
            at, size = rng.randrange(1, len(s) - 1), rng.randint(0, 2)
            s[at : at + rng.randint(0, 2)] = word(rng, size, size)
        found.append(bytes(s))
    return found


def complement(s):
    """The other strand, read in its own direction."""
    return s.translate(bytes.maketrans(b"ACGT", b"TGCA"))[::-1]


def structural_haplotypes(rng, length, count):
    """A reference and relatives of it with changes of few bytes, in each a long piece dropped, added or turned round."""
    reference = word(rng, length, length)
    found = [reference]
    for _ in range(count):
        s = bytearray(reference)
        for _ in range(rng.randint(1, 1 + length // 500)):
            at, size = rng.randrange(1, len(s) - 1), rng.randint(0, 2)
            s[at : at + rng.randint(0, 2)] = word(rng, size, size)
        at, size = rng.randrange(1, len(s) // 2), rng.randint(50, length // 4)
        piece = bytes(s[at : at + size])
        s[at : at + size] = rng.choice([b"", piece + word(rng, size, size), complement(piece)])
        found.append(bytes(s))
    return found


def kmer_graph(rng, k, length, count):
    """The k-mers of related haplotypes, with the first one's edges as the reference."""
    return kmers_of(rng, k, haplotypes(rng, length, count))


def kmers_of(rng, k, found):
    number, edges = {}, {}
    for i, s in enumerate(found):
        kmers = [s[at : at + k] for at in range(len(s) - k + 1)]
        ids = [number.setdefault(x, len(number)) for x in kmers]
        for pair in zip(ids, ids[1:]):
            seen, is_ref = edges.get(pair, (0, 0))
            edges[pair] = (seen + rng.randint(1, 9), int(is_ref or i == 0))
    return renumbered(rng, list(number), [(a, b, s, r) for (a, b), (s, r) in edges.items()])


def turning_kmers(rng, k, letters):
    """The k-mers of a short word repeated without end: each may follow the one before, and the first the last."""
    unit = word(rng, 1, 3, letters)
    text = unit * (k + 1)
    return {text[at : at + k]: at for at in range(len(unit))}


def grow_kmers(rng, k, count, letters, level):
    """Adds up to so many k-mers: by themselves, or next to one that is there and a level above or below it."""
    for _ in range(count):
        step = rng.choice([-1, -1, 0, 1, 1, 1]) if level else 0
        known = rng.choice(list(level)) if step else word(rng, k, k, letters)
        byte = word(rng, 1, 1, letters)
        found = {-1: byte + known[:-1], 0: known, 1: known[1:] + byte}[step]
        level.setdefault(found, level.get(known, rng.randint(0, 3)) + step)


def overlapping_kmers(rng, k, count, cycles=0.1):
    """k-mers grown from one another, with edges that all overlap; of the graphs about this share has cycles."""
    letters = rng.choice([b"AC", b"AC", b"ACGT", bytes(range(256))])
    turning = count > 0 and rng.random() < cycles
    level = turning_kmers(rng, k, letters) if turning else {}
    grow_kmers(rng, k, count - len(level), letters, level)
    found, often = list(level), rng.choice([0.5, 0.8, 1])
    pairs = [(a, b) for a, x in enumerate(found) for b, y in enumerate(found) if x[1:] == y[:-1]]
    # Along these the level rises, so that they close no cycle.
    rising = [(a, b) for a, b in pairs if level[found[a]] < level[found[b]] and rng.random() < often]
    edges = flagged(rng, len(found), rising)
    if turning:
        edges += [(a, b, support(rng), rng.randint(0, 1)) for a, b in pairs if level[found[a]] >= level[found[b]]]
    return renumbered(rng, found, edges)


def rising_kmers(rng, vertices, edges):
    """So many k-mers of two bytes and so many edges; the bytes rise along the edges, so that they close no cycle."""
    every = [(a, b) for a in range(256) for b in range(256)]
    rising = [x for x in every if x[0] < x[1]]
    found = rng.sample(rising, min(vertices, len(rising)))
    number = {x: v for v, x in enumerate(found)}
    pairs = set()
    while len(pairs) < edges:
        a, b = rng.choice(found)
        behind = (b, rng.randint(b, 255))
        if behind in number:
            pairs.add((number[a, b], number[behind]))
    found += rng.sample([x for x in every if x[0] >= x[1]], vertices - len(found))
    return renumbered(rng, [bytes(x) for x in found], flagged(rng, vertices, sorted(pairs)))


def scattered_kmers(rng, k, vertices):
    """Random k-mers with edges that need not overlap."""
    found = sorted({word(rng, k, k, b"AC" if k > 4 else bytes(range(256))) for _ in range(vertices)})
    rng.shuffle(found)
    pairs = {tuple(sorted(rng.sample(range(len(found)), 2))) for _ in range(vertices) if len(found) > 1}
    return renumbered(rng, found, flagged(rng, len(found), sorted(pairs)))


def with_marks(rng, graph):
    """The graph with some of its edges capped, and with supports whose sums come near the largest."""
    often, high = rng.choice([0.1, 0.5, 1]), rng.random() < 0.5
    edges = [
        (a, b, support(rng, True) if high else s, r + 2 * (rng.random() < often)) for a, b, s, r in graph[1]
    ]
    return graph[0], edges


def kmer_record(form, k, graph):
    return encode(form, KMER, 0, k, *graph)
