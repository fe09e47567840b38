"""Graphs at a form's limits and one past them, and large ones."""
import math

from records import SGR1


def many_vertices(count):
    return [b"A"] * count, [(0, 1, 1, 1)]


def many_bytes(count):
    half = count // 2
    return [b"AC" * (half // 2), b"GT" * (half // 2), b"G" * (count % 2)], [(0, 1, 1, 1), (1, 2, 1, 1)]


def many_equal_middles(edges):
    """One diamond of as many equal middles as leave 16 or 17 edges for others: simplified it is small."""
    middles = (edges - 16) // 2
    rest = 2 + middles
    pairs = [(0, 2 + m) for m in range(middles)] + [(2 + m, 1) for m in range(middles)]
    pairs += [(a, b) for a in range(rest, rest + 6) for b in range(a + 1, rest + 6)]
    pairs += [(1, rest), (1, rest + 1)]
    return [b"A"] * (rest + 6), [(a, b, 1, int(a == 0 and b == 2)) for a, b in pairs[:edges]]


def dense_before_reference(edges):
    """All pairs of some vertices, then a reference edge from the last of them to one more: the strings are short."""
    n = (1 + math.isqrt(1 + 8 * edges)) // 2
    pairs = [(a, b) for b in range(n) for a in range(b)] + [(a, n) for a in reversed(range(n))]
    return [b"A"] * (n + 1), [(a, b, 1, int((a, b) == (n - 1, n))) for a, b in pairs[:edges]]


def at_limits(form):
    """(name, graph) with as many vertices, bytes or edges as are taken, and with one more."""
    for name, extra in (("at", 0), ("past", 1)):
        yield "vertices " + name, many_vertices(form.max_vertices + extra)
        yield "bytes " + name, many_bytes(form.max_bytes + extra)
        yield "edges in a diamond " + name, many_equal_middles(form.max_edges + extra)
        yield "edges before the reference " + name, dense_before_reference(form.max_edges + extra)


def kmers(count, k):
    """So many different k-mers, without an edge."""
    return [(v.to_bytes(2, "big") + b"A" * k)[:k] for v in range(count)]


def kmers_of_bytes(total, k=128):
    """A k-mer graph whose conversion has so many bytes: k for each source, 1 for each follower of the first one."""
    sources = total // k - 1
    others = total - k * sources
    shared = b"C" * (k - 1)
    found = [b"A" + shared, *kmers(sources - 1, k), *(shared + bytes([v]) for v in range(others))]
    return found, [(0, sources + v, 1, int(v == 0)) for v in range(others)]


def with_stray_edge(graph):
    """A graph of kmers_of_bytes with one edge more, from the second source to the last follower: it does not overlap."""
    return graph[0], graph[1] + [(1, len(graph[0]) - 1, 1, 0)]


def kmers_of_edges(count, shared):
    """For each of these shared bytes 64 k-mers that end with them, each of which leads to each of 64 that begin so.

    A last k-mer, which ends with the last shared bytes, has the edges past these.
    """
    found, pairs = [], []
    for middle in shared:
        first = len(found)
        found += [bytes([a]) + middle for a in range(65)] + [middle + bytes([b]) for b in range(64)]
        pairs += [(first + a, first + 65 + b) for b in range(64) for a in range(64)]
    pairs += [(first + 64, first + 65 + b) for b in range(64)]
    return found, [(a, b, 1, int(a == b - 65)) for a, b in pairs[:count]]


def rising_text(count):
    """So many bytes, of two-byte numbers that rise by one: no four in a row come twice."""
    return b"".join(v.to_bytes(2, "big") for v in range((count + 1) // 2))[:count]


def kmers_in_a_row(count, k):
    text = rising_text(count + k)
    return [text[v : v + k] for v in range(count)], [(v, v + 1, 1, 1) for v in range(count - 1)]


def kmers_in_a_circle(count, k):
    text = rising_text(count) * 2
    return [text[v : v + k] for v in range(count)], [(v, (v + 1) % count, 1, 1) for v in range(count)]


def shared_bytes(form):
    """What the k-mers of kmers_of_edges share: one byte, or two where 64 by 64 edges are to be had sixteen times."""
    return [b"\xff"] if form == SGR1 else [bytes([middle, 255]) for middle in range(16)]


def kmers_at_limits(form):
    """(name, k, graph); all edges overlap, so that the limit decides."""
    shared = shared_bytes(form)
    for name, extra in (("at", 0), ("past", 1)):
        yield "vertices " + name, 2, (kmers(form.max_vertices + extra, 2), [(0, 1, 1, 1)])
        yield "edges " + name, 1 + len(shared[0]), kmers_of_edges(form.max_edges + extra, shared)
        yield "bytes " + name, 128, kmers_of_bytes(form.max_bytes + extra)
        yield "k " + name, 128 + extra, kmers_in_a_row(3, 128 + extra)
    yield "k below", 1, ([b"A", b"C"], [(0, 1, 1, 1)])
    yield "no vertices", 2, ([], [])


def long_chain(vertices, reference=9):
    """With so many reference edges first. What lies behind them is no chain of its own: it is merged one by one."""
    return [b"ACGT"] * vertices, [(v, v + 1, 1, int(v < reference)) for v in range(vertices - 1)]


def many_bubbles(count):
    """Middles that share a byte at each end."""
    sequences, edges = [b"A"], []
    for i in range(count):
        top, v = 3 * i, len(sequences)
        sequences += [b"CTG", b"CAG", b"A"]
        edges += [(top, v, 5, 1), (v, v + 2, 5, 1), (top, v + 1, 2, 0), (v + 1, v + 2, 2, 0)]
    return sequences, edges


def many_tails(count):
    """One set of tails; its answer has an edge more for each."""
    found = [bytes([65 + t % 26, (65 + t // 26) % 256]) + b"A" * 10 for t in range(count)]
    return [b"C"] + found, [(0, 1 + t, 1, int(t == 0)) for t in range(count)]


def many_sources(count):
    """Sources of one bottom that share a byte; one of them is only that byte, so that they never merge."""
    sequences = [b"G", b"T", b"A"] + [bytes([65 + s % 26]) + b"A" for s in range(count)]
    edges = [(2, 0, 1, 0)] + [(3 + s, 0, 1, 0) for s in range(count)]
    return sequences, edges + [(1, 3 + s, 1, 1) for s in range(count)]


def large(vertices, bubbles, sources):
    """A large graph for each kind of rewrite. The Rust is slow on long chains, many bubbles and many sources."""
    yield long_chain(vertices)
    yield many_bubbles(bubbles)
    yield many_tails(vertices * 5 // 16)
    yield many_sources(sources)


def large_with_fault(vertices):
    """(sequences, edges) with the fault where a search comes to it last."""
    sequences, edges = long_chain(vertices)
    yield sequences, edges + [(vertices - 1, 0, 1, 0)]
    yield sequences, edges + [(vertices - 1, vertices - 1, 1, 0)]
    yield sequences, edges + [(0, 1, 9, 1)]
    yield sequences, edges + [(0, vertices, 1, 0)]
    yield sequences, edges[:-1] + [(vertices - 2, vertices - 1, 1, 4)]


def equal_last_kmers(vertices):
    return kmers(vertices - 1, 8) + kmers(1, 8), []


def large_kmers(vertices, k):
    """Graphs of so many k-mers: in a row; the last out of it; in a circle; with an edge back to the first."""
    found, edges = kmers_in_a_row(vertices, k)
    yield found, edges
    yield found[:-1] + [b"C" * k], edges
    yield kmers_in_a_circle(vertices, k)
    yield found, edges + [(vertices - 1, 0, 1, 0)]
