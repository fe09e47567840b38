"""Graphs by hand: document 01's nine examples, and the smallest ones for each rule."""
from records import MAX_U32

BUBBLE = [(0, 1, 5, 1), (1, 3, 5, 1), (0, 2, 2, 0), (2, 3, 2, 0)]
BUBBLE_OF_5 = [(a, b, 5, r) for a, b, _, r in BUBBLE]
FORK = [(0, 1, 1, 1), (0, 2, 1, 0)]
TOP = MAX_U32

# Document 01, "Proved examples", in its order.
NINE = [
    ([b"AA", b"CTG", b"CAG", b"TT"], BUBBLE),
    ([b"CC", b"T" + b"A" * 10, b"G" + b"A" * 10], FORK),
    ([b"CC", b"T" + b"A" * 9, b"G" + b"A" * 9], FORK),
    ([b"CC", b"A" * 12, b"A" * 12], FORK),
    ([b"A", b"C", b"G"], [(0, 1, 1, 1), (1, 2, 1, 0)]),
    ([b"AA", b"CG", b"CTG", b"TT"], BUBBLE_OF_5),
    ([], []),
    ([b"ACGT"], []),
    ([b"A", b"C", b"G", b"T"], [(0, 3, 1, 1), (2, 1, 1, 1), (2, 3, 1, 0)]),
]

REWRITES = [
    # Zip: whole chain; stopped by a change of reference; from a branch; the last one's edges in their place.
    ([b"A", b"C", b"G"], [(0, 1, 1, 0), (1, 2, 1, 0)]),
    ([b"A", b"C", b"G", b"T"], [(0, 1, 1, 1), (1, 2, 1, 0), (2, 3, 1, 1)]),
    ([b"A", b"C", b"G", b"T"], [(0, 1, 1, 1), (0, 2, 1, 0), (2, 3, 1, 0)]),
    ([b"A", b"C", b"G", b"T", b"A"], [(1, 2, 9, 0), (3, 2, 8, 0), (0, 1, 7, 0), (1, 4, 6, 0)]),
    # Diamonds: prefix only, suffix only, three middles, one consumed, all equal, nothing shared.
    ([b"A", b"CT", b"CA", b"G"], BUBBLE),
    ([b"A", b"TC", b"AC", b"G"], BUBBLE),
    (
        [b"A", b"CTG", b"CAG", b"CG", b"T"],
        [(0, 1, 5, 1), (1, 4, 5, 1), (0, 2, 2, 0), (2, 4, 3, 0), (0, 3, 1, 0), (3, 4, 4, 0)],
    ),
    ([b"A", b"C", b"CC", b"G"], BUBBLE),
    ([b"A", b"CG", b"CG", b"G"], BUBBLE),
    ([b"A", b"C", b"G", b"T"], BUBBLE),
    ([b"A", b"", b"", b"T"], BUBBLE),
    ([b"A", b"", b"C", b"T"], BUBBLE),
    # A bottom with a further predecessor, a middle with a further follower: no diamond.
    ([b"A", b"CT", b"CA", b"G", b"T"], BUBBLE + [(4, 3, 1, 0)]),
    ([b"A", b"CT", b"CA", b"G", b"T"], BUBBLE + [(1, 4, 1, 0)]),
    # Tails: with prefix, one consumed by prefix and suffix, a tail with another predecessor.
    ([b"C", b"G" + b"A" * 10, b"GT" + b"A" * 10], FORK),
    ([b"C", b"G" + b"AC" * 5, b"GT" + b"AC" * 5, b"GTT" + b"AC" * 5], FORK + [(0, 3, 7, 0)]),
    ([b"C", b"T" + b"A" * 10, b"G" + b"A" * 10, b"G"], FORK + [(3, 2, 1, 0)]),
    # Splits: one source only the suffix, a reference source that long, one that is longer, all only the suffix.
    ([b"G", b"A", b"CA"], [(1, 0, 1, 0), (2, 0, 1, 0)]),
    ([b"G", b"A", b"CA"], [(1, 0, 1, 1), (2, 0, 1, 0)]),
    ([b"G", b"A", b"CA"], [(1, 0, 1, 0), (2, 0, 1, 1)]),
    ([b"G", b"TA", b"CA"], [(1, 0, 4, 1), (2, 0, 3, 0)]),
    ([b"G", b"A", b"A"], [(1, 0, 1, 0), (2, 0, 1, 0)]),
    ([b"G", b"CCA", b"CA", b"T", b"T"], [(1, 0, 4, 1), (2, 0, 3, 0), (3, 1, 2, 1), (4, 2, 1, 0), (3, 2, 6, 0)]),
    # Merges: several equal sources, one source, one without an incoming edge, joined edges.
    ([b"G", b"A", b"A", b"T", b"C"], [(1, 0, 4, 1), (2, 0, 3, 0), (3, 1, 2, 1), (3, 2, 1, 0), (0, 4, 5, 1)]),
    ([b"G", b"A", b"T", b"C"], [(1, 0, 4, 1), (2, 1, 3, 0), (3, 1, 2, 1)]),
    ([b"G", b"A", b"A", b"T"], [(1, 0, 4, 1), (2, 0, 3, 0), (3, 1, 2, 1)]),
]

# Supports that stop at 2^32 - 1: in the consumed path, in joined edges, exactly at it.
HIGH = [
    ([b"AA", b"CG", b"CTG", b"TT"], [(a, b, TOP, r) for a, b, _, r in BUBBLE]),
    ([b"AA", b"CG", b"CTG", b"TT"], [(a, b, 2**30, r) for a, b, _, r in BUBBLE]),
    ([b"AA", b"CG", b"CTG", b"TT"], [(a, b, 2**30 - 1, r) for a, b, _, r in BUBBLE]),
    ([b"A", b"C", b"C", b"G"], [(a, b, TOP, r) for a, b, _, r in BUBBLE]),
    ([b"G", b"A", b"A", b"T"], [(1, 0, 4, 0), (2, 0, 3, 0), (3, 1, TOP, 0), (3, 2, 1, 0)]),
    ([b"G", b"A", b"A", b"T"], [(1, 0, 4, 0), (2, 0, 3, 0), (3, 1, TOP - 1, 0), (3, 2, 1, 0)]),
    ([b"A", b"C"], [(0, 1, TOP, 1)]),
]

CLEANED = [
    # No reference; two references; a sink that cannot be reached; a lone vertex beside others; two lone ones.
    ([b"A", b"C", b"G"], [(0, 2, 1, 0), (1, 2, 1, 0)]),
    ([b"A", b"C", b"G", b"T"], [(0, 1, 1, 1), (2, 3, 1, 1)]),
    ([b"A", b"C", b"G", b"T"], [(2, 3, 1, 1), (0, 1, 1, 1), (0, 3, 1, 0)]),
    ([b"A", b"C", b"G"], [(0, 2, 1, 1)]),
    ([b"A", b"C"], []),
    ([b""], []),
    ([b"", b""], [(0, 1, 1, 1)]),
    # Ways into the source and out of the sink, along edges that are reference edges and that are not.
    ([b"A", b"C", b"G", b"T", b"A"], [(0, 1, 1, 0), (1, 2, 1, 1), (2, 3, 1, 1), (3, 4, 1, 0)]),
    (
        [b"A", b"C", b"G", b"T", b"A", b"C"],
        [(0, 1, 1, 0), (1, 2, 1, 1), (2, 3, 1, 1), (3, 4, 1, 0), (4, 5, 1, 0), (2, 4, 1, 0)],
    ),
    ([b"A", b"C", b"G", b"T", b"A"], [(0, 1, 1, 1), (1, 4, 1, 0), (4, 2, 1, 0), (2, 3, 1, 1)]),
    # The walk from the sink does not go on through an edge that the walk from the source took: 4 to 5 stays.
    ([b"A", b"C", b"G", b"T", b"A", b"C"], [(0, 3, 1, 1), (2, 1, 1, 1), (1, 4, 1, 0), (4, 0, 1, 0), (4, 5, 1, 0)]),
]

HALF = 2**31


def bubble(into, out):
    """Edges of a bubble whose first middle has these two edges, each as (support, flag)."""
    return [(0, 1, *into), (1, 3, *out), (0, 2, 2, 0), (2, 3, 2, 0)]


def merged(*supports):
    """Equal sources of vertex 0 that follow vertex 1 by edges of these (support, flag), which a merge joins; 1 leads elsewhere, too."""
    count = len(supports)
    sequences = [b"G", b"T", b"C", *[b"A"] * count]
    edges = [(1, 2, 1, 0)] + [(3 + i, 0, 1, 0) for i in range(count)]
    return sequences, edges + [(1, 3 + i, *s) for i, s in enumerate(supports)]


def three_middles(first, second):
    """A diamond's edges, whose first two middles have edges of these (support, flag) each."""
    edges = [(0, 1 + i, *into) for i, (into, _) in enumerate((first, second))]
    edges += [(1 + i, 4, *out) for i, (_, out) in enumerate((first, second))]
    return edges + [(0, 3, 2, 0), (3, 4, 2, 0)]


# Flags: 1 reference, 2 capped, 3 both.
CAPPED = [
    # Handed in, and nothing to do; with a small support; through a zip, where the last vertex's edges move.
    ([b"A", b"C", b"G"], [(0, 2, TOP, 3), (1, 2, TOP, 2)]),
    ([b"A", b"C", b"G"], [(0, 2, 5, 2), (1, 2, 0, 3)]),
    ([b"A", b"C", b"G", b"T"], [(0, 1, 7, 2), (1, 2, 6, 2), (1, 3, 5, 0)]),
    # Through a diamond: the remaining middles keep theirs, the edges to the prefix and from the suffix have none.
    ([b"AA", b"CTG", b"CAG", b"TT"], [(0, 1, 5, 3), (1, 3, 5, 1), (0, 2, 2, 0), (2, 3, 2, 2)]),
    ([b"AA", b"CTG", b"CAG", b"TT"], [(a, b, TOP, r + 2) for a, b, _, r in BUBBLE]),
    # Consumed paths with a prefix, joined once more with themselves: either edge capped, neither; below the largest sum, past it.
    ([b"AA", b"CG", b"CTG", b"TT"], bubble((5, 2), (6, 0))),
    ([b"AA", b"CG", b"CTG", b"TT"], bubble((5, 1), (6, 3))),
    ([b"AA", b"CG", b"CTG", b"TT"], bubble((HALF - 2, 0), (1, 0))),
    ([b"AA", b"CG", b"CTG", b"TT"], bubble((HALF - 1, 0), (1, 1))),
    # Consumed paths without a prefix: either edge capped, neither; the largest sum exactly, one past it.
    ([b"AA", b"G", b"TG", b"TT"], bubble((5, 2), (6, 0))),
    ([b"AA", b"G", b"TG", b"TT"], bubble((5, 0), (6, 2))),
    ([b"AA", b"G", b"TG", b"TT"], bubble((TOP - 1, 0), (1, 0))),
    ([b"AA", b"G", b"TG", b"TT"], bubble((TOP, 1), (1, 0))),
    # Two middles consumed: exactly the largest sum, past it by the second, past it by the first; with a prefix; the mark of one of four.
    ([b"A", b"G", b"G", b"TG", b"C"], three_middles(((TOP - 3, 0), (1, 0)), ((1, 0), (1, 0)))),
    ([b"A", b"G", b"G", b"TG", b"C"], three_middles(((TOP - 3, 0), (1, 0)), ((1, 0), (2, 0)))),
    ([b"A", b"G", b"G", b"TG", b"C"], three_middles(((TOP, 0), (1, 1)), ((0, 0), (0, 0)))),
    ([b"A", b"G", b"G", b"GT", b"C"], three_middles(((HALF - 4, 0), (1, 0)), ((1, 0), (1, 0)))),
    ([b"A", b"G", b"G", b"GT", b"C"], three_middles(((HALF - 3, 0), (1, 0)), ((1, 0), (1, 0)))),
    ([b"A", b"G", b"G", b"TG", b"C"], three_middles(((3, 0), (4, 1)), ((5, 2), (6, 0)))),
    # Tails: capped edges to them; the missing edge out of a tail is not capped, consumed or not.
    ([b"CC", b"T" + b"A" * 10, b"G" + b"A" * 10], [(0, 1, 1, 3), (0, 2, TOP, 2)]),
    ([b"CC", b"A" * 10, b"T" + b"A" * 10], [(0, 1, 4, 2), (0, 2, 1, 1)]),
    ([b"CC", b"A" * 10, b"T" + b"A" * 10], [(0, 1, TOP, 1), (0, 2, 1, 0)]),
    ([b"CC", b"G" + b"A" * 10, b"GT" + b"A" * 10], [(0, 1, HALF - 1, 0), (0, 2, 1, 1)]),
    ([b"CC", b"G" + b"A" * 10, b"GT" + b"A" * 10], [(0, 1, HALF, 0), (0, 2, 1, 3)]),
    # Splits: the edge out goes to the suffix with its mark, the new edge from prefix to suffix has none, edges in keep theirs.
    ([b"G", b"TA", b"CA"], [(1, 0, 4, 3), (2, 0, 3, 2)]),
    ([b"G", b"CCA", b"CA", b"T", b"T"], [(1, 0, 4, 3), (2, 0, 3, 0), (3, 1, 2, 3), (4, 2, 1, 2), (3, 2, 6, 0)]),
    # Merges of two and three edges: exactly the largest sum, one past it, capped by the first two, capped on one side, on both.
    merged((TOP - 1, 0), (1, 0)),
    merged((TOP, 0), (1, 1)),
    merged((TOP, 0), (0, 0)),
    merged((TOP - 2, 0), (1, 0), (1, 0)),
    merged((TOP - 1, 0), (1, 0), (1, 0)),
    merged((TOP, 0), (2, 1), (0, 0)),
    merged((3, 2), (4, 0)),
    merged((3, 0), (4, 3)),
    merged((3, 2), (4, 3), (5, 0)),
    (
        [b"G", b"A", b"A", b"T", b"C", b"T"],
        [(1, 0, 4, 1), (2, 0, 3, 2), (3, 1, 2, 3), (3, 2, 1, 2), (0, 4, 5, 3), (0, 5, 6, 2)],
    ),
    # A capped edge is no reference edge: for chains, sources and sinks, plain walks, the reference path.
    ([b"A", b"C", b"G"], [(0, 1, 1, 3), (1, 2, 1, 2)]),
    ([b"A", b"C", b"G", b"T", b"A"], [(0, 1, 1, 2), (1, 2, 1, 3), (2, 3, 1, 1), (3, 4, 1, 2)]),
    ([b"A", b"C", b"G"], [(0, 1, 1, 2), (1, 2, 1, 2)]),
    ([b"A", b"C", b"G", b"T"], [(0, 1, 9, 2), (0, 2, 1, 3), (1, 3, 9, 2), (2, 3, 1, 1)]),
    ([b"A", b"C", b"G", b"T"], [(0, 3, 1, 3), (2, 1, 1, 3), (2, 3, 1, 2)]),
    ([b"ACGT", b"A"], [(0, 1, 1, 3)]),
]

KMER_CAPPED = [
    (3, ([b"ACG", b"CGT", b"CGA"], [(0, 1, 5, 3), (0, 2, 2, 2)])),
    (3, ([b"CGT", b"ACG", b"CGA", b"TCG"], [(3, 0, 1, 2), (1, 0, 5, 1), (3, 2, TOP, 3), (1, 2, 2, 0)])),
]

SEQUENCE_GRAPHS = NINE + REWRITES + HIGH + CLEANED


def of_support_1(text):
    return [(*map(int, pair.split(">")), 1, 0) for pair in text.split()]


# Ladders whose edges settle later than their sequences, and only these are in the Rust's own signature: the smallest found on which
# the Rust ends earlier, and the smallest found on which it then has another record.
SETTLING = [
    (
        [b"", *[b"AA"] * 9, b"", *[b"A"] * 9],
        of_support_1("0>1 1>2 11>2 2>3 12>3 3>4 13>4 4>5 14>5 5>6 15>6 6>7 16>7 9>8 18>8 7>9 17>9 8>10 19>10 0>18"),
    ),
    (
        [b"", *[b"AA"] * 10, b"", *[b"A"] * 10],
        of_support_1(
            "0>1 1>2 12>2 2>3 13>3 3>4 14>4 4>5 15>5 5>6 16>6 6>7 17>7 7>8 18>8 10>9 20>9 8>10 19>10 9>11 21>11 0>17"
        ),
    ),
]

KMER_GRAPHS = [
    (2, ([], [])),
    (2, ([b"AC"], [])),
    (3, ([b"ACG", b"CGT", b"CGA"], [(0, 1, 5, 1), (0, 2, 2, 0)])),
    (3, ([b"CGT", b"ACG", b"CGA", b"TCG"], [(3, 0, 1, 0), (1, 0, 5, 1), (3, 2, TOP, 1), (1, 2, 2, 0)])),
    # Bytes at the ends of their range; the edges at 7f 80 do not overlap.
    (
        2,
        ([b"\xff\x00", b"\x00\xff", b"\x00\x00", b"\x7f\x80"], [(0, 1, 1, 1), (2, 1, 2, 0), (2, 3, 3, 1), (3, 1, 4, 0)]),
    ),
    (128, ([b"A" * 128, b"A" * 127 + b"C"], [(0, 1, 1, 1)])),
]

# 64 k-mers of 128 bytes, and one that follows the first of them: with one edge to it they come to 8,193 bytes.
LONG_KMERS = [bytes([v]) * 128 for v in range(64)] + [b"\0" * 127 + b"\1"]

# The number that conversion must give, the k-mers and the edges.
OVERLAP = [
    # Every edge overlaps: k 2, k 3 with branches in and out, k 4, bytes 0 and 255.
    (0, [b"AC", b"CG"], "0>1"),
    (0, [b"CGT", b"ACG", b"TCG", b"CGA", b"GTT"], "1>0 2>0 1>3 2>3 0>4"),
    (0, [b"TACG", b"ACGT", b"CACG", b"ACGG"], "0>1 2>3 0>3 2>1"),
    (0, [b"\xff\x00", b"\x00\xff", b"\x00\x00", b"\x00\x80"], "0>1 2>1 0>3 2>3"),
    # k 128: the first byte of from and the last byte of to are not in the overlap.
    (0, [b"\xff" + b"\0" * 127, b"\0" * 127 + b"\x80"], "0>1"),
    (0, [b"C" + b"A" * 127, b"A" * 127 + b"G", b"A" * 128], "0>1 0>2 2>1"),
    # 15 alone. The smallest; the byte that differs is 0 and 128, 255 and 127, stands behind a 0.
    (15, [b"AA", b"CC"], "0>1"),
    (15, [b"\x01\x00", b"\x80\x01"], "0>1"),
    (15, [b"\x01\xff", b"\x7f\x01"], "0>1"),
    (15, [b"A\0CG", b"\0TGA"], "0>1"),
    # 15 alone. The edge is the first, in the middle, the last; it begins at the lowest k-mer, at the highest.
    (15, [b"ACG", b"CGT", b"GTA", b"TCC"], "0>3 0>1 1>2"),
    (15, [b"ACG", b"CGT", b"GTA", b"TCC"], "0>1 0>3 1>2"),
    (15, [b"ACG", b"CGT", b"GTA", b"TCC"], "0>1 1>2 0>3"),
    (15, [b"CGT", b"AAA", b"GTA", b"ACG"], "3>0 0>2 1>3"),
    (15, [b"TTT", b"ACG", b"CGT", b"GTA"], "1>2 0>2 2>3"),
    # 15 alone. Of what ACGTA and CGTAC share the first byte differs, the second, the third, the last; in to, then in from.
    (15, [b"ACGTA", b"TGTAC"], "0>1"),
    (15, [b"ACGTA", b"CCTAC"], "0>1"),
    (15, [b"ACGTA", b"CGCAC"], "0>1"),
    (15, [b"ACGTA", b"CGTCC"], "0>1"),
    (15, [b"ATGTA", b"CGTAC"], "0>1"),
    (15, [b"ACCTA", b"CGTAC"], "0>1"),
    (15, [b"ACGCA", b"CGTAC"], "0>1"),
    (15, [b"ACGTC", b"CGTAC"], "0>1"),
    # 15 alone. The first byte of k 128's overlap differs, the last; of two followers only the second's.
    (15, [b"A" * 128, b"C" + b"A" * 127], "0>1"),
    (15, [b"A" * 128, b"A" * 126 + b"CA"], "0>1"),
    (15, [b"A" * 128, b"A" * 127 + b"C", b"A" * 126 + b"CA"], "0>1 0>2"),
    # 15 alone. Only k - 2 bytes overlap; the edge should lead the other way; equal beginnings; equal ends.
    (15, [b"AACG", b"CGTT"], "0>1"),
    (15, [b"CGT", b"ACG"], "0>1"),
    (15, [b"ACGA", b"ACGT"], "0>1"),
    (15, [b"AACG", b"CACG"], "0>1"),
    # 6 and 15: equal k-mers beside the edge, one of them its end; the edge itself twice, another one twice; with 7 too.
    (6, [b"AA", b"CC", b"AC", b"AC"], "0>1"),
    (6, [b"AA", b"CC", b"CC"], "0>1"),
    (6, [b"AA", b"CC"], "0>1 0>1"),
    (6, [b"AA", b"CC", b"AC"], "0>2 0>1 0>2"),
    (6, [b"AC"], "0>0 0>0"),
    # 15 and 7: a self edge, cycles with one edge that does not overlap, such an edge beside a cycle, behind a self edge; k 128.
    (15, [b"AC"], "0>0"),
    (15, [b"ACG", b"CGT"], "0>1 1>0"),
    (15, [b"ACG", b"CGT", b"GTA"], "2>0 0>1 1>2"),
    (15, [b"AC", b"CA", b"GG", b"TT"], "0>1 1>0 2>3"),
    (15, [b"AA", b"CC"], "0>0 0>1"),
    (15, [b"A" * 127 + b"C"], "0>0"),
    # 7 alone: every edge of the cycle overlaps; a self edge of one repeated byte; k 128.
    (7, [b"AC", b"CA"], "0>1 1>0"),
    (7, [b"ACG", b"CGA", b"GAC", b"GAT"], "0>1 1>2 2>0 1>3"),
    (7, [b"AA"], "0>0"),
    (7, [b"\xff\xff\xff", b"\0\xff\xff"], "1>0 0>0"),
    (7, [b"A" * 128, b"A" * 127 + b"C"], "0>1 0>0"),
    (7, [b"AC" * 64, b"CA" * 64], "0>1 1>0"),
    # 8 alone; 15 and 8; 15, 7 and 8.
    (8, LONG_KMERS, "0>64"),
    (15, LONG_KMERS, "1>64"),
    (15, LONG_KMERS + [b"AC" * 64], "1>64 65>65"),
]

# The number of conversion, k and the graph. At the end the smallest with 15 once more, with other supports and flags.
KMER_OVERLAP = [(number, len(kmers[0]), (kmers, of_support_1(edges))) for number, kmers, edges in OVERLAP] + [
    (15, 2, ([b"AA", b"CC"], [(0, 1, support, flag)])) for support, flag in ((0, 0), (1, 1), (5, 2), (TOP, 3))
]
