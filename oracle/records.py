"""The records SGR1 and SGR2: their layout, and the refusals 1 to 7 and 15 as documents 01 and 02 state them."""
import struct
from collections import namedtuple

# The calls, in the numbering of the cases.
VERTEX_SEQUENCE, FROM_ASSEMBLY_GRAPH, SIMPLIFY_GRAPH, CLEANUP_SEQ_GRAPH = 0, 1, 2, 3
CLEAN_NON_REF_PATHS, REFERENCE_PATH_BYTES, PATH_BASES_BYTES = 4, 5, 6
CALLS = range(7)

KMER, SEQUENCE = 0, 1
MAX_U32 = 2**32 - 1
MIN_K, MAX_K = 2, 128

# A form: its mark; how the header, a word and an edge are packed; how many vertices, edges and sequence bytes are taken. A
# count of vertices or edges, a length and an edge's end are a word each. The header is the mark, kind, status, k, the counts
# of vertices, edges and bytes, the offsets of lengths, edges and bytes, and the whole length.
Form = namedtuple("Form", "mark header word edge max_vertices max_edges max_bytes")
SGR1 = Form(b"SGR1", struct.Struct("<4sBBHHHIIIII"), struct.Struct("<H"), struct.Struct("<HHIB"), 2048, 4096, 8192)
SGR2 = Form(b"SGR2", struct.Struct("<4sBBHIIIIIII"), struct.Struct("<I"), struct.Struct("<IIIB"), 32768, 65536, 131072)
FORMS = (SGR1, SGR2)

# A record's vertices as (start, length) in its bytes, its edges as (from, to, support, flag); a flag is 1 for a reference
# edge and 2 more for one whose support was capped.
Record = namedtuple("Record", "form kind k parts edges data")


class Refused(Exception):
    def __init__(self, number):
        super().__init__(number)
        self.number = number


def require(condition, number):
    if not condition:
        raise Refused(number)


def form_of(data):
    """A record that begins SGR2 is judged as SGR2, every other one as SGR1."""
    return SGR2 if data[:4] == SGR2.mark else SGR1


def layout(form, vertices, edges, sequence_bytes):
    """Offsets of lengths, edges and bytes, and the whole length."""
    edges_at = form.header.size + form.word.size * vertices
    bytes_at = edges_at + form.edge.size * edges
    return form.header.size, edges_at, bytes_at, bytes_at + sequence_bytes


def encode(form, kind, status, k, sequences, edges):
    """Edges are (from, to, support, flag) by vertex number. Nothing is checked but what fits its field."""
    sequence_bytes = b"".join(sequences)
    v, e, b = len(sequences), len(edges), len(sequence_bytes)
    head = form.header.pack(form.mark, kind, status, k, v, e, b, *layout(form, v, e, b))
    lengths = b"".join(form.word.pack(len(s)) for s in sequences)
    return head + lengths + b"".join(form.edge.pack(*x) for x in edges) + sequence_bytes


def counts_of(data):
    """Vertices, edges and sequence bytes, as the header has them."""
    return form_of(data).header.unpack_from(data)[4:7]


def lengths_in(data):
    form = form_of(data)
    lengths_at, edges_at, _, _ = layout(form, *counts_of(data))
    return [n for (n,) in form.word.iter_unpack(data[lengths_at:edges_at])]


def edges_in(data):
    form = form_of(data)
    _, edges_at, bytes_at, _ = layout(form, *counts_of(data))
    return list(form.edge.iter_unpack(data[edges_at:bytes_at]))


def parts_in(data):
    """Each vertex as (start, length): they stand one behind the other."""
    _, _, start, _ = layout(form_of(data), *counts_of(data))
    parts = []
    for n in lengths_in(data):
        parts.append((start, n))
        start += n
    return parts


def sequences_in(data):
    return [data[at : at + n] for at, n in parts_in(data)]


def without_marks(data):
    """The record with the lowest bit of each flag alone: what the Rust knows of it."""
    form = form_of(data)
    _, edges_at, bytes_at, _ = layout(form, *counts_of(data))
    found = bytearray(data)
    for at in range(edges_at + form.edge.size - 1, bytes_at, form.edge.size):
        found[at] &= 1
    return bytes(found)


def kind_is_taken(call, kind):
    if call == VERTEX_SEQUENCE:
        return kind in (KMER, SEQUENCE)
    return kind == (KMER if call == FROM_ASSEMBLY_GRAPH else SEQUENCE)


def check_header(call, data):
    """Numbers 1 to 4 but for the lengths; kind, k and the counts."""
    form = form_of(data)
    require(len(data) >= form.header.size, 1)
    mark, kind, status, k, v, e, b, *offsets = form.header.unpack_from(data)
    require(offsets[3] == len(data), 1)
    require(mark == form.mark and kind_is_taken(call, kind), 2)
    require(status <= (2 if kind == SEQUENCE else 0), 2)
    require(MIN_K <= k <= MAX_K and v <= form.max_vertices and e <= form.max_edges, 3)
    require(kind == KMER or b <= form.max_bytes, 3)
    require(tuple(offsets) == layout(form, v, e, b), 4)
    return kind, k, v, e, b


def has_cycle(vertices, edges):
    """Vertices without incoming edges are peeled off until none is left or all are gone."""
    followers, degree = [[] for _ in range(vertices)], [0] * vertices
    for source, target, _, _ in edges:
        followers[source].append(target)
        degree[target] += 1
    free = [v for v in range(vertices) if degree[v] == 0]
    for v in free:
        for w in followers[v]:
            degree[w] -= 1
            if degree[w] == 0:
                free.append(w)
    return len(free) < vertices


def overlaps(record):
    """Whether of each edge the last k - 1 bytes of from are the first k - 1 bytes of to."""
    kmers, shared = sequences_in(record.data), record.k - 1
    return all(kmers[x[0]][-shared:] == kmers[x[1]][:shared] for x in record.edges)


def read_record(call, data):
    """Numbers 1 to 7; in conversion alone also 15, behind 6 and before 7."""
    kind, k, v, e, b = check_header(call, data)
    lengths = lengths_in(data)
    require(sum(lengths) == b and (kind == SEQUENCE or all(n == k for n in lengths)), 4)
    edges = edges_in(data)
    require(all(x[0] < v and x[1] < v and x[3] <= 3 for x in edges), 5)
    record = Record(form_of(data), kind, k, parts_in(data), edges, data)
    require(len({x[:2] for x in edges}) == e, 6)
    require(kind == SEQUENCE or len(set(sequences_in(data))) == v, 6)
    require(call != FROM_ASSEMBLY_GRAPH or overlaps(record), 15)
    require(not has_cycle(v, edges), 7)
    return record
