"""The calls of the library as documents 01 and 02 state them, by a model of its own.

A graph's vertices and edges are kept in dictionaries under keys that only grow, so that a vertex's number
is its rank among the keys and nothing is ever renumbered. `answer` is the whole of a call.
"""
from collections import namedtuple

from records import (
    CLEANUP_SEQ_GRAPH, CLEAN_NON_REF_PATHS, FROM_ASSEMBLY_GRAPH, MAX_U32, REFERENCE_PATH_BYTES, SEQUENCE,
    SIMPLIFY_GRAPH, VERTEX_SEQUENCE, Refused, encode, read_record, require, sequences_in,
)

QUIET, REPEATED, FULL = 1, 2, 3
ZIP, DIAMOND, TAILS, SPLIT, MERGE = range(5)
MIN_TAIL_SUFFIX = 10
MAX_ROUNDS = 100
FIRST_SIGNED_ROUND = 7
CALLERS = 16
UNKNOWN_CALLER = 18

Tally = namedtuple("Tally", "answered refused rewrites")
NO_COUNTS = Tally(0, 0, 0)
# fields: what a call's result holds behind the length, filled up with 0 to three numbers. tally: that of the caller
# after the call, no counts where there is none. All else in the table of tallies stays as it was.
Answer = namedtuple("Answer", "number length fields tally output")


# What an edge carries.
Carried = namedtuple("Carried", "support is_ref capped")


def stopped(n):
    return min(n, MAX_U32)


def carried(support, flag):
    return Carried(support, bool(flag & 1), bool(flag & 2))


def fresh(is_ref):
    """A new edge of support 1."""
    return Carried(1, bool(is_ref), False)


def joined(all_carried):
    """Of several edges together: capped if one was, or if the whole sum does not fit."""
    total = sum(c.support for c in all_carried)
    return Carried(
        stopped(total), any(c.is_ref for c in all_carried), total > MAX_U32 or any(c.capped for c in all_carried)
    )


class Edge:
    __slots__ = ("source", "target", "carried")

    def __init__(self, source, target, what):
        self.source, self.target, self.carried = source, target, what

    @property
    def is_ref(self):
        return self.carried.is_ref

    @property
    def flag(self):
        return self.carried.is_ref + 2 * self.carried.capped


class Graph:
    def __init__(self, k, sequences=(), edges=()):
        self.k = k
        self.seq, self.edge = {}, {}
        self.out, self.into = {}, {}
        self.next_vertex = self.next_edge = 0
        for s in sequences:
            self.add_vertex(s)
        for a, b, support, flag in edges:
            self.add_or_update_edge(a, b, carried(support, flag))

    def add_vertex(self, sequence):
        v = self.next_vertex
        self.next_vertex += 1
        self.seq[v], self.out[v], self.into[v] = sequence, {}, {}
        return v

    def add_or_update_edge(self, source, target, what):
        key = self.out[source].get(target)
        if key is not None:
            e = self.edge[key]
            e.carried = joined([e.carried, what])
            return
        key = self.next_edge
        self.next_edge += 1
        self.edge[key] = Edge(source, target, what)
        self.out[source][target] = self.into[target][source] = key

    def remove_edge(self, key):
        e = self.edge.pop(key)
        del self.out[e.source][e.target]
        del self.into[e.target][e.source]

    def remove_vertices(self, gone):
        for v in gone:
            for key in [*self.out[v].values(), *self.into[v].values()]:
                self.remove_edge(key)
            del self.seq[v], self.out[v], self.into[v]

    def keep_vertices(self, kept):
        self.remove_vertices([v for v in self.seq if v not in kept])

    def edges_from(self, v):
        return [self.edge[key] for key in self.out[v].values()]

    def edges_into(self, v):
        return [self.edge[key] for key in self.into[v].values()]

    def only_follower(self, v, bottom):
        return len(self.out[v]) == 1 and bottom in self.out[v]

    def is_reference_node(self, v):
        return any(e.is_ref for e in self.edges_from(v)) or any(e.is_ref for e in self.edges_into(v))

    def is_ref_source(self, v):
        if len(self.seq) == 1:
            return True
        return any(e.is_ref for e in self.edges_from(v)) and not any(e.is_ref for e in self.edges_into(v))

    def is_ref_sink(self, v):
        if len(self.seq) == 1:
            return True
        return any(e.is_ref for e in self.edges_into(v)) and not any(e.is_ref for e in self.edges_from(v))

    def reference_source(self):
        return next((v for v in self.seq if self.is_ref_source(v)), None)

    def reference_sink(self):
        return next((v for v in self.seq if self.is_ref_sink(v)), None)

    def edge_list(self):
        number = {v: i for i, v in enumerate(self.seq)}
        return [(number[e.source], number[e.target], e.carried.support, e.flag) for e in self.edge.values()]

    def signature(self):
        """Whether a support was capped is not compared."""
        return list(self.seq.values()), [(a, b, support, flag & 1) for a, b, support, flag in self.edge_list()]


def encode_graph(form, g, status):
    return encode(form, SEQUENCE, status, g.k, list(g.seq.values()), g.edge_list())


# Zip


def is_chain_start(g, v):
    if len(g.out[v]) != 1:
        return False
    return len(g.into[v]) != 1 or any(len(g.out[p]) > 1 for p in g.into[v])


def chain_from(g, v):
    chain = [v]
    while len(g.out[v]) == 1:
        (follower,) = g.out[v]
        if len(g.into[follower]) != 1 or g.is_reference_node(v) != g.is_reference_node(follower):
            break
        chain.append(follower)
        v = follower
    return chain


def join_chain(g, chain):
    """The first vertex stays, and the last one's outgoing edges keep their places as its own."""
    first, last = chain[0], chain[-1]
    g.seq[first] = b"".join(g.seq[v] for v in chain)
    moved = g.out[last]
    g.out[last] = {}
    g.remove_vertices(chain[1:])
    g.out[first] = moved
    for target, key in moved.items():
        g.edge[key].source = first
        g.into[target] = {first if v == last else v: x for v, x in g.into[target].items()}


def zip_linear_chains(g):
    done = 0
    for v in [v for v in g.seq if is_chain_start(g, v)]:
        chain = chain_from(g, v)
        if len(chain) > 1:
            join_chain(g, chain)
            done += 1
    return done


# Diamonds and tails


def shared_prefix(sequences):
    count = 0
    for column in zip(*sequences):
        if len(set(column)) > 1:
            break
        count += 1
    return count


def shared_suffix(sequences):
    return shared_prefix([s[::-1] for s in sequences])


def shared_both(sequences):
    """The prefix first; the suffix of what is left then."""
    prefix = shared_prefix(sequences)
    return prefix, shared_suffix([s[prefix:] for s in sequences])


def is_diamond(g, top):
    middles = list(g.out[top])
    if len(middles) < 2 or not g.out[middles[0]]:
        return False
    bottom = next(iter(g.out[middles[0]]))
    if any(len(g.into[m]) != 1 or not g.only_follower(m, bottom) for m in middles):
        return False
    return len(g.into[bottom]) == len(middles)


def try_merge_diamond(g, top):
    if not is_diamond(g, top):
        return False
    middles = list(g.out[top])
    prefix, suffix = shared_both([g.seq[m] for m in middles])
    if prefix == 0 and suffix == 0:
        return False
    split_and_update(g, top, next(iter(g.out[middles[0]])), middles, prefix, suffix)
    return True


def try_merge_tails(g, top):
    tails = list(g.out[top])
    if len(tails) < 2 or any(g.out[t] or len(g.into[t]) > 1 for t in tails):
        return False
    prefix, suffix = shared_both([g.seq[t] for t in tails])
    if suffix < MIN_TAIL_SUFFIX:
        return False
    split_and_update(g, top, None, tails, prefix, suffix)
    return True


# One middle: what is left of it, and what its two edges carry.
Middle = namedtuple("Middle", "rest into out")


def read_middle(g, v, prefix, suffix):
    (into,) = g.edges_into(v)
    out = [e.carried for e in g.edges_from(v)] or [Carried(0, into.is_ref, False)]
    rest = g.seq[v][prefix : len(g.seq[v]) - suffix]
    return Middle(rest, into.carried, out[0])


def consumed_edge(plans):
    """The edge in place of all middles of which nothing is left; None without such a middle."""
    ends = [end for p in plans if not p.rest for end in (p.into, p.out)]
    return joined(ends) if ends else None


def split_and_update(g, top, bottom, middles, prefix, suffix):
    plans = [read_middle(g, m, prefix, suffix) for m in middles]
    model = g.seq[middles[0]]
    above = g.add_vertex(model[:prefix]) if prefix else top
    below = g.add_vertex(model[len(model) - suffix :]) if suffix else bottom
    left = [(g.add_vertex(p.rest), p) for p in plans if p.rest]
    consumed = consumed_edge(plans)
    consumed_ref = consumed is not None and consumed.is_ref
    if prefix:
        g.add_or_update_edge(top, above, fresh(consumed_ref or any(p.into.is_ref for _, p in left)))
    if suffix and bottom is not None:
        g.add_or_update_edge(below, bottom, fresh(consumed_ref or any(p.out.is_ref for _, p in left)))
    for v, p in left:
        g.add_or_update_edge(above, v, p.into)
    if consumed:
        g.add_or_update_edge(above, below, consumed)
    for v, p in left:
        g.add_or_update_edge(v, below, p.out)
    if consumed and prefix:
        g.add_or_update_edge(above, below, consumed)
    g.remove_vertices(middles)


# Splits and merges


def ref_source_would_go(g, sources, suffix):
    first = next((v for v in sources if g.is_ref_source(v)), None)
    return first is not None and len(g.seq[first]) == suffix


def splittable_suffix(g, bottom):
    """How many bytes a split at this bottom would move; 0 for none."""
    sources = list(g.into[bottom])
    if len(sources) < 2 or any(len(g.out[v]) != 1 for v in sources):
        return 0
    suffix = shared_suffix([g.seq[v] for v in sources])
    if ref_source_would_go(g, sources, suffix) or all(len(g.seq[v]) == suffix for v in sources):
        return 0
    return suffix


def split_source(g, v, bottom, suffix):
    (out,) = g.edges_from(v)
    incoming = g.edges_into(v)
    cut = len(g.seq[v]) - suffix
    entry = below = g.add_vertex(g.seq[v][cut:])
    if cut > 0:
        entry = g.add_vertex(g.seq[v][:cut])
        g.add_or_update_edge(entry, below, fresh(out.is_ref))
    g.add_or_update_edge(below, bottom, out.carried)
    for e in incoming:
        g.add_or_update_edge(e.source, entry, e.carried)


def try_split_common_suffix(g, bottom, tried):
    if bottom in tried:
        return False
    tried.add(bottom)
    suffix = splittable_suffix(g, bottom)
    if suffix == 0:
        return False
    sources = list(g.into[bottom])
    for v in sources:
        split_source(g, v, bottom, suffix)
    g.remove_vertices(sources)
    return True


def try_merge_common_suffices(g, bottom):
    sources = list(g.into[bottom])
    if not sources or any(g.seq[v] != g.seq[sources[0]] for v in sources):
        return False
    if any(len(g.out[v]) != 1 or not g.into[v] for v in sources):
        return False
    merged = g.add_vertex(g.seq[sources[0]] + g.seq[bottom])
    for v in sources:
        for e in g.edges_into(v):
            g.add_or_update_edge(e.source, merged, e.carried)
    for e in g.edges_from(bottom):
        g.add_or_update_edge(merged, e.target, e.carried)
    g.remove_vertices([*sources, bottom])
    return True


# Rounds


def until_complete(g, transform):
    """From vertex 0 again after each success."""
    done = 0
    while any(transform(g, v) for v in g.seq):
        done += 1
    return done


def simplify_once(g):
    """Rewrites of one round, by kind."""
    done = [0] * 5
    done[DIAMOND] = until_complete(g, try_merge_diamond)
    done[TAILS] = until_complete(g, try_merge_tails)
    tried = set()
    done[SPLIT] = until_complete(g, lambda g, v: try_split_common_suffix(g, v, tried))
    done[MERGE] = until_complete(g, try_merge_common_suffices)
    done[ZIP] = zip_linear_chains(g)
    return done


def simplify(g):
    """Rewrites by kind, rounds and end."""
    done = [zip_linear_chains(g), 0, 0, 0, 0]
    previous = None
    for number in range(1, MAX_ROUNDS + 1):
        once = simplify_once(g)
        done = [a + b for a, b in zip(done, once)]
        if not any(once):
            return done, number, QUIET
        if number >= FIRST_SIGNED_ROUND:
            signature = g.signature()
            if signature == previous:
                return done, number, REPEATED
            previous = signature
    return done, MAX_ROUNDS, FULL


# Cleanup


def reached(start, step):
    seen, stack = {start}, [start]
    while stack:
        for w in step(stack.pop()):
            if w not in seen:
                seen.add(w)
                stack.append(w)
    return seen


def remove_orphans(g):
    if len(g.seq) > 1:
        g.remove_vertices([v for v in g.seq if not g.out[v] and not g.into[v]])


def keep_connected_to_source(g):
    source = g.reference_source()
    if source is not None:
        g.keep_vertices(reached(source, lambda v: [*g.out[v], *g.into[v]]))


def cleanup(g):
    """Status and rewrites."""
    rewrites = zip_linear_chains(g)
    remove_orphans(g)
    keep_connected_to_source(g)
    rewrites += sum(simplify(g)[0])
    source, sink = g.reference_source(), g.reference_sink()
    if source is None or sink is None:
        return 1, rewrites
    g.keep_vertices(reached(source, lambda v: g.out[v]) & reached(sink, lambda v: g.into[v]))
    rewrites += sum(simplify(g)[0])
    if len(g.seq) == 1:
        (only,) = g.seq
        g.add_or_update_edge(only, g.add_vertex(b""), Carried(0, True, False))
    return 2, rewrites


def walk_non_ref(g, stack, on, taken):
    while stack:
        key = stack.pop()
        if key not in taken and not g.edge[key].is_ref:
            taken.add(key)
            stack.extend(on(g.edge[key]))


def clean_non_ref_paths(g):
    source, sink = g.reference_source(), g.reference_sink()
    if source is None or sink is None:
        return
    taken = set()
    walk_non_ref(g, list(g.into[source].values()), lambda e: g.into[e.source].values(), taken)
    walk_non_ref(g, list(g.out[sink].values()), lambda e: g.out[e.target].values(), taken)
    for key in taken:
        g.remove_edge(key)
    remove_orphans(g)


# Conversion and strings


def has_incoming(record):
    targets = {x[1] for x in record.edges}
    return [v in targets for v in range(len(record.parts))]


def from_assembly_graph(record):
    """Number 8; reading the record has come first, with 1 to 7 and, in the call, 15."""
    kmers = sequences_in(record.data)
    kept = [s[-1:] if inner else s for s, inner in zip(kmers, has_incoming(record))]
    require(sum(map(len, kept)) <= record.form.max_bytes, 8)
    return Graph(record.k, kept, sorted(record.edges, key=lambda x: (kmers[x[0]], kmers[x[1]])))


def reference_path(g):
    v, sink = g.reference_source(), g.reference_sink()
    require(v is not None and sink is not None, 10)
    path = [v]
    while v != sink:
        out = g.edges_from(v)
        require(out, 10)
        v = next((e for e in out if e.is_ref), out[0]).target
        path.append(v)
    return b"".join(g.seq[v] for v in path)


def path_bases(g, start, numbers):
    require(start in g.seq and len(numbers) % 2 == 0, 9)
    path = [start]
    for source, target in zip(numbers[::2], numbers[1::2]):
        require(source == path[-1] and target in g.out[source], 9)
        path.append(target)
    return b"".join(g.seq[v] for v in path)


# Whole calls


def made(call, data, start, numbers):
    """Output, result fields and rewrites for the tally, of a call with room enough. A graph keeps the record's form."""
    record = read_record(call, data)
    if call == FROM_ASSEMBLY_GRAPH:
        return encode_graph(record.form, from_assembly_graph(record), 0), (0, 0, 0), 0
    g = Graph(record.k, sequences_in(data), record.edges)
    if call == SIMPLIFY_GRAPH:
        done, rounds, end = simplify(g)
        return encode_graph(record.form, g, 0), (sum(done), rounds, end), sum(done)
    if call == CLEANUP_SEQ_GRAPH:
        status, rewrites = cleanup(g)
        return encode_graph(record.form, g, status), (status, 0, 0), rewrites
    if call == CLEAN_NON_REF_PATHS:
        clean_non_ref_paths(g)
        return encode_graph(record.form, g, 0), (0, 0, 0), 0
    if call == REFERENCE_PATH_BYTES:
        return reference_path(g), (0, 0, 0), 0
    return path_bases(g, start, numbers), (0, 0, 0), 0


def refusal(number, tally):
    return Answer(number, 0, (0, 0, 0), tally, b"")


def vertex_sequence(data, vertex):
    """The one call without caller and output: its part of the record stands in the place of the output."""
    try:
        record = read_record(VERTEX_SEQUENCE, data)
        require(vertex < len(record.parts), 9)
    except Refused as refused:
        return refusal(refused.number, NO_COUNTS)
    at, length = record.parts[vertex]
    return Answer(0, length, (at, 0, 0), NO_COUNTS, data[at : at + length])


def counted(tally, refused, rewrites):
    raised = (tally.answered + (not refused), tally.refused + refused, tally.rewrites + rewrites)
    return Tally(*map(stopped, raised))


def finish(outcome, room, tally):
    """Closes a call of a caller with this tally: the outcome of `made`, or a refusal's number."""
    number = outcome if isinstance(outcome, int) else 11 if room < len(outcome[0]) else 0
    if number:
        return refusal(number, counted(tally, True, 0))
    output, fields, rewrites = outcome
    return Answer(0, len(output), fields, counted(tally, False, rewrites), output)


def outcome_of(call, data, start, numbers):
    try:
        return made(call, data, start, numbers)
    except Refused as refused:
        return refused.number


def answer(call, data, start, numbers, room, caller, tally):
    """tally is the caller's before the call. Before all else a caller without a tally is refused, and not counted."""
    if call == VERTEX_SEQUENCE:
        return vertex_sequence(data, start)
    if caller >= CALLERS:
        return refusal(UNKNOWN_CALLER, NO_COUNTS)
    return finish(outcome_of(call, data, start, numbers), room, tally)
