/*
 * Goes through each call of libsg.a, on records of both forms: an answer, a refusal with too little room, one with another
 * cause, one of a caller above 15. Each time the whole table of tallies is looked at, and the memory beside it. Then what the
 * forms differ in: the mark, the least length, the limits.
 */
#undef NDEBUG
#include "../../include/seq_graph.h"
#include "records.h"
#include <assert.h>
#include <pthread.h>
#include <stdbool.h>
#include <stdio.h>

_Static_assert(sizeof(sg_tally) == 12 && sizeof(sg_tallies) == 192, "tallies without a gap");
_Static_assert(offsetof(sg_tally, answered) == 0 && offsetof(sg_tally, refused) == 4, "counts in their order");
_Static_assert(offsetof(sg_tally, rewrites) == 8, "counts in their order");
_Static_assert(sizeof(sg_answer) == 8 && sizeof(sg_simplify_answer) == 20, "answers without a tally");
_Static_assert(sizeof(sg_cleanup_answer) == 12, "answers without a tally");

enum { ROOM = 512, FILL = 0xA5, CALLERS = 16 };

/* The form of the records at hand. */
static const form *f;

static uint8_t rec[ROOM], want[ROOM], out[ROOM];

/* For records at the limits: the longest that is written here, and the longest answer. */
enum { LONGEST = 1114148, ANSWER = 4194340, STACK = 32 << 20 };

static uint8_t large[LONGEST], answer[ANSWER];

/* The table that is lent to calls is the middle one; the others stand beside it, and no call may write them. */
static sg_tallies tables[3];
static sg_tallies *const table = &tables[1];

static void fill(void) { memset(out, FILL, ROOM); }

/* The first n bytes are those wanted, and none behind them was written. */
static void check_output(size_t n) {
    assert(memcmp(out, want, n) == 0);
    for (size_t i = n; i < ROOM; i++) assert(out[i] == FILL);
}

/* Three tables of counts that all differ; then the caller's in the middle one are these, unless it is above 15. */
static void set_tables(sg_tallies *at, uint32_t caller, sg_tally own) {
    for (uint32_t i = 0; i < 3 * CALLERS; i++) {
        at[i / CALLERS].callers[i % CALLERS] = (sg_tally){3 * i + 1001, 3 * i + 1002, 3 * i + 1003};
    }
    if (caller < CALLERS) at[1].callers[caller] = own;
}

static void lend(uint32_t caller, uint32_t answered, uint32_t refused, uint32_t rewrites) {
    set_tables(tables, caller, (sg_tally){answered, refused, rewrites});
}

/* These are the caller's counts, and all else in the three tables is as it was lent. */
static void check_tables(uint32_t caller, uint32_t answered, uint32_t refused, uint32_t rewrites) {
    sg_tallies due[3];
    set_tables(due, caller, (sg_tally){answered, refused, rewrites});
    assert(memcmp(tables, due, sizeof due) == 0);
}

/* Case 1 of docs/METHOD.md, section 10: a diamond. */
static size_t diamond(uint8_t *at) {
    const char *sequences[] = {"AA", "CTG", "CAG", "TT"};
    const edge edges[] = {{0, 1, 5, 1}, {1, 3, 5, 1}, {0, 2, 2, 0}, {2, 3, 2, 0}};
    return write_record(f, at, SEQUENCES, 10, 4, sequences, 4, edges);
}

static void test_vertex_sequence(void) {
    size_t length = diamond(rec);
    uint32_t number = 99;
    sg_sequence_place p = sg_vertex_sequence(rec, length, 2, &number);
    assert(number == 0 && p.length == 3 && p.offset + 5 == length && memcmp(rec + p.offset, "CAG", 3) == 0);
    p = sg_vertex_sequence(rec, length, 4, &number);
    assert(number == 9 && p.length == 0 && p.offset == 0);
    rec[5] = 3;
    p = sg_vertex_sequence(rec, length, 2, &number);
    assert(number == 2 && p.length == 0 && p.offset == 0);
}

static void test_simplify_graph(void) {
    const char *sequences[] = {"AAC", "T", "A", "GTT"};
    const edge edges[] = {{0, 1, 5, 1}, {0, 2, 2, 0}, {1, 3, 5, 1}, {2, 3, 2, 0}};
    size_t length = diamond(rec), n = write_record(f, want, SEQUENCES, 10, 4, sequences, 4, edges);
    lend(15, 7, 8, 9);
    fill();
    sg_simplify_answer a = sg_simplify_graph(rec, length, out, n, 15, table);
    assert(a.number == 0 && a.length == n && a.rewrites == 3 && a.rounds == 2 && a.end == 1);
    check_tables(15, 8, 8, 12);
    check_output(n);
    fill();
    a = sg_simplify_graph(rec, length, out, n - 1, 15, table);
    assert(a.number == 11 && a.length == 0 && a.rewrites == 0 && a.rounds == 0 && a.end == 0);
    check_tables(15, 8, 9, 12);
    a = sg_simplify_graph(rec, length - 1, out, ROOM, 15, table);
    assert(a.number == 1);
    check_tables(15, 8, 10, 12);
    check_output(0);
}

/* Equal sources of G behind T, which a merge joins: so are the two edges from T to them. */
static size_t joined(uint8_t *at, edge first, edge second) {
    const char *sequences[] = {"G", "T", "C", "A", "A"};
    const edge edges[] = {{1, 2, 1, 0}, {3, 0, 1, 0}, {4, 0, 1, 0}, first, second};
    return write_record(f, at, SEQUENCES, 10, 5, sequences, 5, edges);
}

/* A sum of exactly 2^32 - 1 is not capped, one past it is, a capped edge stays so, and a flag above 3 is refused with 5. */
static void test_capped(void) {
    const struct {
        edge first, second;
        unsigned support, flag;
    } cases[] = {
        {{1, 3, UINT32_MAX - 1, 0}, {1, 4, 1, 0}, UINT32_MAX, 0},
        {{1, 3, UINT32_MAX, 0}, {1, 4, 1, 1}, UINT32_MAX, 3},
        {{1, 3, 3, 2}, {1, 4, 4, 0}, 7, 2},
    };
    const char *sequences[] = {"T", "C", "AG"};
    for (int i = 0; i < 3; i++) {
        size_t length = joined(rec, cases[i].first, cases[i].second);
        const edge edges[] = {{0, 1, 1, 0}, {0, 2, cases[i].support, cases[i].flag}};
        size_t n = write_record(f, want, SEQUENCES, 10, 3, sequences, 2, edges);
        fill();
        sg_simplify_answer a = sg_simplify_graph(rec, length, out, ROOM, 0, table);
        assert(a.number == 0 && a.length == n);
        check_output(n);
    }
    size_t length = joined(rec, (edge){1, 3, 1, 4}, (edge){1, 4, 1, 0});
    fill();
    assert(sg_simplify_graph(rec, length, out, ROOM, 0, table).number == 5);
    check_output(0);
}

/* An answer can have more vertices than input may have: handed in again, it is refused with 3. */
static void test_answer_past_the_limits(void) {
    static const char *sequences[32768] = {"CC", "TAAAAAAAAAA", "GAAAAAAAAAA"};
    const edge edges[] = {{0, 1, 1, 0}, {0, 2, 1, 0}};
    const unsigned v = f->vertices;
    for (unsigned i = 3; i < v; i++) sequences[i] = "";
    size_t length = write_record(f, large, SEQUENCES, 10, v, sequences, 2, edges);
    sg_simplify_answer a = sg_simplify_graph(large, length, answer, ANSWER, 0, table);
    assert(a.number == 0 && a.rewrites == 1 && answer[8] + 256u * answer[9] == v + 1);
    assert(sg_simplify_graph(answer, a.length, large, LONGEST, 0, table).number == 3);
}

static void test_from_assembly_graph(void) {
    const char *kmers[] = {"CGT", "ACG", "CGA"}, *sequences[] = {"T", "ACG", "A"};
    const edge edges[] = {{1, 0, 5, 1}, {1, 2, 2, 0}}, sorted[] = {{1, 2, 2, 0}, {1, 0, 5, 1}};
    size_t length = write_record(f, rec, KMERS, 3, 3, kmers, 2, edges);
    size_t n = write_record(f, want, SEQUENCES, 3, 3, sequences, 2, sorted);
    lend(0, 0, 0, 0);
    fill();
    sg_answer a = sg_from_assembly_graph(rec, length, out, ROOM, 0, table);
    assert(a.number == 0 && a.length == n);
    check_tables(0, 1, 0, 0);
    check_output(n);
    fill();
    a = sg_from_assembly_graph(rec, length, out, n - 1, 0, table);
    assert(a.number == 11 && a.length == 0);
    a = sg_from_assembly_graph(out, 0, out + 1, 0, 0, table);
    assert(a.number == 1);
    check_tables(0, 1, 2, 0);
    check_output(0);
}

/* k-mers that do not overlap: asked by conversion alone, behind equal k-mers and before a cycle. */
static void test_overlap(void) {
    const struct {
        const char *kmers[3];
        unsigned count;
        edge only;
        uint32_t number, of_sequence;
    } cases[] = {
        {{"AA", "CC"}, 2, {0, 1, 1, 0}, 15, 0},
        {{"AA", "CC", "CC"}, 3, {0, 1, 1, 0}, 6, 6},
        {{"AC"}, 1, {0, 0, 1, 0}, 15, 7},
        {{"AA"}, 1, {0, 0, 1, 0}, 7, 7},
    };
    lend(1, 7, 8, 9);
    fill();
    for (uint32_t i = 0; i < 4; i++) {
        size_t length = write_record(f, rec, KMERS, 2, cases[i].count, cases[i].kmers, 1, &cases[i].only);
        sg_answer a = sg_from_assembly_graph(rec, length, out, ROOM, 1, table);
        assert(a.number == cases[i].number && a.length == 0);
        check_tables(1, 7, 9 + i, 9);
        uint32_t number = 99;
        sg_vertex_sequence(rec, length, 0, &number);
        assert(number == cases[i].of_sequence);
    }
    check_output(0);
}

/* Case 8 there: one vertex gains an empty second one. The diamond's rewrites are counted, though not answered. */
static void test_cleanup_seq_graph(void) {
    const char *sequences[] = {"ACGT", ""};
    const edge edges[] = {{0, 1, 0, 1}};
    size_t length = write_record(f, rec, SEQUENCES, 10, 1, sequences, 0, edges);
    size_t n = write_record(f, want, SEQUENCES, 10, 2, sequences, 1, edges);
    lend(14, 0, 0, 0);
    want[5] = 2;
    fill();
    sg_cleanup_answer a = sg_cleanup_seq_graph(rec, length, out, n, 14, table);
    assert(a.number == 0 && a.length == n && a.status == 2);
    check_tables(14, 1, 0, 0);
    check_output(n);
    fill();
    a = sg_cleanup_seq_graph(rec, length, out, n - 1, 14, table);
    assert(a.number == 11 && a.length == 0 && a.status == 0);
    rec[4] = KMERS;
    a = sg_cleanup_seq_graph(rec, length, out, ROOM, 14, table);
    assert(a.number == 2);
    check_tables(14, 1, 2, 0);
    check_output(0);
    a = sg_cleanup_seq_graph(rec, diamond(rec), out, ROOM, 14, table);
    assert(a.number == 0 && a.status == 2);
    check_tables(14, 2, 2, 3);
}

/* What leads to the reference source and from the reference sink goes; the vertices left without an edge go too. */
static void test_clean_non_ref_paths(void) {
    const char *sequences[] = {"G", "A", "C", "T"};
    const edge edges[] = {{0, 1, 3, 0}, {1, 2, 5, 1}, {2, 3, 3, 0}}, kept[] = {{0, 1, 5, 1}};
    size_t length = write_record(f, rec, SEQUENCES, 10, 4, sequences, 3, edges);
    size_t n = write_record(f, want, SEQUENCES, 10, 2, sequences + 1, 1, kept);
    lend(8, 0, 0, 0);
    fill();
    sg_answer a = sg_clean_non_ref_paths(rec, length, out, ROOM, 8, table);
    assert(a.number == 0 && a.length == n);
    check_output(n);
    fill();
    a = sg_clean_non_ref_paths(rec, length, out, n - 1, 8, table);
    assert(a.number == 11 && a.length == 0);
    a = sg_clean_non_ref_paths(rec, length - 1, out, ROOM, 8, table);
    assert(a.number == 1);
    check_tables(8, 1, 2, 0);
    check_output(0);
}

/* The string of the path 0, 1, 3 of the diamond. */
static size_t reference(uint8_t *at) {
    memcpy(at, "AACTGTT", 7);
    return 7;
}

static void test_reference_path_bytes(void) {
    size_t length = diamond(rec), n = reference(want);
    lend(2, 0, 0, 9);
    fill();
    sg_answer a = sg_reference_path_bytes(rec, length, out, n, 2, table);
    assert(a.number == 0 && a.length == n);
    check_output(n);
    fill();
    a = sg_reference_path_bytes(rec, length, out, n - 1, 2, table);
    assert(a.number == 11 && a.length == 0);
    const char *sequences[] = {"A", "C"};
    const edge edges[] = {{0, 1, 1, 0}};
    length = write_record(f, rec, SEQUENCES, 10, 2, sequences, 1, edges);
    a = sg_reference_path_bytes(rec, length, out, ROOM, 2, table);
    assert(a.number == 10);
    check_tables(2, 1, 2, 9);
    check_output(0);
}

static void test_path_bases_bytes(void) {
    const uint32_t path[] = {0, 1, 1, 3}, no_path[] = {0, 1, 2, 3};
    size_t length = diamond(rec), n = reference(want);
    lend(9, 0, 0, 9);
    fill();
    sg_answer a = sg_path_bases_bytes(rec, length, 0, path, 4, out, n, 9, table);
    assert(a.number == 0 && a.length == n);
    check_output(n);
    fill();
    a = sg_path_bases_bytes(rec, length, 0, path, 4, out, n - 1, 9, table);
    assert(a.number == 11 && a.length == 0);
    assert(sg_path_bases_bytes(rec, length, 0, no_path, 4, out, ROOM, 9, table).number == 9);
    assert(sg_path_bases_bytes(rec, length, 0, path, 3, out, ROOM, 9, table).number == 9);
    a = sg_path_bases_bytes(rec, length, 4, path, 0, out, ROOM, 9, table);
    assert(a.number == 9);
    check_tables(9, 1, 4, 9);
    check_output(0);
}

/* What a tallied call is asked: a record, an output, a caller. */
typedef struct {
    const uint8_t *record;
    size_t length;
    uint8_t *out;
    size_t room;
    uint32_t caller;
    sg_tallies *table;
} asked;

/* An answer's fields, 0 where it has fewer than five. */
typedef struct {
    uint32_t fields[5];
} told;

static told convert(asked q) {
    sg_answer a = sg_from_assembly_graph(q.record, q.length, q.out, q.room, q.caller, q.table);
    return (told){{a.number, a.length}};
}

static told simplify(asked q) {
    sg_simplify_answer a = sg_simplify_graph(q.record, q.length, q.out, q.room, q.caller, q.table);
    return (told){{a.number, a.length, a.rewrites, a.rounds, a.end}};
}

static told clean_up(asked q) {
    sg_cleanup_answer a = sg_cleanup_seq_graph(q.record, q.length, q.out, q.room, q.caller, q.table);
    return (told){{a.number, a.length, a.status}};
}

static told clean_paths(asked q) {
    sg_answer a = sg_clean_non_ref_paths(q.record, q.length, q.out, q.room, q.caller, q.table);
    return (told){{a.number, a.length}};
}

static told spell_reference(asked q) {
    sg_answer a = sg_reference_path_bytes(q.record, q.length, q.out, q.room, q.caller, q.table);
    return (told){{a.number, a.length}};
}

/* The path 0, 1, 3. */
static told spell_path(asked q) {
    const uint32_t path[] = {0, 1, 1, 3};
    sg_answer a = sg_path_bases_bytes(q.record, q.length, 0, path, 4, q.out, q.room, q.caller, q.table);
    return (told){{a.number, a.length}};
}

enum { CALLS = 6, CONVERT = 0, SPELL = 4 };

/* Each with the rewrites that it makes of its input. */
static const struct {
    told (*run)(asked);
    uint32_t rewrites;
} calls[CALLS] = {{convert, 0}, {simplify, 3}, {clean_up, 3}, {clean_paths, 0}, {spell_reference, 0}, {spell_path, 0}};

/* The call from rec to out. */
static told run(unsigned call, size_t length, size_t room, uint32_t caller, sg_tallies *t) {
    return calls[call].run((asked){rec, length, out, room, caller, t});
}

/* Writes an input that the call answers, k-mers or the diamond, to rec. */
static size_t input_of(unsigned call) {
    const char *kmers[] = {"ACG", "CGT", "CGA"};
    const edge edges[] = {{0, 1, 5, 1}, {0, 2, 2, 0}};
    return call == CONVERT ? write_record(f, rec, KMERS, 3, 3, kmers, 2, edges) : diamond(rec);
}

/* By a caller above 15: refused with 18, output and table as they were. */
static void check_stranger(unsigned call, size_t length, size_t room, uint32_t caller) {
    const told due = {{18}};
    told got = run(call, length, room, caller, table);
    assert(memcmp(&got, &due, sizeof due) == 0);
    check_tables(caller, 0, 0, 0);
    check_output(0);
}

/* On a record that would be answered; without room; cut short; without a byte; with another mark; with a self edge. */
static void check_inputs_of_stranger(unsigned call, uint32_t caller) {
    size_t length = input_of(call);
    check_stranger(call, length, ROOM, caller);
    check_stranger(call, length, 0, caller);
    check_stranger(call, length - 1, ROOM, caller);
    check_stranger(call, 0, 0, caller);
    rec[0] = 'T';
    check_stranger(call, length, ROOM, caller);
    input_of(call);
    put_edge(f, rec, call == CONVERT ? 3 : 4, 0, (edge){0, 0, 1, 0});
    check_stranger(call, length, 0, caller);
}

/* 18 comes before all else. */
static void test_callers_above_15(void) {
    const uint32_t above[] = {16, 17, 31, 256, 65536, 1u << 30, (1u << 30) + 7, 1u << 31, UINT32_MAX - 1, UINT32_MAX};
    lend(CALLERS, 0, 0, 0);
    fill();
    for (unsigned call = 0; call < CALLS; call++) {
        for (unsigned i = 0; i < sizeof above / sizeof *above; i++) check_inputs_of_stranger(call, above[i]);
    }
}

static uint32_t sum(uint32_t n, uint32_t more) { return n > UINT32_MAX - more ? UINT32_MAX : n + more; }

/* A call by a caller whose counts are all n: once answered, once refused with 1, once with 11. */
static void check_counts(unsigned call, uint32_t caller, uint32_t n) {
    size_t length = input_of(call);
    lend(caller, n, n, n);
    assert(run(call, length, ROOM, caller, table).fields[0] == 0);
    check_tables(caller, sum(n, 1), n, sum(n, calls[call].rewrites));
    lend(caller, n, n, n);
    assert(run(call, length - 1, ROOM, caller, table).fields[0] == 1);
    check_tables(caller, n, sum(n, 1), n);
    lend(caller, n, n, n);
    assert(run(call, length, 0, caller, table).fields[0] == 11);
    check_tables(caller, n, sum(n, 1), n);
}

/* Every call by every caller, from counts that it raises, that it brings to 2^32 - 1, and that stay there. */
static void test_counts(void) {
    const uint32_t before[] = {0, 5, UINT32_MAX - 4, UINT32_MAX - 3, UINT32_MAX - 2, UINT32_MAX - 1, UINT32_MAX};
    for (unsigned i = 0; i < CALLS * CALLERS; i++) {
        for (unsigned j = 0; j < sizeof before / sizeof *before; j++) check_counts(i % CALLS, i / CALLS, before[j]);
    }
}

/* A row of calls, some refused with 1 or 11: those of eight callers mixed, and of 16, which is none. */
enum { STEPS = 5 * 6 * 7 * 17 };

static uint32_t caller_of(unsigned step) { return step * step % 17; }

static void make_step(unsigned step, sg_tallies *t) {
    const unsigned cut = step % 5 == 0, no_room = step % 7 == 0;
    const size_t length = input_of(step % CALLS) - cut, room = no_room ? 0 : ROOM;
    told got = run(step % CALLS, length, room, caller_of(step), t);
    assert(got.fields[0] == (caller_of(step) == 16 ? 18u : cut ? 1u : no_room ? 11u : 0u));
}

/* Makes this caller's calls alone, and gives their number. */
static unsigned make_steps_of(uint32_t caller, sg_tallies *t) {
    unsigned count = 0;
    for (unsigned step = 0; step < STEPS; step++) {
        if (caller_of(step) == caller) {
            make_step(step, t);
            count++;
        }
    }
    return count;
}

/* What the calls of all make of a table is, for each caller, what its own calls alone make of it. */
static void test_callers_together(void) {
    const sg_tally high = {UINT32_MAX - 10, UINT32_MAX - 10, UINT32_MAX - 10};
    const sg_tallies start = {.callers = {[4] = high, [15] = {1, 2, 3}}};
    sg_tallies together = start;
    unsigned counted = 0;
    for (unsigned step = 0; step < STEPS; step++) make_step(step, &together);
    for (uint32_t caller = 0; caller < CALLERS; caller++) {
        sg_tallies alone = start, due = start;
        counted += make_steps_of(caller, &alone);
        due.callers[caller] = together.callers[caller];
        assert(memcmp(&alone, &due, sizeof due) == 0);
    }
    assert(counted == STEPS / 17 * 15);
    assert(together.callers[4].answered == UINT32_MAX && together.callers[15].rewrites > 3);
}

/* The record in large gives this number in every call that takes its kind; 8 is asked by conversion alone. */
static void check_large(unsigned kind, size_t length, uint32_t number) {
    for (unsigned call = 0; call < CALLS; call++) {
        if ((call == CONVERT) != (kind == KMERS)) continue;
        memset(answer, FILL, 4);
        told got = calls[call].run((asked){large, length, answer, ANSWER, 0, table});
        assert(got.fields[0] == number);
        if (number != 0) assert(answer[0] == FILL && answer[3] == FILL);
        else if (call < SPELL) assert(memcmp(answer, f->mark, 4) == 0);
    }
    uint32_t of_sequence = 99;
    sg_vertex_sequence(large, length, 0, &of_sequence);
    assert(of_sequence == (number == 8 ? 0 : number));
}

enum { SIDE = 256 };

/*
 * A sequence graph of v vertices and e edges, with `first` bytes in vertex 0 and one in each other. 0, 1, 3 is the reference;
 * behind it the other edges lead from SIDE vertices to SIDE others.
 */
static size_t large_graph(unsigned v, unsigned e, unsigned first) {
    uint8_t *bytes = large + bytes_at(f, v, e);
    const unsigned b = first + v - 1;
    put_header(f, large, SEQUENCES, 10, v, e, b);
    memset(bytes, 'A', b);
    for (unsigned i = 0; i < v; i++) put_length(f, large, i, i == 0 ? first : 1);
    put_edge(f, large, v, 0, (edge){0, 1, 1, 1});
    put_edge(f, large, v, 1, (edge){1, 3, 1, 1});
    for (unsigned i = 0; i + 2 < e; i++) put_edge(f, large, v, i + 2, (edge){4 + i / SIDE, 4 + SIDE + i % SIDE, 1, 0});
    return bytes_at(f, v, e) + b;
}

/* Each count at its limit, in one record; then each one past it. SGR2's limits are past those of SGR1. */
static void test_limits(void) {
    const unsigned v = f->vertices, e = f->edges, b = f->bytes;
    size_t length = large_graph(v, e, b - v + 1);
    assert(length == LONGEST || (f == &SGR1 && length == 49184));
    check_large(SEQUENCES, length, 0);
    check_large(SEQUENCES, large_graph(v + 1, 2, 1), 3);
    check_large(SEQUENCES, large_graph(4 + 2 * SIDE, e + 1, 1), 3);
    check_large(SEQUENCES, large_graph(4, 2, b - 2), 3);
    const struct {
        unsigned k;
        uint32_t number;
    } sizes[] = {{0, 3}, {1, 3}, {2, 0}, {128, 0}, {129, 3}, {65535, 3}};
    for (int i = 0; i < 6; i++) {
        length = diamond(large);
        put(large + 6, 2, sizes[i].k);
        check_large(SEQUENCES, length, sizes[i].number);
    }
}

/* v k-mers of three bytes; the e edges lead from SIDE of them to SIDE others, and overlap. */
static size_t large_kmers(unsigned v, unsigned e) {
    uint8_t *bytes = large + bytes_at(f, v, e);
    put_header(f, large, KMERS, 3, v, e, 3 * v);
    for (unsigned i = 0; i < v; i++) {
        /* x 254 255 before 254 255 y; those without an edge are numbers, with 0 behind two bytes */
        const unsigned from = i + (254 << 8) + (255 << 16), to = 254 + (255 << 8) + ((i - SIDE) << 16);
        put_length(f, large, i, 3);
        put(bytes + 3 * i, 3, i < SIDE ? from : i < 2 * SIDE ? to : i);
    }
    for (unsigned i = 0; i < e; i++) put_edge(f, large, v, i, (edge){i / SIDE, SIDE + i % SIDE, 1, 0});
    return bytes_at(f, v, e) + 3 * v;
}

/* k-mers of 128 bytes whose conversion has so many: 128 of each source, one of each follower of the first source. */
static size_t kmers_making(unsigned total) {
    const unsigned k = 128, sources = total / k - 1, e = total - k * sources, v = sources + e;
    uint8_t *bytes = large + bytes_at(f, v, e);
    put_header(f, large, KMERS, k, v, e, k * v);
    memset(bytes, 'C', k * v);
    for (unsigned i = 0; i < v; i++) put_length(f, large, i, k);
    bytes[0] = 'A';
    for (unsigned i = 1; i < sources; i++) put(bytes + k * i, 3, i + ('G' << 16));
    for (unsigned i = 0; i < e; i++) {
        bytes[k * (sources + i) + k - 1] = (uint8_t)i;
        put_edge(f, large, v, i, (edge){0, sources + i, 1, 0});
    }
    return bytes_at(f, v, e) + k * v;
}

/* The same of k-mers; and as many bytes as a conversion may give, and one more. */
static void test_kmer_limits(void) {
    const unsigned v = f->vertices, e = f->edges;
    check_large(KMERS, large_kmers(v, e), 0);
    check_large(KMERS, large_kmers(v + 1, e), 3);
    check_large(KMERS, large_kmers(v, e + 1), 3);
    check_large(KMERS, kmers_making(f->bytes), 0);
    check_large(KMERS, kmers_making(f->bytes + 1), 8);
}

/* The diamond with a header's four-byte field of another value. */
static void check_field(unsigned at, uint32_t value, uint32_t number) {
    size_t length = diamond(large);
    put(large + at, 4, value);
    check_large(SEQUENCES, length, number);
}

/* One off in the count of bytes, in each offset, and in the whole length. */
static void test_layout(void) {
    const unsigned at = byte_count_at(f), length = (unsigned)diamond(large);
    const uint32_t due[] = {10, f->header, edges_at(f, 4), bytes_at(f, 4, 4), length};
    for (unsigned i = 0; i < 5; i++) {
        check_field(at + 4 * i, due[i] + 1, i < 4 ? 4 : 1);
        check_field(at + 4 * i, due[i] - 1, i < 4 ? 4 : 1);
    }
}

/* A record that begins SGR2 is judged as SGR2, and every other one as SGR1, whatever stands behind. */
static void test_marks(void) {
    const struct {
        const form *written;
        const char *mark;
        bool at_28; /* the length stands where SGR1 has it */
        uint32_t number;
    } cases[] = {
        {&SGR2, "SGR3", false, 1}, {&SGR2, "SGR3", true, 2}, {&SGR2, "sgr2", true, 2},  {&SGR2, "TGR2", true, 2},
        {&SGR2, "SGR1", false, 1}, {&SGR2, "SGR1", true, 4}, {&SGR1, "SGR2", false, 1}, {&SGR1, "SGR3", false, 2},
    };
    for (int i = 0; i < 8; i++) {
        f = cases[i].written;
        size_t length = diamond(large);
        memcpy(large, cases[i].mark, 4);
        if (cases[i].at_28) put(large + 28, 4, (uint32_t)length);
        check_large(SEQUENCES, length, cases[i].number);
    }
}

/* A record that begins SGR2 has at least 36 bytes. 32 would be enough for SGR1, and state their length where SGR1 does. */
static void test_shortest(void) {
    for (unsigned n = 0; n < 36; n++) {
        put_header(&SGR2, large, SEQUENCES, 10, 0, 0, 0);
        put(large + 28, 4, n);
        check_large(SEQUENCES, n, 1);
    }
    put_header(&SGR2, large, SEQUENCES, 10, 0, 0, 0);
    sg_simplify_answer a = sg_simplify_graph(large, 36, answer, 36, 0, table);
    assert(a.number == 0 && a.length == 36 && a.rewrites == 0 && a.rounds == 1 && a.end == 1);
    assert(memcmp(answer, large, 36) == 0);
}

/* Counts and lengths of SGR2 go up to 2^32 - 1. These would be right, or fit, in sums that wrap at 32 bits. */
static void test_sums(void) {
    f = &SGR2;
    check_field(8, 4 + (1u << 30), 3);
    check_field(8, UINT32_MAX, 3);
    check_field(12, UINT32_MAX, 3);
    check_field(16, UINT32_MAX, 3);
    size_t length = diamond(large);
    put_length(f, large, 0, UINT32_MAX);
    put_length(f, large, 1, 6);
    check_large(SEQUENCES, length, 4);
}

static void test_form(const form *of) {
    f = of;
    test_vertex_sequence();
    test_from_assembly_graph();
    test_overlap();
    test_simplify_graph();
    test_capped();
    test_answer_past_the_limits();
    test_cleanup_seq_graph();
    test_clean_non_ref_paths();
    test_reference_path_bytes();
    test_path_bases_bytes();
    test_callers_above_15();
    test_counts();
    test_callers_together();
    test_limits();
    test_kmer_limits();
    test_layout();
}

static void *run_tests(void *unused) {
    test_form(&SGR1);
    test_form(&SGR2);
    test_marks();
    test_shortest();
    test_sums();
    return unused;
}

/* On a thread of 32 MiB, which is enough for every record. */
int main(void) {
    pthread_attr_t attr;
    pthread_t thread;
    assert(pthread_attr_init(&attr) == 0 && pthread_attr_setstacksize(&attr, STACK) == 0);
    assert(pthread_create(&thread, &attr, run_tests, NULL) == 0 && pthread_join(thread, NULL) == 0);
    puts("C: each call answered, refused and counted as it must, on records SGR1 and SGR2");
    return 0;
}
