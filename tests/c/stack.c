/*
 * How much stack each call takes, by the class of its record: the sizes that include/seq_graph.h promises.
 *
 * A call has its arrays on the stack, as long as the class of its record needs. The proofs do not say that the compiler keeps the
 * classes apart: if it gives them one frame, a small record takes as much as the largest, and every answer is still right. So each call
 * runs here on the last records of each class and the first of the next, in both forms, at the limits, and refused.
 *
 * The stack is this program's own memory: as much as is admitted and what a thread needs for itself, below it a page that
 * faults. It was filled beforehand, and what is not as it was filled was touched. Each call runs in a process of its own: one that
 * takes more than is admitted is told, and the others still run.
 */
#undef NDEBUG
#define _GNU_SOURCE
#include "../../include/seq_graph.h"
#include "records.h"
#include <assert.h>
#include <pthread.h>
#include <signal.h>
#include <stdbool.h>
#include <stdio.h>
#include <sys/mman.h>
#include <sys/resource.h>
#include <sys/wait.h>
#include <unistd.h>

/*
 * The most bytes of stack that are admitted, from the frame that makes the call downwards. Each is the sum of the call's arrays, then
 * room for what the functions below take and for the C library's own work at a first call, up to a round number. Each is far below that
 * of the next class, so that frames that were merged are found.
 */
enum {
    SMALL_REWRITING = 128 << 10, /* simplification and cleanup */
    MEDIUM_REWRITING = 288 << 10,
    LARGE_REWRITING = 1536 << 10,
    HUGE_REWRITING = 7680 << 10,
    VAST_REWRITING = 22528 << 10,
    SMALL_READING = 32 << 10, /* the calls that do not rewrite, and vertex_sequence */
    LARGE_READING = 192 << 10,
    VAST_READING = 2560 << 10,
    SMALL_CONVERSION = 48 << 10,
    LARGE_CONVERSION = 256 << 10,
    VAST_CONVERSION = 4096 << 10,
    /* What a thread needs for itself, above the call: its own fields, those of the C library, its start and its end. */
    THREAD = 16 << 10,
};

/*
 * The classes. A record of at most SHORT bytes is small, whatever it says. A longer one goes by the counts of its header, which is read
 * in the record's own form: as SGR2 if it begins so, and else as SGR1.
 *
 * Simplification and cleanup take two sums, vertices + bytes and edges + bytes / 4. They are small up to 1,023 and 256, medium up to
 * 2,047 and 1,024. Then a record that does not begin SGR2 is large. One that does is large up to 10,240 and 6,144; huge up to 65,535 and
 * 16,384, or if it has at most MIDDLING bytes, whatever it says; else vast.
 *
 * For the other calls a record is small up to 512 vertices and 512 edges. Then one that does not begin SGR2 is large; one that does is
 * large up to 2,048 and 4,096, and else vast.
 */
typedef enum { SMALL, MEDIUM, LARGE, HUGE, VAST, CLASSES } class;

static const char *const class_names[] = {"small", "medium", "large", "huge", "vast"};

enum { SHORT = 1024, MIDDLING = 65536 };

/* Threads that must be enough: for small records, for those within SGR1's limits in either form, for those of MIDDLING bytes, for all. */
enum { OF_SMALL = 256 << 10, OF_LARGE = 2 << 20, OF_HUGE = 8 << 20, OF_ALL = 32 << 20 };

_Static_assert(SMALL_REWRITING + THREAD <= OF_SMALL && LARGE_REWRITING + THREAD <= OF_LARGE, "a thread for each class");
_Static_assert(HUGE_REWRITING + THREAD <= OF_HUGE && VAST_REWRITING + THREAD <= OF_ALL, "a thread for each class");
_Static_assert(VAST_READING + THREAD <= OF_HUGE && VAST_CONVERSION + THREAD <= OF_HUGE, "a record of MIDDLING bytes can be vast");

enum { WIDE = 40 << 20, PAGE = 4096, FILL = 0x5A, ROOM = 4194340, MOST = 1 << 20 };

enum { VERTICES = 32768, SIDE = 256, K = 128, EACH = 5, CALLER = 15, STRANGER = 16 };

/* The form of the records at hand; the record, its counts, and the list of edges of a path in it. The longest has k-mers at the limits. */
static const form *f;
static uint8_t rec[36 + 4 * VERTICES + 13 * SIDE * SIDE + K * VERTICES];
static size_t length, steps;
static struct {
    unsigned vertices, edges, bytes;
} counts;
static uint32_t path[2 * VERTICES];

/* Memory that a call's process and this one both see. Below the stack a page that faults, and below that as much again as a stack. */
static struct {
    size_t used;
    uint32_t number;
    sg_tallies table;
    uint8_t out[ROOM];
} *shared;
static uint8_t *below, *stack;

/* Byte i of a text of two-byte numbers that rise by one: no four bytes in a row come twice. */
static uint8_t text(unsigned i) { return (uint8_t)(i % 2 ? i / 2 : i / 512); }

/* Vertices of this many bytes; each begins one byte further on in the text, so that all differ and k-mers of a chain overlap. */
static void put_vertices(unsigned kind, unsigned k, unsigned v, unsigned e, unsigned each) {
    uint8_t *bytes = rec + bytes_at(f, v, e);
    put_header(f, rec, kind, k, v, e, v * each);
    length = bytes_at(f, v, e) + v * each;
    assert(length <= sizeof rec);
    counts.vertices = v, counts.edges = e, counts.bytes = v * each;
    for (unsigned i = 0; i < v; i++) {
        put_length(f, rec, i, each);
        for (unsigned j = 0; j < each; j++) bytes[each * i + j] = text(i + j);
    }
}

/* A chain along the first e + 1 of v vertices; the path is the whole chain. */
static void chain(unsigned kind, unsigned v, unsigned e, unsigned each) {
    put_vertices(kind, kind == KMERS ? each : K, v, e, each);
    for (unsigned i = 0; i < e; i++) put_edge(f, rec, v, i, (edge){i, i + 1, 1, 1});
    for (unsigned i = 0; i < 2 * e; i++) path[i] = (i + 1) / 2;
    steps = 2 * e;
}

/* A chain whose record has exactly this many bytes, some of its vertices without an edge. */
static void chain_of_length(unsigned kind, unsigned wanted) {
    const unsigned rest = wanted - f->header, of_vertex = f->word + EACH, of_edge = edge_size(f);
    unsigned v = 1;
    while (of_vertex * v + of_edge * (v - 1) < rest || (rest - of_vertex * v) % of_edge != 0) v++;
    chain(kind, v, (rest - of_vertex * v) / of_edge, EACH);
    assert(length == wanted);
}

/* A chain of as many vertices as a record of this form may have, of as many bytes. */
static void longest_chain(const form *limits, unsigned kind) {
    chain(kind, limits->vertices, limits->vertices - 1, kind == KMERS ? K : 4);
}

/* Of v vertices each of the first `left` leads to each of the next `right`, and the others have no edge. K-mers of three bytes overlap. */
static void grid(unsigned kind, unsigned v, unsigned left, unsigned right) {
    const unsigned e = left * right, each = kind == KMERS ? 3 : 4;
    assert(left <= SIDE && right <= SIDE);
    put_vertices(kind, kind == KMERS ? 3 : K, v, e, each);
    uint8_t *bytes = rec + bytes_at(f, v, e);
    for (unsigned i = 0; i < v; i++) {
        /* x 254 255 before 254 255 y; the others are numbers, with 0 behind two bytes */
        const unsigned from = i + (254 << 8) + (255 << 16), to = 254 + (255 << 8) + ((i - left) << 16);
        put(bytes + each * i, each, i < left ? from : i < left + right ? to : i);
    }
    for (unsigned i = 0; i < e; i++) put_edge(f, rec, v, i, (edge){i / right, left + i % right, 1, i == 0});
    path[0] = 0, path[1] = left, steps = 2;
}

/* As many vertices and edges as a record of this form may have, and sequences of as many bytes. */
static void most_edges(const form *limits, unsigned kind) {
    const unsigned side = limits == &SGR1 ? 64 : SIDE;
    grid(kind, limits->vertices, side, side);
    assert(counts.edges == limits->edges && (kind == KMERS || counts.bytes == limits->bytes));
}

/* Bytes that are no record, behind these four. */
static void garbage(const char *mark, size_t wanted) {
    uint32_t x = 1;
    for (size_t i = 0; i < wanted; i++) rec[i] = (uint8_t)((x = 1664525 * x + 1013904223) >> 24);
    memcpy(rec, mark, 4);
    length = wanted;
}

/* Zeros behind the mark, as long as garbage is: no record, and counts of 0. */
static void zeros(const char *mark) {
    memset(rec, 0, MOST);
    memcpy(rec, mark, 4);
    length = MOST;
}

/* A header that has the kind wanted and its own length, and counts as large as they can be. */
static void absurd(unsigned kind, unsigned wanted) {
    put_header(f, rec, kind, K, 0xFFFFFFFF, 0xFFFFFFFF, 0xFFFFFFFF);
    put(rec + whole_at(f), 4, wanted);
    length = wanted;
}

static uint32_t vertex_sequence(uint32_t unused) {
    uint32_t number = 99;
    (void)unused;
    sg_vertex_sequence(rec, length, 0, &number);
    return number;
}

static uint32_t from_assembly_graph(uint32_t caller) {
    return sg_from_assembly_graph(rec, length, shared->out, ROOM, caller, &shared->table).number;
}

static uint32_t simplify_graph(uint32_t caller) {
    return sg_simplify_graph(rec, length, shared->out, ROOM, caller, &shared->table).number;
}

static uint32_t cleanup_seq_graph(uint32_t caller) {
    return sg_cleanup_seq_graph(rec, length, shared->out, ROOM, caller, &shared->table).number;
}

static uint32_t clean_non_ref_paths(uint32_t caller) {
    return sg_clean_non_ref_paths(rec, length, shared->out, ROOM, caller, &shared->table).number;
}

static uint32_t reference_path_bytes(uint32_t caller) {
    return sg_reference_path_bytes(rec, length, shared->out, ROOM, caller, &shared->table).number;
}

static uint32_t path_bases_bytes(uint32_t caller) {
    return sg_path_bases_bytes(rec, length, 0, path, steps, shared->out, ROOM, caller, &shared->table).number;
}

/* No call: the least that a thread touches. */
static uint32_t nothing(uint32_t unused) { return unused; }

enum { KNOWN = 64 << 10 };

/* Takes a stack that is known, to measure the measure; from the top down, so that it does not step over the page that faults. */
static uint32_t something(uint32_t unused) {
    volatile uint8_t bytes[KNOWN];
    for (size_t i = KNOWN; i > 0; i--) bytes[i - 1] = 0;
    return unused + bytes[KNOWN / 2];
}

typedef uint32_t (*work)(uint32_t caller);

/* What is admitted for each class; none for a class that the call does not have. */
typedef struct {
    size_t of[CLASSES];
} allowance;

static const allowance reading = {{SMALL_READING, 0, LARGE_READING, 0, VAST_READING}};
static const allowance conversion = {{SMALL_CONVERSION, 0, LARGE_CONVERSION, 0, VAST_CONVERSION}};
static const allowance rewriting = {{SMALL_REWRITING, MEDIUM_REWRITING, LARGE_REWRITING, HUGE_REWRITING, VAST_REWRITING}};

typedef struct {
    const char *name;
    unsigned kind;
    const allowance *admitted;
    work run;
} call;

static const call calls[] = {
    {"vertex_sequence", SEQUENCES, &reading, vertex_sequence},
    {"vertex_sequence of k-mers", KMERS, &reading, vertex_sequence},
    {"from_assembly_graph", KMERS, &conversion, from_assembly_graph},
    {"simplify_graph", SEQUENCES, &rewriting, simplify_graph},
    {"cleanup_seq_graph", SEQUENCES, &rewriting, cleanup_seq_graph},
    {"clean_non_ref_paths", SEQUENCES, &reading, clean_non_ref_paths},
    {"reference_path_bytes", SEQUENCES, &reading, reference_path_bytes},
    {"path_bases_bytes", SEQUENCES, &reading, path_bases_bytes},
};

enum { COUNT = sizeof calls / sizeof *calls };

static bool rewrites(const call *c) { return c->admitted == &rewriting; }

/* What the thread runs, and the frame from which it makes the call. */
static work running;
static uint32_t running_caller;
static uint8_t *frame;

static void *begin(void *unused) {
    frame = __builtin_frame_address(0);
    shared->number = running(running_caller);
    return unused;
}

static size_t touched_above(const uint8_t *top, size_t size) {
    size_t untouched = 0;
    while (untouched < size && stack[untouched] == FILL) untouched++;
    return (size_t)(top - stack) - untouched;
}

static void run_thread(const pthread_attr_t *attr) {
    pthread_t thread;
    assert(pthread_create(&thread, attr, begin, NULL) == 0 && pthread_join(thread, NULL) == 0);
}

/* In a process of its own: the call on a thread of this stack. */
static void run_measured(size_t size) {
    pthread_attr_t attr;
    assert(pthread_attr_init(&attr) == 0 && pthread_attr_setstack(&attr, stack, size) == 0);
    run_thread(&attr);
    shared->used = touched_above(running == nothing ? stack + size : frame, size);
    _exit(0);
}

/* The same on a thread whose stack the system makes. */
static void run_ordinary(size_t size) {
    pthread_attr_t attr;
    assert(pthread_attr_init(&attr) == 0 && pthread_attr_setstacksize(&attr, size) == 0);
    run_thread(&attr);
    _exit(0);
}

/* Runs it in a process of its own; false where the stack did not suffice. */
static bool ends(void (*start)(size_t), work run, uint32_t caller, size_t size) {
    int status;
    running = run, running_caller = caller;
    pid_t child = fork();
    assert(child >= 0);
    if (child == 0) start(size);
    assert(waitpid(child, &status, 0) == child);
    if (WIFSIGNALED(status) && WTERMSIG(status) == SIGSEGV) return false;
    assert(WIFEXITED(status) && WEXITSTATUS(status) == 0);
    return true;
}

static bool runs(work run, uint32_t caller, size_t size) {
    memset(stack, FILL, size);
    return ends(run_measured, run, caller, size);
}

static unsigned failed;

/* One line of the table: more than `least` is touched, and at most what is admitted. */
static void check(const call *c, const char *what, size_t admitted, size_t least, uint32_t caller, uint32_t number) {
    const bool enough = runs(c->run, caller, admitted + THREAD);
    /* only to tell how much more it takes */
    if (!enough) assert(runs(c->run, caller, WIDE));
    const bool good = enough && least < shared->used && shared->used <= admitted;
    printf("stack: %8zu of %8zu bytes in %s, %s%s\n", shared->used, admitted, c->name, what, good ? "" : ": FAILED");
    assert(shared->number == number);
    failed += !good;
}

/* What is admitted for the class below this one, which is not the small one; a record of this class touches more. */
static size_t admitted_below(const call *c, class of) {
    do of--;
    while (c->admitted->of[of] == 0);
    return c->admitted->of[of];
}

/* The counts of the record that was made last. */
static const char *counted(const char *before) {
    static char line[160];
    snprintf(line, sizeof line, "%s %s: %u vertices, %u edges, %u bytes; %zu in all", f->mark, before, counts.vertices, counts.edges,
             counts.bytes, length);
    return line;
}

/* The record that was made last is accepted, and in this class. It touches more than is admitted for the class below: else its arrays
 * were not those of its class, or nothing was measured. */
static void check_graph(const call *c, class of) {
    check(c, counted(class_names[of]), c->admitted->of[of], of == SMALL ? 0 : admitted_below(c, of), CALLER, 0);
}

/* Small by the length; then one byte too long for that, and small by the counts. */
static void check_lengths(const call *c) {
    const unsigned shortest = bytes_at(f, 2, 1) + 2 * EACH, lengths[] = {shortest, SHORT, SHORT + 1};
    for (size_t i = 0; i < sizeof lengths / sizeof *lengths; i++) {
        chain_of_length(c->kind, lengths[i]);
        check_graph(c, SMALL);
    }
}

/* Records at the limits of one form, written in the one at hand. At those of SGR1 stand the last large records. */
static void check_limits(const call *c, const form *limits, class of) {
    longest_chain(limits, c->kind);
    check_graph(c, of);
    most_edges(limits, c->kind);
    check_graph(c, of);
}

/* A record too long to be small by its length, with these counts. */
static void check_counted(const call *c, unsigned vertices, unsigned edges, class of) {
    assert(SHORT < length && counts.vertices == vertices && counts.edges == edges);
    check_graph(c, of);
}

/* Where a call reads: the last of a class; then one vertex too many, then one edge. */
static void check_counts(const call *c) {
    grid(c->kind, 512, 16, 32);
    check_counted(c, 512, 512, SMALL);
    chain(c->kind, 513, 512, EACH);
    check_counted(c, 513, 512, LARGE);
    grid(c->kind, 512, 19, 27);
    check_counted(c, 512, 513, LARGE);
    check_limits(c, &SGR1, LARGE);
    if (f == &SGR1) return;
    grid(c->kind, 2049, 64, 64);
    check_counted(c, 2049, 4096, VAST);
    grid(c->kind, 2048, 17, 241);
    check_counted(c, 2048, 4097, VAST);
}

/* A record too long to be small by its length, with these sums: vertices + bytes, edges + bytes / 4. */
static void check_summed(const call *c, unsigned with_bytes, unsigned with_quarter, class of) {
    assert(SHORT < length && counts.vertices + counts.bytes == with_bytes && counts.edges + counts.bytes / 4 == with_quarter);
    check_graph(c, of);
}

static void check_chain(const call *c, unsigned v, unsigned e, unsigned each, unsigned with_bytes, unsigned with_quarter, class of) {
    chain(c->kind, v, e, each);
    check_summed(c, with_bytes, with_quarter, of);
}

/* Where a call rewrites: the last of a class, by each sum; then each sum one too large, and not the other. */
static void check_sums(const call *c) {
    check_chain(c, 341, 86, 2, 1023, 256, SMALL);
    check_chain(c, 206, 205, 1, 412, 256, SMALL);
    check_chain(c, 256, 64, 3, 1024, 256, MEDIUM);
    check_chain(c, 341, 87, 2, 1023, 257, MEDIUM);
    check_chain(c, 23, 22, 88, 2047, 528, MEDIUM);
    check_chain(c, 1023, 769, 1, 2046, 1024, MEDIUM);
    check_chain(c, 1024, 768, 1, 2048, 1024, LARGE);
    check_chain(c, 1023, 770, 1, 2046, 1025, LARGE);
    check_limits(c, &SGR1, LARGE);
    if (f == &SGR1) return;
    check_chain(c, 539, 538, 18, 10241, 2963, HUGE);
    grid(c->kind, 2048, 17, 241);
    check_summed(c, 10240, 6145, HUGE);
    check_chain(c, 255, 64, 256, 65535, 16384, HUGE);
    check_chain(c, 256, 64, 255, 65536, 16384, VAST);
    check_chain(c, 255, 65, 256, 65535, 16385, VAST);
}

/* Refused, and in this class at most. */
static void check_refused(const call *c, const char *what, class at_most, uint32_t number) {
    check(c, what, c->admitted->of[at_most], 0, CALLER, number);
}

/* Bytes that are no record: the length decides the arrays, and what stands where counts would. */
static void check_garbage(const call *c) {
    garbage("none", SHORT);
    check_refused(c, "1,024 bytes that are no record", SMALL, 1);
    garbage("SGR2", SHORT);
    check_refused(c, "1,024 bytes that are no record and begin SGR2", SMALL, 1);
    zeros("none");
    check_refused(c, "2^20 bytes that are no record, counts of 0", SMALL, 1);
    zeros("SGR2");
    check_refused(c, "2^20 bytes that are no record and begin SGR2, counts of 0", SMALL, 1);
    garbage("none", MOST);
    check_refused(c, "2^20 bytes that are no record, counts past every limit", LARGE, 1);
    garbage("SGR1", MOST);
    check_refused(c, "2^20 bytes that are no record and begin SGR1, counts past every limit", LARGE, 1);
    garbage("SGR2", MOST);
    check_refused(c, "2^20 bytes that are no record and begin SGR2, counts past every limit", VAST, 1);
}

/* Counts as large as they can be, whose sums would wrap at 32 bits, in records of this many bytes. */
static void check_absurd(const call *c, unsigned wanted, class at_most) {
    char what[80];
    absurd(c->kind, wanted);
    snprintf(what, sizeof what, "%s, %u bytes, counts as large as they can be", f->mark, wanted);
    check_refused(c, what, at_most, 3);
}

/* A caller above 15 is refused before the record is looked at. */
static void check_stranger(const call *c) {
    if (c->run == vertex_sequence) return;
    most_edges(f, c->kind);
    check(c, counted("by a caller above 15"), c->admitted->of[SMALL], 0, STRANGER, 18);
}

/* What is tested in either form. */
static void check_form(const call *c) {
    check_lengths(c);
    if (rewrites(c)) check_sums(c);
    else check_counts(c);
    check_absurd(c, SHORT, SMALL);
    check_stranger(c);
}

static void check_call(const call *c) {
    f = &SGR1;
    check_form(c);
    check_absurd(c, SHORT + 1, LARGE);
    f = &SGR2;
    check_form(c);
    check_limits(c, &SGR2, VAST);
    check_absurd(c, SHORT + 1, rewrites(c) ? HUGE : VAST);
    check_absurd(c, MIDDLING, rewrites(c) ? HUGE : VAST);
    check_absurd(c, MIDDLING + 1, VAST);
    check_garbage(c);
}

/* What a thread takes by itself is within the allowance, and what is known to be taken is measured. */
static void check_measure(void) {
    assert(runs(nothing, 0, THREAD + PAGE));
    printf("stack: %8zu of %8d bytes in a thread by itself\n", shared->used, THREAD);
    assert(shared->used <= THREAD);
    assert(runs(something, 0, KNOWN + THREAD));
    assert(KNOWN <= shared->used && shared->used < KNOWN + PAGE);
    assert(!runs(something, 0, KNOWN));
    assert(!ends(run_ordinary, something, 0, KNOWN));
}

/* The record that was made last is accepted on a thread of this size as the system makes it. */
static void check_thread(const call *c, size_t size) {
    shared->number = 99;
    const bool good = ends(run_ordinary, c->run, CALLER, size) && shared->number == 0;
    printf("stack: a thread of %zu is %s for %s, %s\n", size, good ? "enough" : "NOT ENOUGH", c->name, counted("record"));
    failed += !good;
}

static void check_threads(const call *c) {
    const form *const forms[] = {&SGR1, &SGR2};
    for (int i = 0; i < 2; i++) {
        f = forms[i];
        chain_of_length(c->kind, SHORT);
        check_thread(c, OF_SMALL);
        longest_chain(&SGR1, c->kind);
        check_thread(c, OF_LARGE);
        most_edges(&SGR1, c->kind);
        check_thread(c, OF_LARGE);
    }
    chain_of_length(c->kind, MIDDLING);
    check_thread(c, OF_HUGE);
    longest_chain(&SGR2, c->kind);
    check_thread(c, OF_ALL);
    most_edges(&SGR2, c->kind);
    check_thread(c, OF_ALL);
}

static bool is_filled(const uint8_t *bytes, size_t n) { return bytes[0] == FILL && memcmp(bytes, bytes + 1, n - 1) == 0; }

/*
 * Where the arrays of the record that was made last do not fit, the process ends at the page below the stack. Nothing was written
 * before: not to the output, not to the table, and nothing below that page, which a large frame must not step over.
 */
static void check_too_small(const call *c, size_t size) {
    const sg_tallies before = shared->table;
    memset(shared->out, FILL, ROOM);
    memset(below, FILL, WIDE);
    assert(!runs(c->run, CALLER, size));
    assert(is_filled(shared->out, ROOM) && memcmp(&before, &shared->table, sizeof before) == 0);
    assert(is_filled(below, WIDE));
    printf("stack: %8zu bytes are too few in %s, %s; nothing was written\n", size, c->name, counted("record"));
}

/* On what is admitted for each class below that of the record. */
static void check_below(const call *c, class of) {
    for (class lower = SMALL; lower < of; lower++) {
        if (c->admitted->of[lower] != 0) check_too_small(c, c->admitted->of[lower] + THREAD);
    }
}

static void check_all_too_small(const call *c) {
    f = &SGR1;
    longest_chain(&SGR1, c->kind);
    check_below(c, LARGE);
    f = &SGR2;
    longest_chain(&SGR2, c->kind);
    check_below(c, VAST);
}

static uint8_t *map(size_t size) {
    void *memory = mmap(NULL, size, PROT_READ | PROT_WRITE, MAP_SHARED | MAP_ANONYMOUS, -1, 0);
    assert(memory != MAP_FAILED);
    return memory;
}

int main(void) {
    const struct rlimit none = {0, 0};
    assert(setrlimit(RLIMIT_CORE, &none) == 0); /* processes end by a fault here, and leave no file */
    setvbuf(stdout, NULL, _IOLBF, 0);
    shared = (void *)map(sizeof *shared);
    below = map(WIDE + PAGE + WIDE);
    stack = below + WIDE + PAGE;
    assert(mprotect(below + WIDE, PAGE, PROT_NONE) == 0);
    check_measure();
    for (size_t i = 0; i < COUNT; i++) check_call(&calls[i]);
    for (size_t i = 0; i < COUNT; i++) check_threads(&calls[i]);
    for (size_t i = 0; i < COUNT; i++) check_all_too_small(&calls[i]);
    if (failed != 0) printf("stack: %u lines FAILED\n", failed);
    return failed != 0;
}
