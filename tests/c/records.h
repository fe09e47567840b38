/* Records for the tests, in both forms, written field by field. */
#ifndef RECORDS_H
#define RECORDS_H

#include <stddef.h>
#include <stdint.h>
#include <string.h>

enum { KMERS = 0, SEQUENCES = 1 };

/*
 * What differs between the forms: the mark; the bytes of the header, behind which the lengths stand; the bytes of a word, which
 * is a count of vertices or edges, a length or an end of an edge; the most vertices, edges and sequence bytes of a record handed
 * in.
 */
typedef struct {
    const char *mark;
    unsigned header, word;
    unsigned vertices, edges, bytes;
} form;

static const form SGR1 = {"SGR1", 32, 2, 2048, 4096, 8192};
static const form SGR2 = {"SGR2", 36, 4, 32768, 65536, 131072};

typedef struct {
    unsigned from, to, support, flag;
} edge;

static inline void put(uint8_t *at, unsigned bytes, uint32_t value) {
    for (unsigned i = 0; i < bytes; i++) at[i] = (uint8_t)(value >> (8 * i));
}

/* An edge: two words, support in four bytes, flag in one. */
static inline unsigned edge_size(const form *f) { return 2 * f->word + 5; }

static inline unsigned edges_at(const form *f, unsigned v) { return f->header + f->word * v; }

static inline unsigned bytes_at(const form *f, unsigned v, unsigned e) { return edges_at(f, v) + edge_size(f) * e; }

/* Where the header has the count of sequence bytes: behind two counts. */
static inline unsigned byte_count_at(const form *f) { return 8 + 2 * f->word; }

/* Where the header has the whole length, its last field. */
static inline unsigned whole_at(const form *f) { return f->header - 4; }

static inline void put_header(const form *f, uint8_t *rec, unsigned kind, unsigned k, unsigned v, unsigned e,
                              unsigned b) {
    const uint32_t behind_counts[] = {b, f->header, edges_at(f, v), bytes_at(f, v, e), bytes_at(f, v, e) + b};
    memcpy(rec, f->mark, 4);
    put(rec + 4, 1, kind);
    put(rec + 5, 1, 0);
    put(rec + 6, 2, k);
    put(rec + 8, f->word, v);
    put(rec + 8 + f->word, f->word, e);
    for (unsigned i = 0; i < 5; i++) put(rec + byte_count_at(f) + 4 * i, 4, behind_counts[i]);
}

static inline void put_length(const form *f, uint8_t *rec, unsigned i, unsigned length) {
    put(rec + edges_at(f, i), f->word, length);
}

static inline void put_edge(const form *f, uint8_t *rec, unsigned v, unsigned i, edge x) {
    uint8_t *at = rec + bytes_at(f, v, i);
    put(at, f->word, x.from);
    put(at + f->word, f->word, x.to);
    put(at + 2 * f->word, 4, x.support);
    put(at + 2 * f->word + 4, 1, x.flag);
}

/* Writes the record of a graph to rec, which has room, and gives its length. */
static inline size_t write_record(const form *f, uint8_t *rec, unsigned kind, unsigned k, unsigned v,
                                  const char *const *sequences, unsigned e, const edge *edges) {
    uint8_t *bytes = rec + bytes_at(f, v, e);
    unsigned b = 0;
    for (unsigned i = 0; i < v; i++) {
        unsigned n = (unsigned)strlen(sequences[i]);
        put_length(f, rec, i, n);
        memcpy(bytes + b, sequences[i], n);
        b += n;
    }
    put_header(f, rec, kind, k, v, e, b);
    for (unsigned i = 0; i < e; i++) put_edge(f, rec, v, i, edges[i]);
    return bytes_at(f, v, e) + b;
}

#endif
