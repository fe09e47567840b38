/*
 * How long a record's checks take (refusals 1 to 7, by the call for a vertex's sequence), against reading its bytes once: records at the limits
 * of both kinds and both forms, and 2^20 bytes that are no record. Times are medians; a sum of the bytes stands for reading.
 */
#define _GNU_SOURCE
#include "../include/seq_graph.h"
#include "../tests/c/records.h"
#include <stdio.h>
#include <stdlib.h>
#include <time.h>

enum { RUNS = 101, K = 128, VERTICES = 32768, GARBAGE = 1 << 20 };

/* The longest record has k-mers at SGR2's limits. */
static uint8_t rec[36 + 4 * VERTICES + 13 * 2 * VERTICES + K * VERTICES];
static volatile unsigned long sink;

/* As many vertices as the form admits, of this many bytes, each different from the others; each leads to the next two. */
static size_t at_the_limits(const form *f, unsigned kind, unsigned each) {
    const unsigned v = f->vertices, e = 2 * v - 3;
    uint8_t *bytes = rec + bytes_at(f, v, e);
    put_header(f, rec, kind, K, v, e, v * each);
    for (unsigned i = 0; i < v; i++) {
        put_length(f, rec, i, each);
        memset(bytes + each * i, 'A', each);
        put(bytes + each * i + each - 2, 2, i);
    }
    for (unsigned i = 0; i < e; i++) put_edge(f, rec, v, i, (edge){i / 2, i / 2 + 1 + i % 2, 1, 1});
    return bytes_at(f, v, e) + v * each;
}

/* No record, behind this mark. */
static size_t garbage(const form *f) {
    for (size_t i = 0; i < GARBAGE; i++) rec[i] = (uint8_t)rand();
    memcpy(rec, f->mark, 4);
    return GARBAGE;
}

static int by_size(const void *a, const void *b) {
    double x = *(const double *)a, y = *(const double *)b;
    return (x > y) - (x < y);
}

static double microseconds(void) {
    struct timespec t;
    clock_gettime(CLOCK_MONOTONIC, &t);
    return 1e6 * (double)t.tv_sec + 1e-3 * (double)t.tv_nsec;
}

static double median(double *times) {
    qsort(times, RUNS, sizeof *times, by_size);
    return times[RUNS / 2];
}

static void show(const char *name, size_t length) {
    double check[RUNS], once[RUNS];
    uint32_t number = 0;
    for (int i = 0; i < RUNS; i++) {
        double begin = microseconds();
        sink += sg_vertex_sequence(rec, length, 0, &number).length;
        double middle = microseconds();
        unsigned long sum = 0;
        for (size_t j = 0; j < length; j++) sum += rec[j];
        sink += sum;
        check[i] = middle - begin;
        once[i] = microseconds() - middle;
    }
    double c = median(check), o = median(once);
    printf("%-45s %9zu %7u %10.1f %10.1f %8.1f\n", name, length, number, c, o, c / o);
}

/* The call takes under 3 MiB of stack; a program's first thread usually has 8. */
int main(void) {
    printf("%-45s %9s %7s %10s %10s %8s\n", "record", "bytes", "number", "check us", "read us", "ratio");
    show("SGR1: k-mers, 2,048 of 128, 4,093 edges", at_the_limits(&SGR1, KMERS, K));
    show("SGR1: sequences, 2,048 of 4, 4,093 edges", at_the_limits(&SGR1, SEQUENCES, 4));
    show("SGR2: k-mers, 32,768 of 128, 65,533 edges", at_the_limits(&SGR2, KMERS, K));
    show("SGR2: sequences, 32,768 of 4, 65,533 edges", at_the_limits(&SGR2, SEQUENCES, 4));
    show("no record, begins SGR1", garbage(&SGR1));
    show("no record, begins SGR2", garbage(&SGR2));
    return 0;
}
