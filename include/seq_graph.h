/*
 * The sequence graph's calls, from libsg.a (`tools/staticlib.sh` writes target/staticlib/libsg.a).
 *
 * A record is read from `record` and `length`. It has one of two forms, SGR1 or SGR2, named by its first four bytes; SGR2 has wider
 * fields and larger limits (docs/FORMAT.md has both, byte by byte). Every call takes both, and the record that a call writes has the form
 * of the one handed in. A record that begins SGR2 is judged as SGR2, every other one as SGR1.
 *
 * A call that makes a record or a string writes it to `out`, of which `room` bytes are lent: the first `length` bytes of the answer are
 * written and no others; a refused call writes none. Nothing is asked of the bytes, and every call returns. No call is refused with 11 that
 * has so many bytes of room:
 *
 *                                                                          SGR1         SGR2
 *    sg_simplify_graph, sg_cleanup_seq_graph                            176,160    4,194,340
 *    sg_from_assembly_graph, sg_clean_non_ref_paths                      49,184    1,114,148
 *    sg_reference_path_bytes, sg_path_bases_bytes                         8,192      131,072
 *
 * A record that a call has written can be handed in again: it is read as the graph that was written. One of sg_from_assembly_graph
 * or sg_clean_non_ref_paths is accepted. One of sg_simplify_graph or sg_cleanup_seq_graph is accepted too, or refused with 3, if it
 * has more vertices or edges than its form admits. The limits:
 *
 *                                                                          SGR1         SGR2
 *    vertices                                                             2,048       32,768
 *    edges                                                                4,096       65,536
 *    sequence bytes of a sequence graph, and of what is converted         8,192      131,072
 *    vertices of an answer                                               10,240      163,840
 *    edges of an answer                                                  16,384      262,144
 *
 * In both k is 2 to 128, and an answer has no more sequence bytes than a record handed in may have.
 *
 * An edge's flag is 1 for a reference edge, and 2 more for one whose support was capped: a sum of supports in it passed 2^32 - 1. A
 * capped edge stays capped through every call.
 *
 * Every call but sg_vertex_sequence names its caller, 0 to 15, and is counted in the table that is lent to it: sixteen tallies, one
 * for each caller, 192 bytes. A new table is all zeros. A call raises counts of its own caller and leaves every field of the other
 * fifteen tallies as it was. So after any row of calls on a table that nothing else writes, a caller's tally is what its own calls
 * alone, with the same inputs, would have made of it.
 *
 * No pointer may be null, also where its length is 0, and what is lent to be written, output and table, may overlap neither what is
 * read nor each other. A call keeps nothing, and two may run at once on different memory. During a call nothing else may read or
 * write its table: callers on several threads need a table each, or a lock around every call on a table that they share.
 *
 * No call allocates. Each has its arrays on the stack, as long as the class of its record needs. The class goes by the record's length
 * and by the counts in its header: V vertices, E edges, B sequence bytes, where the record's own form has them (SGR1: V at 8 and E at 10
 * in two bytes, B at 12 in four; SGR2: V at 8, E at 12, B at 16 in four each). Bytes that are no record go by the same rule, and a call
 * refused with 18 counts as one on a small record. The first class that fits is the record's; B / 4 is rounded down, and no sum wraps:
 *
 *    sg_simplify_graph, sg_cleanup_seq_graph                                             bytes of stack, at most
 *       small    at most 1,024 bytes; or V + B < 1,024 and E + B / 4 <= 256                              131,072
 *       medium   V + B < 2,048 and E + B / 4 <= 1,024                                                    294,912
 *       large    does not begin SGR2; or V + B <= 10,240 and E + B / 4 <= 6,144                        1,572,864
 *       huge     at most 65,536 bytes; or V + B < 65,536 and E + B / 4 <= 16,384                       7,864,320
 *       vast     every other record                                                                   23,068,672
 *
 *    sg_from_assembly_graph (first column), and sg_clean_non_ref_paths, sg_reference_path_bytes, sg_path_bases_bytes,
 *    sg_vertex_sequence (second)                                                         bytes of stack, at most
 *       small    at most 1,024 bytes; or V <= 512 and E <= 512                              49,152        32,768
 *       large    does not begin SGR2; or V <= 2,048 and E <= 4,096                         262,144       196,608
 *       vast     every other record                                                      4,194,304     2,621,440
 *
 * So much is tested. A thread needs some more for itself; the test gives it 16,384 bytes. So for each call
 *
 *    a thread of 256 KiB is enough on every small record,
 *    one of 2 MiB on every record that does not begin SGR2, and on SGR2 records within the limits of SGR1,
 *    one of 8 MiB on every record of at most 65,536 bytes,
 *    one of 32 MiB on every record.
 *
 * Below the stack there must be a guard page, one that faults when it is touched. Threads have one unless it was turned off
 * (pthread_attr_setguardsize); a stack of one's own (pthread_attr_setstack) has none unless one is made (mprotect). With it, a call on too
 * small a stack ends the program at that page: before anything is written, if the arrays do not fit; if only the last few KB below them are
 * missing, the output may have been begun. Without it, the call overwrites what lies below the stack, answers, and nothing tells.
 *
 * `number` is 0, or why the call was refused; all other fields of the answer are 0 then:
 *
 *    1  under 32 bytes, of a record that begins SGR2 under 36; or not the length it states
 *    2  mark, kind for this call, or status
 *    3  a count or k past a limit of the record's form
 *    4  offsets, whole length, lengths or byte count disagree
 *    5  an edge end not below the count of vertices, or a flag above 3
 *    6  two edges with the same ends, or in a k-mer graph two equal k-mers
 *    7  a cycle, a self edge included
 *    8  conversion would give over 8,192 bytes, of an SGR2 record over 131,072
 *    9  the start or the vertex wanted is not below the count of vertices, or the list of edges is no path
 *   10  there is no reference path
 *   11  the output is shorter than the result
 *   15  in conversion, an edge whose k-mers do not overlap: the last k - 1 bytes of from are not the first k - 1 bytes of to. The
 *       program that made the record sets edges between k-mers that do not follow one another: it has to be mended, and the
 *       record made again
 *   18  the caller's number is above 15. The call is counted nowhere: output and table stay as they were. Name a caller from 0 to 15
 *
 * The causes are asked in this order: 18, 1 to 6, 15, 7 to 11; the number is that of the first one present. 15 is asked by
 * sg_from_assembly_graph alone, and 18 by every call that has a caller.
 */
#ifndef SEQ_GRAPH_H
#define SEQ_GRAPH_H

#include <stddef.h>
#include <stdint.h>

#ifdef __cplusplus
extern "C" {
#endif

/* Calls answered, calls refused, and rewrites made in the answered calls, also those of sg_cleanup_seq_graph, whose answer does not
 * tell them. Each stops at 2^32 - 1. A call refused with 18 is not counted. */
typedef struct {
    uint32_t answered;
    uint32_t refused;
    uint32_t rewrites;
} sg_tally;

/* The tally of caller i is callers[i]. A new table is all zeros: sg_tallies table = {0}; */
typedef struct {
    sg_tally callers[16];
} sg_tallies;

typedef struct {
    uint32_t number;
    uint32_t length;
} sg_answer;

/* `end`: 1 quiet, a round without work; 2 repeated, a round that gave the graph of the one before, edges too; 3 full, 100 rounds. */
typedef struct {
    uint32_t number;
    uint32_t length;
    uint32_t rewrites;
    uint32_t rounds;
    uint32_t end;
} sg_simplify_answer;

/* `status`: 1 just reference, 2 some variation. */
typedef struct {
    uint32_t number;
    uint32_t length;
    uint32_t status;
} sg_cleanup_answer;

/* Where a vertex's sequence stands in the record, and how long it is: both 0 when refused. */
typedef struct {
    uint32_t offset;
    uint32_t length;
} sg_sequence_place;

/* A vertex's sequence in a record of either kind: bytes of the record itself. The call has no caller and is not counted; its number is
 * put in `number`. */
sg_sequence_place sg_vertex_sequence(const uint8_t *record, size_t length, uint32_t vertex, uint32_t *number);

/* A k-mer graph's record to the sequence graph's; refused with 15 where an edge's k-mers do not overlap by k - 1 bytes. */
sg_answer sg_from_assembly_graph(const uint8_t *record, size_t length, uint8_t *out, size_t room,
                                 uint32_t caller, sg_tallies *table);

/* A sequence graph's record to that of the simplified graph. */
sg_simplify_answer sg_simplify_graph(const uint8_t *record, size_t length, uint8_t *out, size_t room,
                                     uint32_t caller, sg_tallies *table);

/* A sequence graph's record to that of the cleaned graph. */
sg_cleanup_answer sg_cleanup_seq_graph(const uint8_t *record, size_t length, uint8_t *out, size_t room,
                                       uint32_t caller, sg_tallies *table);

/* A sequence graph's record to that of the graph without what leads to the reference source or from the reference sink. */
sg_answer sg_clean_non_ref_paths(const uint8_t *record, size_t length, uint8_t *out, size_t room,
                                 uint32_t caller, sg_tallies *table);

/* The bytes that the graph's reference path spells; refused with 10 where it has none. */
sg_answer sg_reference_path_bytes(const uint8_t *record, size_t length, uint8_t *out, size_t room,
                                  uint32_t caller, sg_tallies *table);

/* The bytes of the path that begins at the vertex `start` and goes along `edges`: `count` numbers, from and to of each edge in turn. */
sg_answer sg_path_bases_bytes(const uint8_t *record, size_t length, uint32_t start, const uint32_t *edges, size_t count,
                              uint8_t *out, size_t room, uint32_t caller, sg_tallies *table);

#ifdef __cplusplus
}
#endif

#endif
