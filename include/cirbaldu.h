/* Graph matching on register sheets: the calls of libexports.a, for C and Rust.
 *
 * docs/FORMAT.md has the sheet's format, the records, the sweeps and the refusals with their numbers; 0 is
 * no refusal. A slice passes as a pointer and its length, counted in elements. As in Rust, the pointer is
 * aligned and not null, not even for a length of 0, and a buffer that a call may write overlaps no other
 * slice of that call. The rest each call checks itself: it takes any content and any length, and returns.
 *
 * Each call returns a refusal's number. A refusal alters nothing but what is said here of the counts of a
 * run, of the answer of a reading and of the span of an edge, which carry an answer of their own then, and of
 * the bytes of a placing at 16, which name a set of nodes. A buffer of another number of places than stated,
 * an answer's too, is refused with 8, where 8 stands in the order of the checks, and ahead of any effect. So
 * read what a call stores only if it returned 0, or if it is one of those three and did not return 8, or if
 * it is a placing and returned 16.
 *
 * Each call reads the sheet afresh, keeps nothing between calls, allocates nothing, and writes only the
 * buffers of which it is said here. What is said of each is proved of the source; this file is not read by
 * the prover.
 */
#ifndef CIRBALDU_H
#define CIRBALDU_H

#include <stddef.h>
#include <stdint.h>

#ifdef __cplusplus
extern "C" {
#endif

/* Reads a sheet.
 * Returns the refusal: 1 to 7 or 15, then 8 if answer has not exactly 326 places.
 * answer: the refusal, n, L, E, N, M, the 64 node starts and the 256 edge starts, counted in cells. Unused
 * places, and all but the refusal when it is 1 to 7 or 15, are 0. With another number of places nothing is
 * written. */
uint8_t cirbaldu_read(const uint8_t *sheet, size_t sheet_len,
                      uint64_t *answer, size_t answer_len);

/* Opens a sheet: fills nodes with its N node prices, labels with N times 0, edges with its M edge prices and
 * incumbent with n bytes of 255, none kept. What they held before does not matter.
 * Returns the refusal: 1 to 7 or 15 for the sheet, 8 for a buffer that is not exactly N, N, M, n long.
 * When refused, nothing is written. */
uint8_t cirbaldu_open(const uint8_t *sheet, size_t sheet_len,
                      int64_t *nodes, size_t nodes_len,
                      int64_t *labels, size_t labels_len,
                      int64_t *edges, size_t edges_len,
                      uint8_t *incumbent, size_t incumbent_len);

/* Runs a list of records, of 5 bytes each and of kinds 1 to 6, on the four buffers.
 * Returns the refusal: 1 to 11 or 15 ahead of the first record, when nothing but counts is written; 12 or 13
 * at a record, when the buffers are as the records before it left them. 8 is for the four buffers and for
 * counts. 15 is one of the sheet's, and so comes ahead of 8 to 11.
 * counts, with exactly 2 places: the records done and the roundings stuck (kinds 5 and 6), so far when refused. With another
 * number of places nothing is run and nothing is written. */
uint8_t cirbaldu_run(const uint8_t *sheet, size_t sheet_len,
                     const uint8_t *records, size_t records_len,
                     int64_t *nodes, size_t nodes_len,
                     int64_t *labels, size_t labels_len,
                     int64_t *edges, size_t edges_len,
                     uint8_t *incumbent, size_t incumbent_len,
                     uint64_t *counts, size_t counts_len);

/* Reports on the four buffers.
 * Returns the refusal: 1 to 10 or 15, or 14 where the bound exceeds the kept cost. 8 is for the four buffers
 * and for values. When refused, nothing is written.
 * values, with exactly 4 places: 1 if a matching is kept, else 0; the bound; the kept matching's cost on the
 * sheet; the gap, cost less bound. With none kept cost and gap are 0 and mean nothing: read the first place. */
uint8_t cirbaldu_report(const uint8_t *sheet, size_t sheet_len,
                        const int64_t *nodes, size_t nodes_len,
                        const int64_t *labels, size_t labels_len,
                        const int64_t *edges, size_t edges_len,
                        const uint8_t *incumbent, size_t incumbent_len,
                        int64_t *values, size_t values_len);

/* Writes a sweep, forward (direction 0) or backward (1): a list of 2E + N - V + 1 records for cirbaldu_run,
 * where V is how many of the sheet's N labels, the bytes from n on, are 255.
 * Returns the refusal: 1 to 7 or 15 for the sheet, 12 for another direction, 8 if out has not exactly
 * 5 times (2E + N - V + 1) places. When refused, nothing is written. */
uint8_t cirbaldu_sweep(const uint8_t *sheet, size_t sheet_len,
                       uint8_t direction,
                       uint8_t *out, size_t out_len);

/* Shows an edge: where in the sheet its prices stand.
 * Returns the refusal: 1 to 7 or 15 for the sheet, 12 for an edge that does not exist, then 8 if span has not
 * exactly 2 places.
 * span: where the prices begin, in bytes from the sheet's first, and how many bytes they take; 0 and 0 when
 * refused with 1 to 7, 15 or 12. With another number of places nothing is written. */
uint8_t cirbaldu_edge(const uint8_t *sheet, size_t sheet_len,
                      size_t edge,
                      uint64_t *span, size_t span_len);

/* Places all nodes.
 * Returns the refusal: 1 to 7 or 15 for the sheet, 8 if out has not exactly n places, 16 if the sheet has no
 * matching.
 * out: the position of each node in the matching that is smallest when positions are compared from node 0 on.
 * At 16, and at no other refusal, out is written: 1 for each member of a set of nodes that together have
 * fewer labels than members, none of them with 255, and of which without any one member the rest can be
 * placed; 0 for the other nodes. Where several such sets exist any may be named.
 * If out is the incumbent of opened buffers, what is said of bound and gap starts anew with the next opening. */
uint8_t cirbaldu_place(const uint8_t *sheet, size_t sheet_len,
                       uint8_t *out, size_t out_len);

#ifdef __cplusplus
}
#endif

#endif
