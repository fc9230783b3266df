/* The chain cover of a file: built, stored, read and asked. A slice is a pointer and a length in elements, of which the caller owes what
 * ridgeoven.h says; a refusal is told by its number, 0 is none, and after one nothing is written. Columns that are written have room for 1,024
 * numbers. */
#ifndef RIDGEOVEN_COVER_H
#define RIDGEOVEN_COVER_H

#include "ridgeoven.h"

#ifdef __cplusplus
extern "C" {
#endif

/* A link from one chain's seq to another's. */
typedef struct ridgeoven_link {
    uint32_t from_chain;
    uint32_t from_seq;
    uint32_t to_chain;
    uint32_t to_seq;
} ridgeoven_link;

/* Links into four columns, as many as every column has room for; answers how many. */
size_t ridgeoven_links_apart(const ridgeoven_link *links, size_t links_length, uint32_t *from_chains, size_t from_chains_room,
                             uint32_t *from_seqs, size_t from_seqs_room, uint32_t *to_chains, size_t to_chains_room, uint32_t *to_seqs,
                             size_t to_seqs_room);

/* The links of four columns, as many as every column has and links has room for; answers how many. */
size_t ridgeoven_links_together(const uint32_t *from_chains, size_t from_chains_length, const uint32_t *from_seqs, size_t from_seqs_length,
                                const uint32_t *to_chains, size_t to_chains_length, const uint32_t *to_seqs, size_t to_seqs_length,
                                ridgeoven_link *links, size_t links_room);

/* Links in order at the start of their slice, repeats dropped; answers how many, and what stands behind them stays. More than 1,024 are 42. */
ridgeoven_answer ridgeoven_links_sort(ridgeoven_link *links, size_t links_length);

/* The links from any of the chains, in their order; out has room for 1,024. Links that do not rise are 22. */
ridgeoven_answer ridgeoven_links_from(const ridgeoven_link *links, size_t links_length, const uint32_t *chains, size_t chains_length,
                                      ridgeoven_link *out, size_t out_room);

/* The stored columns of links: the first holds differences. */
ridgeoven_answer ridgeoven_links_store(const ridgeoven_link *links, size_t links_length, uint32_t *a, size_t a_room, uint32_t *b,
                                       size_t b_room, uint32_t *c, size_t c_room, uint32_t *d, size_t d_room);

typedef struct ridgeoven_covered {
    uint64_t refusal;
    size_t ranges;
    size_t links;
} ridgeoven_covered;

/* The ranges of labels, by rising chain id, and links in any order sorted, repeats dropped; out has room for 1,024. What stands behind the answer
 * stays. More than 1,024 labels or links are 42. */
ridgeoven_covered ridgeoven_links_build(const uint32_t *chains, size_t chains_length, const uint32_t *seqs, size_t seqs_length,
                                        const ridgeoven_link *links, size_t links_length, uint32_t *ids, size_t ids_room,
                                        uint32_t *minima, size_t minima_room, uint32_t *maxima, size_t maxima_room,
                                        ridgeoven_link *out, size_t out_room);

/* The same of links in four columns. */
ridgeoven_covered ridgeoven_cover_build(const uint32_t *chains, size_t chains_length, const uint32_t *seqs, size_t seqs_length,
                                        const uint32_t *from_chains, size_t from_chains_length, const uint32_t *from_seqs,
                                        size_t from_seqs_length, const uint32_t *to_chains, size_t to_chains_length,
                                        const uint32_t *to_seqs, size_t to_seqs_length, uint32_t *ids, size_t ids_room,
                                        uint32_t *minima, size_t minima_room, uint32_t *maxima, size_t maxima_room, uint32_t *a,
                                        size_t a_room, uint32_t *b, size_t b_room, uint32_t *c, size_t c_room, uint32_t *d,
                                        size_t d_room);

/* The stored columns of links: the first holds differences. */
ridgeoven_answer ridgeoven_cover_store(const uint32_t *from_chains, size_t from_chains_length, const uint32_t *from_seqs,
                                       size_t from_seqs_length, const uint32_t *to_chains, size_t to_chains_length,
                                       const uint32_t *to_seqs, size_t to_seqs_length, uint32_t *a, size_t a_room, uint32_t *b,
                                       size_t b_room, uint32_t *c, size_t c_room, uint32_t *d, size_t d_room);

/* The links of stored columns from any of the chains, in the cover's order. */
ridgeoven_answer ridgeoven_chain_links(const uint32_t *differences, size_t differences_length, const uint32_t *from_seqs,
                                       size_t from_seqs_length, const uint32_t *to_chains, size_t to_chains_length,
                                       const uint32_t *to_seqs, size_t to_seqs_length, const uint32_t *chains, size_t chains_length,
                                       uint32_t *a, size_t a_room, uint32_t *b, size_t b_room, uint32_t *c, size_t c_room, uint32_t *d,
                                       size_t d_room);

#ifdef __cplusplus
}
#endif

#endif
