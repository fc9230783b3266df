/* Every exported function with NULL for empty slices: for all that it is lent, and for what may be empty in an accepted call. Each call must
 * be answered as expected, and says its function's name, so that library/tests/run sees that none is left out. */
#include <stdio.h>

#include "ridgeoven_cover.h"
#include "ridgeoven_refs.h"

#define NONE NULL, 0
#define IN(type, name) const type *name, size_t name##_length
#define OUT(type, name) type *name, size_t name##_room
#define SET(name) uint64_t name##_count, IN(uint64_t, name##_offsets), IN(int64_t, name##_deltas)
#define FILE_OF uint64_t first, size_t rows, uint64_t end
#define FOUR(part) part(uint32_t, a), part(uint32_t, b), part(uint32_t, c), part(uint32_t, d)
#define RANGES(part) part(uint32_t, ids), part(uint32_t, minima), part(uint32_t, maxima)

/* The exported functions that no header has: they are for tests. */
typedef struct { uint64_t refusal; size_t more[3]; } three;
typedef struct { uint64_t refusal, found; uint32_t chain, seq; } label;
typedef struct { uint64_t refusal; size_t more[2]; } two;
typedef struct { uint64_t refusal; size_t more[10]; } ten;
ridgeoven_answer ridgeoven_read_set(uint64_t set, FILE_OF, SET(one), OUT(uint64_t, targets));
three ridgeoven_read_granule(FILE_OF, SET(forward), SET(reverse), SET(inbound), uint64_t cover, IN(uint64_t, chains), IN(uint64_t, seqs),
                             OUT(uint64_t, f), OUT(uint64_t, r), OUT(uint64_t, i));
ridgeoven_answer ridgeoven_parents(FILE_OF, SET(one), uint64_t kind, uint64_t number, OUT(uint64_t, list));
ridgeoven_answer ridgeoven_children(FILE_OF, SET(reverse), SET(inbound), uint64_t kind, uint64_t number, OUT(uint64_t, list));
label ridgeoven_label(uint64_t first, size_t rows, IN(uint64_t, chains), IN(uint64_t, seqs), uint64_t number);
ridgeoven_answer ridgeoven_roots(uint64_t first, size_t rows, IN(uint64_t, events), OUT(uint64_t, list));
two ridgeoven_walk(FILE_OF, SET(one), uint64_t kind, size_t limit, uint64_t start, OUT(uint64_t, numbers), OUT(uint64_t, ends));
ridgeoven_answer ridgeoven_next(FILE_OF, SET(one), uint64_t kind, size_t limit, IN(uint64_t, visited), IN(uint64_t, frontier),
                                OUT(uint64_t, level));
two ridgeoven_ancestor(FILE_OF, SET(one), uint64_t kind, uint64_t a, uint64_t b);
three ridgeoven_build(IN(uint8_t, subject), uint64_t first, size_t rows, IN(uint64_t, offsets), IN(uint64_t, targets), IN(uint64_t, children),
                      IN(uint64_t, kinds), IN(uint64_t, flags), uint64_t deep, uint64_t low, uint64_t high, uint64_t labelled,
                      IN(uint32_t, chains), IN(uint32_t, seqs), IN(uint64_t, c), IN(uint64_t, p), IN(uint64_t, k), size_t from, size_t n,
                      OUT(uint64_t, fo), OUT(int64_t, fd), OUT(uint64_t, ro), OUT(int64_t, rd), OUT(uint64_t, io), OUT(int64_t, id));
ridgeoven_answer ridgeoven_cover_read(RANGES(IN), IN(uint32_t, e), IN(uint32_t, f), IN(uint32_t, g), IN(uint32_t, h), FOUR(OUT));
ridgeoven_answer ridgeoven_window(RANGES(IN), uint32_t chain, uint32_t low, uint32_t high);
ten ridgeoven_sums(IN(uint8_t, bytes));
ridgeoven_answer ridgeoven_write_edges(OUT(uint8_t, out), size_t at, IN(uint64_t, fo), IN(int64_t, fd), IN(uint64_t, ro), IN(int64_t, rd),
                                       IN(uint64_t, io), IN(int64_t, id));
ridgeoven_answer ridgeoven_write_rows(OUT(uint8_t, out), size_t at, IN(uint8_t, flags), IN(uint64_t, tags));

static int wrong;

static void answered(const char *name, uint64_t refusal, uint64_t expected) {
    printf("%s\n", name);
    if (refusal != expected) {
        fprintf(stderr, "%s with NULL: %llu, not %llu\n", name, (unsigned long long)refusal, (unsigned long long)expected);
        wrong = 1;
    }
}

static uint64_t numbers[6][4096];
static int64_t deltas[3][4096];
static uint32_t records[7][1024];
static ridgeoven_link links[1024];
static uint8_t bytes[RIDGEOVEN_LISTING_ROOM];
static ridgeoven_run run;
static uint8_t archive[4096];

#define LIST(i) numbers[i], 4096
#define DELTAS(i) deltas[i], 4096
#define RECORDS(i) records[i], 1024
#define BYTES bytes, sizeof bytes
/* The columns of a set without rows: one offset, no delta. */
static const uint64_t zero;
#define EMPTY 0, &zero, 1, NONE
#define NO_SET 0, NONE, NONE
#define NO_FILE 0, 0, 0

static void whole_archives(size_t length) {
    answered("ridgeoven_clean", ridgeoven_clean(NONE, NONE).refusal, 24);
    answered("ridgeoven_clean", ridgeoven_clean(NONE, BYTES).refusal, 24);
    answered("ridgeoven_clean", ridgeoven_clean(archive, length, NONE).refusal, 41);
    answered("ridgeoven_list", ridgeoven_list(NONE, NONE).refusal, 24);
    answered("ridgeoven_list", ridgeoven_list(NONE, BYTES).refusal, 24);
    answered("ridgeoven_list", ridgeoven_list(archive, length, NONE).refusal, 41);
    answered("ridgeoven_words", ridgeoven_words(23, NONE).refusal, 41);
}

static void runs(size_t length) {
    ridgeoven_run_new(&run);
    answered("ridgeoven_new", 0, 0);
    answered("ridgeoven_take", ridgeoven_run_take(&run, NONE), 0);
    answered("ridgeoven_write", ridgeoven_run_write(&run, NONE).refusal, 40);
    answered("ridgeoven_take", ridgeoven_run_take(&run, archive, length), 0);
    answered("ridgeoven_take", ridgeoven_run_take(&run, NONE), 0);
    answered("ridgeoven_resolve", ridgeoven_run_resolve(&run), 0);
    answered("ridgeoven_take", ridgeoven_run_take(&run, NONE), 40);
    answered("ridgeoven_write", ridgeoven_run_write(&run, NONE).refusal, 41);
    answered("ridgeoven_new_number", ridgeoven_run_new_number(&run, 0).refusal, 0);
    answered("ridgeoven_reparented", ridgeoven_run_reparented(&run).refusal, 0);
}

static void covers(void) {
    answered("ridgeoven_links_apart", ridgeoven_links_apart(NONE, NONE, NONE, NONE, NONE), 0);
    answered("ridgeoven_links_apart", ridgeoven_links_apart(NONE, RECORDS(0), RECORDS(1), RECORDS(2), RECORDS(3)), 0);
    answered("ridgeoven_links_together", ridgeoven_links_together(NONE, NONE, NONE, NONE, NONE), 0);
    answered("ridgeoven_links_sort", ridgeoven_links_sort(NONE).refusal, 0);
    answered("ridgeoven_links_store", ridgeoven_links_store(NONE, NONE, NONE, NONE, NONE).refusal, 41);
    answered("ridgeoven_links_store", ridgeoven_links_store(NONE, RECORDS(0), RECORDS(1), RECORDS(2), RECORDS(3)).refusal, 0);
    answered("ridgeoven_links_from", ridgeoven_links_from(NONE, NONE, NONE).refusal, 41);
    answered("ridgeoven_links_from", ridgeoven_links_from(NONE, NONE, links, 1024).refusal, 0);
    answered("ridgeoven_links_build", ridgeoven_links_build(NONE, NONE, NONE, NONE, NONE, NONE, NONE).refusal, 41);
    answered("ridgeoven_links_build", ridgeoven_links_build(NONE, NONE, NONE, RECORDS(0), RECORDS(1), RECORDS(2), NONE).refusal, 41);
    answered("ridgeoven_links_build", ridgeoven_links_build(NONE, NONE, NONE, RECORDS(0), RECORDS(1), RECORDS(2), links, 1024).refusal, 0);
    answered("ridgeoven_cover_build", ridgeoven_cover_build(NONE, NONE, NONE, NONE, NONE, NONE, NONE, NONE, NONE, NONE, NONE, NONE, NONE).refusal, 41);
    answered("ridgeoven_cover_build", ridgeoven_cover_build(NONE, NONE, NONE, NONE, NONE, NONE, RECORDS(0), RECORDS(1), RECORDS(2), RECORDS(3),
                                                            RECORDS(4), RECORDS(5), RECORDS(6)).refusal, 0);
    answered("ridgeoven_cover_store", ridgeoven_cover_store(NONE, NONE, NONE, NONE, NONE, NONE, NONE, NONE).refusal, 41);
    answered("ridgeoven_cover_store", ridgeoven_cover_store(NONE, NONE, NONE, NONE, RECORDS(0), RECORDS(1), RECORDS(2), RECORDS(3)).refusal, 0);
    answered("ridgeoven_cover_read", ridgeoven_cover_read(NONE, NONE, NONE, NONE, NONE, NONE, NONE, NONE, NONE, NONE, NONE).refusal, 41);
    answered("ridgeoven_cover_read", ridgeoven_cover_read(NONE, NONE, NONE, NONE, NONE, NONE, NONE, RECORDS(0), RECORDS(1), RECORDS(2),
                                                          RECORDS(3)).refusal, 0);
    answered("ridgeoven_window", ridgeoven_window(NONE, NONE, NONE, 0, 0, 0).refusal, 0);
    answered("ridgeoven_chain_links", ridgeoven_chain_links(NONE, NONE, NONE, NONE, NONE, NONE, NONE, NONE, NONE).refusal, 41);
    answered("ridgeoven_chain_links", ridgeoven_chain_links(NONE, NONE, NONE, NONE, NONE, RECORDS(0), RECORDS(1), RECORDS(2),
                                                            RECORDS(3)).refusal, 0);
}

static void edges(void) {
    answered("ridgeoven_read_set", ridgeoven_read_set(0, NO_FILE, NO_SET, NONE).refusal, 41);
    answered("ridgeoven_read_set", ridgeoven_read_set(0, NO_FILE, NO_SET, LIST(0)).refusal, 17);
    answered("ridgeoven_read_set", ridgeoven_read_set(0, NO_FILE, EMPTY, LIST(0)).refusal, 0);
    answered("ridgeoven_read_granule", ridgeoven_read_granule(NO_FILE, NO_SET, NO_SET, NO_SET, 1, NONE, NONE, NONE, NONE, NONE).refusal, 41);
    answered("ridgeoven_read_granule", ridgeoven_read_granule(NO_FILE, NO_SET, NO_SET, NO_SET, 1, NONE, NONE, LIST(0), LIST(1), LIST(2)).refusal, 17);
    answered("ridgeoven_read_granule", ridgeoven_read_granule(NO_FILE, EMPTY, EMPTY, EMPTY, 1, NONE, NONE, LIST(0), LIST(1), LIST(2)).refusal, 0);
    answered("ridgeoven_parents", ridgeoven_parents(NO_FILE, NO_SET, 0, 0, NONE).refusal, 41);
    answered("ridgeoven_parents", ridgeoven_parents(NO_FILE, NO_SET, 0, 0, LIST(0)).refusal, 17);
    answered("ridgeoven_parents", ridgeoven_parents(NO_FILE, EMPTY, 0, 0, LIST(0)).refusal, 0);
    answered("ridgeoven_children", ridgeoven_children(NO_FILE, NO_SET, NO_SET, 0, 0, NONE).refusal, 41);
    answered("ridgeoven_children", ridgeoven_children(NO_FILE, NO_SET, NO_SET, 0, 0, LIST(0)).refusal, 17);
    answered("ridgeoven_children", ridgeoven_children(NO_FILE, EMPTY, EMPTY, 0, 0, LIST(0)).refusal, 0);
    answered("ridgeoven_label", ridgeoven_label(0, 0, NONE, NONE, 0).refusal, 0);
    answered("ridgeoven_roots", ridgeoven_roots(0, 0, NONE, NONE).refusal, 41);
    answered("ridgeoven_roots", ridgeoven_roots(0, 0, NONE, LIST(0)).refusal, 0);
    answered("ridgeoven_walk", ridgeoven_walk(NO_FILE, NO_SET, 0, 1, 0, NONE, NONE).refusal, 41);
    answered("ridgeoven_walk", ridgeoven_walk(NO_FILE, NO_SET, 0, 1, 0, LIST(0), LIST(1)).refusal, 17);
    answered("ridgeoven_walk", ridgeoven_walk(NO_FILE, EMPTY, 0, 1, 0, LIST(0), LIST(1)).refusal, 0);
    answered("ridgeoven_next", ridgeoven_next(NO_FILE, NO_SET, 0, 1, NONE, NONE, NONE).refusal, 41);
    answered("ridgeoven_next", ridgeoven_next(NO_FILE, NO_SET, 0, 1, NONE, NONE, LIST(0)).refusal, 17);
    answered("ridgeoven_next", ridgeoven_next(NO_FILE, EMPTY, 0, 1, NONE, NONE, LIST(0)).refusal, 0);
    answered("ridgeoven_ancestor", ridgeoven_ancestor(NO_FILE, NO_SET, 0, 0, 0).refusal, 17);
    answered("ridgeoven_ancestor", ridgeoven_ancestor(NO_FILE, EMPTY, 0, 0, 0).refusal, 0);
    answered("ridgeoven_build", ridgeoven_build(NONE, 0, 0, NONE, NONE, NONE, NONE, NONE, 0, 0, 0, 1, NONE, NONE, NONE, NONE, NONE, 0, 0, NONE,
                                                NONE, NONE, NONE, NONE, NONE).refusal, 41);
    answered("ridgeoven_build", ridgeoven_build(NONE, 0, 0, NONE, NONE, NONE, NONE, NONE, 0, 0, 0, 1, NONE, NONE, NONE, NONE, NONE, 0, 0, LIST(0),
                                                DELTAS(0), LIST(1), DELTAS(1), LIST(2), DELTAS(2)).refusal, 1);
    answered("ridgeoven_build", ridgeoven_build((const uint8_t *)"a", 1, 0, 0, &zero, 1, NONE, NONE, NONE, NONE, 0, 0, 0, 1, NONE, NONE, NONE, NONE,
                                                NONE, 0, 0, LIST(0), DELTAS(0), LIST(1), DELTAS(1), LIST(2), DELTAS(2)).refusal, 0);
}

static void references(void) {
    answered("ridgeoven_resolve_graph", ridgeoven_resolve_graph(0, 0, NONE, NONE, NONE, NONE, NONE, NONE, NONE, NONE, NONE, NONE, NONE).refusal, 41);
    answered("ridgeoven_resolve_graph", ridgeoven_resolve_graph(0, 0, NONE, NONE, NONE, NONE, NONE, NONE, LIST(0), LIST(1), LIST(2), LIST(3),
                                                                LIST(4)).refusal, 2);
    answered("ridgeoven_resolve_graph", ridgeoven_resolve_graph(0, 0, &zero, 1, NONE, NONE, NONE, NONE, NONE, LIST(0), LIST(1), LIST(2), LIST(3),
                                                                LIST(4)).refusal, 0);
    answered("ridgeoven_write_references", ridgeoven_write_references(NONE, 0, NONE, NONE, NONE, NONE).refusal, 23);
    answered("ridgeoven_write_references", ridgeoven_write_references(BYTES, 0, &zero, 1, NONE, NONE, NONE).refusal, 23);
}

static void archives(void) {
    answered("ridgeoven_sums", ridgeoven_sums(NONE).refusal, 0);
    answered("ridgeoven_write_edges", ridgeoven_write_edges(NONE, 0, NONE, NONE, NONE, NONE, NONE, NONE).refusal, 23);
    answered("ridgeoven_write_edges", ridgeoven_write_edges(NONE, 0, &zero, 1, NONE, &zero, 1, NONE, &zero, 1, NONE).refusal, 41);
    answered("ridgeoven_write_edges", ridgeoven_write_edges(BYTES, 0, &zero, 1, NONE, &zero, 1, NONE, &zero, 1, NONE).refusal, 0);
    answered("ridgeoven_write_rows", ridgeoven_write_rows(NONE, 0, NONE, NONE).refusal, 41);
    answered("ridgeoven_write_rows", ridgeoven_write_rows(BYTES, 0, NONE, NONE).refusal, 0);
}

/* An archive that is accepted comes on standard input. */
int main(void) {
    size_t length = fread(archive, 1, sizeof archive, stdin);
    whole_archives(length);
    runs(length);
    covers();
    edges();
    references();
    archives();
    return wrong;
}
