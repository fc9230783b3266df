/* stack ARCHIVE..: how much stack each call of the headers needs, the most over the archives. Fails where a call needs more than the header
 * says, and where the header says more than twice what is needed. */
#define _DEFAULT_SOURCE
#include <pthread.h>
#include <stdio.h>
#include <stdlib.h>
#include <sys/mman.h>

#include "ridgeoven_cover.h"
#include "ridgeoven_refs.h"

#define PLACE (4 * RIDGEOVEN_STACK)
#define PAINT 0xa5a5a5a5a5a5a5a5
#define COLUMN 1024
#define REFERENCES 4096

static uint8_t archive[1 << 20], out[RIDGEOVEN_LISTING_ROOM], words[RIDGEOVEN_WORDS_ROOM];
static size_t length;
static ridgeoven_run run;
static ridgeoven_link links[COLUMN], found[COLUMN];
static uint32_t from_chains[COLUMN], from_seqs[COLUMN], to_chains[COLUMN], to_seqs[COLUMN], columns[7][COLUMN];
static uint64_t starts[COLUMN + 1], targets[REFERENCES], offsets[2 * COLUMN + 1], parents[REFERENCES], unresolved[3][COLUMN];
static uint8_t kinds[REFERENCES], spaces[REFERENCES], known[REFERENCES];

/* Every call answers its refusal. */
static uint64_t clean(void) { return ridgeoven_clean(archive, length, out, sizeof out).refusal; }
static uint64_t list(void) { return ridgeoven_list(archive, length, out, sizeof out).refusal; }
static uint64_t say(void) { return ridgeoven_words(23, words, sizeof words).refusal; }
static uint64_t new(void) { ridgeoven_run_new(&run); return 0; }
static uint64_t take(void) { return ridgeoven_run_take(&run, archive, length); }
static uint64_t resolve(void) { return ridgeoven_run_resolve(&run); }
static uint64_t write(void) { return ridgeoven_run_write(&run, out, sizeof out).refusal; }
static uint64_t new_number(void) { return ridgeoven_run_new_number(&run, 0).refusal; }
static uint64_t reparented(void) { return ridgeoven_run_reparented(&run).refusal; }

static uint64_t apart(void) {
    ridgeoven_links_apart(links, COLUMN, from_chains, COLUMN, from_seqs, COLUMN, to_chains, COLUMN, to_seqs, COLUMN);
    return 0;
}

static uint64_t together(void) {
    ridgeoven_links_together(from_chains, COLUMN, from_seqs, COLUMN, to_chains, COLUMN, to_seqs, COLUMN, links, COLUMN);
    return 0;
}

static uint64_t sort(void) { return ridgeoven_links_sort(links, COLUMN).refusal; }
static uint64_t store_records(void) {
    return ridgeoven_links_store(links, COLUMN, columns[0], COLUMN, columns[1], COLUMN, columns[2], COLUMN, columns[3], COLUMN).refusal;
}
static uint64_t build_records(void) {
    return ridgeoven_links_build(from_chains, COLUMN, from_seqs, COLUMN, links, COLUMN, columns[0], COLUMN, columns[1], COLUMN, columns[2],
                                 COLUMN, found, COLUMN).refusal;
}
static uint64_t from(void) { return ridgeoven_links_from(links, COLUMN, from_chains, COLUMN, found, COLUMN).refusal; }

static uint64_t build(void) {
    return ridgeoven_cover_build(from_chains, COLUMN, from_seqs, COLUMN, to_chains, COLUMN, from_seqs, COLUMN, from_chains, COLUMN,
                                 to_seqs, COLUMN, columns[0], COLUMN, columns[1], COLUMN, columns[2], COLUMN, columns[3], COLUMN,
                                 columns[4], COLUMN, columns[5], COLUMN, columns[6], COLUMN).refusal;
}

static uint64_t store(void) {
    return ridgeoven_cover_store(from_chains, COLUMN, from_seqs, COLUMN, to_chains, COLUMN, to_seqs, COLUMN, columns[0], COLUMN,
                                 columns[1], COLUMN, columns[2], COLUMN, columns[3], COLUMN).refusal;
}

static uint64_t chain_links(void) {
    return ridgeoven_chain_links(columns[0], COLUMN, columns[1], COLUMN, columns[2], COLUMN, columns[3], COLUMN, from_chains, COLUMN,
                                 columns[4], COLUMN, columns[5], COLUMN, columns[6], COLUMN, to_chains, COLUMN).refusal;
}

static uint64_t resolve_graph(void) {
    return ridgeoven_resolve_graph(0, COLUMN, starts, COLUMN + 1, kinds, REFERENCES, spaces, REFERENCES, targets, REFERENCES, known, REFERENCES,
                                   targets, REFERENCES, offsets, 2 * COLUMN + 1, parents, REFERENCES, unresolved[0], COLUMN, unresolved[1], COLUMN,
                                   unresolved[2], COLUMN).refusal;
}

static uint64_t write_references(void) {
    return ridgeoven_write_references(out, sizeof out, 0, starts, COLUMN + 1, kinds, REFERENCES, spaces, REFERENCES, targets, REFERENCES).refusal;
}

typedef struct asked {
    const char *name;
    uint64_t (*call)(void);
    size_t most;
    int accepted;
} asked;

/* In turn: each leaves what the next is given. */
static asked of_archives[] = {
    {"ridgeoven_clean", clean, 0, 0}, {"ridgeoven_list", list, 0, 0}, {"ridgeoven_words", say, 0, 0}, {"ridgeoven_run_new", new, 0, 0},
    {"ridgeoven_run_take", take, 0, 0}, {"ridgeoven_run_resolve", resolve, 0, 0}, {"ridgeoven_run_write", write, 0, 0},
    {"ridgeoven_run_new_number", new_number, 0, 0}, {"ridgeoven_run_reparented", reparented, 0, 0},
};
static asked of_covers[] = {
    {"ridgeoven_links_apart", apart, 0, 0}, {"ridgeoven_links_together", together, 0, 0}, {"ridgeoven_links_sort", sort, 0, 0},
    {"ridgeoven_links_from", from, 0, 0}, {"ridgeoven_links_store", store_records, 0, 0}, {"ridgeoven_links_build", build_records, 0, 0},
    {"ridgeoven_cover_build", build, 0, 0}, {"ridgeoven_cover_store", store, 0, 0}, {"ridgeoven_chain_links", chain_links, 0, 0},
};
static asked of_references[] = {{"ridgeoven_resolve_graph", resolve_graph, 0, 0}, {"ridgeoven_write_references", write_references, 0, 0}};

/* The stack, and how far down its paint is gone. */
static uint64_t *place, *gone;

/* Makes a call on the painted stack and looks how far below this function's frame the paint is gone. */
static void *painted(void *argument) {
    asked *one = argument;
    uint64_t *top = __builtin_frame_address(0);
    if (one->call() == 0)
        one->accepted = 1;
    for (gone = place; *gone == PAINT;)
        gone++;
    size_t used = (size_t)((uint8_t *)top - (uint8_t *)gone);
    if (used > one->most)
        one->most = used;
    return NULL;
}

static void ask(asked *one) {
    while (gone < place + PLACE / sizeof PAINT)
        *gone++ = PAINT;
    pthread_attr_t with;
    pthread_t thread;
    if (pthread_attr_init(&with) != 0 || pthread_attr_setstack(&with, place, PLACE) != 0 || pthread_create(&thread, &with, painted, one) != 0 ||
        pthread_join(thread, NULL) != 0) {
        fprintf(stderr, "no thread\n");
        exit(2);
    }
    pthread_attr_destroy(&with);
}

static size_t most_of(const asked *all, size_t count) {
    size_t most = 0;
    for (size_t i = 0; i < count; i++) {
        printf("%-28s %8zu bytes of stack\n", all[i].name, all[i].most);
        if (!all[i].accepted) {
            fprintf(stderr, "%s: no call was accepted\n", all[i].name);
            exit(1);
        }
        if (all[i].most > most)
            most = all[i].most;
    }
    return most;
}

static size_t larger(size_t a, size_t b) {
    return a > b ? a : b;
}

static int holds(const char *what, size_t needed, size_t said) {
    int is_held = needed <= said && said <= 2 * needed;
    fprintf(is_held ? stdout : stderr, "%s needs at most %zu bytes of stack, the header says %zu%s\n", what, needed, said,
            is_held ? "" : ": too few, or more than twice as many");
    return is_held;
}

int main(int count, char **names) {
    place = mmap(NULL, PLACE, PROT_READ | PROT_WRITE, MAP_PRIVATE | MAP_ANONYMOUS, -1, 0);
    if (place == MAP_FAILED)
        return 2;
    gone = place;
    for (int i = 1; i < count; i++) {
        FILE *file = fopen(names[i], "rb");
        if (file == NULL)
            return 2;
        length = fread(archive, 1, sizeof archive, file);
        fclose(file);
        for (size_t k = 0; k < sizeof of_archives / sizeof *of_archives; k++)
            ask(&of_archives[k]);
    }
    for (uint32_t i = 0; i < COLUMN; i++)
        links[i] = (ridgeoven_link){i, 1, COLUMN - i, 1};
    for (size_t k = 0; k < sizeof of_covers / sizeof *of_covers; k++)
        ask(&of_covers[k]);
    /* every fourth reference names nothing */
    for (size_t i = 0; i <= COLUMN; i++)
        starts[i] = i * (REFERENCES / COLUMN);
    for (size_t i = 0; i < REFERENCES; i++)
        known[i] = i % 4 != 0;
    for (size_t k = 0; k < sizeof of_references / sizeof *of_references; k++)
        ask(&of_references[k]);
    size_t most = most_of(of_archives, sizeof of_archives / sizeof *of_archives);
    size_t of_cover = most_of(of_covers, sizeof of_covers / sizeof *of_covers);
    size_t of_reference = most_of(of_references, sizeof of_references / sizeof *of_references);
    int all = holds("a call", larger(larger(most, of_cover), of_reference), RIDGEOVEN_STACK);
    return holds("ridgeoven_clean", of_archives[0].most, RIDGEOVEN_CLEAN_STACK) && all ? 0 : 1;
}
