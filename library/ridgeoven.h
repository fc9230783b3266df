/* Cleans room archives. Every function is proved; what each promises is its contract in crates/ffi_clean and crates/ffi_run.
 *
 * A call is refused by number: 1 to 27 for the archive, 42 and 43 where it is over the limits, 41 where out has too little room for
 * what is accepted; 0 where there is no refusal. A refused call writes nothing, and an accepted one nothing past its length. Nothing is
 * allocated and nothing kept; the calls may be made by several threads at once.
 *
 * What a caller owes, here, in ridgeoven_cover.h and in ridgeoven_refs.h; no call tests it:
 * - a pointer with a length or a room points to so many elements of its type, aligned as C has them. Those that are read are initialised;
 *   those that are written may hold anything. NULL is allowed where the length or the room is 0;
 * - what a call writes overlaps nothing else that the call is lent. What it only reads may overlap;
 * - while a call runs, no other thread writes what it is lent, or reads what it writes;
 * - the thread has RIDGEOVEN_STACK bytes of stack free, which is more than a second thread has on many systems. */
#ifndef RIDGEOVEN_H
#define RIDGEOVEN_H

#include <stddef.h>
#include <stdint.h>

#ifdef __cplusplus
extern "C" {
#endif

/* No cleaned archive is longer. */
#define RIDGEOVEN_CLEANED_MAX 196448

/* No listing needs more room: one needs 46 bytes for each event, 224 for each cleaned file, 126 for each of its events, 21 for each of its
 * deltas, and 32. */
#define RIDGEOVEN_LISTING_ROOM 437792

/* No refusal's words are longer; they are told only where there is so much room. */
#define RIDGEOVEN_WORDS_ROOM 120

/* No call needs more stack, the copies of a run that it is given and gives back among it; ridgeoven_clean needs no more than the second number.
 * library/tests/stack.c measures what they need: more than half of it. */
#define RIDGEOVEN_STACK 3145728
#define RIDGEOVEN_CLEAN_STACK 1048576

/* The number of a refusal, or 0 and how many bytes were written. */
typedef struct ridgeoven_answer {
    uint64_t refusal;
    size_t length;
} ridgeoven_answer;

/* Cleans an archive into out, of room bytes. */
ridgeoven_answer ridgeoven_clean(const uint8_t *bytes, size_t length, uint8_t *out, size_t room);

/* The listing of an archive's cleaning into out, of room bytes: the map of numbers, the edge columns of the cleaned files, the number
 * of reparented events. An archive of more than 65,536 bytes is refused with 41. */
ridgeoven_answer ridgeoven_list(const uint8_t *bytes, size_t length, uint8_t *out, size_t room);

/* What the number of a refusal means, into out, of room bytes and without a 0 after it; a number that is no refusal's has no words. */
ridgeoven_answer ridgeoven_words(uint64_t refusal, uint8_t *out, size_t room);

/* ── step by step ──────────────────────────────────────────────────────────────────────────────
 * A host may take several archives into a run, ask after resolving, and write more than once. A call out of turn is 40. A refused call
 * leaves the run as it was. What is promised of a cleaned archive is promised of runs that ridgeoven_run_new and the calls after it
 * made: what a run holds is tested for a run's form, that of a resolved one also for lists that name each parent once, and one of another
 * form answers 40 to every call; one that has the form is answered by what it holds, whoever made it. */

/* So many numbers are a run: the one place that says it. library/tests/sizes.c holds it to the compiled library. */
#define RIDGEOVEN_RUN_WORDS 40992

/* What a run holds is the library's own. It may be copied and moved as any value. */
typedef struct ridgeoven_run {
    uint64_t words[RIDGEOVEN_RUN_WORDS];
} ridgeoven_run;

/* The new number of an event: known is 0 where it is erased or no event has the number. */
typedef struct ridgeoven_number {
    uint64_t refusal;
    uint64_t known;
    uint64_t number;
} ridgeoven_number;

/* The exported functions, by value: a run is given and given back. The functions below lend it to them. */
typedef struct ridgeoven_step {
    ridgeoven_run run;
    uint64_t refusal;
} ridgeoven_step;

ridgeoven_run ridgeoven_new(void);
ridgeoven_step ridgeoven_take(ridgeoven_run run, const uint8_t *bytes, size_t length);
ridgeoven_step ridgeoven_resolve(ridgeoven_run run);
ridgeoven_answer ridgeoven_write(ridgeoven_run run, uint8_t *out, size_t room);
ridgeoven_number ridgeoven_new_number(ridgeoven_run run, uint64_t old);
ridgeoven_answer ridgeoven_reparented(ridgeoven_run run);

/* Makes a run that has taken nothing; what stood there is not read. A run is lent by a pointer that is never NULL, here and below. */
static inline void ridgeoven_run_new(ridgeoven_run *run) {
    *run = ridgeoven_new();
}

/* Takes the files of an archive, after those taken before. Answers the number of a refusal, or 0. */
static inline uint64_t ridgeoven_run_take(ridgeoven_run *run, const uint8_t *bytes, size_t length) {
    ridgeoven_step step = ridgeoven_take(*run, bytes, length);
    if (step.refusal == 0)
        *run = step.run;
    return step.refusal;
}

/* Ends the taking: the survivors get their new numbers and parents. Answers the number of a refusal, or 0. */
static inline uint64_t ridgeoven_run_resolve(ridgeoven_run *run) {
    ridgeoven_step step = ridgeoven_resolve(*run);
    if (step.refusal == 0)
        *run = step.run;
    return step.refusal;
}

/* Writes the cleaned archive of a resolved run into out, of room bytes. */
static inline ridgeoven_answer ridgeoven_run_write(const ridgeoven_run *run, uint8_t *out, size_t room) {
    return ridgeoven_write(*run, out, room);
}

/* Of a resolved run: the new number of an old one. */
static inline ridgeoven_number ridgeoven_run_new_number(const ridgeoven_run *run, uint64_t old) {
    return ridgeoven_new_number(*run, old);
}

/* Of a resolved run: how many survivors name an erased parent, as the answer's length. */
static inline ridgeoven_answer ridgeoven_run_reparented(const ridgeoven_run *run) {
    return ridgeoven_reparented(*run);
}

#ifdef __cplusplus
}
#endif

#endif
