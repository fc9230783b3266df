/* The sizes of the headers' records as C has them, a line each, and the size of a run as the compiled library has it; fails where the two
 * sizes of a run differ. */
#include <stdio.h>

#include "ridgeoven_cover.h"
#include "ridgeoven_refs.h"

/* A run with as many words more behind it, so that a library whose run is larger stays within it. */
typedef struct more {
    uint64_t words[2 * RIDGEOVEN_RUN_WORDS];
} more;

/* ridgeoven_resolve as x86-64 has it: a record that is answered goes to a place that is given first, and is the answer. So what the library
 * reads and writes is seen, not what the header says of it. */
void *resolved(void *place, more run) __asm__("ridgeoven_resolve");

static more given;
static more place;

/* No run has these words, so that the call is refused with 40 and gives them back: as many as a run has, then the refusal. */
static size_t library_words(void) {
    for (size_t i = 0; i < 2 * RIDGEOVEN_RUN_WORDS; i++) {
        given.words[i] = 0x5a5a5a5a5a5a0000 + i;
        place.words[i] = 0xa5a5a5a5a5a50000 + i;
    }
    resolved(&place, given);
    size_t words = 2 * RIDGEOVEN_RUN_WORDS;
    while (words > 0 && place.words[words - 1] == 0xa5a5a5a5a5a50000 + (words - 1))
        words--;
    if (words == 0 || place.words[words - 1] != 40) {
        fprintf(stderr, "no run was given back\n");
        return 0;
    }
    return words - 1;
}

int main(void) {
    printf("run %zu\n", sizeof(ridgeoven_run));
    printf("step %zu\n", sizeof(ridgeoven_step));
    printf("answer %zu\n", sizeof(ridgeoven_answer));
    printf("number %zu\n", sizeof(ridgeoven_number));
    printf("link %zu\n", sizeof(ridgeoven_link));
    printf("covered %zu\n", sizeof(ridgeoven_covered));
    printf("resolved %zu\n", sizeof(ridgeoven_resolved));
    size_t words = library_words();
    if (words * 8 == sizeof(ridgeoven_run))
        return 0;
    fprintf(stderr, "a run has %zu words in the library, %d in the header\n", words, RIDGEOVEN_RUN_WORDS);
    return 1;
}
