/* A lent run, call by call: what an accepted call does to it, and that a refused one leaves it and the lent bytes as they were. An archive
 * that is accepted comes on standard input, its cleaning is the file that is named. */
#include <stdio.h>
#include <string.h>

#include "ridgeoven.h"

static uint8_t archive[4096], cleaned[4096], out[RIDGEOVEN_CLEANED_MAX], before_out[RIDGEOVEN_CLEANED_MAX];
static ridgeoven_run run, before;
static int wrong;

static void answered(const char *call, uint64_t refusal, uint64_t expected) {
    int is_kept = memcmp(&run, &before, sizeof run) == 0 && memcmp(out, before_out, sizeof out) == 0;
    if (refusal != expected || is_kept != (expected != 0)) {
        fprintf(stderr, "%s: refusal %llu, not %llu; what was lent %s\n", call, (unsigned long long)refusal, (unsigned long long)expected,
                is_kept ? "is as it was" : "has changed");
        wrong = 1;
    }
    before = run;
    memcpy(before_out, out, sizeof out);
}

int main(int count, char **names) {
    FILE *file = count == 2 ? fopen(names[1], "rb") : NULL;
    if (file == NULL)
        return 2;
    size_t expected = fread(cleaned, 1, sizeof cleaned, file), length = fread(archive, 1, sizeof archive, stdin);
    memset(&run, 0x5a, sizeof run);
    before = run;
    answered("a value that is no run", ridgeoven_run_take(&run, archive, length), 40);
    ridgeoven_run_new(&run);
    answered("new", 0, 0);
    answered("write of a new run", ridgeoven_run_write(&run, out, sizeof out).refusal, 40);
    answered("take of a part", ridgeoven_run_take(&run, archive, length - 1), 23);
    answered("take", ridgeoven_run_take(&run, archive, length), 0);
    answered("take of the same again", ridgeoven_run_take(&run, archive, length), 25);
    answered("reparented before resolving", ridgeoven_run_reparented(&run).refusal, 40);
    answered("resolve", ridgeoven_run_resolve(&run), 0);
    answered("resolve again", ridgeoven_run_resolve(&run), 40);
    answered("write with too little room", ridgeoven_run_write(&run, out, expected - 1).refusal, 41);
    ridgeoven_answer written = ridgeoven_run_write(&run, out, sizeof out);
    answered("write", written.refusal, 0);
    if (written.length != expected || memcmp(out, cleaned, expected) != 0) {
        fprintf(stderr, "other bytes are written\n");
        wrong = 1;
    }
    return wrong;
}
