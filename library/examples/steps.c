/* Cleans an archive from standard input to standard output step by step, and says on standard error where a number went. */
#include <stdio.h>
#include <stdlib.h>

#include "ridgeoven.h"

static uint8_t archive[1 << 20];
static uint8_t cleaned[RIDGEOVEN_CLEANED_MAX];
static ridgeoven_run run;

static void accepted(uint64_t refusal) {
    if (refusal != 0) {
        uint8_t words[RIDGEOVEN_WORDS_ROOM];
        size_t said = ridgeoven_words(refusal, words, sizeof words).length;
        fprintf(stderr, "refused %llu: %.*s\n", (unsigned long long)refusal, (int)said, (const char *)words);
        exit(1);
    }
}

int main(int count, char **words) {
    size_t length = fread(archive, 1, sizeof archive, stdin);
    if (ferror(stdin) || !feof(stdin)) {
        fprintf(stderr, "the archive cannot be read, or is longer than %zu bytes\n", sizeof archive);
        return 2;
    }
    ridgeoven_run_new(&run);
    accepted(ridgeoven_run_take(&run, archive, length));
    accepted(ridgeoven_run_resolve(&run));
    for (int i = 1; i < count; i++) {
        uint64_t old = strtoull(words[i], NULL, 10);
        ridgeoven_number new = ridgeoven_run_new_number(&run, old);
        accepted(new.refusal);
        if (new.known)
            fprintf(stderr, "%llu is now %llu\n", (unsigned long long)old, (unsigned long long)new.number);
        else
            fprintf(stderr, "%llu is gone\n", (unsigned long long)old);
    }
    ridgeoven_answer changed = ridgeoven_run_reparented(&run);
    accepted(changed.refusal);
    fprintf(stderr, "reparented: %zu\n", changed.length);
    ridgeoven_answer written = ridgeoven_run_write(&run, cleaned, sizeof cleaned);
    accepted(written.refusal);
    return fwrite(cleaned, 1, written.length, stdout) == written.length && fflush(stdout) == 0 ? 0 : 2;
}
