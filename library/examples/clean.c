/* Cleans an archive from standard input to standard output. */
#include <stdio.h>

#include "ridgeoven.h"

static uint8_t archive[1 << 20];
static uint8_t cleaned[RIDGEOVEN_CLEANED_MAX];

int main(void) {
    size_t length = fread(archive, 1, sizeof archive, stdin);
    if (ferror(stdin) || !feof(stdin)) {
        fprintf(stderr, "the archive cannot be read, or is longer than %zu bytes\n", sizeof archive);
        return 2;
    }
    ridgeoven_answer answer = ridgeoven_clean(archive, length, cleaned, sizeof cleaned);
    if (answer.refusal != 0) {
        uint8_t words[RIDGEOVEN_WORDS_ROOM];
        size_t said = ridgeoven_words(answer.refusal, words, sizeof words).length;
        fprintf(stderr, "refused %llu: %.*s\n", (unsigned long long)answer.refusal, (int)said, (const char *)words);
        return 1;
    }
    return fwrite(cleaned, 1, answer.length, stdout) == answer.length && fflush(stdout) == 0 ? 0 : 2;
}
