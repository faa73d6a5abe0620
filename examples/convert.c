/* Converts a network: `convert in` from BLIF to a network file, `convert out` from a network file to BLIF. Reads standard input and writes
   standard output. A refusal goes to standard error as `refused N`, and the exit status is 1. */
#include "tusqirma.h"
#include <stdio.h>
#include <stdlib.h>
#include <string.h>

static uint64_t session[TUSQIRMA_SESSION_WORDS];

static int failed(const char *what) {
    fprintf(stderr, "%s\n", what);
    return 2;
}

static int refused(uint64_t number) {
    fprintf(stderr, "refused %llu\n", (unsigned long long)number);
    return 1;
}

/* All of standard input, of any length; NULL where that fails. */
static uint8_t *input(size_t *size) {
    size_t room = 4096;
    uint8_t *bytes = malloc(room);
    *size = 0;
    while (bytes) {
        *size += fread(bytes + *size, 1, room - *size, stdin);
        if (*size < room) break;
        uint8_t *more = realloc(bytes, room *= 2);
        if (!more) free(bytes);
        bytes = more;
    }
    if (bytes && !ferror(stdin)) return bytes;
    free(bytes);
    return NULL;
}

int main(int count, char **words) {
    int in = count == 2 && !strcmp(words[1], "in");
    if (!in && (count != 2 || strcmp(words[1], "out"))) return failed("usage: convert in|out");
    size_t size;
    uint8_t *bytes = input(&size);
    if (!bytes) return failed("cannot read the input");
    uint64_t number = (in ? tusqirma_read_blif : tusqirma_load)(bytes, size, session, TUSQIRMA_SESSION_WORDS);
    free(bytes);
    if (number) return refused(number);
    uint8_t converted[TUSQIRMA_MOST_BLIF];
    uint64_t length[1];
    number = (in ? tusqirma_write : tusqirma_write_blif)(session, TUSQIRMA_SESSION_WORDS, converted, sizeof converted, length, 1);
    if (number) return refused(number);
    size_t written = fwrite(converted, 1, (size_t)length[0], stdout);
    if (written < length[0] || fflush(stdout)) return failed("cannot write the output");
    return 0;
}
