/* Rewrites the record on standard input to standard output, by the static library.
 *
 *     gcc -Iinclude examples/rewrite.c crates/exports/out/libexports.a -o /tmp/rewrite
 *     /tmp/rewrite < record > rewriting
 *
 * A refusal is said on standard error; the status is then 1, and 2 if reading or writing failed. */
#include <stdio.h>
#include <stdlib.h>

#include "lvn.h"

/* All of standard input; *length: how many bytes. */
static uint8_t *read_all(size_t *length)
{
    size_t room = 4096;
    uint8_t *bytes = malloc(room);
    *length = 0;
    while (bytes) {
        *length += fread(bytes + *length, 1, room - *length, stdin);
        if (*length < room)
            break;
        room *= 2;
        uint8_t *more = realloc(bytes, room);
        if (!more)
            free(bytes);
        bytes = more;
    }
    return bytes;
}

int main(void)
{
    size_t length;
    uint8_t *input = read_all(&length);
    if (!input || ferror(stdin)) {
        fprintf(stderr, "rewrite: standard input: cannot be read\n");
        return 2;
    }

    uint16_t figures[64]; /* a record has no more blocks */
    lvn_rewritten answer;
    uint8_t refusal = lvn_figures(input, length, figures, 64, &answer); /* says how many bytes are needed */
    if (refusal != 0) {
        fprintf(stderr, "rewrite: standard input: refused %u at %zu\n", refusal, answer.count);
        return 1;
    }
    size_t room = answer.count;
    uint8_t *output = malloc(room);
    if (!output || lvn_rewrite(input, length, output, room, &answer) != 0) {
        fprintf(stderr, "rewrite: no memory for %zu bytes\n", room);
        return 2;
    }

    if (fwrite(output, 1, answer.count, stdout) != answer.count || fflush(stdout) != 0) {
        fprintf(stderr, "rewrite: standard output: cannot be written\n");
        return 2;
    }
    fprintf(stderr, "rewrite: %zu bytes, %zu saves\n", answer.count, answer.saves);
    free(input);
    free(output);
    return 0;
}
