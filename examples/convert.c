/* Writes the record on standard input in the other version to standard output, by the static library: ids of four bytes become ids of
 * eight, and ids of eight become ids of four.
 *
 *     gcc -Iinclude examples/convert.c crates/exports/out/libexports.a -o /tmp/convert
 *     /tmp/convert < record > converted
 *
 * A refusal is said on standard error, 15 where an id of eight bytes does not fit four; the status is then 1, and 2 if reading or writing
 * failed or the input has 2^20 bytes or more, which is more than a record that check accepts has, and is not looked at. */
#include <stdio.h>

#include "lvn.h"

#define MOST (1 << 20) /* check refuses what is as long, in either version */

static uint8_t input[MOST], output[MOST];

int main(void)
{
    size_t length = fread(input, 1, sizeof input, stdin);
    if (ferror(stdin) || length == sizeof input) {
        fprintf(stderr, "convert: standard input: cannot be read, or is too long\n");
        return 2;
    }

    int narrows = length > 4 && input[4] == 2; /* the version stands behind the length */
    size_t count;
    uint8_t refusal = (narrows ? lvn_narrow : lvn_widen)(input, length, output, sizeof output, &count);
    if (refusal != 0) {
        fprintf(stderr, "convert: standard input: refused %u at %zu\n", refusal, count);
        return 1;
    }

    if (fwrite(output, 1, count, stdout) != count || fflush(stdout) != 0) {
        fprintf(stderr, "convert: standard output: cannot be written\n");
        return 2;
    }
    return 0;
}
