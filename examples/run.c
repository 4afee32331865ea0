/* Runs the record on standard input, by the static library, with no answers.
 *
 *     gcc -Iinclude examples/run.c crates/exports/out/libexports.a -o /tmp/run
 *     /tmp/run 2 3 < record
 *
 * The numbers are ints for the first names, in order; the other names hold nothing. Prints the steps and how the run ended; a run that never
 * ends is not stopped, since the limit is the greatest there is.
 * A refusal is said on standard error; the status is then 1, and 2 if the words or standard input could not be read. */
#include <errno.h>
#include <inttypes.h>
#include <stdio.h>
#include <stdlib.h>

#include "lvn.h"

#define NAMES 256 /* a record has no more */
#define NOTHING 0xFF

static const char *const ends[] = {"end", "ret", "halt", "unset", "division", "limit"};

static uint8_t record[1 << 20]; /* check refuses what is longer */

/* The starting store in the house form: an int for each word, and nothing for the other names. Returns its length, 0 if a word is no int. */
static size_t put_store(uint8_t *store, int names, char **words, int count)
{
    size_t at = 5;
    for (int name = 0; name < names; name++) {
        if (name >= count) {
            store[at++] = NOTHING;
            continue;
        }
        char *end;
        errno = 0;
        int64_t value = strtoll(words[name], &end, 10);
        if (errno != 0 || end == words[name] || *end != '\0')
            return 0;
        store[at++] = 0; /* an int */
        for (int shift = 56; shift >= 0; shift -= 8)
            store[at++] = (uint8_t)((uint64_t)value >> shift);
    }
    for (int k = 0; k < 4; k++)
        store[k] = (uint8_t)((at - 4) >> (24 - 8 * k)); /* the length of what follows it */
    store[4] = 1;                                       /* the version */
    return at;
}

int main(int argc, char **argv)
{
    size_t length = fread(record, 1, sizeof record, stdin);
    if (ferror(stdin) || length == sizeof record) {
        fprintf(stderr, "run: standard input: cannot be read, or is no record\n");
        return 2;
    }
    size_t offset;
    uint8_t refusal = lvn_check(record, length, &offset);
    if (refusal != 0) {
        fprintf(stderr, "run: standard input: refused %u at %zu\n", refusal, offset);
        return 1;
    }

    int names = record[6] << 8 | record[7]; /* check has accepted it, so they are there */
    uint8_t store[5 + 9 * NAMES];
    size_t size = argc - 1 > names ? 0 : put_store(store, names, argv + 1, argc - 1);
    if (size == 0) {
        fprintf(stderr, "run: ints for the first of %d names are needed\n", names);
        return 2;
    }

    static const uint8_t answers[] = {0, 0, 0, 1, 1}; /* none, in the house form */
    uint8_t events[148], final_store[4357];           /* always enough without answers */
    lvn_ran ran;
    refusal = lvn_run(record, length, store, size, answers, sizeof answers, UINT64_MAX, events, sizeof events, final_store,
                      sizeof final_store, &ran);
    if (refusal != 0) { /* 13: a name is no int */
        fprintf(stderr, "run: refused %u\n", refusal);
        return 1;
    }
    printf("steps %" PRIu64 "\nended by %s", ran.steps, ends[ran.ended]);
    if (ran.ended == 4)
        printf(" #%" PRIu64, ran.id);
    putchar('\n');
    return fflush(stdout) == 0 ? 0 : 2;
}
