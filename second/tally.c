/*
 * The program tally of document 01 ("A session printed whole").
 * Build: see kernel.c.
 */
#include "kernel.h"

#include <inttypes.h>
#include <stdio.h>

/* Reads up to 8 bytes; answers how many came. Fewer than 8 only at the end of the input. */
static size_t read_word(FILE *in, uint64_t *word)
{
    uint8_t bytes[8];
    size_t got = fread(bytes, 1, sizeof bytes, in);
    *word = 0;
    for (size_t i = 0; i < got; i++)
        *word = *word << 8 | bytes[i];
    return got;
}

static void tally(FILE *in, FILE *out)
{
    static uint8_t table[SECOND_BYTES];
    static second_run runs[SECOND_RUNS];
    uint64_t word, result, second;
    size_t got;

    /* Boot word: base 27, end 27, zero 10. */
    got = read_word(in, &word);
    if (got != 8 || (word & 0x3ff) != 0) {
        fprintf(out, "boot 2\n");
        return;
    }
    result = second_boot(table, sizeof table, word >> 37, word >> 10 & 0x7ffffff);
    if (result != 0) {
        fprintf(out, "boot %" PRIu64 "\n", result & 0xff);
        return;
    }

    /* One line a call: its number from 1, refusal number or 0, first value, second value. */
    uint64_t number = 0;
    while ((got = read_word(in, &word)) == 8) {
        number++;
        second = 0;
        result = second_call(SECOND_V7, table, sizeof table, word, &second);
        fprintf(out, "%" PRIu64 " %" PRIu64 " %" PRIu64 " %016" PRIx64 "\n",
                number, result & 0xff, result >> 32, second);
    }

    /* Then, if 1 to 7 bytes are left over, "rest" and their number. */
    if (got != 0)
        fprintf(out, "rest %zu\n", got);

    /* Then a line for each run: start, end, holders root first. */
    uint64_t count = second_runs(SECOND_V7, table, sizeof table, runs, SECOND_RUNS) >> 32;
    for (uint64_t i = 0; i < count; i++) {
        uint8_t holders[SECOND_HOLDERS];
        uint64_t n = second_holders(SECOND_V7, table, sizeof table, runs[i].start,
                                    holders, sizeof holders, &second) >> 32;
        fprintf(out, "%" PRIu32 " %" PRIu32, runs[i].start, runs[i].end);
        for (uint64_t h = 0; h < n; h++)
            fprintf(out, " %u", (unsigned)holders[h]);
        fprintf(out, "\n");
    }
}

#ifndef TALLY_WITHOUT_MAIN
int main(void)
{
    tally(stdin, stdout);
    return fflush(stdout) != 0 || ferror(stdout) ? 1 : 0;
}
#endif
