/*
 * Writes session files for the program tally: a boot word and call words, 8 bytes each, most significant first.
 *
 *   sessions FOLDER COUNT SEED
 *
 * Files are FOLDER/000, 001, ... The first ones are at the edges: nothing, a boot word cut short, with a zero
 * bit set, of no line, turned round, of all memory. 012 is the session that 01 prints, 013 makes the densest table
 * and clears out all 15 partitions below its root. The others are steered; some have bytes left over.
 */
#include "session.h"
#include "steer.h"
#include "tables.h"

#include <stdio.h>
#include <stdlib.h>

static dice chance;
static uint8_t table[SECOND_BYTES];

static void put_word(FILE *out, uint64_t word)
{
    for (int shift = 56; shift >= 0; shift -= 8)
        fputc((int)(word >> shift & 0xff), out);
}

/* Boot word: base 27, end 27, zero 10. */
static uint64_t boot_word(uint64_t base, uint64_t end)
{
    return base << 37 | end << 10;
}

/* Calls from a fresh table; those that are refused are written too. */
static void put_calls(FILE *out, unsigned count)
{
    static second_table state;
    mood m = (mood)below(&chance, MOODS);
    uint64_t second;
    for (; count > 0; count--) {
        second_read(table, &state);
        uint64_t word = next_word(table, &state, m, &chance);
        second_call(BOARD, table, sizeof table, word, &second);
        put_word(out, word);
    }
}

static void put_session(FILE *out)
{
    range r = next_boot(&chance);
    second_boot(table, sizeof table, r.base, r.end);
    put_word(out, boot_word(r.base, r.end));
    put_calls(out, below(&chance, 600));
    if (percent(&chance, 30))
        for (unsigned rest = below(&chance, 8); rest > 0; rest--)
            fputc((int)below(&chance, 256), out);
}

static void put_printed(FILE *out)
{
    put_word(out, boot_word(SESSION_BASE, SESSION_END));
    for (unsigned i = 0; i < SESSION_CALLS; i++)
        put_word(out, session[i].word);
}

/* A kernel that writes down what it is asked. */
static FILE *record;

static uint64_t boot_recorded(uint8_t *t, uint64_t len, uint64_t base, uint64_t end)
{
    put_word(record, boot_word(base, end));
    return second_boot(t, len, base, end);
}

static uint64_t call_recorded(uint8_t *t, uint64_t len, uint64_t word, uint64_t *second)
{
    put_word(record, word);
    return second_call(BOARD, t, len, word, second);
}

/* The densest table is a chain: from its last partition up to the root, which clears out its one child. */
static bool put_branch(FILE *out)
{
    const kernel recorded = {boot_recorded, call_recorded, NULL, NULL, NULL};
    uint64_t second;
    record = out;
    bool good = make_densest(&recorded, table);
    for (uint32_t p = SECOND_PARTITIONS - 1; p > 0; p--)
        good = (call_recorded(table, sizeof table, ulavrepit_switch(p - 1), &second) & 0xff) == 0 && good;
    return call_recorded(table, sizeof table, ulavrepit_clear_out(1), &second) >> 32 == SECOND_PARTITIONS - 1 && good;
}

/* What comes before the calls of an edge file. */
static const struct {
    uint64_t word;
    unsigned bytes;
} edges[] = {
    {0, 0}, {0, 1}, {UINT64_C(0x0000200000100000), 7},                  /* missing, short */
    {UINT64_C(0x0000200000100001), 8}, {UINT64_C(0x0000200000100200), 8}, /* the last and the first zero bit set */
    {1, 8}, {0, 8},                                                     /* so and of no line; of no line */
    {UINT64_C(0x0000200000040000), 8}, {UINT64_C(0x0000200000038000), 8}, /* 256 to 256, 256 to 224 */
    {UINT64_MAX << 10, 8}, {UINT64_C(134217727) << 10, 8},              /* the last number twice, all memory */
    {UINT64_C(134217726) << 37 | UINT64_C(134217727) << 10, 8}};        /* the last line */

static void put_edge(FILE *out, unsigned i)
{
    for (unsigned b = 0; b < edges[i].bytes; b++)
        fputc((int)(edges[i].word >> (56 - 8 * b) & 0xff), out);
    if (edges[i].bytes == 8)
        for (unsigned b = 0; b < 8 * 3 + i % 8; b++) /* three calls, and bytes left over */
            fputc((int)below(&chance, 256), out);
}

static bool write_file(const char *folder, unsigned number)
{
    char path[4096];
    const unsigned edge_files = sizeof edges / sizeof *edges;
    snprintf(path, sizeof path, "%s/%03u", folder, number);
    FILE *out = fopen(path, "wb");
    bool good = true;
    if (out == NULL)
        return false;
    if (number < edge_files)
        put_edge(out, number);
    else if (number == edge_files)
        put_printed(out);
    else if (number == edge_files + 1)
        good = put_branch(out);
    else
        put_session(out);
    return fclose(out) == 0 && good;
}

int main(int count, char **words)
{
    if (count != 4) {
        fprintf(stderr, "usage: sessions FOLDER COUNT SEED\n");
        return 2;
    }
    chance = seeded(strtoull(words[3], NULL, 10));
    for (unsigned i = 0; i < strtoul(words[2], NULL, 10); i++)
        if (!write_file(words[1], i))
            return 1;
    return 0;
}
