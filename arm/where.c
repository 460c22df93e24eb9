/*
 * where FILE NUMBER LINE WHO: one find of the library, or of the quick kernel if WHO is quick, in the current partition of a table from a
 * file, between two calls of mark: for who traces it and counts instructions by function (arm/where).
 */
#include "quick.h"

#include <stdio.h>
#include <stdlib.h>

static uint8_t table[ULAVREPIT_TABLE_BYTES];

/* The tracer knows the places by this function's name. */
volatile unsigned marks;
__attribute__((noinline)) void mark(void)
{
    marks++;
}

int main(int count, char **words)
{
    uint64_t second;
    FILE *file = count == 5 ? fopen(words[1], "rb") : NULL;
    if (file == NULL)
        return 2;
    for (unsigned long left = strtoul(words[2], NULL, 10) + 1; left > 0; left--)
        if (fread(table, sizeof table, 1, file) != 1)
            return 2;
    fclose(file);
    uint64_t find = ulavrepit_find((uint32_t)(table[7] >> 6 | (table[6] & 3) << 2), (uint32_t)strtoul(words[3], NULL, 10));
    mark();
    uint64_t result = words[4][0] == 'q' ? quick_call(table, sizeof table, find, &second) : ulavrepit_call(table, sizeof table, find, &second);
    mark();
    return (int)(result & 0xff);
}
