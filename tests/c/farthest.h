/*
 * A chain of partitions, each with so many entries, and the last lines of memory in the last slot of each. Each partition cuts pieces
 * of 16 lines off its block; the first ones are its own further structures, the next two its child's header and first structure, and
 * the child is given what is left. Every call is accepted. With 16 partitions of 32 entries a listing of holders looks farthest.
 */
#ifndef FARTHEST_H
#define FARTHEST_H

#include "ulavrepit.h"

enum {
    CHAIN_STRUCTURE_SLOTS = ULAVREPIT_SLOTS / ULAVREPIT_STRUCTURES,
    FARTHEST_PIECES = ULAVREPIT_SLOTS - 1,
    FARTHEST_END = ULAVREPIT_PARTITIONS * FARTHEST_PIECES * ULAVREPIT_AREA_LINES + 64, /* it boots from 0 to here */
    FARTHEST_CALLS = ULAVREPIT_PARTITIONS * (FARTHEST_PIECES + 3) + (ULAVREPIT_PARTITIONS - 1) * 4
};

/* The structures that a partition needs beside its first one: their areas are its first entries. */
static inline uint32_t chain_structures(uint32_t entries)
{
    return (entries - 1) / CHAIN_STRUCTURE_SLOTS;
}

/* After a boot from 0 to FARTHEST_END or less; the entries are those structures and 3 or more. Answers how many calls. */
static inline unsigned chain_session(uint64_t words[FARTHEST_CALLS], uint32_t partitions, uint32_t entries)
{
    uint32_t line = 0, structures = chain_structures(entries);
    uint64_t *next = words;
    for (uint32_t p = 0; p < partitions; p++) {
        if (p > 0) {
            *next++ = ulavrepit_create(structures);
            *next++ = ulavrepit_prepare(p, structures + 1);
            *next++ = ulavrepit_give(p, entries - 1, ULAVREPIT_ALL_RIGHTS);
            *next++ = ulavrepit_switch(p);
        }
        for (uint32_t slot = 0; slot < entries - 1; slot++) {
            line += ULAVREPIT_AREA_LINES;
            *next++ = ulavrepit_cut(slot, line);
            if (slot < structures)
                *next++ = ulavrepit_prepare(p, slot);
        }
    }
    return (unsigned)(next - words);
}

static inline void farthest_session(uint64_t words[FARTHEST_CALLS])
{
    chain_session(words, ULAVREPIT_PARTITIONS, ULAVREPIT_SLOTS);
}

#endif
