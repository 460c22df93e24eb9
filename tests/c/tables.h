/*
 * Tables to measure on, made by accepted calls of the kernel that is handed in. Each answers false if a
 * call was refused.
 */
#ifndef TABLES_H
#define TABLES_H

#include "ulavrepit.h"

#include <stdbool.h>

/* A kernel: the library's functions or the second program's, for a board. */
typedef struct {
    uint64_t (*boot)(uint8_t *, uint64_t, uint64_t, uint64_t);
    uint64_t (*call)(uint8_t *, uint64_t, uint64_t, uint64_t *);
    uint64_t (*holders)(const uint8_t *, uint64_t, uint64_t, uint8_t *, uint64_t, uint64_t *);
    uint64_t (*runs)(const uint8_t *, uint64_t, ulavrepit_run *, uint64_t);
    uint64_t (*pieces)(const uint8_t *, uint64_t, uint64_t, uint64_t, uint64_t *, uint64_t);
} kernel;

/* The last zero bit of a table is the least significant of this byte: word 7 of the last record, before its slots. */
enum { LAST_ZERO_BYTE = 8 * (1 + 40 * 15 + 7) + 7 };

/* The root alone, with one entry. */
bool make_fresh(const kernel *k, uint8_t *table);

/* A handset: store, reader and uploader, two helpers of the store; 28 entries, 12 areas. */
bool make_typical(const kernel *k, uint8_t *table);

/* Ten partitions: two children of the root with four and three children of their own; 48 entries, 21 areas. */
bool make_ten(const kernel *k, uint8_t *table);

/*
 * The densest that the format holds: a chain of 16 partitions, each with 4 structures and 32 entries, 27 of
 * them given to its child, with mixed rights.
 */
bool make_densest(const kernel *k, uint8_t *table);

/* The chain of farthest.h; the root is current. */
bool make_chain(const kernel *k, uint8_t *table, uint32_t partitions, uint32_t entries);

/* From the last partition of a chain to the root. */
bool climb_chain(const kernel *k, uint8_t *table, uint32_t partitions);

#endif
