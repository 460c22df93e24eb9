/*
 * All the memory that is lent to the kernel in a test: one block with guard bytes around each buffer. So "no
 * byte was changed" and "both programs wrote the same" are one comparison each, guards included.
 */
#ifndef LENT_H
#define LENT_H

#include "ulavrepit.h"

#include <stdbool.h>
#include <string.h>

enum { GUARD = 64, LIST = 24, RUNS = ULAVREPIT_RUNS + 4, PIECES = ULAVREPIT_PIECES + 4, PAINT = 0xa5 };
#define PAINTED UINT64_C(0xa5a5a5a5a5a5a5a5)

typedef struct {
    uint8_t guard_0[GUARD];
    uint8_t table[ULAVREPIT_TABLE_BYTES];
    uint8_t guard_1[GUARD];
    uint8_t list[LIST];
    uint8_t guard_2[GUARD];
    uint64_t second;
    uint8_t guard_3[GUARD];
    ulavrepit_run runs[RUNS];
    uint8_t guard_4[GUARD];
    uint64_t pieces[PIECES];
    uint8_t guard_5[GUARD];
} lent;

/* A byte between the fields would be compared without being lent. */
typedef char lent_has_no_padding[sizeof(lent) == 6 * GUARD + ULAVREPIT_TABLE_BYTES + LIST + 8 + 12 * RUNS + 8 * PIECES ? 1 : -1];

static inline void paint(lent *m)
{
    memset(m, PAINT, sizeof *m);
}

static inline bool all_painted(const uint8_t *bytes, size_t count)
{
    for (size_t i = 0; i < count; i++)
        if (bytes[i] != PAINT)
            return false;
    return true;
}

static inline bool guards_kept(const lent *m)
{
    return all_painted(m->guard_0, GUARD) && all_painted(m->guard_1, GUARD) &&
           all_painted(m->guard_2, GUARD) && all_painted(m->guard_3, GUARD) && all_painted(m->guard_4, GUARD) &&
           all_painted(m->guard_5, GUARD);
}

static inline bool same(const lent *a, const lent *b)
{
    return memcmp(a, b, sizeof *a) == 0;
}

/* ---- words of a table ---- */

static inline uint64_t table_word(const uint8_t *table, unsigned i)
{
    uint64_t word = 0;
    for (unsigned b = 0; b < 8; b++)
        word = word << 8 | table[8 * i + b];
    return word;
}

static inline unsigned slot_at(unsigned partition, unsigned slot)
{
    return 1 + 40 * partition + 8 + slot;
}

/* Word 0: base 27, end 27, current 4, zero 6. */
static inline unsigned current_of(const uint8_t *table)
{
    return (unsigned)(table_word(table, 0) >> 6 & 15);
}

#endif
