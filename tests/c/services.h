/*
 * The services as the tests count them, a row for each:
 *
 *   row(number, name, word, (weights), (checks))
 *
 * The word is one of the fields p, s, t and line, as far as the service uses them. The weights are how often each mood of
 * steer.h tries the service, in the order of the moods. The checks are its refusal numbers, from 01's column Checks and
 * from 02, but for 1 and 2, which every service has.
 *
 * The services are 1 to 15 without 10. What service 9 does with R = 1, unload, has checks of its own and is counted by
 * itself: in row 10, which is free.
 *
 * The numbers are the header's. The second program and its selftest, which the library is compared with, have theirs for
 * themselves, from 01 and 02.
 */
#ifndef SERVICES_H
#define SERVICES_H

#include "ulavrepit.h"

enum { UNLOAD = 10, LAST_SERVICE = ULAVREPIT_PACK };

#define SERVICES(row) \
    row(ULAVREPIT_CREATE, "create", ulavrepit_create(s), (7, 6, 20, 3, 5, 5, 14), (4, 5, 6, 8, 9, 18)) \
    row(ULAVREPIT_DELETE, "delete", ulavrepit_delete(p), (1, 1, 1, 0, 0, 1, 0), (3, 15)) \
    row(ULAVREPIT_PREPARE, "prepare", ulavrepit_prepare(p, s), (8, 6, 6, 12, 10, 7, 8), (3, 4, 5, 6, 8, 9, 18)) \
    row(ULAVREPIT_COLLECT, "collect", ulavrepit_collect(p, t), (3, 1, 2, 1, 1, 3, 0), (3, 4, 15)) \
    row(ULAVREPIT_GIVE, "give", ulavrepit_give(p, s, t & 7), (12, 12, 6, 16, 26, 10, 12), (3, 4, 5, 6, 8, 10, 18)) \
    row(ULAVREPIT_TAKE, "take", ulavrepit_take(s), (5, 3, 1, 2, 6, 6, 1), (4, 6, 14)) \
    row(ULAVREPIT_CUT, "cut", ulavrepit_cut(s, line), (14, 12, 18, 30, 18, 10, 12), (4, 5, 6, 7, 8, 18)) \
    row(ULAVREPIT_MERGE, "merge", ulavrepit_merge(s, t), (8, 4, 2, 2, 10, 6, 2), (4, 5, 6, 11, 12)) \
    row(ULAVREPIT_LOAD, "load", ulavrepit_load(p, s, t), (8, 4, 3, 4, 3, 24, 8), (3, 4, 5, 16, BOARD == SECOND_V7 ? 19 : 0)) \
    row(UNLOAD, "unload", ulavrepit_unload(p, t), (2, 1, 1, 1, 1, 5, 1), (3, 16)) \
    row(ULAVREPIT_READ_REGION, "read region", ulavrepit_read_region(p, t), (2, 1, 1, 1, 1, 5, 1), (3, 16)) \
    row(ULAVREPIT_FIND, "find", ulavrepit_find(p, line), (3, 2, 1, 2, 2, 3, 2), (3, 7)) \
    row(ULAVREPIT_SWITCH, "switch", ulavrepit_switch(p), (12, 12, 6, 10, 16, 10, 14), (3)) \
    row(ULAVREPIT_CLEAR_OUT, "clear out", ulavrepit_clear_out(p), (1, 0, 0, 0, 0, 1, 1), (3)) \
    row(ULAVREPIT_PACK, "pack", ulavrepit_pack(p), (4, 1, 1, 1, 3, 6, 1), (3))

/* One column of them, as an array's initializers: SERVICES(SERVICE_NAMES). */
#define SERVICE_NUMBERS(...) {__VA_ARGS__}
#define SERVICE_NAMES(number, name, word, weights, checks) [number] = name,
#define SERVICE_WORDS(number, name, word, weights, checks) word,
#define SERVICE_WEIGHTS(number, name, word, weights, checks) [number] = SERVICE_NUMBERS weights,
#define SERVICE_CHECKS(number, name, word, weights, checks) [number] = SERVICE_NUMBERS checks,

/* The row that a word is counted in; 0 if none. */
static inline unsigned row_of(uint64_t word)
{
    unsigned service = (unsigned)(word >> 60);
    if (service == ULAVREPIT_LOAD && (word >> 43 & 7) != 0)
        return UNLOAD;
    return service == 10 ? 0 : service;
}

#endif
