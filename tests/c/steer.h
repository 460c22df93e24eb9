/*
 * Call words that suit a table: mostly ones that are accepted, and near misses, which are refused for one
 * reason. The table is looked at through the second program's plain structs, and a word is tried on it: if it
 * is not what it was meant to be, some others are made. What it answers is compared and counted elsewhere.
 */
#ifndef STEER_H
#define STEER_H

#include "dice.h"
#include "kernel.h"
#include "services.h"

/* The board whose library is called: -DBOARD=SECOND_V8 for that of an ARMv8-M. */
#ifndef BOARD
#define BOARD SECOND_V7
#endif

/*
 * What a session is after: everything in turn, a long chain, many children, many entries, grants, regions, or
 * branches that grow until every partition is present and are then cleared out.
 */
typedef enum { MIXED, DEEP, WIDE, DENSE, LENDING, REGIONS, CLEARING, MOODS } mood;

/* No call is refused with a higher number. */
enum { LAST_REFUSAL = 19 };

/* The refusal numbers of each service, ended by 0. */
extern const uint8_t service_checks[LAST_SERVICE + 1][8];

/* A word of service 9 by which nothing is loaded or unloaded: R above 1, or R = 1 and S not 0; or one of service 10. */
typedef enum { NO_MISS, RIGHTS_ABOVE_1, UNLOAD_OF_A_SLOT, SERVICE_10, REGION_MISSES } region_miss;
region_miss region_missed(uint64_t word);

/* A call word for the table's current partition. The table is handed over as bytes and read. */
uint64_t next_word(const uint8_t *table, const second_table *t, mood m, dice *d);

/* A range to boot: from one line to all of them, mostly with room for a long chain. */
typedef struct {
    uint64_t base, end;
} range;
range next_boot(dice *d);

/* P is a child of a partition. */
bool child_of(const second_table *t, uint8_t p, uint8_t of);

/* Steps from a partition up to the root. */
unsigned depth_in(const second_table *t, uint8_t p);

/* The slot of the parent's entry around an entry that has a parent; SECOND_SLOTS if there is none. */
uint8_t entry_around(const second_table *t, uint8_t p, uint32_t start, uint32_t end);

/* A slot of the partition that passes, each with the same chance; SECOND_SLOTS if none does. */
typedef bool slot_test(const second_table *t, uint8_t p, uint8_t s);
uint8_t some_slot(const second_table *t, uint8_t p, slot_test *passes, dice *d);

bool is_usable(const second_table *t, uint8_t p, uint8_t s); /* an entry that is open, not given and not whole */
bool is_idle(const second_table *t, uint8_t p, uint8_t s);   /* an entry that is open and not given, whole or not */
bool is_whole(const second_table *t, uint8_t p, uint8_t s);  /* an entry with the whole mark */
bool is_grant(const second_table *t, uint8_t p, uint8_t s);  /* an entry of a child that is all of what its parent gave */
bool is_closed(const second_table *t, uint8_t p, uint8_t s); /* an entry that is not open */
bool is_lent(const second_table *t, uint8_t p, uint8_t s);   /* an entry that is open and given */
bool is_free(const second_table *t, uint8_t p, uint8_t s);   /* no entry, in a present structure */
bool is_open(const second_table *t, uint8_t p, uint8_t s);
bool is_loaded(const second_table *t, uint8_t p, uint8_t s); /* a region of the partition names it */
bool is_entry(const second_table *t, uint8_t p, uint8_t s);
bool moves(const second_table *t, uint8_t p, uint8_t s);     /* an entry that a pack moves: a slot below it is free */

/* How many pieces the slot's entry has, on the board that is compared. */
uint32_t pieces_of(const second_table *t, uint8_t p, uint8_t s);

#endif
