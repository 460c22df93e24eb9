/*
 * Ulavrepit for ARMv8-M: all of ulavrepit.h, with the same names and promises, and the register pair of a region.
 * The board is chosen when the kernel is built: link the library that 'make lib BOARD=armv8m' makes.
 *
 * A region of this board has a base and a limit at any line. So the one piece of an entry is the entry itself, whatever its
 * lines, and load is never refused 19. ulavrepit_rbar and ulavrepit_rasr are for an ARMv7-M: here are the functions below.
 */
#ifndef ULAVREPIT8_H
#define ULAVREPIT8_H

#include "ulavrepit.h"

#ifdef __cplusplus
extern "C" {
#endif

/* A refusal that only the two functions below give: the entry may not be read, or no readable entry writes the pair. */
enum { ULAVREPIT_REFUSED_PAIR = 22 };

/*
 * Each answers 0 or the refusal; there is no caller and no value. What is lent is written only when it is done.
 *
 * The pair is that of the ARMv8-M manual: RBAR is the base address, shareability 0, access (unprivileged: 01 read-write,
 * 11 read-only) and execute-never; RLAR is the limit address, which names the last 32 bytes inside, attribute 0 and enable.
 */

/*
 * The pair of the entry in a slot of a partition, whether it is open or loaded or not. Refused: 1, then 4 for a number
 * out of range, an absent partition or no entry, then 22 without the read right.
 */
uint64_t ulavrepit_region_write(const uint8_t *table, uint64_t table_len, uint64_t partition, uint64_t slot,
                                uint32_t *rbar, uint32_t *rlar);

/*
 * The entry that a pair tells, as an entry word: present and open, given to no one, without the whole mark, which a pair
 * does not tell. Of an open entry that is neither given nor lent whole it is the word that find answers. Refused: 22 for
 * exactly those pairs that no readable entry writes.
 */
uint64_t ulavrepit_region_read(uint32_t rbar, uint32_t rlar, uint64_t *entry);

#ifdef __cplusplus
}
#endif

#endif
