/*
 * Tables that no session hands over: sound ones of unusual make, and damaged ones in which one clause of
 * soundness fails. Both start from a sound table in the second program's plain structs.
 */
#ifndef DAMAGE_H
#define DAMAGE_H

#include "dice.h"
#include "kernel.h"

enum { CLAUSES = 11 };

/*
 * Changes a table so that a clause fails, in one of many ways, and writes its bytes. Answers the clause that
 * was meant; 0 if the table has not what it takes, and the bytes are then of no use.
 */
uint8_t damage(const second_table *sound, uint8_t *table, dice *d);

/* There are so many ways; and one of them, by its number from 0 on, likewise. Too many pieces there can't be where an entry is one. */
unsigned damage_ways(void);
bool damages_on_board(unsigned which);
uint8_t damage_in(unsigned which, const second_table *sound, uint8_t *table, dice *d);

/*
 * The one clause of the table that fails, by the second program's eleven answers; 0 if none or more than one
 * does. Where S5 fails, its answers for S6 and S7 say nothing, and where S6 fails, that for S7: those are not
 * asked.
 */
uint8_t only_failing(const uint8_t *table);

/* What is wrong with the first whole entry that S7 doesn't allow: it is closed, given on, or not all of a grant. */
typedef enum { ALL_ALLOWED, WHOLE_CLOSED, WHOLE_GIVEN, WHOLE_NO_GRANT, MISMARKS } mismark;
mismark mismarked_in(const uint8_t *table);

/* The lowest child with two entries inside one grant whose rights differ; 0 if none has. */
uint8_t unlike_in(const uint8_t *table);

/* Sets the open bits by S9, and empties regions that name no open entry. */
void settle_table(second_table *t);

/* Changes a sound table into another sound one, such as only a builder of tables would make. */
void make_odd(second_table *t, dice *d);

#endif
