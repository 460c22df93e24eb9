/*
 * The clauses of a sound table one by one and partition by partition, written from documents 01 and 02 alone: plain loops, to be
 * compared with what names a failing one. The walks of kernel.c decide the same clauses for the whole table and share nothing with these.
 */
#ifndef SECOND_CLAUSES_H
#define SECOND_CLAUSES_H

#include "kernel.h"

enum { SECOND_CLAUSES = 11 };

/*
 * True if the clause, 1 to 11, holds at the partition. What S1 says, and S3 of word 0, is asked of partition 0. To be asked only where
 * every lower clause holds at every partition.
 */
bool second_holds_at(second_board board, const second_table *t, unsigned clause, uint8_t p);

/*
 * Request 113: 1 for an image of another length. Else 0 where the table is sound, and 2^32 * (16 * clause + partition) where not: the
 * lowest clause that fails, and the lowest partition where it fails.
 */
uint64_t second_check(second_board board, const uint8_t *table, uint64_t table_len);

#endif
