/*
 * Ulavrepit, the second program: the tables of a separation kernel in plain
 * C99, written from documents 01 and 02 alone, to be compared with the first one.
 *
 * Every result is  refusal + 2^8 * caller + 2^32 * first.  Bits 16 to 31 are
 * zero. Refusal 0 means done. caller is 0 where refusal 1 is given, and for
 * boot, holders, runs and pieces. Refused: first is 0 and nothing is written anywhere.
 *
 * A table is 5,128 bytes, each word most significant byte first. A buffer of
 * length 0 may have any pointer; a table of a wrong length is not touched.
 * second points to one number, written only when the answer is done.
 *
 * The board is the one whose regions are loaded: how many of them a block
 * takes, and so how many blocks a partition may have loaded, depends on it.
 */
#ifndef SECOND_KERNEL_H
#define SECOND_KERNEL_H

#include <stdbool.h>
#include <stdint.h>

enum {
    SECOND_PARTITIONS = 16,
    SECOND_STRUCTURES = 4,
    SECOND_STRUCTURE_SLOTS = 8,
    SECOND_SLOTS = 32,
    SECOND_REGIONS = 8,
    SECOND_WORDS = 641,
    SECOND_BYTES = 5128,
    SECOND_SHEET_BYTES = 256,
    SECOND_LAST_LINE = 134217727,
    SECOND_AREA_LINES = 16, /* an area has so many lines or more */
    SECOND_HOLDERS = 16,    /* a buffer for holders has so many bytes or more */
    SECOND_RUNS = 512,      /* no sound table has more runs */
    SECOND_PIECES = 52,     /* no entry has more pieces */
    SECOND_LOADED = 8,      /* the loaded entries of a partition have so many pieces or fewer */
    SECOND_ENGINE_LINES = 2048
};

typedef enum { SECOND_V7, SECOND_V8 } second_board; /* ARMv7-M, ARMv8-M */

typedef struct {
    uint32_t start, end, deepest;
} second_run;

uint64_t second_boot(uint8_t *table, uint64_t table_len, uint64_t base, uint64_t end);
uint64_t second_call(second_board board, uint8_t *table, uint64_t table_len, uint64_t word, uint64_t *second);
uint64_t second_holders(second_board board, const uint8_t *table, uint64_t table_len, uint64_t line,
                        uint8_t *list, uint64_t list_len, uint64_t *second);
uint64_t second_runs(second_board board, const uint8_t *table, uint64_t table_len,
                     second_run *list, uint64_t list_len);

/* The pieces of an entry, in rising order, each as start * 2^32 + lines. First: their number. */
uint64_t second_pieces(second_board board, const uint8_t *table, uint64_t table_len, uint64_t partition,
                       uint64_t slot, uint64_t *list, uint64_t list_len);
/* Boot and call with a sheet beside the table: refused 20, next after 1, if it has another length or, except at boot, isn't the table's. */
uint64_t second_boot_sheet(uint8_t *table, uint64_t table_len, uint8_t *sheet, uint64_t sheet_len, uint64_t base, uint64_t end);
uint64_t second_call_sheet(second_board board, uint8_t *table, uint64_t table_len, uint8_t *sheet, uint64_t sheet_len, uint64_t word, uint64_t *second);

/* The ledger by masks, bit p for partition p, one a line: 0, or refused 21 and nothing is written. */
uint64_t second_engine_start(uint16_t *masks, uint64_t n, uint64_t base, uint64_t end);
uint64_t second_engine_give(uint16_t *masks, uint64_t n, uint64_t base, uint64_t end, uint64_t child, uint64_t from, uint64_t to);
uint64_t second_engine_take(uint16_t *masks, uint64_t n, uint64_t base, uint64_t end, uint64_t child, uint64_t from, uint64_t to);
uint64_t second_engine_strike(uint16_t *masks, uint64_t n, uint64_t base, uint64_t end, uint64_t members);

/* ---- For tests: the table read into plain structs, and its soundness. ---- */

/* Start to end, end excluded; 0, 0 counts as no area. */
typedef struct {
    uint32_t start, end;
} second_area;

/* Rights are a number of three bits as in the call word: read 4, write 2, execute 1. */
typedef struct {
    bool present, open;
    uint8_t rights;
    uint8_t given;
    bool whole; /* lent whole: found, loaded and taken back, and no more */
    uint32_t start, end;
} second_slot;

typedef struct {
    bool present;
    uint16_t zero;
    second_area area;
} second_structure;

typedef struct {
    bool loaded;
    uint8_t zero;
    uint8_t slot;
} second_region;

typedef struct {
    bool present;
    uint8_t parent;
    uint8_t zero;
    second_area area;
    second_structure structures[SECOND_STRUCTURES];
    second_region regions[SECOND_REGIONS];
    uint64_t zero_words[2];
    second_slot slots[SECOND_SLOTS];

    /* Noted when the table is read; services don't keep these up to date. */
    bool blank;                    /* all 40 words are zero */
    uint8_t entry_count;           /* the entries' slot numbers, by rising start */
    uint8_t entries[SECOND_SLOTS];
} second_partition;

typedef struct {
    uint32_t base, end;
    uint8_t current;
    uint8_t zero;
    second_partition partitions[SECOND_PARTITIONS];

    /* The areas of headers and structures, by rising start. */
    uint32_t area_count;
    second_area areas[SECOND_PARTITIONS * (1 + SECOND_STRUCTURES)];
} second_table;

void second_read(const uint8_t *table, second_table *t);
void second_write(const second_table *t, uint8_t *table);

/* 0 if sound, -1 for the length, else the number of the lowest clause that fails. */
int second_unsound(second_board board, const uint8_t *table, uint64_t table_len);

/* How many pieces start to end has, and how many those blocks have that a partition has loaded. */
uint32_t second_piece_count(second_board board, uint32_t start, uint32_t end);
uint32_t second_loaded_pieces(second_board board, const second_partition *p);

/* True if the clause holds. Each is to be asked only where all before it hold. */
bool second_s1(const second_table *t);
bool second_s2(const second_table *t);
bool second_s3(const second_table *t);
bool second_s4(const second_table *t);
bool second_s5(const second_table *t);
bool second_s6(const second_table *t);
bool second_s7(const second_table *t);
bool second_s8(const second_table *t);
bool second_s9(const second_table *t);
bool second_s10(second_board board, const second_table *t);
bool second_s11(const second_table *t);

#endif
