/*
 * How many instructions the library's functions take on a Cortex-M, and those of the quick kernel, the memory functions of board/libc.c
 * included: a row for each, on the tables of tests/c/tables.h, then what the library takes on chains of partitions. It reads the
 * processor's timer, which tells instructions where the emulator gives each the same time (COUNT=1 arm/emulate); how many ticks that
 * is, a loop of known length tells.
 */
#include "farthest.h"
#include "quick.h"
#include "tables.h"

#include <stdio.h>
#include <string.h>

static volatile uint32_t *const timer = (volatile uint32_t *)0xe000e010; /* control, start, value; it counts down from 2^24 */

static const kernel library = {ulavrepit_boot, ulavrepit_call, ulavrepit_holders, ulavrepit_runs, ulavrepit_pieces};
static const kernel quick = {quick_boot, quick_call, quick_holders, quick_runs, NULL}; /* it lists no pieces and keeps no sheet */
static const kernel *measured = &library;
static uint8_t start[ULAVREPIT_TABLE_BYTES], table[ULAVREPIT_TABLE_BYTES], list[ULAVREPIT_HOLDERS_BYTES];
static uint8_t start_sheet[ULAVREPIT_SHEET_BYTES], sheet[ULAVREPIT_SHEET_BYTES];
static ulavrepit_run runs[ULAVREPIT_RUNS];
static uint64_t pieces[ULAVREPIT_PIECES];

/* What is done with the argument: answers as the kernel does that is measured. */
static uint64_t argument;

static uint64_t nothing(void)
{
    return 0;
}

enum { LOOP_INSTRUCTIONS = 200000 };

static uint64_t loop(void)
{
    uint32_t left = LOOP_INSTRUCTIONS / 2;
    __asm__ volatile("1: subs %0, #1\n bne 1b" : "+l"(left) : : "cc");
    return left;
}

static uint64_t boot(void)
{
    return measured->boot(table, sizeof table, 256, argument);
}

static uint64_t call(void)
{
    uint64_t second;
    return measured->call(table, sizeof table, argument, &second);
}

static uint64_t call_beside(void)
{
    uint64_t second;
    return ulavrepit_call_sheet(table, sizeof table, sheet, sizeof sheet, argument, &second);
}

/* The library that keeps a sheet beside the table in 'start'. */
static uint64_t boot_start(uint8_t *t, uint64_t len, uint64_t base, uint64_t end)
{
    return ulavrepit_boot_sheet(t, len, start_sheet, sizeof start_sheet, base, end);
}

static uint64_t call_start(uint8_t *t, uint64_t len, uint64_t word, uint64_t *second)
{
    return ulavrepit_call_sheet(t, len, start_sheet, sizeof start_sheet, word, second);
}

static const kernel beside = {boot_start, call_start, ulavrepit_holders, ulavrepit_runs, ulavrepit_pieces};

static uint64_t holders(void)
{
    uint64_t second;
    return measured->holders(table, sizeof table, argument, list, sizeof list, &second);
}

static uint64_t list_runs(void)
{
    return measured->runs(table, sizeof table, runs, ULAVREPIT_RUNS);
}

/* Of the root's slot. */
static uint64_t list_pieces(void)
{
    return measured->pieces(table, sizeof table, 0, argument, pieces, ULAVREPIT_PIECES);
}

/* Ticks of the work on the table in 'start', and its refusal. */
static uint32_t ticks(uint64_t work(void), uint32_t *refusal)
{
    memcpy(table, start, sizeof table);
    memcpy(sheet, start_sheet, sizeof sheet);
    uint32_t before = timer[2];
    *refusal = (uint32_t)(work() & 0xff);
    return (before - timer[2]) & 0xffffff;
}

static bool good = true;

/* Instructions of the work. */
static uint32_t count(uint64_t work(void), uint64_t with, uint32_t expected)
{
    uint32_t refusal, around = ticks(nothing, &refusal), known = ticks(loop, &refusal) - around;
    argument = with;
    uint64_t taken = ticks(work, &refusal) - around;
    good = good && refusal == expected;
    return (uint32_t)((taken * LOOP_INSTRUCTIONS + known / 2) / known);
}

/* Of the library, and of the quick kernel where it has the function. */
static void row(const char *name, uint64_t work(void), uint64_t with, uint32_t expected)
{
    printf("%s|%u", name, (unsigned)count(work, with, expected));
    measured = &quick;
    if (work == list_pieces || work == call_beside)
        puts("|-");
    else
        printf("|%u\n", (unsigned)count(work, with, expected));
    measured = &library;
}

/* A chain: its partitions, entries and areas; find in the root, load of one of its entries, holders of a line of all, runs. */
static void chain_row(uint32_t partitions, uint32_t entries)
{
    uint32_t structures = chain_structures(entries), areas = partitions * structures + 2 * (partitions - 1);
    uint64_t find = ulavrepit_find(0, FARTHEST_END - 1), load = ulavrepit_load(0, structures + 2, 7);
    good = make_chain(&library, start, partitions, entries) && good;
    printf("chain|%u|%u|%u", (unsigned)partitions, (unsigned)(partitions * entries), (unsigned)areas);
    printf("|%u|%u", (unsigned)count(call, find, 0), (unsigned)count(call, load, 0));
    printf("|%u|%u", (unsigned)count(holders, FARTHEST_END - 1, 0), (unsigned)count(list_runs, 0, 0));
    measured = &quick;
    printf("|%u\n", (unsigned)count(call, find, 0));
    measured = &library;
}

static void fresh_rows(void)
{
    good = make_fresh(&library, start) && good;
    row("boot", boot, 1024, 0);
    row("find, fresh", call, ulavrepit_find(0, 300), 0);
    row("holders, fresh", holders, 300, 0);
    row("cut, fresh", call, ulavrepit_cut(0, 512), 0);
    row("create, fresh", call, ulavrepit_create(0), 0);
    row("runs, fresh", list_runs, 0, 0);
    row("pieces, fresh", list_pieces, 0, 0);
}

static void typical_rows(void)
{
    good = make_typical(&beside, start) && good;
    row("find, typical", call, ulavrepit_find(0, 8000), 0);
    row("holders, typical", holders, 8000, 0);
    row("read region, typical", call, ulavrepit_read_region(0, 7), 0);
    row("load, typical", call, ulavrepit_load(0, 10, 7), 0);
    row("unload, typical", call, ulavrepit_unload(0, 7), 0);
    row("switch, typical", call, ulavrepit_switch(1), 0);
    row("cut, typical", call, ulavrepit_cut(10, 8000), 0);
    row("give, typical", call, ulavrepit_give(1, 10, ULAVREPIT_READ), 0);
    row("create, typical", call, ulavrepit_create(10), 0);
    row("prepare, typical", call, ulavrepit_prepare(0, 10), 0);
    row("delete, typical", call, ulavrepit_delete(5), 0);
    row("clear out a child with two of its own, typical", call, ulavrepit_clear_out(1), 0);
    row("pack, typical", call, ulavrepit_pack(0), 0);
    row("runs, typical", list_runs, 0, 0);
    row("pieces, typical", list_pieces, 10, 0);
    row("find with a sheet, typical", call_beside, ulavrepit_find(0, 8000), 0);
    row("load with a sheet, typical", call_beside, ulavrepit_load(0, 10, 7), 0);
    row("switch with a sheet, typical", call_beside, ulavrepit_switch(1), 0);
    row("cut with a sheet, typical", call_beside, ulavrepit_cut(10, 8000), 0);
    row("give with a sheet, typical", call_beside, ulavrepit_give(1, 10, ULAVREPIT_READ), 0);
    row("create with a sheet, typical", call_beside, ulavrepit_create(10), 0);
    row("prepare with a sheet, typical", call_beside, ulavrepit_prepare(0, 10), 0);
    row("delete with a sheet, typical", call_beside, ulavrepit_delete(5), 0);
    row("clear out with a sheet, typical", call_beside, ulavrepit_clear_out(1), 0);
    row("pack with a sheet, typical", call_beside, ulavrepit_pack(0), 0);
    row("no service (refused 2), typical", call, 0, 2);
    start[LAST_ZERO_BYTE] ^= 1;
    row("find, typical with the last zero bit set (refused 1)", call, ulavrepit_find(0, 8000), 1);
}

static void ten_rows(void)
{
    good = make_ten(&library, start) && good;
    row("find, ten", call, ulavrepit_find(0, 8000), 0);
    row("holders, ten", holders, 8000, 0);
    row("cut, ten", call, ulavrepit_cut(8, 8000), 0);
    row("create, ten", call, ulavrepit_create(7), 0);
    row("clear out a child with three of its own, ten", call, ulavrepit_clear_out(6), 0);
}

static void densest_rows(void)
{
    good = make_densest(&library, start) && climb_chain(&library, start, ULAVREPIT_PARTITIONS) && good;
    row("find, densest", call, ulavrepit_find(0, 65535), 0);
    row("holders, densest", holders, 65535, 0);
    row("clear out all 15, densest", call, ulavrepit_clear_out(1), 0);
    row("runs, densest", list_runs, 0, 0);
}

/* More partitions with the same entries each, then more entries in the same partitions. */
static void chain_rows(void)
{
    static const uint32_t partitions[] = {1, 4, 8, 16}, entries[] = {4, 16, 32};
    for (unsigned i = 0; i < sizeof partitions / sizeof *partitions; i++)
        chain_row(partitions[i], CHAIN_STRUCTURE_SLOTS);
    for (unsigned i = 0; i < sizeof entries / sizeof *entries; i++)
        chain_row(ULAVREPIT_PARTITIONS, entries[i]);
}

int main(void)
{
    timer[1] = 0xffffff;
    timer[2] = 0;
    timer[0] = 5;
    fresh_rows();
    typical_rows();
    ten_rows();
    densest_rows();
    chain_rows();
    return good ? 0 : 1;
}
