/*
 * One screen of diagnostics, drawn from the sheet alone: 256 bytes that the library keeps beside the table, two words a
 * partition. Nothing here looks at the table. The story is the handset's: store, reader and uploader.
 *
 *   make sheet     or     cc -Iinclude examples/sheet.c build/libulavrepit.a
 */
#include "ulavrepit.h"

#include <stdio.h>

enum { BASE = 256, END = 2304, BAR = 32, STRUCTURE_SLOTS = ULAVREPIT_SLOTS / ULAVREPIT_STRUCTURES };

static uint8_t table[ULAVREPIT_TABLE_BYTES];
static uint8_t sheet[ULAVREPIT_SHEET_BYTES];

static uint32_t bits_in(uint32_t mask)
{
    uint32_t n = 0;
    for (; mask != 0; mask &= mask - 1)
        n++;
    return n;
}

/* ---- the screen ---- */

/* Who is present: the root, and whoever is somebody's child. */
static uint32_t present_in(void)
{
    uint32_t present = 1;
    for (uint32_t p = 0; p < ULAVREPIT_PARTITIONS; p++)
        present |= ulavrepit_sheet_of(sheet, p).children;
    return present;
}

static void print_children(uint32_t children)
{
    char list[3 * ULAVREPIT_PARTITIONS] = "-";
    int n = 0;
    for (uint32_t c = 0; c < ULAVREPIT_PARTITIONS; c++)
        if ((children >> c & 1) != 0)
            n += snprintf(list + n, sizeof list - (size_t)n, n == 0 ? "%u" : ",%u", (unsigned)c);
    printf("  %-12s", list);
}

/* Of all the memory: # open, = held but serving the kernel somewhere, . not held. */
static void print_bar(uint32_t open, uint32_t held, uint32_t all)
{
    char bar[BAR + 1];
    for (uint32_t i = 0; i < BAR; i++) {
        uint64_t line = (uint64_t)all * i / BAR;
        bar[i] = line < open ? '#' : line < held ? '=' : '.';
    }
    bar[BAR] = 0;
    printf("  %s\n", bar);
}

static void draw(const char *when)
{
    uint32_t present = present_in(), all = ulavrepit_sheet_of(sheet, 0).held;
    printf("%s\n   p  children      slots  structures    held    open\n", when);
    for (uint32_t p = 0; p < ULAVREPIT_PARTITIONS; p++) {
        if ((present >> p & 1) == 0)
            continue;
        ulavrepit_sheet_pair pair = ulavrepit_sheet_of(sheet, p);
        uint32_t structures = bits_in(pair.structures);
        printf("  %2u", (unsigned)p);
        print_children(pair.children);
        printf("  %2u/%2u  %10u  %6u  %6u", (unsigned)bits_in(pair.slots), (unsigned)(structures * STRUCTURE_SLOTS), (unsigned)structures,
               (unsigned)pair.held, (unsigned)pair.open);
        print_bar(pair.open, pair.held, all);
    }
    printf("\n");
}

/* ---- the story ---- */

static uint32_t call(const char *what, uint64_t word)
{
    ulavrepit_answer answer = ulavrepit_call_sheet_answer(table, sizeof table, sheet, sizeof sheet, word);
    if (answer.refusal != ULAVREPIT_DONE)
        printf("%s: refused %u\n", what, (unsigned)answer.refusal);
    return answer.first;
}

/* The block that is cut off the root's slot 0 at this line, and what it becomes. */
static uint32_t cut(uint32_t line)
{
    return call("cut", ulavrepit_cut(0, line));
}

/* A child whose record and first eight slots lie in two new blocks of 16 lines, below the line that the last cut was at. */
static uint32_t start(const char *who, uint32_t *line)
{
    uint32_t child = call(who, ulavrepit_create(cut(*line -= 16)));
    call(who, ulavrepit_prepare(child, cut(*line -= 16)));
    return child;
}

int main(void)
{
    uint32_t line = END;
    ulavrepit_answer booted = ulavrepit_boot_sheet_answer(table, sizeof table, sheet, sizeof sheet, BASE, END);
    if (booted.refusal != ULAVREPIT_DONE)
        return 1;
    draw("after boot");

    call("eight slots more for the root", ulavrepit_prepare(0, cut(line -= 16)));
    uint32_t store = start("store", &line), reader = start("reader", &line), uploader = start("uploader", &line);
    uint32_t forms = cut(line -= 512), labels = cut(line -= 256), radio = cut(line -= 128);
    call("forms", ulavrepit_give(store, forms, ULAVREPIT_READ + ULAVREPIT_WRITE));
    call("labels", ulavrepit_give(reader, labels, ULAVREPIT_READ + ULAVREPIT_WRITE));
    call("radio", ulavrepit_give(uploader, radio, ULAVREPIT_READ));
    draw("store 1, reader 2 and uploader 3 have their blocks");

    uint32_t from = line + 128; /* where the labels start */
    call("to the reader", ulavrepit_switch(reader));
    call("cut", ulavrepit_cut(0, from + 16));
    call("cut", ulavrepit_cut(1, from + 32));
    uint32_t helper = call("helper", ulavrepit_create(0));
    call("its slots", ulavrepit_prepare(helper, 1));
    call("its labels", ulavrepit_give(helper, 2, ULAVREPIT_READ));
    call("to the root", ulavrepit_switch(0));
    draw("the reader has started a helper in its own block");

    call("clear out", ulavrepit_clear_out(reader));
    draw("the reader is cleared out with its helper");

    sheet[7] ^= 1;
    ulavrepit_answer answer = ulavrepit_call_sheet_answer(table, sizeof table, sheet, sizeof sheet, ulavrepit_find(0, BASE));
    printf("one bit of the sheet damaged: refused %u\n", (unsigned)answer.refusal);
    return 0;
}
