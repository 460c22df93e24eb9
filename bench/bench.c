/*
 * The library against the second program, or with the word quick in front against the quick kernel: the same work on the same tables,
 * in one process, turn by turn.
 *
 * bench             times them: each round the one and then the other (every second round the other way round), and
 *                   keeps the quotient; what counts is the median quotient of many rounds. Times are of the processor
 *                   that this process used, so a busy machine disturbs both alike.
 * bench count FILE  does each row's work once with either, between calls of mark: for who traces it and counts the
 *                   instructions. The tables are read from FILE, since to make them takes far more than the rows do.
 * bench save FILE   writes those tables.
 * bench sheet       times calls with a sheet against calls without one, of the library.
 */
#define _POSIX_C_SOURCE 200809L
#include "kernel.h"
#include "most_runs.h"
#include "quick.h"
#include "tables.h"
#include "ulavrepit.h"

#include <stdio.h>
#include <stdlib.h>
#include <string.h>
#include <time.h>

enum { ROUNDS = 301, BATCH_NANOSECONDS = 300000, WORDS = 2 };

/* The second program, for the library's board. */
static uint64_t call_v7(uint8_t *t, uint64_t len, uint64_t word, uint64_t *value)
{
    return second_call(SECOND_V7, t, len, word, value);
}

static uint64_t holders_v7(const uint8_t *t, uint64_t len, uint64_t line, uint8_t *list, uint64_t list_len, uint64_t *value)
{
    return second_holders(SECOND_V7, t, len, line, list, list_len, value);
}

static uint64_t runs_v7(const uint8_t *t, uint64_t len, ulavrepit_run *list, uint64_t list_len)
{
    return second_runs(SECOND_V7, t, len, (second_run *)list, list_len);
}

static uint64_t pieces_v7(const uint8_t *t, uint64_t len, uint64_t partition, uint64_t slot, uint64_t *list, uint64_t list_len)
{
    return second_pieces(SECOND_V7, t, len, partition, slot, list, list_len);
}

static const kernel library = {ulavrepit_boot, ulavrepit_call, ulavrepit_holders, ulavrepit_runs, ulavrepit_pieces};
static const kernel second = {second_boot, call_v7, holders_v7, runs_v7, pieces_v7};
static const kernel quick = {quick_boot, quick_call, quick_holders, quick_runs, NULL}; /* it lists no pieces */

/* The library with a sheet beside the table. */
static uint8_t sheet[ULAVREPIT_SHEET_BYTES];

static uint64_t boot_beside(uint8_t *t, uint64_t len, uint64_t base, uint64_t end)
{
    return ulavrepit_boot_sheet(t, len, sheet, sizeof sheet, base, end);
}

static uint64_t call_beside(uint8_t *t, uint64_t len, uint64_t word, uint64_t *value)
{
    return ulavrepit_call_sheet(t, len, sheet, sizeof sheet, word, value);
}

static const kernel beside = {boot_beside, call_beside, ulavrepit_holders, ulavrepit_runs, ulavrepit_pieces};

/* The two that are compared. */
static const kernel *one = &library, *other = &second;

static void must(bool good, const char *what)
{
    if (good)
        return;
    fprintf(stderr, "bench: %s: not as it should be\n", what);
    exit(1);
}

/* ---- the work ---- */

static uint8_t table[ULAVREPIT_TABLE_BYTES];

/*
 * Call words to be carried out in turn, which leave the table as it was; or a line whose holders are listed; or, in the place
 * of the words, a partition and a slot whose pieces are.
 */
typedef struct {
    const char *name;
    uint64_t words[WORDS];
    uint64_t line;
    unsigned refusal; /* that each is to answer */
} job;

/* One piece of work: so many operations, and whether each answered what it should. */
typedef bool work(const kernel *k, const job *j);

static bool do_boot(const kernel *k, const job *j)
{
    return k->boot(table, sizeof table, 256, j->line) == j->refusal;
}

static bool do_calls(const kernel *k, const job *j)
{
    uint64_t value;
    bool good = true;
    for (unsigned i = 0; i < WORDS; i++)
        good = (k->call(table, sizeof table, j->words[i], &value) & 0xff) == j->refusal && good;
    return good;
}

static bool do_holders(const kernel *k, const job *j)
{
    uint8_t list[ULAVREPIT_HOLDERS_BYTES];
    uint64_t value;
    return (k->holders(table, sizeof table, j->line, list, sizeof list, &value) & 0xff) == j->refusal;
}

static bool do_runs(const kernel *k, const job *j)
{
    static ulavrepit_run list[ULAVREPIT_RUNS];
    return (k->runs(table, sizeof table, list, ULAVREPIT_RUNS) & 0xff) == j->refusal;
}

static bool do_pieces(const kernel *k, const job *j)
{
    uint64_t list[ULAVREPIT_PIECES];
    return (k->pieces(table, sizeof table, j->words[0], j->words[1], list, ULAVREPIT_PIECES) & 0xff) == j->refusal;
}

/* ---- timing ---- */

static double now(void)
{
    struct timespec t;
    clock_gettime(CLOCK_PROCESS_CPUTIME_ID, &t);
    return (double)t.tv_sec * 1e9 + (double)t.tv_nsec;
}

/* Nanoseconds of so many turns. */
static double time_batch(work *w, const kernel *k, const job *j, unsigned turns)
{
    double began = now();
    for (unsigned i = 0; i < turns; i++)
        must(w(k, j), j->name);
    return now() - began;
}

static int by_size(const void *a, const void *b)
{
    double x = *(const double *)a, y = *(const double *)b;
    return (x > y) - (x < y);
}

static double at_percent(double *sorted, unsigned percent)
{
    return sorted[(ROUNDS - 1) * percent / 100];
}

/* Prints a row; the times are of one operation, of which a turn has so many. */
static void measure(work *w, const job *j, unsigned operations)
{
    static double ours[ROUNDS], theirs[ROUNDS], quotients[ROUNDS];
    unsigned turns = 1;
    while (time_batch(w, one, j, turns) < BATCH_NANOSECONDS)
        turns *= 2;
    for (unsigned i = 0; i < ROUNDS; i++) {
        if (i % 2 == 0)
            ours[i] = time_batch(w, one, j, turns);
        theirs[i] = time_batch(w, other, j, turns);
        if (i % 2 != 0)
            ours[i] = time_batch(w, one, j, turns);
        quotients[i] = ours[i] / theirs[i];
    }
    qsort(ours, ROUNDS, sizeof *ours, by_size);
    qsort(theirs, ROUNDS, sizeof *theirs, by_size);
    qsort(quotients, ROUNDS, sizeof *quotients, by_size);
    double per = (double)turns * operations;
    printf("| %s | %.0f | %.0f | %.2f | %.2f to %.2f |\n", j->name, at_percent(ours, 50) / per,
           at_percent(theirs, 50) / per, at_percent(quotients, 50), at_percent(quotients, 5), at_percent(quotients, 95));
}

/* ---- counting ---- */

/* The tracer knows the places by this function's address. */
volatile unsigned marks;
__attribute__((noinline)) void mark(void)
{
    marks++;
}

/* Names the row; the work is done once before, so that nothing is done for the first time where it counts. */
static void work_between_marks(work *w, const job *j, unsigned operations)
{
    bool good = w(one, j) && w(other, j);
    mark();
    good = w(one, j) && good;
    mark();
    good = w(other, j) && good;
    mark();
    must(good, j->name);
    printf("%s|%u\n", j->name, operations);
}

static void no_work(work *w, const job *j, unsigned operations)
{
    (void)w, (void)j, (void)operations;
}

/* ---- the rows ---- */

/* What is done with a row, and the file that tables are read from or written to, if there is one. */
static void (*report)(work *w, const job *j, unsigned operations) = measure;
static FILE *saved;
static bool saving;

static bool make_most(const kernel *k, uint8_t *t)
{
    static second_table most;
    (void)k;
    make_most_runs(&most);
    second_write(&most, t);
    return true;
}

/* The table of the rows that follow. */
static void have_table(bool make(const kernel *k, uint8_t *t), const char *name)
{
    if (saved && !saving)
        must(fread(table, sizeof table, 1, saved) == 1, name);
    else
        must(make(&second, table), name);
    if (saving)
        must(fwrite(table, sizeof table, 1, saved) == 1, name);
}

/* Holders, find, load with unload of the entry that holds the line, runs, and that entry's pieces, on the table as it is. */
static void table_rows(const char *const names[5], uint64_t line)
{
    uint64_t word;
    uint32_t current = (uint32_t)(table[7] >> 6 | (table[6] & 3) << 2);
    uint64_t find = ulavrepit_find(current, (uint32_t)line);
    uint32_t slot = (uint32_t)(second.call(table, sizeof table, find, &word) >> 32);
    job listing = {names[0], {0}, line, ULAVREPIT_DONE};
    job finding = {names[1], {find, find}, 0, ULAVREPIT_DONE};
    job loading = {names[2], {ulavrepit_load(current, slot, 7), ulavrepit_unload(current, 7)}, 0, ULAVREPIT_DONE};
    report(do_holders, &listing, 1);
    report(do_calls, &finding, WORDS);
    job running = {names[3], {0}, 0, ULAVREPIT_DONE};
    job listing_pieces = {names[4], {current, slot}, 0, ULAVREPIT_DONE};
    report(do_calls, &loading, WORDS);
    report(do_runs, &running, 1);
    if (other->pieces)
        report(do_pieces, &listing_pieces, 1);
}

/* A call and the one that undoes it, on the table as it is. */
static void undone_row(const char *name, uint64_t word, uint64_t undoing)
{
    job both = {name, {word, undoing}, 0, ULAVREPIT_DONE};
    report(do_calls, &both, WORDS);
}

/* Every row, on its table. */
static void rows(void)
{
    static const char *const fresh[] = {"holders, fresh", "find, fresh", "load and unload, fresh", "runs, fresh",
                                        "pieces, fresh"};
    static const char *const typical[] = {"holders, typical", "find, typical", "load and unload, typical", "runs, typical",
                                          "pieces, typical"};
    static const char *const ten[] = {"holders, ten", "find, ten", "load and unload, ten", "runs, ten", "pieces, ten"};
    static const char *const densest[] = {"holders, densest", "find, densest", "load and unload, densest", "runs, densest",
                                          "pieces, densest"};
    job most_runs = {"runs, the most", {0}, 0, ULAVREPIT_DONE};
    job booting = {"boot", {0}, 1024, ULAVREPIT_DONE};
    job refused_word = {"call refused 2, typical", {0}, 0, ULAVREPIT_REFUSED_WORD};
    job refused_table = {"call refused 1, typical with the last zero bit set", {0}, 0, ULAVREPIT_REFUSED_TABLE};
    job refused_ten = {"call refused 1, ten with the last zero bit set", {0}, 0, ULAVREPIT_REFUSED_TABLE};

    report(do_boot, &booting, 1);
    have_table(make_fresh, "the fresh table");
    table_rows(fresh, 300);
    undone_row("cut and merge, fresh", ulavrepit_cut(0, 512), ulavrepit_merge(0, 1));

    have_table(make_typical, "the typical table");
    report(do_calls, &refused_word, WORDS);
    table_rows(typical, 8000);
    undone_row("cut and merge, typical", ulavrepit_cut(10, 8000), ulavrepit_merge(10, 11));
    undone_row("give and take, typical", ulavrepit_give(1, 10, ULAVREPIT_READ), ulavrepit_take(10));
    undone_row("create and delete, typical", ulavrepit_create(10), ulavrepit_delete(6));
    table[LAST_ZERO_BYTE] ^= 1;
    report(do_calls, &refused_table, WORDS);

    have_table(make_ten, "the table of ten partitions");
    table_rows(ten, 8000);
    undone_row("cut and merge, ten", ulavrepit_cut(8, 8000), ulavrepit_merge(8, 9));
    undone_row("create and delete, ten", ulavrepit_create(7), ulavrepit_delete(10));
    table[LAST_ZERO_BYTE] ^= 1;
    report(do_calls, &refused_ten, WORDS);

    have_table(make_densest, "the densest table");
    table_rows(densest, 65535);

    have_table(make_most, "the table with the most runs");
    report(do_runs, &most_runs, 1);
}

/* Calls with a sheet against the same calls without it: each row leaves the table as it was, and so the sheet its own. */
static void sheet_rows(void)
{
    static uint64_t values;
    one = &beside, other = &library;
    puts("| What | With a sheet, ns | Without, ns | With / without, median | 5 % to 95 % of rounds |\n|---|---|---|---|---|");
    must(make_fresh(one, table), "the fresh table");
    job finding = {"find, fresh", {ulavrepit_find(0, 300), ulavrepit_find(0, 300)}, 0, ULAVREPIT_DONE};
    report(do_calls, &finding, WORDS);
    undone_row("cut and merge, fresh", ulavrepit_cut(0, 512), ulavrepit_merge(0, 1));

    must(make_typical(one, table), "the typical table");
    uint32_t slot = (uint32_t)(one->call(table, sizeof table, ulavrepit_find(0, 8000), &values) >> 32);
    job found = {"find, typical", {ulavrepit_find(0, 8000), ulavrepit_find(0, 8000)}, 0, ULAVREPIT_DONE};
    report(do_calls, &found, WORDS);
    undone_row("load and unload, typical", ulavrepit_load(0, slot, 7), ulavrepit_unload(0, 7));
    undone_row("switch to a child and back, typical", ulavrepit_switch(1), ulavrepit_switch(0));
    undone_row("cut and merge, typical", ulavrepit_cut(10, 8000), ulavrepit_merge(10, 11));
    undone_row("give and take, typical", ulavrepit_give(1, 10, ULAVREPIT_READ), ulavrepit_take(10));
    undone_row("create and delete, typical", ulavrepit_create(10), ulavrepit_delete(6));

    must(make_densest(one, table), "the densest table");
    job deep = {"find, densest", {ulavrepit_find(15, 65535), ulavrepit_find(15, 65535)}, 0, ULAVREPIT_DONE};
    report(do_calls, &deep, WORDS);
}

static void print_head(void)
{
    const char *name = other == &quick ? "Quick kernel" : "Second program", *brief = other == &quick ? "quick" : "second";
    printf("| What | Library, ns | %s, ns | Library / %s, median | 5 %% to 95 %% of rounds |\n|---|---|---|---|---|\n", name, brief);
}

int main(int argc, char **argv)
{
    if (argc == 2 && strcmp(argv[1], "sheet") == 0) {
        sheet_rows();
        return 0;
    }
    if (argc > 1 && strcmp(argv[1], "quick") == 0) {
        other = &quick;
        argc--, argv++;
    }
    if (argc == 1)
        print_head();
    else {
        must(argc == 3 && (strcmp(argv[1], "save") == 0 || strcmp(argv[1], "count") == 0), "the command line");
        saving = strcmp(argv[1], "save") == 0;
        report = saving ? no_work : work_between_marks;
        must((saved = fopen(argv[2], saving ? "wb" : "rb")) != NULL, argv[2]);
    }
    rows();
    must(!saved || fclose(saved) == 0, "the file");
    return 0;
}
