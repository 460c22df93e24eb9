/*
 * The library against the second program, in one process and on the same bytes: sessions steered by the table,
 * near misses of every refusal, words of garbage, tables that no session makes, and damaged tables. After every
 * call the answers and all the lent memory are compared, guards included, and so are the listings of holders,
 * runs and pieces.
 *
 *   compare SEED CALLS
 *
 * Lines that begin with # are for the reader; the others are one check each. It stops at the first difference.
 */
#include "check.h"
#include "damage.h"
#include "farthest.h"
#include "lent.h"
#include "most_runs.h"
#include "steer.h"

#include <inttypes.h>
#include <stddef.h>
#include <stdlib.h>

static lent ours, theirs;  /* lent to the library, and to the second program */
static second_table state; /* the table of both */
static dice chance;

static bool same_so_far = true;
static unsigned long calls, accepted, damaged, odd, listings, boots;
static unsigned long most_runs, short_lists;
static uint64_t most_looked; /* by one listing of holders */
static unsigned long cells[LAST_SERVICE + 1][LAST_REFUSAL + 1]; /* by service, or unload, and refusal number */
static unsigned long missed[REGION_MISSES];       /* refused with 2, by what was wrong */
static unsigned long cleared[SECOND_PARTITIONS];  /* clear outs, by the number of partitions removed */
static unsigned long packs_of_none, packs_of_child, packs_with_region, packs_with_mark, packs_over_absent; /* of each kind */
static unsigned long most_moved; /* entries, by one pack */
static unsigned long alone[CLAUSES + 1];
static unsigned long mismarked[MISMARKS];       /* S7 failed alone, by what is wrong with a whole entry */
static unsigned long unlike[SECOND_PARTITIONS]; /* S11 failed alone, by who has unlike rights inside one grant */
static unsigned long unsound_sessions, unsound_odd;
static unsigned long eights, nines;              /* loads up to 8 pieces, and those refused since there would be 9 */
static unsigned long crowded;                    /* S10 failed alone, by the limit of pieces */
static unsigned long listed[LAST_REFUSAL + 1];   /* listings of pieces, by refusal number */
static uint64_t most_pieces;
static unsigned long lent_whole, taken_whole, kept_whole; /* blocks lent whole, those taken back, and takes refused 14 */
static unsigned deepest;

/* ---- one call of each ---- */

static void print_bytes(void)
{
    const uint8_t *our = (const uint8_t *)&ours, *their = (const uint8_t *)&theirs;
    for (size_t at = 0; at < sizeof ours; at++)
        if (our[at] != their[at]) {
            printf("# lent memory differs first at byte %zu; the table is %zu to %zu\n", at, offsetof(lent, table),
                   offsetof(lent, table) + sizeof ours.table);
            return;
        }
}

/* The two are to answer the same and to leave the same bytes; guards stay, and so does all that was refused. */
static void compare(const char *what, uint64_t argument, uint64_t our, uint64_t their, const lent *before)
{
    bool kept = (our & 0xff) == 0 || same(before, &ours);
    if (our == their && same(&ours, &theirs) && guards_kept(&ours) && kept)
        return;
    if (same_so_far) {
        printf("# difference after %lu calls: %s %016" PRIx64 ", library %016" PRIx64 ", second program %016" PRIx64 "\n",
               calls, what, argument, our, their);
        print_bytes();
        if (!kept)
            puts("# the library refused and changed a byte");
    }
    same_so_far = false;
}

static void paint_numbers(void)
{
    ours.second = theirs.second = PAINTED;
    memset(ours.list, PAINT, LIST);
    memset(theirs.list, PAINT, LIST);
    memset(ours.pieces, PAINT, sizeof ours.pieces);
    memset(theirs.pieces, PAINT, sizeof theirs.pieces);
}

static void boot_both(uint64_t base, uint64_t end)
{
    paint_numbers();
    lent before = ours;
    uint64_t our = ulavrepit_boot(ours.table, sizeof ours.table, base, end);
    uint64_t their = second_boot(theirs.table, sizeof theirs.table, base, end);
    compare("boot to", end, our, their, &before);
    boots++;
}

/* A pack of P that was done, and moved so many entries; the state is still the one before it. */
static void note_pack(uint8_t p, unsigned long moved)
{
    const second_partition *q = &state.partitions[p];
    bool region = false, mark = false, absent = false;
    for (unsigned r = 0; r < SECOND_REGIONS; r++)
        region = region || (q->regions[r].loaded && moves(&state, p, q->regions[r].slot));
    for (uint8_t s = 0; s < SECOND_SLOTS; s++) {
        mark = mark || (q->slots[s].whole && moves(&state, p, s));
        for (uint8_t i = 0; moves(&state, p, s) && i < s / SECOND_STRUCTURE_SLOTS; i++)
            absent = absent || !q->structures[i].present;
    }
    packs_of_none += moved == 0;
    packs_of_child += moved > 0 && p != state.current;
    packs_with_region += region;
    packs_with_mark += mark;
    packs_over_absent += absent;
    if (moved > most_moved)
        most_moved = moved;
}

/* Answers the refusal number. */
static unsigned call_both(uint64_t word)
{
    paint_numbers();
    lent before = ours;
    uint64_t our = ulavrepit_call(ours.table, sizeof ours.table, word, &ours.second);
    uint64_t their = second_call(BOARD, theirs.table, sizeof theirs.table, word, &theirs.second);
    compare("call", word, our, their, &before);
    cells[row_of(word)][their & 0xff]++;
    missed[region_missed(word)] += (their & 0xff) == ULAVREPIT_REFUSED_WORD;
    if (word >> 60 == ULAVREPIT_CLEAR_OUT && (their & 0xff) == 0)
        cleared[their >> 32 & 15]++;
    if (word >> 60 == ULAVREPIT_PACK && (their & 0xff) == 0)
        note_pack((uint8_t)(word >> 56 & 15), (unsigned long)(their >> 32));
    return (unsigned)(their & 0xff);
}

static void list_len_both(uint64_t line, uint64_t list_len)
{
    paint_numbers();
    lent before = ours;
    uint64_t our = ulavrepit_holders(ours.table, sizeof ours.table, line, ours.list, list_len, &ours.second);
    uint64_t their = second_holders(BOARD, theirs.table, sizeof theirs.table, line, theirs.list, list_len, &theirs.second);
    compare("holders", line, our, their, &before);
    listings++;
    if ((their & 0xff) == 0 && theirs.second > most_looked)
        most_looked = theirs.second;
}

static void list_both(uint64_t line)
{
    list_len_both(line, percent(&chance, 90) ? ULAVREPIT_HOLDERS_BYTES : below(&chance, LIST + 1));
}

/* Into a list that is long enough, or just so, or one record too short. */
static void run_both(void)
{
    static second_run probe[SECOND_RUNS];
    uint64_t count = second_runs(BOARD, theirs.table, sizeof theirs.table, probe, SECOND_RUNS) >> 32, list_len = RUNS;
    if (count > 0 && percent(&chance, 20))
        list_len = count - below(&chance, 2);
    memset(ours.runs, PAINT, sizeof ours.runs);
    memset(theirs.runs, PAINT, sizeof theirs.runs);
    lent before = ours;
    uint64_t our = ulavrepit_runs(ours.table, sizeof ours.table, ours.runs, list_len);
    uint64_t their = second_runs(BOARD, theirs.table, sizeof theirs.table, (second_run *)theirs.runs, list_len);
    compare("runs", list_len, our, their, &before);
    short_lists += (their & 0xff) == ULAVREPIT_REFUSED_LIST;
    if (count > most_runs)
        most_runs = count;
}

/* Into a list that is long enough, or just so, or one word too short, or of any length. */
static void pieces_both(uint64_t p, uint64_t s)
{
    uint64_t count = 0, list_len = PIECES;
    if (p < SECOND_PARTITIONS && s < SECOND_SLOTS && is_entry(&state, (uint8_t)p, (uint8_t)s))
        count = pieces_of(&state, (uint8_t)p, (uint8_t)s);
    if (percent(&chance, 40))
        list_len = count > 0 && percent(&chance, 80) ? count - below(&chance, 2) : below(&chance, PIECES + 1);
    paint_numbers();
    lent before = ours;
    uint64_t our = ulavrepit_pieces(ours.table, sizeof ours.table, p, s, ours.pieces, list_len);
    uint64_t their = second_pieces(BOARD, theirs.table, sizeof theirs.table, p, s, theirs.pieces, list_len);
    compare("pieces of partition and slot", p << 32 | (s & 0xffffffff), our, their, &before);
    listed[their & 0xff]++;
    if (their >> 32 > most_pieces)
        most_pieces = their >> 32;
}

/* Of an entry, mostly; or of any slot, or of numbers that are none. */
static void list_pieces(void)
{
    uint8_t p = 0, s = SECOND_SLOTS;
    for (unsigned tries = 0; tries < SECOND_PARTITIONS && s == SECOND_SLOTS; tries++) {
        p = (uint8_t)below(&chance, SECOND_PARTITIONS);
        s = some_slot(&state, p, is_entry, &chance);
    }
    if (s < SECOND_SLOTS && percent(&chance, 90)) {
        pieces_both(p, s);
        return;
    }
    bool near = percent(&chance, 70);
    uint64_t any_partition = near ? below(&chance, SECOND_PARTITIONS + 1) : roll(&chance) >> 20;
    uint64_t any_slot = near ? below(&chance, SECOND_SLOTS + 1) : roll(&chance) >> 20;
    pieces_both(any_partition, any_slot);
}

/* The first and the last line of an entry and the one past it; at times a line of anywhere. */
static void list_boundaries(void)
{
    uint8_t p = (uint8_t)below(&chance, SECOND_PARTITIONS), s = some_slot(&state, p, is_entry, &chance);
    if (s == SECOND_SLOTS) {
        list_both(percent(&chance, 50) ? state.base - UINT64_C(1) : state.end);
        list_both(percent(&chance, 90) ? state.base : roll(&chance));
        return;
    }
    list_both(state.partitions[p].slots[s].start);
    list_both(state.partitions[p].slots[s].end - 1);
    list_both(state.partitions[p].slots[s].end);
}

/* ---- sessions ---- */

static void read_state(void)
{
    second_read(theirs.table, &state);
    for (uint8_t p = 1; p < SECOND_PARTITIONS; p++)
        if (state.partitions[p].present && depth_in(&state, p) > deepest)
            deepest = depth_in(&state, p);
}

/* The child has a whole entry of the very lines of the caller's entry. */
static bool is_lent_whole(const second_slot *e)
{
    for (uint8_t i = 0; e->given != 0 && i < SECOND_SLOTS; i++) {
        const second_slot *lent = &state.partitions[e->given].slots[i];
        if (lent->whole && lent->start == e->start && lent->end == e->end)
            return true;
    }
    return false;
}

/* What is lent whole comes back: document 02, request 104. The table is the one before the call. */
static void note_lending(uint64_t word, unsigned refusal)
{
    const second_slot *e = &state.partitions[state.current].slots[word >> 51 & 31];
    if (word >> 60 == ULAVREPIT_GIVE && (word & ULAVREPIT_WHOLE) != 0)
        lent_whole += refusal == 0;
    if (word >> 60 != ULAVREPIT_TAKE || !is_lent_whole(e))
        return;
    taken_whole += refusal == 0;
    kept_whole += refusal == ULAVREPIT_REFUSED_IN_PIECES;
}

/* How near to the limit of pieces a load came. The table is the one before the call. */
static void note_pieces(uint64_t word, unsigned refusal)
{
    uint8_t p = (uint8_t)(word >> 56 & 15), s = (uint8_t)(word >> 51 & 31), region = (uint8_t)(word >> 46 & 7);
    if (row_of(word) != ULAVREPIT_LOAD || (refusal != 0 && refusal != ULAVREPIT_REFUSED_PIECES))
        return;
    second_partition after = state.partitions[p];
    after.regions[region].loaded = true;
    after.regions[region].slot = s;
    uint32_t pieces = second_loaded_pieces(BOARD, &after);
    eights += refusal == 0 && pieces == SECOND_LOADED;
    nines += refusal != 0 && pieces == SECOND_LOADED + 1;
}

static void step(mood m)
{
    uint64_t word = next_word(theirs.table, &state, m, &chance);
    unsigned refusal = call_both(word);
    note_lending(word, refusal);
    note_pieces(word, refusal);
    calls++;
    accepted += refusal == 0;
    unsound_sessions += refusal == 1;
    read_state();
    list_boundaries();
    run_both();
    list_pieces();
}

/* A table handed to both, in the place of the one that they have. */
static void hand_over(const uint8_t *table)
{
    memcpy(ours.table, table, sizeof ours.table);
    memcpy(theirs.table, table, sizeof theirs.table);
}

/* Calls on a sound table that no session makes; then on from there, or as before. */
static void take_odd_table(mood m)
{
    static uint8_t kept[SECOND_BYTES], table[SECOND_BYTES];
    memcpy(kept, theirs.table, sizeof kept);
    make_odd(&state, &chance);
    second_write(&state, table);
    unsound_odd += second_unsound(BOARD, table, sizeof table) != 0;
    odd++;
    hand_over(table);
    read_state();
    call_both(ulavrepit_collect(0, 0));
    for (unsigned i = 0; i < 12; i++)
        step(m);
    if (percent(&chance, 50))
        hand_over(kept);
    read_state();
}

/* One to three bits turned, or one word of noise: mostly not sound, at times still sound. */
static void change_anything(uint8_t *table)
{
    memcpy(table, theirs.table, SECOND_BYTES);
    for (unsigned i = 1 + below(&chance, 3); i > 0; i--)
        table[below(&chance, SECOND_BYTES)] ^= (uint8_t)(1u << below(&chance, 8));
    if (percent(&chance, 10))
        for (unsigned i = 0, at = 8 * below(&chance, SECOND_WORDS); i < 8; i++)
            table[at + i] = (uint8_t)(roll(&chance) >> 40);
}

/* S10 fails by the limit of pieces alone: where there is no limit, it holds. */
static bool is_crowded(const uint8_t *table)
{
    static second_table t;
    second_read(table, &t);
    return second_s10(SECOND_V8, &t);
}

/* A call and a listing on a damaged table; then on as before. */
static void take_damaged_table(mood m)
{
    static uint8_t kept[SECOND_BYTES], table[SECOND_BYTES];
    memcpy(kept, theirs.table, sizeof kept);
    bool made = false;
    for (unsigned tries = 0; tries < 8 && !made && percent(&chance, 98); tries++)
        made = damage(&state, table, &chance) != 0;
    if (!made)
        change_anything(table);
    damaged += second_unsound(BOARD, table, sizeof table) != 0;
    uint8_t failing = only_failing(table);
    alone[failing]++;
    crowded += failing == 10 && is_crowded(table);
    mismarked[failing == 7 ? mismarked_in(table) : ALL_ALLOWED]++;
    unlike[failing == 11 ? unlike_in(table) : 0]++;
    hand_over(table);
    call_both(next_word(theirs.table, &state, m, &chance));
    list_both(state.base);
    run_both();
    list_pieces();
    hand_over(kept);
}

/* Boots on what the last session left, some of them refused. */
static void boot_session(void)
{
    range r = next_boot(&chance);
    if (percent(&chance, 30))
        boot_both(r.end, r.base);
    if (percent(&chance, 10))
        boot_both(r.base, r.base);
    if (percent(&chance, 10))
        boot_both(roll(&chance), roll(&chance));
    if (percent(&chance, 20))
        boot_both(r.base, SECOND_LAST_LINE + UINT64_C(1));
    boot_both(r.base, r.end);
    read_state();
    pieces_both(0, 0);
}

/* At times a session starts from a table that is all but full, made by hand. */
static void hand_over_most_runs(void)
{
    static uint8_t table[SECOND_BYTES];
    make_most_runs(&state);
    second_write(&state, table);
    hand_over(table);
    odd++;
    read_state();
}

/* A chain of 16 in which a listing looks at 512 slot words, made by calls; a listing after each. */
static void go_farthest(void)
{
    static uint64_t words[FARTHEST_CALLS];
    farthest_session(words);
    boot_both(0, FARTHEST_END);
    for (unsigned i = 0; i < FARTHEST_CALLS; i++) {
        unsound_sessions += call_both(words[i]) == 1;
        list_len_both(FARTHEST_END - 1, ULAVREPIT_HOLDERS_BYTES);
    }
}

static void session(unsigned long last)
{
    mood m = (mood)below(&chance, MOODS);
    boot_session();
    if (percent(&chance, 4))
        hand_over_most_runs();
    for (unsigned i = 200 + below(&chance, 400); i > 0 && calls < last && same_so_far; i--) {
        step(m);
        if (i % 2 == 0)
            take_damaged_table(m);
        if (i % 32 == 0)
            take_odd_table(m);
    }
}

/* ---- what was met ---- */

static const char *const names[LAST_SERVICE + 1] = {SERVICES(SERVICE_NAMES)};

static void print_cells(void)
{
    printf("# calls by service and answer: 0 done, 1 to %u refused\n#            ", (unsigned)LAST_REFUSAL);
    for (unsigned refusal = 0; refusal <= LAST_REFUSAL; refusal++)
        printf("%7u", refusal);
    for (unsigned service = 1; service <= LAST_SERVICE; service++) {
        printf("\n# %-11s", names[service]);
        for (unsigned refusal = 0; refusal <= LAST_REFUSAL; refusal++)
            printf("%7lu", cells[service][refusal]);
    }
    printf("\n# clear outs by the number of partitions removed:");
    for (unsigned size = 1; size < SECOND_PARTITIONS; size++)
        printf(" %u: %lu%s", size, cleared[size], size < SECOND_PARTITIONS - 1 ? "," : "");
    printf("\n# packs that moved nothing: %lu; a child's entries: %lu; one that a region names: %lu; one lent whole: %lu; one from\n"
           "# above an absent structure: %lu; the most entries moved: %lu", packs_of_none, packs_of_child, packs_with_region,
           packs_with_mark, packs_over_absent, most_moved);
    printf("\n# refused 2: service 9 with R above 1 %lu, with R 1 and S not 0 %lu, service 10 %lu", missed[RIGHTS_ABOVE_1],
           missed[UNLOAD_OF_A_SLOT], missed[SERVICE_10]);
    printf("\n# tables in which one clause failed alone:");
    for (unsigned clause = 1; clause <= CLAUSES; clause++)
        printf(" S%u %lu%s", clause, alone[clause], clause < CLAUSES ? "," : "\n");
    printf("# .. S7 by a whole entry that is closed %lu, given on %lu, no grant %lu\n", mismarked[WHOLE_CLOSED],
           mismarked[WHOLE_GIVEN], mismarked[WHOLE_NO_GRANT]);
    printf("# .. S10 by the limit of pieces %lu\n", crowded);
    printf("# .. S11 by unlike rights inside one grant, by partition:");
    for (unsigned p = 1; p < SECOND_PARTITIONS; p++)
        printf(" %u: %lu%s", p, unlike[p], p < SECOND_PARTITIONS - 1 ? "," : "\n");
    printf("# the longest chain: %u levels below the root; the most runs: %lu; lists too short: %lu; slot words looked at by\n"
           "# one listing of holders: up to %" PRIu64 "\n", deepest, most_runs, short_lists, most_looked);
    printf("# %lu blocks were lent whole, %lu taken back\n", lent_whole, taken_whole);
    printf("# loads up to 8 pieces: %lu, refused for 9: %lu\n", eights, nines);
    printf("# listings of pieces: %lu, of up to %" PRIu64 "; refused 1 %lu, 4 %lu, 17 %lu\n", listed[0], most_pieces, listed[1],
           listed[4], listed[17]);
    printf("# %lu boots, %lu calls in sessions, %lu of them accepted, %lu listings, %lu odd tables, %lu damaged tables\n",
           boots, calls, accepted, listings, odd, damaged);
}

/* Every service was done, and refused with 1, 2 and each number of its own, and with no other. */
static bool every_cell_met(void)
{
    bool good = true;
    for (unsigned service = 1; service <= LAST_SERVICE; service++)
        for (unsigned refusal = 0; refusal <= LAST_REFUSAL; refusal++) {
            bool own = refusal <= 2;
            for (unsigned i = 0; service_checks[service][i] != 0; i++)
                own = own || service_checks[service][i] == refusal;
            if (own == (cells[service][refusal] > 0))
                continue;
            printf("# %s was %s refused with %u\n", names[service], own ? "never" : "also", refusal);
            good = false;
        }
    return good;
}

static bool every_region_missed(unsigned long least)
{
    for (region_miss miss = RIGHTS_ABOVE_1; miss < REGION_MISSES; miss++)
        if (missed[miss] < least)
            return false;
    return true;
}

/* From a child alone to all but the root. */
static bool every_branch_cleared(void)
{
    for (unsigned size = 1; size < SECOND_PARTITIONS; size++)
        if (cleared[size] == 0)
            return false;
    return true;
}

static bool every_clause_failed_alone(unsigned long least)
{
    for (unsigned clause = 1; clause <= CLAUSES; clause++)
        if (alone[clause] < least)
            return false;
    return true;
}

static bool every_mismark_met(unsigned long least)
{
    for (mismark m = WHOLE_CLOSED; m < MISMARKS; m++)
        if (mismarked[m] < least)
            return false;
    return true;
}

/* On a board whose entries are one piece each, neither 9 pieces nor more than one of an entry. */
static bool pieces_met(unsigned long least)
{
    bool shapes = BOARD == SECOND_V7;
    if (most_pieces != (shapes ? ULAVREPIT_PIECES : 1) || eights < least)
        return false;
    if (shapes ? nines < least || crowded < least : nines > 0 || crowded > 0)
        return false;
    return listed[0] >= least && listed[1] >= least && listed[4] >= least && listed[17] >= least;
}

/* At the first child, at the last, and at each between. */
static bool every_child_unlike(void)
{
    for (unsigned p = 1; p < SECOND_PARTITIONS; p++)
        if (unlike[p] == 0)
            return false;
    return true;
}

int main(int count, char **words)
{
    unsigned long last = count == 3 ? strtoul(words[2], NULL, 10) : 0;
    if (last == 0) {
        fprintf(stderr, "usage: compare SEED CALLS\n");
        return 2;
    }
    chance = seeded(strtoull(words[1], NULL, 10));
    paint(&ours);
    paint(&theirs);
    go_farthest();
    while (calls < last && same_so_far)
        session(last);
    print_cells();
    check(same_so_far, "the library and the second program answer the same and leave the same bytes");
    check(unsound_sessions == 0, "no table that a session, or an odd table, came to was refused 1");
    check(unsound_odd == 0, "every odd table is sound");
    check(every_cell_met(), "every service was done, and refused with each of its numbers, 1 and 2, and with no other");
    check(every_region_missed(last / 1000), "service 10, and 9 with R or S that is neither load nor unload, were met");
    check(every_clause_failed_alone(last / 200), "each of S1 to S11 failed alone in many tables");
    check(every_mismark_met(last / 5000), "S7 failed alone by a whole entry that is closed, that is given on, that is no grant");
    check(lent_whole >= last / 200 && taken_whole >= last / 500 && kept_whole == 0,
          "blocks were lent whole and taken back, and no take of one was refused 14");
    check(pieces_met(last / 2000), "8 pieces and 9, tables with too many, and listings of pieces, of the most and refused, were met");
    check(every_child_unlike(), "S11 failed alone by unlike rights inside one grant, at each of the partitions 1 to 15");
    check(every_branch_cleared(), "branches of 1 to 15 partitions were cleared out");
    check(packs_of_none > 0 && packs_of_child > 0 && packs_with_region > 0 && packs_with_mark > 0 && packs_over_absent > 0 &&
              most_moved >= 16,
          "packs moved nothing, a child's entries, what regions name or is lent whole, from above an absent structure, 16 at once");
    check(deepest == SECOND_PARTITIONS - 1, "chains of 15 levels below the root were met");
    check(most_runs == MOST_RUNS && short_lists >= last / 100, "324 runs, and lists too short, were met");
    check(most_looked == ULAVREPIT_LOOKS, "a listing of holders that looks at 512 slot words was met");
    check(accepted > calls / 2, "more than half of the calls were accepted");
    check(calls >= last && damaged >= last / 4, "as many calls as asked for, and a damaged table for every four");
    return 0;
}
