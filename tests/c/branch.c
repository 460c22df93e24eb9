/*
 * What a branch can't touch (document 02, request 112), on the library as it is linked: from one table two lists of
 * calls, each made while partition k or a descendant of k is current. Afterwards the records beside the branch are byte
 * for byte as they were, those above k differ at most in open bits and region bytes, and find and read region answer
 * whoever is beside the branch the same, whichever list was made.
 *
 *   branch SEED PAIRS
 *
 * Lines that begin with # are for the reader; the others are one check each.
 */
#include "check.h"
#include "lent.h"
#include "steer.h"

#include <inttypes.h>
#include <stdlib.h>

enum { RECORD_WORDS = 40, REGIONS_WORD = 5, FIRST_SLOT_WORD = 8, LONGEST_LIST = 120 };
#define OPEN_BIT (UINT64_C(1) << 62)

static dice chance;
static uint8_t start[ULAVREPIT_TABLE_BYTES], one[ULAVREPIT_TABLE_BYTES], two[ULAVREPIT_TABLE_BYTES];
static second_table at_start;

static unsigned long pairs, calls, done, bystanders, asked;
static unsigned long changed_beside, changed_above, answered_otherwise; /* what is never to be met */
static unsigned long open_bits_above, regions_above, differing_pairs;   /* what is to be met, else little was tried */

/* ---- the tree of a table ---- */

/* P is k or a descendant of k. */
static bool in_branch(const second_table *t, uint8_t k, uint8_t p)
{
    for (unsigned steps = 0; p != k && p != 0 && steps < SECOND_PARTITIONS; steps++)
        p = t->partitions[p].parent;
    return p == k;
}

static bool is_beside(uint8_t k, uint8_t p)
{
    return at_start.partitions[p].present && !in_branch(&at_start, k, p) && !in_branch(&at_start, p, k);
}

static bool is_above(uint8_t k, uint8_t p)
{
    return p != k && in_branch(&at_start, p, k);
}

/* ---- the calls ---- */

static void make_current(uint8_t *table, uint8_t p)
{
    second_table t;
    second_read(table, &t);
    t.current = p;
    second_write(&t, table);
}

/* Calls from a fresh table, done or refused, by anybody. */
static void make_start(void)
{
    range r = next_boot(&chance);
    mood m = (mood)below(&chance, MOODS);
    uint64_t second;
    ulavrepit_boot(start, sizeof start, r.base, r.end);
    for (unsigned left = below(&chance, 400); left > 0; left--) {
        second_read(start, &at_start);
        ulavrepit_call(start, sizeof start, next_word(start, &at_start, m, &chance), &second);
    }
    second_read(start, &at_start);
}

/* Calls of k's branch. A switch that leaves it is the last one, and is mostly not made. */
static void call_inside(uint8_t *table, uint8_t k)
{
    second_table t;
    uint64_t second;
    mood m = (mood)below(&chance, MOODS);
    make_current(table, k);
    for (unsigned left = below(&chance, LONGEST_LIST); left > 0; left--) {
        second_read(table, &t);
        if (!in_branch(&t, k, t.current))
            return;
        uint64_t word = next_word(table, &t, m, &chance);
        bool leaves = t.current == k && word == ulavrepit_switch(t.partitions[k].parent);
        if (leaves && percent(&chance, 95))
            continue;
        done += (ulavrepit_call(table, sizeof start, word, &second) & 0xff) == ULAVREPIT_DONE;
        calls++;
    }
}

/* ---- what is left ---- */

static void compare_records(const uint8_t *table, uint8_t k)
{
    for (uint8_t p = 0; p < SECOND_PARTITIONS; p++)
        for (unsigned o = 0; o < RECORD_WORDS; o++) {
            uint64_t differs = table_word(start, 1 + RECORD_WORDS * p + o) ^ table_word(table, 1 + RECORD_WORDS * p + o);
            if (differs == 0)
                continue;
            if (is_beside(k, p))
                changed_beside++;
            else if (is_above(k, p) && o == REGIONS_WORD)
                regions_above++;
            else if (is_above(k, p) && o >= FIRST_SLOT_WORD && differs == OPEN_BIT)
                open_bits_above++;
            else if (is_above(k, p))
                changed_above++;
        }
}

static void ask_both(uint64_t word)
{
    uint64_t first_second = PAINTED, other_second = PAINTED;
    uint64_t first = ulavrepit_call(one, sizeof one, word, &first_second);
    uint64_t other = ulavrepit_call(two, sizeof two, word, &other_second);
    answered_otherwise += first != other || first_second != other_second;
    asked++;
}

/* Find at each end of its entries and read region, on itself. */
static void ask_bystander(uint8_t p)
{
    make_current(one, p);
    make_current(two, p);
    for (uint8_t s = 0; s < SECOND_SLOTS; s++)
        if (is_entry(&at_start, p, s)) {
            ask_both(ulavrepit_find(p, at_start.partitions[p].slots[s].start));
            ask_both(ulavrepit_find(p, at_start.partitions[p].slots[s].end));
        }
    for (uint32_t r = 0; r <= SECOND_REGIONS; r++)
        ask_both(ulavrepit_read_region(p, r));
    bystanders++;
}

static void try_pair(void)
{
    make_start();
    uint8_t k = (uint8_t)(1 + below(&chance, SECOND_PARTITIONS - 1)); /* everybody is in the root's branch */
    if (!at_start.partitions[k].present)
        return;
    memcpy(one, start, sizeof one);
    memcpy(two, start, sizeof two);
    call_inside(one, k);
    call_inside(two, k);
    compare_records(one, k);
    compare_records(two, k);
    differing_pairs += memcmp(one + 8, two + 8, sizeof one - 8) != 0;
    for (uint8_t p = 0; p < SECOND_PARTITIONS; p++)
        if (is_beside(k, p))
            ask_bystander(p);
    pairs++;
}

int main(int count, char **words)
{
    if (count != 3) {
        fprintf(stderr, "usage: branch SEED PAIRS\n");
        return 2;
    }
    chance = seeded(strtoull(words[1], NULL, 10));
    for (unsigned long wanted = strtoul(words[2], NULL, 10); pairs < wanted;)
        try_pair();
    printf("# %lu pairs of lists, %lu of them with different tables after them; %lu calls, %lu done\n", pairs, differing_pairs,
           calls, done);
    printf("# above k: %lu open bits and %lu words of regions changed; %lu bystanders asked %lu questions\n", open_bits_above,
           regions_above, bystanders, asked);
    check(changed_beside == 0, "records beside the branch are bit for bit the same");
    check(changed_above == 0, "records above k differ at most in open bits and region bytes");
    check(answered_otherwise == 0, "find and read region answer a bystander the same after either list");
    check(differing_pairs > pairs / 2 && done > pairs && calls - done > pairs && bystanders > pairs / 2 && open_bits_above > 0 &&
              regions_above > 0,
          "the lists differ, are done in part and refused in part, have bystanders, and close entries and drop regions above k");
    return 0;
}
