/*
 * The sheet beside the table (document 02, request 108), on the library as it is linked: over generated sessions it answers
 * and writes what the second program does, table, sheet and second value; the sheet is that of the table, read slot by slot;
 * and the words of a partition whose record stays, stay. In between it is handed sheets that are damaged in one bit, short,
 * long, or another table's, and damaged tables: 20, or 1 before it, and nothing is written.
 *
 *   sheet SEED SESSIONS
 *
 * Lines that begin with # are for the reader; the others are one check each.
 */
#include "check.h"
#include "damage.h"
#include "lent.h"
#include "steer.h"

#include <stdlib.h>

enum { LONGEST_SESSION = 300, SHEET = ULAVREPIT_SHEET_BYTES, LONG_SHEET = SHEET + 16, RECORD = 320, PAIR = 16 };

/* What is lent for a call. */
typedef struct {
    uint8_t table[ULAVREPIT_TABLE_BYTES], sheet[LONG_SHEET];
    uint64_t second;
} both;

static dice chance;
static both one, other, before;
static uint8_t past_sheet[SHEET]; /* of some table before this one */
static bool have_past;

static unsigned long sessions, calls, accepted, kept_words, changed_words, booted;
static unsigned long odd_sheets[4], damaged_tables, refused_20;                         /* bit, short, long, another's */
static unsigned long differing, not_afresh, root_differs, not_kept, alone_20, wrong_20; /* what is never to be met */

static uint32_t refusal_in(uint64_t result)
{
    return (uint32_t)(result & 0xff);
}

/* ---- the sheet, read by the header and held to the table's plain structs ---- */

static bool pair_right(const second_table *t, uint8_t p, const uint8_t *sheet)
{
    ulavrepit_sheet_pair pair = ulavrepit_sheet_of(sheet, p), due = {0, 0, 0, 0, 0};
    for (unsigned c = 1; c < SECOND_PARTITIONS; c++)
        due.children += child_of(t, (uint8_t)c, p) ? UINT32_C(1) << c : 0;
    for (unsigned i = 0; i < SECOND_SLOTS; i++) {
        const second_slot *s = &t->partitions[p].slots[i];
        due.slots += s->present ? UINT32_C(1) << i : 0;
        due.held += s->present ? s->end - s->start : 0;
        due.open += s->open ? s->end - s->start : 0;
    }
    for (unsigned j = 0; j < SECOND_STRUCTURES; j++)
        due.structures += t->partitions[p].structures[j].present ? UINT32_C(1) << j : 0;
    uint64_t masks = ulavrepit_sheet_word(sheet, 2u * p), lines = ulavrepit_sheet_word(sheet, 2u * p + 1);
    return pair.children == due.children && pair.slots == due.slots && pair.structures == due.structures && pair.held == due.held &&
           pair.open == due.open && (masks & 0xfff) == 0 && (lines & 0x3ff) == 0;
}

static void hold_to_table(void)
{
    second_table t;
    second_read(one.table, &t);
    for (uint8_t p = 0; p < SECOND_PARTITIONS; p++)
        not_afresh += !pair_right(&t, p, one.sheet);
    root_differs += ulavrepit_sheet_of(one.sheet, 0).held != t.end - t.base;
}

/* Whose 320 bytes stay keeps its 16. */
static void hold_to_before(void)
{
    for (unsigned p = 0; p < SECOND_PARTITIONS; p++) {
        bool record = memcmp(one.table + 8 + RECORD * p, before.table + 8 + RECORD * p, RECORD) == 0;
        bool pair = memcmp(one.sheet + PAIR * p, before.sheet + PAIR * p, PAIR) == 0;
        not_kept += record && !pair;
        kept_words += record;
        changed_words += !pair;
    }
}

/* ---- one call on both ---- */

static uint64_t call_both(uint64_t table_len, uint64_t sheet_len, uint64_t word)
{
    before = other = one;
    uint64_t a = ulavrepit_call_sheet(one.table, table_len, one.sheet, sheet_len, word, &one.second);
    uint64_t b = second_call_sheet(BOARD, other.table, table_len, other.sheet, sheet_len, word, &other.second);
    differing += a != b || memcmp(&one, &other, sizeof one) != 0;
    differing += refusal_in(a) != 0 && memcmp(&one, &before, sizeof one) != 0;
    refused_20 += refusal_in(a) == ULAVREPIT_REFUSED_SHEET;
    return a;
}

static uint64_t word_for(mood m)
{
    second_table t;
    second_read(one.table, &t);
    return percent(&chance, 5) ? roll(&chance) : next_word(one.table, &t, m, &chance);
}

static void one_call(mood m)
{
    uint64_t result = call_both(sizeof one.table, SHEET, word_for(m));
    calls++;
    alone_20 += refusal_in(result) == ULAVREPIT_REFUSED_SHEET;
    if (refusal_in(result) == ULAVREPIT_DONE) {
        accepted++;
        hold_to_table();
        hold_to_before();
    }
    if (percent(&chance, 10)) {
        memcpy(past_sheet, one.sheet, SHEET);
        have_past = true;
    }
}

/* ---- sheets and tables that are not as they should be: all is put back after it ---- */

static void odd_sheet(mood m)
{
    both whole = one;
    uint64_t len = SHEET;
    unsigned kind = below(&chance, 4);
    if (kind == 0)
        one.sheet[below(&chance, SHEET)] ^= (uint8_t)(1u << below(&chance, 8));
    else if (kind == 1)
        len = below(&chance, 4) == 0 ? 0 : below(&chance, SHEET);
    else if (kind == 2)
        len = SHEET + 1 + below(&chance, LONG_SHEET - SHEET);
    else if (have_past && memcmp(past_sheet, one.sheet, SHEET) != 0)
        memcpy(one.sheet, past_sheet, SHEET);
    else
        return;
    odd_sheets[kind]++;
    bool broken = percent(&chance, 20);
    if (broken) {
        second_table t;
        second_read(one.table, &t);
        uint8_t table[ULAVREPIT_TABLE_BYTES];
        broken = damage(&t, table, &chance) != 0 && only_failing(table) != 0;
        if (broken)
            memcpy(one.table, table, sizeof table);
        damaged_tables += broken;
    }
    uint64_t result = call_both(sizeof one.table - (percent(&chance, 5) ? 8 : 0), len, word_for(m));
    uint32_t due = refusal_in(result) == ULAVREPIT_REFUSED_TABLE ? ULAVREPIT_REFUSED_TABLE : ULAVREPIT_REFUSED_SHEET;
    wrong_20 += refusal_in(result) != due || (broken && due != ULAVREPIT_REFUSED_TABLE);
    one = whole;
}

/* From any content, of any length. */
static void boot_both(range r)
{
    uint64_t table_len = sizeof one.table - (percent(&chance, 10) ? 1 : 0);
    uint64_t sheet_len = percent(&chance, 80) ? SHEET : below(&chance, LONG_SHEET);
    for (size_t i = 0; i < sizeof one.sheet; i++)
        one.sheet[i] = (uint8_t)roll(&chance);
    before = other = one;
    uint64_t base = percent(&chance, 90) ? r.base : r.end, end = percent(&chance, 95) ? r.end : roll(&chance);
    uint64_t a = ulavrepit_boot_sheet(one.table, table_len, one.sheet, sheet_len, base, end);
    uint64_t b = second_boot_sheet(other.table, table_len, other.sheet, sheet_len, base, end);
    differing += a != b || memcmp(&one, &other, sizeof one) != 0;
    differing += refusal_in(a) != 0 && memcmp(&one, &before, sizeof one) != 0;
    refused_20 += refusal_in(a) == ULAVREPIT_REFUSED_SHEET;
    booted += refusal_in(a) == 0;
}

static void session(void)
{
    mood m = (mood)below(&chance, MOODS);
    range r = next_boot(&chance);
    memset(&one, PAINT, sizeof one);
    for (unsigned i = 0; i < 4; i++)
        boot_both(r);
    if (refusal_in(ulavrepit_boot_sheet(one.table, sizeof one.table, one.sheet, SHEET, r.base, r.end)) == 0)
        hold_to_table();
    have_past = false;
    for (unsigned left = below(&chance, LONGEST_SESSION); left > 0; left--) {
        one_call(m);
        if (percent(&chance, 15))
            odd_sheet(m);
    }
    sessions++;
}

int main(int count, char **words)
{
    if (count != 3) {
        fprintf(stderr, "usage: sheet SEED SESSIONS\n");
        return 2;
    }
    chance = seeded(strtoull(words[1], NULL, 10));
    for (unsigned long wanted = strtoul(words[2], NULL, 10); sessions < wanted;)
        session();
    printf("# %lu sessions, %lu calls, %lu accepted; records that stayed %lu, pairs that changed %lu\n", sessions, calls, accepted, kept_words,
           changed_words);
    printf("# sheets with one bit damaged %lu, short %lu, long %lu, another table's %lu; with a damaged table %lu; refused 20: %lu\n", odd_sheets[0],
           odd_sheets[1], odd_sheets[2], odd_sheets[3], damaged_tables, refused_20);
    check(differing == 0, "it answers and writes what the second program does, and a refusal writes nothing");
    check(not_afresh == 0, "after every accepted call the sheet is the table's");
    check(root_differs == 0, "the lines held by the root come to end less base");
    check(not_kept == 0, "the words of a partition whose record stays, stay");
    check(alone_20 == 0, "20 never comes up by itself");
    check(wrong_20 == 0, "a sheet that is not the table's is refused 20, and a damaged table 1 before it");
    check(accepted > calls / 3 && kept_words > 1000 && changed_words > 1000 && booted > sessions && odd_sheets[0] > 50 && odd_sheets[1] > 50 &&
              odd_sheets[2] > 50 && odd_sheets[3] > 50 && damaged_tables > 20,
          "every kind of sheet was handed over");
    return 0;
}
