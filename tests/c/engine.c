/*
 * The line engine (document 02, request 110) beside the tables, on the library as it is linked: over generated sessions
 * on small memories each accepted give, take, delete and clear out drives it, and after every call the mask of every line
 * names exactly the partitions that holders lists. And on any arguments it does what the second program does.
 *
 *   engine SEED SESSIONS
 *
 * Lines that begin with # are for the reader; the others are one check each.
 */
#include "check.h"
#include "lent.h"
#include "steer.h"

#include <stdlib.h>

enum { LONGEST_SESSION = 250, MASKS = ULAVREPIT_ENGINE_LINES + 24, EXTRA = 16 };

static dice chance;
static uint8_t table[ULAVREPIT_TABLE_BYTES];
static uint16_t masks[MASKS], other_masks[MASKS], before[MASKS];
static uint8_t parent[SECOND_PARTITIONS]; /* as the answers of create tell it */
static uint64_t base, end;

static unsigned long sessions, calls, lines_asked, done[LAST_SERVICE + 1], most_struck;
static unsigned long differing, refused, written_past; /* what is never to be met */

static unsigned bits_in(uint64_t word)
{
    unsigned n = 0;
    for (; word != 0; word &= word - 1)
        n++;
    return n;
}

/* ---- what a call asks of the engine: a reader's work, from the call word, its answer and the lines of the entry ---- */

/* The caller's child that stands for all these lines. */
static uint64_t child_for(uint32_t caller, uint32_t from, uint32_t to)
{
    for (uint64_t p = 1; p < SECOND_PARTITIONS; p++) {
        bool all = parent[p] == caller;
        for (uint32_t line = from; all && line < to; line++)
            all = (masks[line - base] >> p & 1) != 0;
        if (all)
            return p;
    }
    return 0;
}

/* P and its descendants. */
static uint64_t branch_of(uint32_t p)
{
    uint64_t members = UINT64_C(1) << p;
    for (unsigned turn = 0; turn < SECOND_PARTITIONS; turn++)
        for (unsigned q = 1; q < SECOND_PARTITIONS; q++)
            if ((members >> parent[q] & 1) != 0 && parent[q] != 0)
                members |= UINT64_C(1) << q;
    return members;
}

static uint64_t strike(uint64_t members)
{
    for (unsigned q = 1; q < SECOND_PARTITIONS; q++)
        if ((members >> q & 1) != 0)
            parent[q] = 0;
    if (bits_in(members) > most_struck)
        most_struck = bits_in(members);
    return ulavrepit_engine_strike(masks, end - base + EXTRA, base, end, members);
}

/* The answer of what an accepted call drives. */
static uint64_t drive(uint64_t word, ulavrepit_answer answer, ulavrepit_entry entry)
{
    uint64_t n = end - base + EXTRA;
    uint32_t p = (uint32_t)(word >> 56 & 15);
    switch (word >> 60) {
    case ULAVREPIT_CREATE:
        parent[answer.first] = (uint8_t)answer.caller;
        return 0;
    case ULAVREPIT_GIVE:
        return ulavrepit_engine_give(masks, n, base, end, p, entry.start, entry.end);
    case ULAVREPIT_TAKE:
        return ulavrepit_engine_take(masks, n, base, end, child_for(answer.caller, entry.start, entry.end), entry.start, entry.end);
    case ULAVREPIT_DELETE:
        return strike(UINT64_C(1) << p);
    case ULAVREPIT_CLEAR_OUT:
        return strike(branch_of(p));
    default:
        return 0;
    }
}

/* ---- sessions ---- */

static void ask_every_line(void)
{
    for (uint64_t line = base; line < end; line++) {
        uint8_t list[ULAVREPIT_HOLDERS_BYTES];
        ulavrepit_answer answer = ulavrepit_holders_answer(table, sizeof table, line, list, sizeof list);
        uint32_t mask = 0;
        for (uint32_t i = 0; i < answer.first; i++)
            mask |= UINT32_C(1) << list[i];
        differing += answer.refusal != ULAVREPIT_DONE || mask != masks[line - base];
        lines_asked++;
    }
    for (uint64_t i = end - base; i < MASKS; i++)
        written_past += masks[i] != 0xa5a5;
}

static void one_call(mood m)
{
    second_table t;
    second_read(table, &t);
    uint64_t word = next_word(table, &t, m, &chance);
    ulavrepit_entry entry = ulavrepit_unpack_entry(table_word(table, slot_at(current_of(table), (unsigned)(word >> 51 & 31))));
    ulavrepit_answer answer = ulavrepit_call_answer(table, sizeof table, word);
    if (answer.refusal == ULAVREPIT_DONE) {
        done[word >> 60]++;
        refused += drive(word, answer, entry) != 0;
    }
    calls++;
    ask_every_line();
}

static void session(void)
{
    bool deep = percent(&chance, 40); /* a chain needs room and time */
    mood m = deep ? CLEARING : (mood)below(&chance, MOODS);
    base = below(&chance, 5000);
    end = base + (deep ? 600 + below(&chance, 200) : percent(&chance, 30) ? 16 + below(&chance, 100) : 100 + below(&chance, 300));
    memset(masks, 0xa5, sizeof masks);
    memset(parent, 0, sizeof parent);
    ulavrepit_boot(table, sizeof table, base, end);
    refused += ulavrepit_engine_start(masks, end - base + EXTRA, base, end) != 0;
    ask_every_line();
    for (unsigned left = deep ? LONGEST_SESSION : below(&chance, LONGEST_SESSION); left > 0; left--)
        one_call(m);
    sessions++;
}

/* ---- any arguments ---- */

static unsigned long tried, tried_done;

/* Numbers at the edges of what is taken, and any others. */
static uint64_t around(uint64_t n)
{
    switch (below(&chance, 8)) {
    case 0:
        return n - 1;
    case 1:
        return n + 1;
    case 2:
        return roll(&chance);
    default:
        return n;
    }
}

/* Lent n masks, the library answers and leaves what the second program does: 21 exactly where that is due. */
static bool same_on_any(void)
{
    uint64_t low = percent(&chance, 10) ? roll(&chance) : below(&chance, 3000);
    uint64_t lines = percent(&chance, 20) ? ULAVREPIT_ENGINE_LINES : 1 + below(&chance, 60);
    uint64_t high = around(low + lines), n = below(&chance, 4) == 0 ? lines - 1 : lines + below(&chance, 8);
    uint64_t from = around(low + below(&chance, (uint32_t)lines)), to = around(from + 1 + below(&chance, (uint32_t)lines));
    uint64_t child = percent(&chance, 80) ? 1 + below(&chance, 15) : around(below(&chance, 2) * 15);
    uint64_t members = percent(&chance, 80) ? roll(&chance) & 0xfffe : roll(&chance) & 0x1ffff;
    uint64_t a = 0, b = 0;
    for (unsigned i = 0; i < MASKS; i++)
        masks[i] = other_masks[i] = before[i] = (uint16_t)roll(&chance);
    switch (below(&chance, 4)) {
    case 0:
        a = ulavrepit_engine_start(masks, n, low, high);
        b = second_engine_start(other_masks, n, low, high);
        break;
    case 1:
        a = ulavrepit_engine_give(masks, n, low, high, child, from, to);
        b = second_engine_give(other_masks, n, low, high, child, from, to);
        break;
    case 2:
        a = ulavrepit_engine_take(masks, n, low, high, child, from, to);
        b = second_engine_take(other_masks, n, low, high, child, from, to);
        break;
    default:
        a = ulavrepit_engine_strike(masks, n, low, high, members);
        b = second_engine_strike(other_masks, n, low, high, members);
    }
    tried++;
    tried_done += a == 0;
    return a == b && memcmp(masks, other_masks, sizeof masks) == 0 && (a == 0 || memcmp(masks, before, sizeof masks) == 0);
}

int main(int count, char **words)
{
    if (count != 3) {
        fprintf(stderr, "usage: engine SEED SESSIONS\n");
        return 2;
    }
    chance = seeded(strtoull(words[1], NULL, 10));
    for (unsigned long wanted = strtoul(words[2], NULL, 10); sessions < wanted;)
        session();
    bool same_always = true;
    for (unsigned i = 0; i < 20000; i++)
        same_always = same_on_any() && same_always;
    printf("# %lu sessions, %lu calls, %lu lines compared; done: give %lu, take %lu, delete %lu, clear out %lu, of %lu at most\n", sessions,
           calls, lines_asked, done[ULAVREPIT_GIVE], done[ULAVREPIT_TAKE], done[ULAVREPIT_DELETE], done[ULAVREPIT_CLEAR_OUT], most_struck);
    printf("# any arguments: %lu calls of the engine, %lu done\n", tried, tried_done);
    check(differing == 0, "after every call the mask of every line names whom holders lists");
    check(refused == 0, "nothing that an accepted call drives is refused");
    check(written_past == 0, "masks past the lines stay");
    check(same_always, "on any arguments it answers and writes what the second program does, and 21 writes nothing");
    check(done[ULAVREPIT_GIVE] > 20 && done[ULAVREPIT_TAKE] > 5 && done[ULAVREPIT_DELETE] > 5 && done[ULAVREPIT_CLEAR_OUT] > 5 &&
              most_struck > 5 && tried_done > tried / 8 && tried_done < tried * 7 / 8,
          "gives, takes, deletes and clear outs of several members were driven");
    return 0;
}
