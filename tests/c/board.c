/*
 * The library as firmware meets it: through include/ulavrepit.h and the static library, held to what document
 * 01 prints. Each call is made on painted memory, and what holds of every call is checked at every call.
 * A line for each check; the exit status says only that the program came to its end.
 */
#include "check.h"
#include "farthest.h"
#include "lent.h"
#include "session.h"

#include <stddef.h>

static lent now;         /* what the library is lent */
static bool clean = true; /* no call so far broke a rule that holds for every call */

/* Refused: first is 0 and no byte changed. Always: bits 16 to 31 are zero, and guards stay. */
static ulavrepit_answer judge(uint64_t result, const lent *before)
{
    ulavrepit_answer answer = ulavrepit_unpack_answer(result, now.second);
    if ((result >> 16 & 0xffff) != 0 || !guards_kept(&now))
        clean = false;
    if (answer.refusal != 0 && (answer.first != 0 || !same(before, &now)))
        clean = false;
    return answer;
}

static ulavrepit_answer boot_len(uint64_t len, uint64_t base, uint64_t end)
{
    lent before = now;
    ulavrepit_answer answer = judge(ulavrepit_boot(now.table, len, base, end), &before);
    if (now.second != before.second || memcmp(now.list, before.list, LIST) != 0)
        clean = false; /* boot is lent neither */
    return answer;
}

static ulavrepit_answer call_len(uint64_t len, uint64_t word)
{
    now.second = PAINTED;
    lent before = now;
    ulavrepit_answer answer = judge(ulavrepit_call(now.table, len, word, &now.second), &before);
    if (memcmp(now.list, before.list, LIST) != 0)
        clean = false;
    return answer;
}

static ulavrepit_answer holders_len(uint64_t len, uint64_t line, uint64_t list_len)
{
    now.second = PAINTED;
    memset(now.list, PAINT, LIST);
    lent before = now;
    uint64_t result = ulavrepit_holders(now.table, len, line, now.list, list_len, &now.second);
    ulavrepit_answer answer = judge(result, &before);
    if (memcmp(now.table, before.table, sizeof now.table) != 0)
        clean = false;
    return answer;
}

static ulavrepit_answer runs_len(uint64_t len, uint64_t list_len)
{
    memset(now.runs, PAINT, sizeof now.runs);
    lent before = now;
    ulavrepit_answer answer = judge(ulavrepit_runs(now.table, len, now.runs, list_len), &before);
    if (memcmp(now.table, before.table, sizeof now.table) != 0 || now.second != before.second)
        clean = false;
    return answer;
}

static ulavrepit_answer pieces_len(uint64_t len, uint64_t partition, uint64_t slot, uint64_t list_len)
{
    memset(now.pieces, PAINT, sizeof now.pieces);
    lent before = now;
    ulavrepit_answer answer = judge(ulavrepit_pieces(now.table, len, partition, slot, now.pieces, list_len), &before);
    if (memcmp(&now, &before, offsetof(lent, pieces)) != 0)
        clean = false;
    return answer;
}

/* ---- verdicts on one call ---- */

static bool boot_is(uint64_t base, uint64_t end, unsigned refusal)
{
    ulavrepit_answer answer = boot_len(sizeof now.table, base, end);
    return answer.refusal == refusal && answer.caller == 0 && answer.first == 0;
}

static bool done(uint64_t word, uint32_t first, uint64_t second)
{
    unsigned caller = current_of(now.table);
    ulavrepit_answer answer = call_len(sizeof now.table, word);
    return answer.refusal == 0 && answer.caller == caller && answer.first == first && answer.second == second;
}

static bool refused(uint64_t word, unsigned number)
{
    unsigned caller = number == 1 ? 0 : current_of(now.table);
    ulavrepit_answer answer = call_len(sizeof now.table, word);
    return answer.refusal == number && answer.caller == caller;
}

static bool holders_refused(uint64_t line, uint64_t list_len, unsigned number)
{
    ulavrepit_answer answer = holders_len(sizeof now.table, line, list_len);
    return answer.refusal == number && answer.caller == 0;
}

/*
 * The list begins with these names, and its other bytes are as they were. The second value is the sum over them of
 * the slot words up to the first entry that holds the line.
 */
static bool holders_are(uint64_t line, uint64_t list_len, const char *names, uint32_t count)
{
    uint64_t looked = 0;
    for (uint32_t i = 0; i < count; i++)
        for (unsigned slot = 0; slot < ULAVREPIT_SLOTS; slot++) {
            ulavrepit_entry entry = ulavrepit_unpack_entry(table_word(now.table, slot_at((unsigned)names[i], slot)));
            looked++;
            if (entry.present && entry.start <= line && line < entry.end)
                break;
        }
    ulavrepit_answer answer = holders_len(sizeof now.table, line, list_len);
    return answer.refusal == 0 && answer.caller == 0 && answer.first == count && answer.second == looked &&
           memcmp(now.list, names, count) == 0 && all_painted(now.list + count, LIST - count);
}

/* The second value alone. */
static uint64_t looked_for(uint64_t line)
{
    return holders_len(sizeof now.table, line, 16).second;
}

static bool runs_refused(uint64_t list_len, unsigned number)
{
    ulavrepit_answer answer = runs_len(sizeof now.table, list_len);
    return answer.refusal == number && answer.caller == 0;
}

/* The list begins with these runs, and its other records are as they were. */
static bool runs_are(uint64_t list_len, const ulavrepit_run *runs, uint32_t count)
{
    ulavrepit_answer answer = runs_len(sizeof now.table, list_len);
    return answer.refusal == 0 && answer.caller == 0 && answer.first == count &&
           memcmp(now.runs, runs, count * sizeof *runs) == 0 &&
           all_painted((const uint8_t *)(now.runs + count), (RUNS - count) * sizeof *runs);
}

static bool pieces_refused(uint64_t partition, uint64_t slot, uint64_t list_len, unsigned number)
{
    ulavrepit_answer answer = pieces_len(sizeof now.table, partition, slot, list_len);
    return answer.refusal == number && answer.caller == 0;
}

/* The list begins with these words, and its other words are as they were. */
static bool pieces_are(uint64_t partition, uint64_t slot, uint64_t list_len, const uint64_t *words, uint32_t count)
{
    ulavrepit_answer answer = pieces_len(sizeof now.table, partition, slot, list_len);
    return answer.refusal == 0 && answer.caller == 0 && answer.first == count &&
           memcmp(now.pieces, words, count * sizeof *words) == 0 &&
           all_painted((const uint8_t *)(now.pieces + count), (PIECES - count) * sizeof *words);
}

/* ---- the two tables of document 01 ---- */

/* B is boot 256 to 1024. */
static bool make_b(void)
{
    paint(&now);
    return boot_is(SESSION_BASE, SESSION_END, 0);
}

/* X is the table after the session. */
static bool make_x(void)
{
    bool good = make_b();
    for (unsigned i = 0; i < SESSION_CALLS; i++)
        good = (session[i].refusal == 0 ? done(session[i].word, session[i].first, 0)
                                        : refused(session[i].word, session[i].refusal)) && good;
    return good;
}

static void test_session(void)
{
    check(make_x(), "the session of 01: every answer");
    check(table_word(now.table, slot_at(0, 3)) == UINT64_C(0xf880001200000400),
          "afterwards root slot 3 is f880001200000400");
    check(table_word(now.table, slot_at(1, 0)) == UINT64_C(0xf000001200000400),
          "afterwards slot 0 of partition 1 is f000001200000400");
    check(holders_are(256, 16, "\0", 1) && holders_are(287, 16, "\0", 1), "256 to 288: held by 0");
    check(holders_are(288, 16, "\0\1", 2) && holders_are(511, 16, "\0\1", 2), "288 to 512: held by 0, 1");
    check(holders_are(512, 16, "\0", 1) && holders_are(1023, 16, "\0", 1), "512 to 1024: held by 0");
    check(holders_refused(255, 16, 7) && holders_refused(1024, 16, 7), "255 and 1024: refused 7");
}

/* Document 01, "Checked by the prover, and by a run". */
static void test_printed_list(void)
{
    check(make_b() && table_word(now.table, slot_at(0, 0)) == UINT64_C(0xf800001000000800),
          "B: root slot 0 is f800001000000800");
    check(refused(ulavrepit_cut(0, 256), 7), "B, cut slot 0 at 256: 7");
    check(refused(ulavrepit_cut(0, 1024), 7), "B, cut slot 0 at 1024: 7");
    check(refused(ulavrepit_merge(0, 0), 11), "B, merge S = T = 0: 11");
    check(refused(ulavrepit_switch(0), 3), "B, switch to 0: 3");
    check(refused(ulavrepit_load(0, 0, 8), 16), "B, load slot 0 in region 8: 16");
    check(refused(ulavrepit_collect(0, 0), 15), "B, collect P 0 structure 0: 15");
    check(done(ulavrepit_cut(0, 257), 1, 0), "B, cut slot 0 at 257: done, slot 1");
    check(make_b() && done(ulavrepit_load(0, 0, 7), 0, 0), "B, load slot 0 in region 7: done");
    check(make_x() && holders_are(300, 16, "\0\1", 2), "X, holders of 300: 0, 1");
    check(looked_for(300) == 5, "X, holders of 300: 4 and 1 slot words looked at");
    check(holders_refused(1024, 16, 7), "X, holders of 1024: 7");
    check(refused(ulavrepit_take(1), 6), "X, take slot 1: 6");
    check(refused(ulavrepit_create(0), 5), "X, create from slot 0: 5");
    check(done(ulavrepit_take(3), 0, 0), "X, take slot 3: done");
    check(make_x() && boot_is(5, 5, 7), "boot 5 to 5: 7");
    check(boot_is(0, 134217727, 0), "boot 0 to 134,217,727: done");
    check(make_b() && done(ulavrepit_cut(0, 256 + 15), 1, 0) && refused(ulavrepit_create(0), 9),
          "a 15-line entry for create: 9");
    check(make_b() && done(ulavrepit_cut(0, 256 + 16), 1, 0) && done(ulavrepit_create(0), 1, 0),
          "a 16-line entry for create: done");
}

static bool length_refused(uint64_t len)
{
    return boot_len(len, 1, 2).refusal == 1 && boot_len(len, 2, 1).refusal == 1 &&
           call_len(len, ulavrepit_find(0, 300)).refusal == 1 && call_len(len, 0).refusal == 1 &&
           holders_len(len, 300, 16).refusal == 1 && holders_len(len, 0, 0).refusal == 1 &&
           runs_len(len, RUNS).refusal == 1 && runs_len(len, 0).refusal == 1 &&
           pieces_len(len, 0, 0, PIECES).refusal == 1 && pieces_len(len, 16, 32, 0).refusal == 1;
}

static void test_lengths(void)
{
    static const uint64_t lengths[] = {0, 8, 5120, 5127, 5129, 5136};
    static const char *const names[] = {"length 0: 1", "length 8: 1", "length 5120: 1",
                                        "length 5127: 1", "length 5129: 1", "length 5136: 1"};
    for (unsigned i = 0; i < sizeof lengths / sizeof *lengths; i++)
        check(make_x() && length_refused(lengths[i]), names[i]);
}

static void test_boot(void)
{
    lent booted;
    bool good = make_b();
    booted = now;
    for (unsigned filling = 0; filling < 256; filling++) {
        memset(now.table, (int)filling, sizeof now.table);
        good = good && boot_is(5, 5, 7) && boot_is(SESSION_BASE, SESSION_END, 0) && same(&booted, &now);
    }
    check(good, "boot of a table of any bytes: the same table; a refused boot leaves them");

    const uint64_t over = 134217728, wrapped = UINT64_C(1) << 32;
    check(boot_is(0, over, 7) && boot_is(over, over + 1, 7) && boot_is(over, 5, 7) && boot_is(6, 5, 7) &&
              boot_is(wrapped, wrapped + 5, 7) && boot_is(0, wrapped + 5, 7) && boot_is(0, UINT64_MAX, 7),
          "boot with base not below end, or a number above 134,217,727: 7");
    check(boot_is(134217726, 134217727, 0), "boot of the last line: done");
}

static void test_holders(void)
{
    bool good = make_x();
    for (uint64_t len = 0; len < 16; len++)
        good = good && holders_refused(300, len, 17);
    check(good, "holders with a list under 16 bytes: 17");
    check(holders_are(300, 16, "\0\1", 2) && holders_are(300, LIST, "\0\1", 2),
          "holders with 16 bytes and more: done, the bytes past the number stay");
    check(holders_refused(1024, 0, 7) && holders_refused(255, 15, 7) && holders_refused(UINT64_MAX, 0, 7) &&
              holders_refused((UINT64_C(1) << 32) + 300, 16, 7),
          "holders: 7 before 17, and a line of more than 32 bits is not one of fewer");
    now.table[7] ^= 1; /* a zero bit of word 0 */
    check(holders_refused(300, 16, 1) && holders_refused(1024, 0, 1) && holders_refused(300, 0, 1),
          "holders of a table not sound: 1 before 7 and 17");
    check(refused(ulavrepit_find(0, 300), 1) && refused(0, 1), "a call on a table not sound: 1 before 2");
}

/* Request 106: the second value of holders. */
static void test_how_far(void)
{
    static uint64_t words[FARTHEST_CALLS];
    check(make_b() && looked_for(300) == 1 && done(ulavrepit_cut(0, 512), 1, 0) && done(ulavrepit_cut(1, 600), 2, 0) &&
              done(ulavrepit_merge(0, 1), 0, 0) && looked_for(599) == 1 && looked_for(600) == 3,
          "the slot found is counted, and so are empty ones before it");
    bool good = boot_is(0, FARTHEST_END, 0);
    farthest_session(words);
    for (unsigned i = 0; i < FARTHEST_CALLS; i++)
        good = good && call_len(sizeof now.table, words[i]).refusal == 0;
    check(good && holders_are(FARTHEST_END - 1, 16, "\0\1\2\3\4\5\6\7\10\11\12\13\14\15\16\17", 16) &&
              looked_for(FARTHEST_END - 1) == ULAVREPIT_LOOKS,
          "a chain of 16 with the line in slot 31 of each: 512, the most");
    ulavrepit_answer answer = ulavrepit_holders_answer(now.table, sizeof now.table, FARTHEST_END, now.list, 16);
    check(answer.refusal == 7 && answer.second == 0 && holders_refused(FARTHEST_END, 16, 7),
          "refused, the struct's second value is 0, and *second stays");
    check(done(ulavrepit_find(15, FARTHEST_END - 1), 31, table_word(now.table, slot_at(15, 31))),
          "find answers slot and word, as ever");
}

static void test_runs(void)
{
    static const ulavrepit_run whole[] = {{256, 1024, 0}};
    static const ulavrepit_run three[] = {{256, 288, 0}, {288, 512, 1}, {512, 1024, 0}};
    check(make_b() && runs_are(RUNS, whole, 1) && runs_are(1, whole, 1) && runs_refused(0, 17), "B: one run");
    check(make_x() && runs_are(RUNS, three, 3) && runs_are(3, three, 3), "X: the three runs that 01 prints");
    check(runs_refused(2, 17) && runs_refused(0, 17), "runs with a list shorter than the runs: 17");
    check(ulavrepit_runs_answer(now.table, sizeof now.table, now.runs, RUNS).first == 3, "runs answer a struct too");
    now.table[7] ^= 1; /* a zero bit of word 0 */
    check(runs_refused(RUNS, 1) && runs_refused(0, 1), "runs of a table not sound: 1 before 17");
}

/* One refusal of each number that a booted board can meet; 8 and 12 need longer sessions. */
static void test_refusals(void)
{
    check(make_x() && refused(0, 2) && refused(UINT64_C(10) << 60, 2) && refused(UINT64_MAX, 2) &&
              refused(ulavrepit_cut(1, 600) | 1, 2) && refused(ulavrepit_word(ULAVREPIT_CUT, 1, 1, 0, 0, 600), 2),
          "refused 2: no service, a zero bit, a field not used");
    check(refused(UINT64_C(0xa000000000000000), 2) && refused(ulavrepit_load(0, 1, 0) | UINT64_C(1) << 44, 2) &&
              refused(ulavrepit_load(0, 1, 0) | UINT64_C(1) << 43, 2) && refused(ulavrepit_load(2, 1, 8) | UINT64_C(7) << 43, 2),
          "refused 2: service 10; service 9 with R above 1, or with R 1 and a slot, before all others");
    check(refused(ulavrepit_delete(0), 3) && refused(ulavrepit_give(2, 1, 0), 3), "refused 3");
    check(refused(ulavrepit_create(31), 4) && refused(ulavrepit_collect(0, 4), 4), "refused 4");
    check(refused(ulavrepit_give(1, 2, 0), 5), "refused 5");
    check(refused(ulavrepit_give(1, 3, 0), 6) && refused(ulavrepit_take(1), 6), "refused 6");
    check(refused(ulavrepit_cut(1, 512), 7) && refused(ulavrepit_find(0, 1024), 7), "refused 7");
    check(done(ulavrepit_cut(1, 527), 4, 0) && refused(ulavrepit_prepare(1, 1), 9), "refused 9");
    check(refused(ulavrepit_merge(4, 1), 11), "refused 11");
    check(refused(ulavrepit_unload(2, 8), 3) && done(ulavrepit_load(0, 1, 7), 0, 0) && done(ulavrepit_unload(0, 7), 0, 0) &&
              done(ulavrepit_unload(0, 7), 0, 0) && done(ulavrepit_read_region(0, 7), 0, 0),
          "a region is unloaded, also one that names nothing");
    check(refused(ulavrepit_load(0, 1, 8), 16) && refused(ulavrepit_unload(0, 31), 16) &&
              done(ulavrepit_load(0, 1, 0), 0, 0) && refused(ulavrepit_load(0, 1, 1), 16),
          "refused 16");
    check(done(ulavrepit_switch(1), 0, 0) && done(ulavrepit_cut(0, 400), 1, 0) && done(ulavrepit_switch(0), 0, 0) &&
              refused(ulavrepit_take(3), 14),
          "refused 14");
    check(refused(ulavrepit_collect(1, 0), 15), "refused 15");
}

/* The store is lent a block without the right to execute: it can't pass that right on. */
static void test_rights(void)
{
    bool good = make_x() && done(ulavrepit_switch(1), 0, 0) && done(ulavrepit_cut(0, 304), 1, 0) &&
                done(ulavrepit_cut(1, 320), 2, 0) && done(ulavrepit_create(0), 2, 0) &&
                done(ulavrepit_prepare(2, 1), 0, 0);
    check(good && refused(ulavrepit_give(2, 2, ULAVREPIT_ALL_RIGHTS), 10) &&
              done(ulavrepit_give(2, 2, ULAVREPIT_READ), 0, 0),
          "refused 10: a right that the entry lacks; done with fewer");
    check(holders_are(400, 16, "\0\1\2", 3), "a line given twice over: held by 0, 1, 2");
    check(done(ulavrepit_find(1, 400), 2, UINT64_C(0xf100001400000400)), "the middle one's entry, given to 2");
    now.table[8 * (1 + 40 + 8)] ^= 0x10; /* slot 0 of partition 1: its write right */
    check(refused(ulavrepit_find(1, 400), 1), "refused 1: entries inside one grant whose rights differ");
}

/* ---- lending whole ---- */

/* X but for its give, which lends slot 3 whole. */
static bool make_lent(void)
{
    bool good = make_b();
    for (unsigned i = 0; i < 5; i++)
        good = done(session[i].word, session[i].first, 0) && good;
    return good && done(UINT64_C(0x5118300000008000), 0, 0);
}

static void test_whole(void)
{
    check(make_lent() && table_word(now.table, slot_at(1, 0)) == UINT64_C(0xf000001200000401) &&
              table_word(now.table, slot_at(0, 3)) == UINT64_C(0xf880001200000400),
          "a block lent whole: the mark is in the child's entry alone");
    check(done(ulavrepit_find(1, 300), 0, UINT64_C(0xf000001200000401)) && done(ulavrepit_load(1, 0, 5), 0, 0) &&
              done(ulavrepit_read_region(1, 5), 0, UINT64_C(0xf000001200000401)) && done(ulavrepit_unload(1, 5), 0, 0),
          "it is found, loaded and unloaded, and find and read region show the mark");
    check(done(ulavrepit_switch(1), 0, 0) && refused(ulavrepit_cut(0, 400), 18) && refused(ulavrepit_create(0), 18) &&
              refused(ulavrepit_prepare(1, 0), 18) && refused(ulavrepit_cut(0, 512), 7) && refused(ulavrepit_merge(0, 0), 11),
          "refused 18: cut, create and prepare of it, after their other numbers");
    check(done(ulavrepit_switch(0), 0, 0) && done(ulavrepit_take(3), 0, 0) &&
              table_word(now.table, slot_at(1, 0)) == 0 && done(ulavrepit_find(0, 300), 3, UINT64_C(0xf800001200000400)),
          "it is taken back");
    bool good = make_x() && done(ulavrepit_cut(1, 768), 4, 0) && done(ulavrepit_give_whole(1, 1, ULAVREPIT_READ), 1, 0) &&
                done(ulavrepit_switch(1), 0, 0) && done(ulavrepit_cut(0, 304), 2, 0) && done(ulavrepit_cut(2, 320), 3, 0) &&
                done(ulavrepit_create(0), 2, 0) && done(ulavrepit_prepare(2, 2), 0, 0);
    check(good && refused(ulavrepit_give(2, 1, ULAVREPIT_WRITE), 10) && refused(ulavrepit_give(2, 1, ULAVREPIT_READ), 18) &&
              refused(ulavrepit_give_whole(2, 1, ULAVREPIT_READ), 18) && refused(ulavrepit_merge(3, 1), 12),
          "refused 18: give of it, whole or not, after 10; merge never meets it");
    check(done(ulavrepit_switch(0), 0, 0) && refused(ulavrepit_take(3), 14) && done(ulavrepit_take(1), 0, 0),
          "whatever the child did with the rest");
    good = make_lent();
    for (uint32_t service = 0; service < 16; service++)
        good = refused(ulavrepit_word(service, 0, 0, 0, 0, 0) | ULAVREPIT_WHOLE, service == ULAVREPIT_GIVE ? 3 : 2) && good;
    check(good && refused(ulavrepit_take(3) | ULAVREPIT_WHOLE, 2), "refused 2: W set for another service than give");
    now.table[8 * slot_at(0, 1) + 7] ^= 1; /* the mark of an entry of the root's */
    check(refused(ulavrepit_find(0, 300), 1), "refused 1: a whole entry that nobody gave");
}

/* ---- pieces ---- */

static void test_pieces(void)
{
    static const uint64_t two[] = {UINT64_C(256) << 32 | 256, UINT64_C(512) << 32 | 512};
    static const uint64_t three[] = {UINT64_C(288) << 32 | 32, UINT64_C(320) << 32 | 64, UINT64_C(384) << 32 | 128};
    uint64_t most[ULAVREPIT_PIECES];
    for (unsigned i = 0; i < 26; i++) { /* 1 to 2^27 - 1: 1, 2, 4, .., up to the middle, and down again */
        most[i] = (UINT64_C(1) << i) << 32 | UINT64_C(1) << i;
        most[51 - i] = ((UINT64_C(1) << 27) - (UINT64_C(2) << i)) << 32 | UINT64_C(1) << i;
    }
    check(make_b() && pieces_are(0, 0, PIECES, two, 2) && pieces_are(0, 0, 2, two, 2), "B: 256 to 1024 is two pieces");
    check(make_x() && pieces_are(1, 0, PIECES, three, 3) && pieces_are(0, 3, 3, three, 3),
          "X: 288 to 512 is three pieces, of 32, 64 and 128 lines, of an open and of a given entry");
    check(pieces_are(0, 0, 1, (const uint64_t[]){UINT64_C(256) << 32 | 16}, 1), "an entry that serves the kernel has pieces too");
    check(pieces_refused(1, 0, 2, 17) && pieces_refused(1, 0, 0, 17), "a list shorter than the pieces: 17");
    check(pieces_refused(0, 4, 0, 4) && pieces_refused(0, 32, PIECES, 4) && pieces_refused(2, 0, PIECES, 4) &&
              pieces_refused(16, 0, PIECES, 4) && pieces_refused(UINT64_C(1) << 32, 0, PIECES, 4) &&
              pieces_refused(1, UINT64_C(1) << 32, PIECES, 4) && pieces_refused(UINT64_MAX, UINT64_MAX, 0, 4),
          "no entry, an absent partition, a number out of range: 4, before 17");
    now.table[7] ^= 1; /* a zero bit of word 0 */
    check(pieces_refused(0, 0, PIECES, 1) && pieces_refused(16, 32, 0, 1), "pieces in a table not sound: 1 before 4 and 17");
    check(boot_is(1, 134217727, 0) && pieces_are(0, 0, ULAVREPIT_PIECES, most, ULAVREPIT_PIECES) && pieces_refused(0, 0, 51, 17),
          "1 to 134,217,727: 52 pieces, the most");
    check(boot_is(0, 134217727, 0) && ulavrepit_pieces_answer(now.table, sizeof now.table, 0, 0, now.pieces, PIECES).first == 27 &&
              refused(ulavrepit_load(0, 0, 0), 19) && refused(ulavrepit_load(0, 0, 8), 16),
          "0 to 134,217,727: 27 pieces, and load is refused 19, after 16");
}

/* Slots 0 to 4 of the root have 5, 2, 4, 2 and 1 pieces. */
static bool make_pieces(void)
{
    return boot_is(1, 128, 0) && done(ulavrepit_cut(0, 32), 1, 0) && done(ulavrepit_cut(1, 42), 2, 0) &&
           done(ulavrepit_cut(2, 60), 3, 0) && done(ulavrepit_cut(3, 68), 4, 0) && done(ulavrepit_cut(4, 72), 5, 0);
}

static void test_limit_of_pieces(void)
{
    const unsigned regions = 1 + 5; /* word 5 of the root's record */
    check(make_pieces() && done(ulavrepit_load(0, 0, 0), 0, 0) && done(ulavrepit_load(0, 1, 1), 0, 0) &&
              refused(ulavrepit_load(0, 3, 2), 19) && done(ulavrepit_load(0, 4, 2), 0, 0),
          "loaded up to 8 pieces; 9 are refused 19");
    check(done(ulavrepit_load(0, 0, 0), 0, 0) && done(ulavrepit_load(0, 3, 1), 0, 0) && refused(ulavrepit_load(0, 2, 1), 19) &&
              table_word(now.table, regions) == UINT64_C(0x8083840000000000),
          "what the region named before is not counted");
    check(done(ulavrepit_unload(0, 0), 0, 0) && done(ulavrepit_load(0, 2, 7), 0, 0) && refused(ulavrepit_load(0, 1, 0), 19),
          "unloading makes room, and is never refused 19");
    now.table[8 * regions] = 0x81;
    check(refused(ulavrepit_unload(0, 0), 1), "refused 1: a table with 9 pieces loaded");
    now.table[8 * regions + 2] = 0;
    check(done(ulavrepit_cut(2, 50), 6, 0) && table_word(now.table, regions) == UINT64_C(0x8183000000000000),
          "a cut unloads its slot and no other");
    check(done(ulavrepit_load(0, 2, 2), 0, 0) && done(ulavrepit_merge(1, 2), 0, 0) &&
              table_word(now.table, regions) == UINT64_C(0x0083000000000000),
          "a merge unloads both slots and no other");
}

/*
 * The manual's tables of MPU_RASR. AP of a region that privileged code reads and writes: 1 without unprivileged access, 2 with
 * reading, 3 with both; XN 1: no instruction is fetched; SIZE 4 is 32 bytes, each further one twice as many; ENABLE 1.
 */
static void test_registers(void)
{
    static const uint32_t access_and_never[8] = { /* by rights: execute 1, write 2, read 4 */
        0x11000000, 0x01000000, 0x11000000, 0x01000000, 0x12000000, 0x02000000, 0x13000000, 0x03000000};
    bool good = true;
    for (uint32_t rights = 0; rights < 8; rights++)
        for (uint32_t bytes_log = 5; bytes_log < 32; bytes_log++) {
            ulavrepit_piece piece = ulavrepit_unpack_piece(UINT64_C(1) << 58 | UINT64_C(1) << (bytes_log - 5));
            uint32_t size = bytes_log - 1; /* 2^(size + 1) bytes */
            good = good && ulavrepit_rasr(piece, rights) == access_and_never[rights] + 2 * size + 1;
        }
    check(good, "MPU_RASR for every set of rights and every size");
    ulavrepit_piece piece = ulavrepit_unpack_piece(UINT64_C(320) << 32 | 64);
    check(piece.start == 320 && piece.lines == 64 && ulavrepit_rbar(piece) == 0x2800 &&
              ulavrepit_rasr(piece, ULAVREPIT_READ + ULAVREPIT_WRITE) == 0x13000015 &&
              ulavrepit_rasr(piece, ULAVREPIT_READ + ULAVREPIT_EXECUTE) == 0x02000015,
          "320 to 384: the address 2800, 2 KiB");
    piece = ulavrepit_unpack_piece(UINT64_C(134217726) << 32 | 1);
    check(ulavrepit_rbar(piece) == 0xffffffc0 && ulavrepit_rasr(piece, ULAVREPIT_ALL_RIGHTS) == 0x03000009,
          "the last line: 32 bytes");
}

static void test_caller(void)
{
    check(make_x() && done(ulavrepit_switch(1), 0, 0) && current_of(now.table) == 1 &&
              done(ulavrepit_find(1, 300), 0, UINT64_C(0xf000001200000400)) && refused(0, 2) &&
              refused(ulavrepit_delete(0), 3),
          "the caller in an answer is the one before the call: 0, and after the switch 1");
    check(call_len(5127, ulavrepit_find(1, 300)).caller == 0, "refused 1: the caller in the answer is 0");
    check(holders_are(300, 16, "\0\1", 2), "holders names no caller");
    check(done(ulavrepit_switch(0), 0, 0) && current_of(now.table) == 0, "and back to the parent");
}

/* A region is emptied when its slot is: the fourth trap of document 01. */
static void test_regions(void)
{
    check(make_x() && done(ulavrepit_load(1, 0, 5), 0, 0) &&
              done(ulavrepit_read_region(1, 5), 0, UINT64_C(0xf000001200000400)) &&
              done(ulavrepit_take(3), 0, 0) && done(ulavrepit_read_region(1, 5), 0, 0),
          "a region of a block that was taken is empty");
}

/* ---- clear out ---- */

/* The caller's entry makes a child with a structure and a block: 16 lines, 16 lines, and the rest but for 16. */
static bool start_child(uint32_t slot, uint32_t child)
{
    ulavrepit_entry own = ulavrepit_unpack_entry(table_word(now.table, slot_at(current_of(now.table), slot)));
    uint32_t area = call_len(sizeof now.table, ulavrepit_cut(slot, own.start + 16)).first;
    uint32_t block = call_len(sizeof now.table, ulavrepit_cut(area, own.start + 32)).first;
    return call_len(sizeof now.table, ulavrepit_cut(block, own.end - 16)).refusal == 0 &&
           done(ulavrepit_create(slot), child, 0) && done(ulavrepit_prepare(child, area), 0, 0) &&
           done(ulavrepit_give(child, block, ULAVREPIT_READ), 0, 0);
}

/* X with a branch under partition 1: its children 2 and 3, and 4, the child of 2; and the root's other child, 5. */
static bool make_branch(void)
{
    return make_x() && done(ulavrepit_switch(1), 0, 0) && start_child(0, 2) && done(ulavrepit_create(3), 3, 0) &&
           done(ulavrepit_switch(2), 0, 0) && start_child(0, 4) && done(ulavrepit_switch(1), 0, 0) &&
           done(ulavrepit_switch(0), 0, 0) && start_child(1, 5);
}

/* No word of the partition's record is set. */
static bool is_gone(unsigned partition)
{
    for (unsigned i = 0; i < 40; i++)
        if (table_word(now.table, 1 + 40 * partition + i) != 0)
            return false;
    return true;
}

static void test_clear_out(void)
{
    static const ulavrepit_run kept[] = {{256, 544, 0}, {544, 1008, 5}, {1008, 1024, 0}};
    check(make_x() && done(ulavrepit_clear_out(1), 1, 0) && is_gone(1) && holders_are(300, 16, "\0", 1),
          "clear out of a child alone: 1, and the root holds its block alone");
    check(refused(ulavrepit_clear_out(1), 3) && done(ulavrepit_create(3), 1, 0),
          "it is no child then, and its block is open");
    check(make_branch() && holders_are(360, 16, "\0\1\2\4", 4) && holders_are(600, 16, "\0\5", 2),
          "a branch three deep: a line held by 0, 1, 2, 4");
    check(refused(ulavrepit_delete(1), 15) && refused(ulavrepit_clear_out(0), 3) &&
              refused(ulavrepit_clear_out(2), 3) && refused(ulavrepit_clear_out(4), 3) &&
              refused(ulavrepit_clear_out(6), 3),
          "clear out of no child (oneself, grandchild, its child, an absent one): 3");
    check(refused(ulavrepit_word(ULAVREPIT_CLEAR_OUT, 1, 1, 0, 0, 0), 2) &&
              refused(ulavrepit_word(ULAVREPIT_CLEAR_OUT, 1, 0, 1, 0, 0), 2) &&
              refused(ulavrepit_word(ULAVREPIT_CLEAR_OUT, 1, 0, 0, 1, 0), 2) &&
              refused(ulavrepit_word(ULAVREPIT_CLEAR_OUT, 2, 0, 0, 0, 1), 2) && refused(ulavrepit_clear_out(1) | 1, 2),
          "clear out with a field not used, or a zero bit: 2");
    check(done(ulavrepit_load(0, 6, 3), 0, 0) && done(ulavrepit_clear_out(1), 4, 0) &&
              done(ulavrepit_read_region(0, 3), 0, UINT64_C(0xf800003f00000800)),
          "clear out of the branch: 4, and the root's region stays");
    check(is_gone(1) && is_gone(2) && is_gone(3) && is_gone(4) && !is_gone(5),
          "each record of the branch is zero, no other");
    check(table_word(now.table, slot_at(0, 3)) == UINT64_C(0xf800001200000400) &&
              table_word(now.table, slot_at(0, 0)) == UINT64_C(0xf800001000000220),
          "what was given and what served it are the root's, open");
    check(runs_are(RUNS, kept, 3) && holders_are(360, 16, "\0", 1),
          "the branch holds no line; the other child holds its own");
    check(done(ulavrepit_switch(5), 0, 0) && start_child(0, 1) && done(ulavrepit_switch(0), 0, 0) &&
              done(ulavrepit_clear_out(5), 2, 0) && is_gone(5) && is_gone(1),
          "clear out of a child with a higher number than its own child: 2");
}

static void test_clear_out_by_a_child(void)
{
    check(make_branch() && done(ulavrepit_switch(1), 0, 0) && refused(ulavrepit_clear_out(0), 3) &&
              refused(ulavrepit_clear_out(1), 3) && refused(ulavrepit_clear_out(5), 3),
          "clear out of the parent, oneself, a sibling: 3");
    check(done(ulavrepit_clear_out(2), 2, 0) && is_gone(2) && is_gone(4) && !is_gone(1) && !is_gone(3) &&
              holders_are(360, 16, "\0\1", 2),
          "clear out by a child: 2, and its other child stays");
}

static void test_places(void)
{
    static uint8_t bytes[ULAVREPIT_TABLE_BYTES + 8];
    bool good = make_x();
    for (unsigned shift = 0; shift < 8; shift++) {
        uint64_t second = PAINTED;
        memset(bytes, PAINT, sizeof bytes);
        good = good && ulavrepit_boot(bytes + shift, ULAVREPIT_TABLE_BYTES, SESSION_BASE, SESSION_END) == 0;
        for (unsigned i = 0; i < SESSION_CALLS; i++)
            ulavrepit_call(bytes + shift, ULAVREPIT_TABLE_BYTES, session[i].word, &second);
        good = good && memcmp(bytes + shift, now.table, ULAVREPIT_TABLE_BYTES) == 0 &&
               all_painted(bytes, shift) && all_painted(bytes + shift + ULAVREPIT_TABLE_BYTES, 8 - shift);
    }
    check(good, "a table may begin at any address");
}

/* ---- pack ---- */

/* The word of an entry that is open and not given, to be read and written. */
static uint64_t own_entry(uint64_t start, uint64_t end)
{
    return UINT64_C(0xf000000000000000) | start << 28 | end << 1;
}

/* The words of slots 0 to 4 of partition 1. */
static bool slots_are(uint64_t a, uint64_t b, uint64_t c, uint64_t d, uint64_t e)
{
    const uint64_t words[] = {a, b, c, d, e};
    bool good = true;
    for (unsigned s = 0; s < 5; s++)
        good = good && table_word(now.table, slot_at(1, s)) == words[s];
    return good;
}

/* X, in which 1 has cut its block in four and merged two of them: slots 0, 2 and 3; regions 5 and 6 name the last two. */
static bool make_gap(void)
{
    return make_x() && done(ulavrepit_switch(1), 0, 0) && done(ulavrepit_cut(0, 320), 1, 0) &&
           done(ulavrepit_cut(1, 352), 2, 0) && done(ulavrepit_cut(2, 384), 3, 0) && done(ulavrepit_merge(0, 1), 0, 0) &&
           done(ulavrepit_load(1, 3, 5), 0, 0) && done(ulavrepit_load(1, 2, 6), 0, 0);
}

static void test_pack(void)
{
    check(make_gap() && slots_are(own_entry(288, 352), 0, own_entry(352, 384), own_entry(384, 512), 0) &&
              done(ulavrepit_pack(1), 2, 0) &&
              slots_are(own_entry(288, 352), own_entry(352, 384), own_entry(384, 512), 0, 0),
          "pack of oneself: 2 moved, in unchanged slot order, the freed slot is zero");
    check(done(ulavrepit_read_region(1, 5), 0, own_entry(384, 512)) && done(ulavrepit_read_region(1, 6), 0, own_entry(352, 384)) &&
              holders_are(400, 16, "\0\1", 2),
          "its regions have followed, and who holds a line stays");
    check(done(ulavrepit_pack(1), 0, 0) && done(ulavrepit_cut(2, 400), 3, 0), "a second pack moves none; the freed slot is used again");
    check(make_gap() && done(ulavrepit_switch(0), 0, 0) && done(ulavrepit_pack(0), 0, 0) && done(ulavrepit_pack(1), 2, 0) &&
              slots_are(own_entry(288, 352), own_entry(352, 384), own_entry(384, 512), 0, 0),
          "pack of a child");
    check(make_gap() && refused(ulavrepit_pack(0), 3) && refused(ulavrepit_pack(2), 3) &&
              refused(ulavrepit_word(ULAVREPIT_PACK, 1, 1, 0, 0, 0), 2) && refused(ulavrepit_word(ULAVREPIT_PACK, 1, 0, 1, 0, 0), 2) &&
              refused(ulavrepit_word(ULAVREPIT_PACK, 0, 0, 0, 1, 0), 2) && refused(ulavrepit_word(ULAVREPIT_PACK, 0, 0, 0, 0, 1), 2) &&
              refused(ulavrepit_pack(1) | 1, 2),
          "pack of the parent, of an absent one: 3; a field not used, a zero bit: 2");
}

/* ---- the header's own functions ---- */

static void test_packing(void)
{
    const uint64_t packed[SESSION_CALLS] = {
        ulavrepit_cut(0, 512), ulavrepit_cut(0, 272), ulavrepit_create(0), ulavrepit_cut(2, 288),
        ulavrepit_prepare(1, 2), ulavrepit_give(1, 3, ULAVREPIT_READ + ULAVREPIT_WRITE),
        ulavrepit_give(1, 3, ULAVREPIT_READ + ULAVREPIT_WRITE)};
    bool good = true;
    for (unsigned i = 0; i < SESSION_CALLS; i++)
        good = good && packed[i] == session[i].word;
    check(good, "the packers make the session's words");
    check(ulavrepit_word(15, 15, 31, 31, 7, 134217727) == UINT64_C(0xffffffffffff0000), "the widest fields fit");
    check(ulavrepit_give_whole(1, 3, ULAVREPIT_READ + ULAVREPIT_WRITE) == UINT64_C(0x5118300000008000) &&
              ulavrepit_give_whole(16, 3, 0) == ULAVREPIT_NO_CALL,
          "the packer of a give with W");
    check(ulavrepit_delete(1) == UINT64_C(0x2100000000000000) && ulavrepit_collect(1, 3) == UINT64_C(0x4100c00000000000) &&
              ulavrepit_take(3) == UINT64_C(0x6018000000000000) && ulavrepit_merge(1, 2) == UINT64_C(0x8008800000000000) &&
              ulavrepit_load(1, 2, 3) == UINT64_C(0x9110c00000000000) && ulavrepit_unload(1, 3) == UINT64_C(0x9100c80000000000) &&
              ulavrepit_read_region(1, 3) == UINT64_C(0xb100c00000000000) &&
              ulavrepit_find(1, 300) == UINT64_C(0xc1000000012c0000) &&
              ulavrepit_switch(1) == UINT64_C(0xd100000000000000) &&
              ulavrepit_clear_out(1) == UINT64_C(0xe100000000000000) && ulavrepit_pack(1) == UINT64_C(0xf100000000000000),
          "the packers of the other services");
    check(make_b() && refused(ulavrepit_word(16, 0, 0, 0, 0, 0), 2) && refused(ulavrepit_switch(16), 2) &&
              refused(ulavrepit_create(32), 2) && refused(ulavrepit_merge(0, 32), 2) &&
              refused(ulavrepit_give(1, 0, 8), 2) && refused(ulavrepit_cut(0, 134217728), 2),
          "a field too wide: a word that is refused 2");
}

static void test_unpacking(void)
{
    ulavrepit_entry entry = ulavrepit_unpack_entry(UINT64_C(0xf100001400000400));
    check(entry.present == 1 && entry.open == 1 && entry.rights == ULAVREPIT_READ + ULAVREPIT_WRITE &&
              entry.given == 2 && entry.start == 320 && entry.end == 512 && entry.whole == 0,
          "the fields of an entry word");
    entry = ulavrepit_unpack_entry(UINT64_C(1) << 62 | UINT64_C(1) << 59 | UINT64_C(8) << 55 | UINT64_C(1) << 54 | 2);
    check(entry.present == 0 && entry.open == 1 && entry.rights == ULAVREPIT_EXECUTE && entry.given == 8 &&
              entry.start == 1u << 26 && entry.end == 1 && entry.whole == 0,
          "each field of an entry word ends where the next begins");
    entry = ulavrepit_unpack_entry(1);
    check(entry.present == 0 && entry.end == 0 && entry.whole == 1, "the last bit of an entry word is the whole mark");
    make_b();
    ulavrepit_answer answer = ulavrepit_call_answer(now.table, sizeof now.table, ulavrepit_find(0, 300));
    check(answer.refusal == 0 && answer.first == 0 && answer.second == UINT64_C(0xf800001000000800),
          "an answer as a struct");
    answer = ulavrepit_call_answer(now.table, sizeof now.table, ulavrepit_find(0, 1024));
    check(answer.refusal == 7 && answer.first == 0 && answer.second == 0, "a refused answer as a struct: values 0");
    answer = ulavrepit_holders_answer(now.table, sizeof now.table, 300, now.list, 15);
    check(answer.refusal == 17 && ulavrepit_boot_answer(now.table, 0, 1, 2).refusal == 1,
          "holders and boot answer a struct too");
}

int main(void)
{
    test_session();
    test_printed_list();
    test_lengths();
    test_boot();
    test_holders();
    test_how_far();
    test_runs();
    test_refusals();
    test_rights();
    test_whole();
    test_pieces();
    test_limit_of_pieces();
    test_registers();
    test_caller();
    test_regions();
    test_clear_out();
    test_clear_out_by_a_child();
    test_pack();
    test_places();
    test_packing();
    test_unpacking();
    check(clean, "in every call: bits 16 to 31 zero, guards kept; refused: first 0, no byte changed");
    return 0;
}
