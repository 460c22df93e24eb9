/*
 * Tests of the second program. Build: see kernel.c.
 *
 * 1. the session printed in document 01, and the program tally at its edges;
 * 2. the list "Checked by the prover, and by a run" of document 01;
 * 3. the refusals, effects and traps, one by one;
 * 4. the clauses of soundness, one by one;
 * 5. generated calls and damaged tables from a fixed seed, compared with a
 *    model that works on the packed words and counts single lines.
 *
 * The last line is "N passed, M failed"; the exit status is 0 if M is 0.
 */
#define TALLY_WITHOUT_MAIN
#include "tally.c"

#include <stdlib.h>
#include <string.h>

static unsigned passed, failed;

static void check(bool good, const char *name)
{
    printf("%s %s\n", good ? "ok" : "not ok", name);
    if (good)
        passed++;
    else
        failed++;
}

/* ======================= Fields of packed words ======================= */

/* Field of a word: its first bit counted from the most significant, and its width. */
typedef struct {
    unsigned first, width;
} field;

static const field BASE = {0, 27}, END = {27, 27}, CURRENT = {54, 4}, ZERO = {58, 6};
static const field H_PRESENT = {0, 1}, H_PARENT = {1, 4}, H_START = {5, 27}, H_END = {32, 27},
                   H_ZERO = {59, 5};
static const field T_PRESENT = {0, 1}, T_START = {1, 27}, T_END = {28, 27}, T_ZERO = {55, 9};
static const field E_PRESENT = {0, 1}, E_OPEN = {1, 1}, E_RIGHTS = {2, 3}, E_GIVEN = {5, 4},
                   E_START = {9, 27}, E_END = {36, 27}, E_WHOLE = {63, 1};

static unsigned header_at(unsigned p) { return 1 + 40 * p; }
static unsigned structure_at(unsigned p, unsigned i) { return 1 + 40 * p + 1 + i; }
static unsigned regions_at(unsigned p) { return 1 + 40 * p + 5; }
static unsigned slot_at(unsigned p, unsigned s) { return 1 + 40 * p + 8 + s; }

static uint64_t get_word(const uint8_t *table, unsigned i)
{
    uint64_t w = 0;
    for (unsigned b = 0; b < 8; b++)
        w = w * 256 + table[8 * i + b];
    return w;
}

static void set_word(uint8_t *table, unsigned i, uint64_t w)
{
    for (unsigned b = 8; b-- > 0; w /= 256)
        table[8 * i + b] = (uint8_t)(w % 256);
}

static uint64_t mask_of(field f)
{
    return (((uint64_t)1 << f.width) - 1) << (64 - f.first - f.width);
}

static uint32_t get(const uint8_t *table, unsigned i, field f)
{
    return (uint32_t)((get_word(table, i) & mask_of(f)) >> (64 - f.first - f.width));
}

static void set(uint8_t *table, unsigned i, field f, uint64_t v)
{
    set_word(table, i, (get_word(table, i) & ~mask_of(f)) |
                           (v << (64 - f.first - f.width) & mask_of(f)));
}

/* The byte of region r of partition p. */
static uint8_t *region_byte(uint8_t *table, unsigned p, unsigned r)
{
    return table + 8 * regions_at(p) + r;
}

/* ======================= Calls ======================= */

/* W of a call word, give's alone. */
#define WHOLE UINT64_C(0x8000)

static uint64_t word_of(unsigned service, unsigned p, unsigned s, unsigned t, unsigned r, uint32_t l)
{
    return (uint64_t)service << 60 | (uint64_t)p << 56 | (uint64_t)s << 51 | (uint64_t)t << 46 |
           (uint64_t)r << 43 | (uint64_t)l << 16;
}

/* Service 9 with R = 1 unloads: that has a row of its own in what follows, 10, which is no service's number. */
enum {
    CREATE = 1, DELETE, PREPARE, COLLECT, GIVE, TAKE, CUT, MERGE, LOAD, UNLOAD, READ, FIND, SWITCH, CLEAR_OUT,
    PACK, SERVICES = PACK
};

/* The fields that each service uses, by its number. */
static const char *const used[SERVICES + 1] = {"", "S", "P", "PS", "PT", "PSRW", "S", "SL", "ST", "PSTR",
                                               "", "PT", "PL", "P", "P", "P"};

#define UNTOUCHED UINT64_C(0x5a5a5a5a5a5a5a5a)

typedef struct {
    unsigned refusal, caller;
    uint32_t first;
    uint64_t second;
    bool clean; /* bits 16 to 31 zero; refused: first 0, nothing written */
} result;

static uint8_t table[SECOND_BYTES];
static second_board board = SECOND_V7;

static result call_word_on(uint8_t *on, uint64_t word)
{
    static uint8_t before[SECOND_BYTES];
    memcpy(before, on, SECOND_BYTES);
    uint64_t second = UNTOUCHED;
    uint64_t a = second_call(board, on, SECOND_BYTES, word, &second);
    result r = {(unsigned)(a & 0xff), (unsigned)(a >> 8 & 0xff), (uint32_t)(a >> 32), second, true};
    r.clean = (a >> 16 & 0xffff) == 0;
    if (r.refusal != 0)
        r.clean = r.clean && r.first == 0 && second == UNTOUCHED && memcmp(before, on, SECOND_BYTES) == 0;
    return r;
}

static bool is_done(unsigned service, unsigned p, unsigned s, unsigned t, unsigned r, uint32_t l,
                    uint32_t first, uint64_t second)
{
    unsigned caller = get(table, 0, CURRENT);
    result a = call_word_on(table, word_of(service, p, s, t, r, l));
    return a.clean && a.refusal == 0 && a.caller == caller && a.first == first &&
           a.second == second && second_unsound(board, table, SECOND_BYTES) == 0;
}

static bool is_refused(unsigned service, unsigned p, unsigned s, unsigned t, unsigned r, uint32_t l,
                       unsigned refusal)
{
    unsigned caller = get(table, 0, CURRENT);
    result a = call_word_on(table, word_of(service, p, s, t, r, l));
    return a.clean && a.refusal == refusal && a.caller == (refusal == 1 ? 0 : caller);
}

/* Done, whatever the values. */
static bool goes(unsigned service, unsigned p, unsigned s, unsigned t, unsigned r, uint32_t l)
{
    result a = call_word_on(table, word_of(service, p, s, t, r, l));
    return a.clean && a.refusal == 0 && second_unsound(board, table, SECOND_BYTES) == 0;
}

static bool boot_to(uint64_t base, uint64_t end)
{
    return second_boot(table, SECOND_BYTES, base, end) == 0 &&
           second_unsound(board, table, SECOND_BYTES) == 0;
}

/* B is boot 256 to 1024. */
static void make_b(void)
{
    memset(table, 0xa5, sizeof table);
    second_boot(table, SECOND_BYTES, 256, 1024);
}

static const uint64_t session[8] = {
    UINT64_C(0x0000200000100000), UINT64_C(0x7000000002000000), UINT64_C(0x7000000001100000),
    UINT64_C(0x1000000000000000), UINT64_C(0x7010000001200000), UINT64_C(0x3110000000000000),
    UINT64_C(0x5118300000000000), UINT64_C(0x5118300000000000)};

/* X is the table after the session. */
static void make_x(void)
{
    make_b();
    for (unsigned i = 1; i < 8; i++)
        call_word_on(table, session[i]);
}

/* Slot words from slot 0 to the one whose entry holds the line, in the record of p; 32 if none does. */
static uint64_t words_to(unsigned p, uint64_t line)
{
    uint64_t words = 0;
    while (words < 32) {
        unsigned at = slot_at(p, (unsigned)words++);
        if (get(table, at, E_PRESENT) == 1 && get(table, at, E_START) <= line && line < get(table, at, E_END))
            break;
    }
    return words;
}

static bool holders_are(uint64_t line, const char *expected, unsigned n)
{
    uint64_t sum = 0;
    for (unsigned i = 0; i < n; i++)
        sum += words_to((unsigned)expected[i], line);
    uint8_t list[20];
    uint64_t second = UNTOUCHED;
    memset(list, 0xee, sizeof list);
    if (second_holders(board, table, SECOND_BYTES, line, list, sizeof list, &second) != (uint64_t)n << 32)
        return false;
    for (unsigned i = 0; i < sizeof list; i++)
        if (list[i] != (i < n ? (uint8_t)expected[i] : 0xee))
            return false;
    return second == sum;
}

static uint64_t sum_for(uint64_t line)
{
    uint8_t list[SECOND_HOLDERS];
    uint64_t second = UNTOUCHED;
    second_holders(board, table, SECOND_BYTES, line, list, sizeof list, &second);
    return second;
}

static bool holders_refused(uint64_t line, uint64_t list_len, unsigned refusal)
{
    uint8_t list[20];
    uint64_t second = UNTOUCHED;
    memset(list, 0xee, sizeof list);
    if (second_holders(board, table, SECOND_BYTES, line, list, list_len, &second) != refusal)
        return false;
    for (unsigned i = 0; i < sizeof list; i++)
        if (list[i] != 0xee)
            return false;
    return second == UNTOUCHED;
}

static bool runs_are(const second_run *expected, unsigned n)
{
    static second_run list[SECOND_RUNS + 1], blank[SECOND_RUNS + 1];
    memset(list, 0xee, sizeof list);
    memset(blank, 0xee, sizeof blank);
    if (n > 0 && second_runs(board, table, SECOND_BYTES, list, n - 1) != 17)
        return false;
    if (memcmp(list, blank, sizeof list) != 0)
        return false;
    if (second_runs(board, table, SECOND_BYTES, list, n) != (uint64_t)n << 32)
        return false;
    if (second_runs(board, table, SECOND_BYTES, list, SECOND_RUNS + 1) != (uint64_t)n << 32)
        return false;
    return memcmp(list, expected, n * sizeof *list) == 0 &&
           memcmp(list + n, blank, (SECOND_RUNS + 1 - n) * sizeof *list) == 0;
}

/* ======================= 1. The program tally ======================= */

static bool prints(const uint8_t *input, size_t length, const char *expected)
{
    static char text[4096];
    FILE *in = tmpfile(), *out = tmpfile();
    if (in == NULL || out == NULL)
        return false;
    if (length > 0)
        fwrite(input, 1, length, in);
    rewind(in);
    tally(in, out);
    rewind(out);
    size_t got = fread(text, 1, sizeof text - 1, out);
    text[got] = '\0';
    fclose(in);
    fclose(out);
    return strcmp(text, expected) == 0;
}

static void test_tally(void)
{
    uint8_t bytes[8 * 8 + 7];
    memset(bytes, 0xff, sizeof bytes);
    for (unsigned i = 0; i < 8; i++)
        set_word(bytes, i, session[i]);

    check(prints(bytes, 64, "1 0 1 0000000000000000\n"
                            "2 0 2 0000000000000000\n"
                            "3 0 1 0000000000000000\n"
                            "4 0 3 0000000000000000\n"
                            "5 0 0 0000000000000000\n"
                            "6 0 0 0000000000000000\n"
                            "7 6 0 0000000000000000\n"
                            "256 288 0\n"
                            "288 512 0 1\n"
                            "512 1024 0\n"),
          "tally: the session of 01");
    make_x();
    check(get_word(table, slot_at(0, 3)) == UINT64_C(0xf880001200000400),
          "afterwards root slot 3 is f880001200000400");
    check(get_word(table, slot_at(1, 0)) == UINT64_C(0xf000001200000400),
          "afterwards slot 0 of partition 1 is f000001200000400");

    check(prints(bytes, 64 + 7, "1 0 1 0000000000000000\n"
                                "2 0 2 0000000000000000\n"
                                "3 0 1 0000000000000000\n"
                                "4 0 3 0000000000000000\n"
                                "5 0 0 0000000000000000\n"
                                "6 0 0 0000000000000000\n"
                                "7 6 0 0000000000000000\n"
                                "rest 7\n"
                                "256 288 0\n"
                                "288 512 0 1\n"
                                "512 1024 0\n"),
          "tally: 7 bytes left over");
    check(prints(bytes, 8 + 1, "rest 1\n256 1024 0\n"), "tally: no call, 1 byte left over");
    check(prints(bytes, 8, "256 1024 0\n"), "tally: no call");
    check(prints(bytes, 0, "boot 2\n"), "tally: no boot word");
    check(prints(bytes, 7, "boot 2\n"), "tally: boot word short");
    set_word(bytes, 0, session[0] | 1);
    check(prints(bytes, 64, "boot 2\n"), "tally: last zero bit set in the boot word");
    set_word(bytes, 0, session[0] | 0x200);
    check(prints(bytes, 64, "boot 2\n"), "tally: first zero bit set in the boot word");
    set_word(bytes, 0, 1);
    check(prints(bytes, 64 + 3, "boot 2\n"), "tally: zero bit set and range bad");
    set_word(bytes, 0, 0);
    check(prints(bytes, 64 + 3, "boot 7\n"), "tally: boot 0 to 0");
    set_word(bytes, 0, (uint64_t)9 << 37 | (uint64_t)5 << 10);
    check(prints(bytes, 8, "boot 7\n"), "tally: boot 9 to 5");
    set_word(bytes, 0, (uint64_t)134217727 << 10);
    set_word(bytes, 1, word_of(FIND, 0, 0, 0, 0, 134217726));
    check(prints(bytes, 16, "1 0 0 f80000000ffffffe\n0 134217727 0\n"), "tally: boot 0 to 134,217,727");
}

/* ======================= 2. Checked by the prover, and by a run ======================= */

static void test_list(void)
{
    make_b();
    check(get_word(table, slot_at(0, 0)) == UINT64_C(0xf800001000000800),
          "B: root slot 0 is f800001000000800");
    check(is_refused(CUT, 0, 0, 0, 0, 256, 7), "B, cut slot 0 at 256: 7");
    check(is_refused(CUT, 0, 0, 0, 0, 1024, 7), "B, cut slot 0 at 1024: 7");
    check(is_done(CUT, 0, 0, 0, 0, 257, 1, 0), "B, cut slot 0 at 257: done, slot 1");
    make_b();
    check(is_refused(MERGE, 0, 0, 0, 0, 0, 11), "B, merge S = T = 0: 11");
    check(is_refused(SWITCH, 0, 0, 0, 0, 0, 3), "B, switch to 0: 3");
    check(is_refused(LOAD, 0, 0, 8, 0, 0, 16), "B, load slot 0 in region 8: 16");
    check(is_done(LOAD, 0, 0, 7, 0, 0, 0, 0), "B, load slot 0 in region 7: done");
    make_b();
    check(is_refused(COLLECT, 0, 0, 0, 0, 0, 15), "B, collect P 0 structure 0: 15");
    make_x();
    check(holders_are(300, "\0\1", 2), "X, holders of 300: 0, 1");
    check(sum_for(300) == 5, "X, holders of 300: 4 and 1 words looked at");
    check(holders_refused(1024, 16, 7), "X, holders of 1024: 7");
    check(is_done(TAKE, 0, 3, 0, 0, 0, 0, 0), "X, take slot 3: done");
    make_x();
    check(is_refused(TAKE, 0, 1, 0, 0, 0, 6), "X, take slot 1: 6");
    check(is_refused(CREATE, 0, 0, 0, 0, 0, 5), "X, create from slot 0: 5");
    make_x();
    uint8_t before[SECOND_BYTES];
    memcpy(before, table, SECOND_BYTES);
    check(second_boot(table, SECOND_BYTES, 5, 5) == 7 && memcmp(before, table, SECOND_BYTES) == 0,
          "boot 5 to 5: 7");
    check(boot_to(0, 134217727), "boot 0 to 134,217,727: done");
    make_b();
    check(goes(CUT, 0, 0, 0, 0, 256 + 15) && is_refused(CREATE, 0, 0, 0, 0, 0, 9),
          "a 15-line entry for create: 9");
    make_b();
    check(goes(CUT, 0, 0, 0, 0, 256 + 16) && is_done(CREATE, 0, 0, 0, 0, 0, 1, 0),
          "a 16-line entry for create: done");
}

/* ======================= 3. Refusals, effects, traps ======================= */

static void test_lengths(void)
{
    uint64_t second = UNTOUCHED;
    uint64_t lengths[] = {0, 1, 8, 5120, 5127, 5129, 5136, 2 * 5128, UINT64_MAX};
    bool good = true;
    for (unsigned i = 0; i < sizeof lengths / sizeof *lengths; i++) {
        uint8_t *at = lengths[i] == 0 ? NULL : table;
        make_b();
        uint8_t before[SECOND_BYTES];
        memcpy(before, table, SECOND_BYTES);
        good = good && second_boot(at, lengths[i], 1, 2) == 1;
        good = good && second_boot(at, lengths[i], 2, 1) == 1;
        good = good && second_call(board, at, lengths[i], word_of(CUT, 0, 0, 0, 0, 300), &second) == 1;
        good = good && second_call(board, at, lengths[i], 0, &second) == 1;
        good = good && second_holders(board, at, lengths[i], 300, before, 16, &second) == 1;
        good = good && second_holders(board, at, lengths[i], 0, NULL, 0, &second) == 1;
        good = good && second_runs(board, at, lengths[i], NULL, 0) == 1;
        good = good && second_pieces(board, at, lengths[i], 0, 0, NULL, 0) == 1;
        good = good && second_unsound(board, at, lengths[i]) == -1;
        good = good && second == UNTOUCHED && memcmp(before, table, SECOND_BYTES) == 0;
    }
    check(good, "a wrong length: 1, nothing written");
}

static void test_refusal_1_and_2(void)
{
    make_x();
    set(table, 0, ZERO, 1);
    check(is_refused(CUT, 0, 1, 0, 0, 600, 1) && is_refused(0, 0, 0, 0, 0, 0, 1) &&
              holders_refused(0, 0, 1) && second_runs(board, table, SECOND_BYTES, NULL, 0) == 1,
          "a table not sound: 1 before all others");
    uint64_t huge[] = {134217728, UINT64_C(1) << 32, (UINT64_C(1) << 32) + 300, UINT64_MAX};
    bool good = true;
    for (unsigned i = 0; i < 4; i++) {
        good = good && second_boot(table, SECOND_BYTES, 0, huge[i]) == 7;
        good = good && second_boot(table, SECOND_BYTES, huge[i], huge[i] + 1) == 7;
        good = good && second_boot(table, SECOND_BYTES, huge[i], 5) == 7;
    }
    check(good && second_unsound(board, table, SECOND_BYTES) == 3, "boot with a number above 134,217,727: 7");
    check(boot_to(256, 1024), "boot takes a table that is not sound");

    make_x();
    good = goes(SWITCH, 1, 0, 0, 0, 0); /* so that the caller is not 0 */
    for (unsigned service = 0; service < 16; service++) {
        if (service < 1 || service == 10 || service > SERVICES) {
            good = good && is_refused(service, 0, 0, 0, 0, 0, 2);
            good = good && is_refused(service, 1, 0, 0, 0, 0, 2);
        }
    }
    check(good, "service 0, 10 and 15: 2");

    good = true;
    for (unsigned service = 1; service <= SERVICES; service++)
        for (unsigned bit = 0; bit < 15; bit++) {
            result a = call_word_on(table, word_of(service, 0, 0, 0, 0, 0) | UINT64_C(1) << bit);
            good = good && a.clean && a.refusal == 2 && a.caller == 1;
        }
    check(good, "a zero bit set in a call word: 2");

    static const char letters[] = "PSTRLW";
    static const unsigned high[] = {60, 56, 51, 46, 43, 16}, low[] = {56, 51, 46, 43, 16, 15};
    good = true;
    for (unsigned service = 1; service <= SERVICES; service++)
        for (unsigned f = 0; f < 6; f++)
            for (unsigned bit = low[f]; bit < high[f]; bit++) {
                uint8_t copy[SECOND_BYTES];
                memcpy(copy, table, SECOND_BYTES);
                result a = call_word_on(copy, (uint64_t)service << 60 | UINT64_C(1) << bit);
                bool uses_it = strchr(used[service], letters[f]) != NULL && !(service == LOAD && letters[f] == 'R' && bit > 43);
                good = good && a.clean && (a.refusal == 2) == !uses_it;
            }
    check(good, "a field that the service doesn't use is not 0, and R of service 9 above 1: 2");
}

/* All 40 words of the partition are zero. */
static bool is_blank(unsigned p)
{
    for (unsigned i = 0; i < 40; i++)
        if (get_word(table, header_at(p) + i) != 0)
            return false;
    return true;
}

static void test_create_and_delete(void)
{
    make_b();
    check(is_refused(CREATE, 0, 1, 0, 0, 0, 4), "create from an empty slot: 4");
    check(is_refused(CREATE, 0, 31, 0, 0, 0, 4), "create from a slot of an absent structure: 4");
    make_x();
    check(is_refused(CREATE, 0, 3, 0, 0, 0, 6), "create from a given entry: 6");
    check(is_done(CREATE, 0, 1, 0, 0, 0, 2, 0) && get(table, slot_at(0, 1), E_OPEN) == 0 &&
              get_word(table, header_at(2)) == (UINT64_C(1) << 63 | UINT64_C(512) << 32 | 1024 << 5),
          "create closes the entry and writes the header");

    make_x();
    bool good = goes(LOAD, 0, 3, 2, 0, 0) && *region_byte(table, 0, 2) == 0x83 &&
                goes(SWITCH, 1, 0, 0, 0, 0) && goes(CUT, 0, 0, 0, 0, 304) && goes(LOAD, 1, 0, 0, 0, 0) &&
                *region_byte(table, 1, 0) == 0x80 && is_done(CREATE, 0, 0, 0, 0, 0, 2, 0);
    check(good && get(table, header_at(2), H_PARENT) == 1 && get(table, slot_at(1, 0), E_OPEN) == 0 &&
              get(table, slot_at(0, 3), E_OPEN) == 0 && get(table, slot_at(1, 1), E_OPEN) == 1,
          "trap: create in a child closes the ancestor's larger entry");
    check(*region_byte(table, 0, 2) == 0 && *region_byte(table, 1, 0) == 0,
          "regions that name closed entries are zeroed");
    check(goes(SWITCH, 0, 0, 0, 0, 0) && is_refused(TAKE, 0, 3, 0, 0, 0, 14) &&
              is_refused(DELETE, 1, 0, 0, 0, 0, 15) && is_refused(DELETE, 2, 0, 0, 0, 0, 3) &&
              is_refused(DELETE, 0, 0, 0, 0, 0, 3) && is_refused(DELETE, 9, 0, 0, 0, 0, 3),
          "delete of a parent: 15; of a grandchild, of oneself, of an absent one: 3");
    check(goes(SWITCH, 1, 0, 0, 0, 0) && is_done(DELETE, 2, 0, 0, 0, 0, 0, 0) &&
              get(table, slot_at(0, 3), E_OPEN) == 1 && get(table, slot_at(1, 0), E_OPEN) == 1,
          "delete opens the entries again, also the ancestor's");
    check(goes(SWITCH, 0, 0, 0, 0, 0) && is_done(DELETE, 1, 0, 0, 0, 0, 0, 0) &&
              get_word(table, slot_at(0, 3)) == UINT64_C(0xf800001200000400) &&
              get(table, slot_at(0, 0), E_OPEN) == 1 && get(table, slot_at(0, 2), E_OPEN) == 1,
          "delete takes back what was given");
    check(is_blank(1), "delete zeroes the record");
}

static void test_full(void)
{
    bool good = boot_to(0, 1000);
    for (unsigned i = 0; i < 3; i++)
        good = good && is_done(CUT, 0, 0, 0, 0, 1000 - 16 * (i + 1), i + 1, 0) &&
               is_done(PREPARE, 0, i + 1, 0, 0, 0, i + 1, 0);
    check(good && goes(CUT, 0, 0, 0, 0, 900) && is_refused(PREPARE, 0, 4, 0, 0, 0, 8),
          "prepare with all four structures present: 8");
    for (unsigned i = 0; i < 15; i++)
        good = good && is_done(CUT, 0, 0, 0, 0, 900 - 16 * (i + 1), 5 + i, 0) &&
               is_done(CREATE, 0, 5 + i, 0, 0, 0, i + 1, 0);
    check(good, "create up to 15");
    check(is_refused(CREATE, 0, 4, 0, 0, 0, 8), "create with 1 to 15 all present: 8");
    check(goes(CUT, 0, 0, 0, 0, 5) && is_refused(CREATE, 0, 0, 0, 0, 0, 8), "create: 8 before 9");
    check(goes(DELETE, 7, 0, 0, 0, 0) && is_refused(CREATE, 0, 0, 0, 0, 0, 9) &&
              is_done(CREATE, 0, 4, 0, 0, 0, 7, 0),
          "create uses the lowest absent number");
    for (unsigned i = 21; i < 32; i++)
        good = good && is_done(CUT, 0, 20, 0, 0, 5 + (32 - i), i, 0);
    check(good && is_refused(CUT, 0, 20, 0, 0, 6, 7) && is_refused(CUT, 0, 21, 0, 0, 0, 7) &&
              is_refused(CUT, 0, 21, 0, 0, 100, 8),
          "cut without a free slot: 8, and 7 before 8");

    make_x();
    good = goes(SWITCH, 1, 0, 0, 0, 0);
    for (unsigned i = 1; i < 8; i++)
        good = good && is_done(CUT, 0, 0, 0, 0, 512 - i, i, 0);
    check(good && is_refused(CUT, 0, 0, 0, 0, 300, 8) && goes(SWITCH, 0, 0, 0, 0, 0) &&
              is_refused(GIVE, 1, 1, 0, 7, 0, 8),
          "give without a free slot in P: 8");
    check(is_refused(TAKE, 0, 3, 0, 0, 0, 14), "take of an entry cut by the child: 14");
    make_b();
    check(goes(CUT, 0, 0, 0, 0, 512) && goes(CREATE, 0, 1, 0, 0, 0) && is_refused(GIVE, 1, 0, 0, 0, 0, 8),
          "give to a child without a structure: 8");
}

static void test_prepare_and_collect(void)
{
    make_x();
    check(is_refused(PREPARE, 2, 1, 0, 0, 0, 3) && is_refused(PREPARE, 1, 4, 0, 0, 0, 4) &&
              is_refused(PREPARE, 1, 0, 0, 0, 0, 5) && is_refused(PREPARE, 1, 3, 0, 0, 0, 6),
          "prepare: 3, 4, 5, 6");
    check(goes(CUT, 0, 1, 0, 0, 527) && is_refused(PREPARE, 1, 1, 0, 0, 0, 9) &&
              is_done(PREPARE, 1, 4, 0, 0, 0, 1, 0) && get(table, structure_at(1, 1), T_START) == 527 &&
              get(table, structure_at(1, 1), T_END) == 1024,
          "prepare: 9; a second structure of a child");
    check(is_refused(COLLECT, 1, 0, 0, 0, 0, 15) && is_refused(COLLECT, 1, 0, 2, 0, 0, 4) &&
              is_refused(COLLECT, 1, 0, 4, 0, 0, 4) && is_refused(COLLECT, 1, 0, 31, 0, 0, 4) &&
              is_refused(COLLECT, 2, 0, 0, 0, 0, 3),
          "collect: 15, 4, 4, 4, 3");
    check(is_done(COLLECT, 1, 0, 1, 0, 0, 0, 0) && get(table, slot_at(0, 4), E_OPEN) == 1 &&
              get_word(table, structure_at(1, 1)) == 0,
          "collect opens the entry again");

    make_b();
    bool good = goes(CUT, 0, 0, 0, 0, 1000) && is_done(PREPARE, 0, 1, 0, 0, 0, 1, 0);
    for (unsigned i = 2; i < 9; i++)
        good = good && is_done(CUT, 0, 0, 0, 0, 1001 - i, i, 0);
    check(good && is_refused(COLLECT, 0, 0, 1, 0, 0, 15), "collect with a slot present: 15");
    check(is_done(MERGE, 0, 0, 8, 0, 0, 0, 0) && is_done(COLLECT, 0, 0, 1, 0, 0, 0, 0) &&
              get(table, slot_at(0, 1), E_OPEN) == 1,
          "collect of an own structure without entries");

    /* Root structure 0 without entries: all of them moved to structure 1. */
    make_b();
    good = goes(CUT, 0, 0, 0, 0, 1000) && goes(PREPARE, 0, 1, 0, 0, 0);
    for (unsigned i = 0; i < 2; i++) {
        set_word(table, slot_at(0, 8 + i), get_word(table, slot_at(0, i)));
        set_word(table, slot_at(0, i), 0);
    }
    check(good && second_unsound(board, table, SECOND_BYTES) == 0 && is_refused(COLLECT, 0, 0, 0, 0, 0, 15),
          "collect of root structure 0, empty: 15");

    /* Structure 1 without entries between two that have some. */
    make_b();
    good = goes(CUT, 0, 0, 0, 0, 1000) && goes(CUT, 0, 0, 0, 0, 900) && goes(PREPARE, 0, 1, 0, 0, 0) &&
           goes(PREPARE, 0, 2, 0, 0, 0);
    set_word(table, slot_at(0, 7), get_word(table, slot_at(0, 1)));
    set_word(table, slot_at(0, 1), 0);
    set_word(table, slot_at(0, 16), get_word(table, slot_at(0, 0)));
    set_word(table, slot_at(0, 0), 0);
    check(good && second_unsound(board, table, SECOND_BYTES) == 0 && is_refused(COLLECT, 0, 0, 2, 0, 0, 15) &&
              is_done(COLLECT, 0, 0, 1, 0, 0, 0, 0) && is_refused(COLLECT, 0, 0, 1, 0, 0, 4),
          "collect looks at the slots of its structure only");

    /* A child's structure from its own entry. */
    make_x();
    check(goes(SWITCH, 1, 0, 0, 0, 0) && is_done(PREPARE, 1, 0, 0, 0, 0, 1, 0) &&
              get(table, slot_at(1, 0), E_OPEN) == 0 && get(table, slot_at(0, 3), E_OPEN) == 0 &&
              is_refused(COLLECT, 0, 0, 0, 0, 0, 3) && is_done(COLLECT, 1, 0, 1, 0, 0, 0, 0) &&
              get(table, slot_at(1, 0), E_OPEN) == 1 && get(table, slot_at(0, 3), E_OPEN) == 1,
          "a child prepares and collects from its own entry");
}

static void test_give_take_cut_merge(void)
{
    make_x();
    check(is_refused(GIVE, 0, 1, 0, 0, 0, 3) && is_refused(GIVE, 2, 1, 0, 0, 0, 3) &&
              is_refused(GIVE, 1, 4, 0, 0, 0, 4) && is_refused(GIVE, 1, 2, 0, 0, 0, 5) &&
              is_refused(GIVE, 1, 3, 0, 0, 0, 6),
          "give: 3, 3, 4, 5, 6");
    check(is_done(GIVE, 1, 1, 0, 0, 0, 1, 0) &&
              get_word(table, slot_at(1, 1)) == UINT64_C(0xc000002000000800),
          "give with R = 0: done");
    check(is_done(TAKE, 0, 1, 0, 0, 0, 0, 0) && get_word(table, slot_at(1, 1)) == 0 &&
              get_word(table, slot_at(0, 1)) == UINT64_C(0xf800002000000800),
          "take");
    check(is_refused(TAKE, 0, 4, 0, 0, 0, 4), "take of an empty slot: 4");

    /* Partition 1 has rights 6 on 288 to 512; it gives a piece on to partition 2. */
    make_x();
    bool good = goes(SWITCH, 1, 0, 0, 0, 0) && goes(CUT, 0, 0, 0, 0, 304) && goes(CUT, 0, 1, 0, 0, 320) &&
                goes(CREATE, 0, 0, 0, 0, 0) && goes(PREPARE, 2, 1, 0, 0, 0);
    check(good && is_refused(GIVE, 2, 2, 0, 1, 0, 10) && is_refused(GIVE, 2, 2, 0, 7, 0, 10) &&
              is_done(GIVE, 2, 2, 0, 4, 0, 0, 0),
          "give with a right that the entry lacks: 10");
    check(holders_are(320, "\0\1\2", 3) && holders_are(319, "\0\1", 2) && holders_are(256, "\0", 1) &&
              holders_are(1023, "\0", 1),
          "holders of closed and of given entries");
    second_run runs[] = {{256, 288, 0}, {288, 320, 1}, {320, 512, 2}, {512, 1024, 0}};
    check(runs_are(runs, 4), "runs of three levels; one record fewer: 17");
    check(holders_refused(300, 15, 17) && holders_refused(300, 0, 17) && holders_refused(255, 15, 7) &&
              holders_refused(134217727, 16, 7) && holders_refused((UINT64_C(1) << 32) + 300, 16, 7) &&
              holders_refused(UINT64_MAX, 16, 7),
          "holders: 17 for a short buffer, 7 first");
    check(is_refused(CUT, 0, 2, 0, 0, 400, 6) && is_refused(CUT, 0, 1, 0, 0, 310, 5) &&
              is_refused(CUT, 0, 3, 0, 0, 310, 4),
          "cut: 6, 5, 4");

    /* Merge in the root. */
    make_b();
    good = goes(CUT, 0, 0, 0, 0, 512) && goes(CUT, 0, 1, 0, 0, 768);
    check(good && is_refused(MERGE, 0, 1, 0, 0, 0, 11) && is_refused(MERGE, 0, 0, 2, 0, 0, 11) &&
              is_refused(MERGE, 0, 0, 3, 0, 0, 4) && is_refused(MERGE, 0, 3, 0, 0, 0, 4),
          "merge: 11, 11, 4, 4");
    good = goes(LOAD, 0, 0, 0, 0, 0) && goes(LOAD, 0, 1, 1, 0, 0) && goes(LOAD, 0, 2, 2, 0, 0);
    check(good && is_done(MERGE, 0, 0, 1, 0, 0, 0, 0) && get_word(table, slot_at(0, 1)) == 0 &&
              get(table, slot_at(0, 0), E_START) == 256 && get(table, slot_at(0, 0), E_END) == 768 &&
              get_word(table, regions_at(0)) == UINT64_C(0x0000820000000000),
          "merge unloads both slots and no other; trap: a region whose slot was emptied is zeroed");
    check(is_done(CUT, 0, 0, 0, 0, 300, 1, 0) && get_word(table, regions_at(0)) == UINT64_C(0x0000820000000000),
          "cut uses the emptied slot again and leaves the regions of others");
    check(goes(LOAD, 0, 1, 7, 0, 0) && goes(CUT, 0, 1, 0, 0, 512) &&
              get_word(table, regions_at(0)) == UINT64_C(0x0000820000000000) && is_refused(CUT, 0, 2, 0, 0, 768, 7) &&
              goes(CUT, 0, 2, 0, 0, 800) && get_word(table, regions_at(0)) == 0,
          "cut unloads its slot, a refused one does not");
    check(goes(CREATE, 0, 2, 0, 0, 0) && is_refused(MERGE, 0, 1, 2, 0, 0, 5) &&
              is_refused(MERGE, 0, 2, 1, 0, 0, 5),
          "merge of a closed entry: 5");

    /* Trap: two grants side by side. */
    make_x();
    good = goes(GIVE, 1, 1, 0, 6, 0);
    check(good && is_refused(MERGE, 0, 3, 1, 0, 0, 6) && goes(SWITCH, 1, 0, 0, 0, 0) &&
              is_refused(MERGE, 0, 0, 1, 0, 0, 12),
          "trap: merging pieces of two grants: 12");
    check(goes(CUT, 0, 0, 0, 0, 300) && is_refused(MERGE, 0, 2, 1, 0, 0, 12) &&
              is_done(MERGE, 0, 0, 2, 0, 0, 0, 0),
          "merging pieces of one grant: done");
    /* 13 is withdrawn: two pieces of one grant whose rights differ stand in no sound table. */
    good = goes(CUT, 0, 0, 0, 0, 300);
    set(table, slot_at(1, 2), E_RIGHTS, 4);
    check(good && second_unsound(board, table, SECOND_BYTES) == 11 && is_refused(MERGE, 0, 0, 2, 0, 0, 1),
          "merge with different rights: the table is refused 1");
    set(table, slot_at(1, 0), E_RIGHTS, 4);
    check(is_refused(MERGE, 0, 2, 1, 0, 0, 12) && is_done(MERGE, 0, 0, 2, 0, 0, 0, 0) &&
              get(table, slot_at(1, 0), E_RIGHTS) == 4 && get(table, slot_at(1, 1), E_RIGHTS) == 6,
          "pieces of two grants may differ: 12; those of one have equal rights, and so has the whole");
}

/* The session's X, but for the last give: that one lends slot 3 whole. */
static bool make_lent(void)
{
    make_b();
    for (unsigned i = 1; i < 6; i++)
        call_word_on(table, session[i]);
    result a = call_word_on(table, session[6] | WHOLE);
    return a.clean && a.refusal == 0 && a.first == 0 && a.second == 0 && second_unsound(board, table, SECOND_BYTES) == 0;
}

static void test_lending_whole(void)
{
    check(make_lent() && get_word(table, slot_at(1, 0)) == UINT64_C(0xf000001200000401) &&
              get_word(table, slot_at(0, 3)) == UINT64_C(0xf880001200000400),
          "give with W: the mark is in the child's entry, and not in the caller's");
    check(is_done(FIND, 1, 0, 0, 0, 300, 0, UINT64_C(0xf000001200000401)) && goes(LOAD, 1, 0, 2, 0, 0) &&
              is_done(READ, 1, 0, 2, 0, 0, 0, UINT64_C(0xf000001200000401)) && goes(LOAD, 1, 0, 2, 1, 0),
          "a whole entry is found, loaded, read and unloaded, with its mark");
    check(goes(SWITCH, 1, 0, 0, 0, 0) && is_refused(CUT, 0, 0, 0, 0, 400, 18) &&
              is_refused(CREATE, 0, 0, 0, 0, 0, 18) && is_refused(PREPARE, 1, 0, 0, 0, 0, 18),
          "cut, create and prepare of a whole entry: 18");
    check(is_refused(CUT, 0, 0, 0, 0, 288, 7) && is_refused(CUT, 0, 0, 0, 0, 512, 7) &&
              is_refused(CUT, 0, 1, 0, 0, 400, 4) && is_refused(MERGE, 0, 0, 0, 0, 0, 11),
          "cut of it where there is no line: 7; merge: never 18");
    check(goes(SWITCH, 0, 0, 0, 0, 0) && is_done(TAKE, 0, 3, 0, 0, 0, 0, 0) && get_word(table, slot_at(1, 0)) == 0 &&
              get_word(table, slot_at(0, 3)) == UINT64_C(0xf800001200000400),
          "take of a block lent whole: done, and the mark is gone");
    check(is_done(GIVE, 1, 3, 0, 6, 0, 0, 0) && get_word(table, slot_at(1, 0)) == UINT64_C(0xf000001200000400),
          "given again without W, it has no mark");

    /* 1 has a child 2 with a structure, from slots 0 and 1; slots 3, of 10 lines, and 4 are lent to 1 whole. */
    make_x();
    bool good = goes(SWITCH, 1, 0, 0, 0, 0) && goes(CUT, 0, 0, 0, 0, 304) && goes(CUT, 0, 1, 0, 0, 320) &&
                goes(CREATE, 0, 0, 0, 0, 0) && goes(PREPARE, 2, 1, 0, 0, 0) && goes(SWITCH, 0, 0, 0, 0, 0) &&
                goes(CUT, 0, 1, 0, 0, 522);
    good = good && call_word_on(table, word_of(GIVE, 1, 1, 0, 6, 0) | WHOLE).first == 3 &&
           call_word_on(table, word_of(GIVE, 1, 4, 0, 6, 0) | WHOLE).first == 4 && goes(SWITCH, 1, 0, 0, 0, 0);
    check(good && is_refused(CREATE, 0, 3, 0, 0, 0, 9) && is_refused(PREPARE, 2, 3, 0, 0, 0, 9) &&
              is_refused(PREPARE, 0, 4, 0, 0, 0, 3) && is_refused(CREATE, 0, 4, 0, 0, 0, 18) &&
              is_refused(PREPARE, 2, 4, 0, 0, 0, 18),
          "create and prepare: 9 and 3 before 18");
    check(is_refused(GIVE, 2, 4, 0, 7, 0, 10) && is_refused(GIVE, 0, 4, 0, 4, 0, 3) && is_refused(GIVE, 2, 4, 0, 4, 0, 18) &&
              call_word_on(table, word_of(GIVE, 2, 4, 0, 4, 0) | WHOLE).refusal == 18,
          "give of a whole entry: 18, with W too, after 3 and 10");
    check(is_refused(MERGE, 0, 2, 3, 0, 0, 12) && is_refused(MERGE, 0, 3, 4, 0, 0, 12) &&
              is_refused(MERGE, 0, 4, 3, 0, 0, 11),
          "merge with a whole entry: 12 or 11");
    good = true;
    for (unsigned i = 5; i < 8; i++)
        good = good && is_done(CUT, 0, 2, 0, 0, 500 - i, i, 0);
    check(good && is_refused(CUT, 0, 4, 0, 0, 600, 8), "cut of a whole entry without a free slot: 8");
    check(goes(SWITCH, 0, 0, 0, 0, 0) && is_refused(TAKE, 0, 3, 0, 0, 0, 14) && is_done(TAKE, 0, 4, 0, 0, 0, 0, 0) &&
              is_done(TAKE, 0, 1, 0, 0, 0, 0, 0) && is_done(CLEAR_OUT, 1, 0, 0, 0, 0, 2, 0),
          "what was lent whole comes back whatever the child did, what was given need not");
    check(make_lent() && is_done(DELETE, 1, 0, 0, 0, 0, 0, 0) && get_word(table, slot_at(0, 3)) == UINT64_C(0xf800001200000400),
          "delete takes back what was lent whole");

    good = make_lent();
    for (unsigned service = 0; service < 16; service++) {
        result a = call_word_on(table, word_of(service, service == GIVE ? 9 : 0, 0, 0, 0, 0) | WHOLE);
        good = good && a.clean && a.refusal == (service == GIVE ? 3 : 2);
    }
    check(good && call_word_on(table, word_of(TAKE, 0, 3, 0, 0, 0) | WHOLE).refusal == 2, "W set for another service than give: 2");
}

/* ---- the board's regions ---- */

/* The pieces of an entry: so many, these; and with a list one word shorter 17. */
static bool pieces_are(uint64_t p, uint64_t s, const uint64_t *expected, unsigned n)
{
    uint64_t list[SECOND_PIECES + 1];
    for (unsigned i = 0; i < SECOND_PIECES + 1; i++)
        list[i] = UNTOUCHED;
    if (second_pieces(board, table, SECOND_BYTES, p, s, list, n - 1) != 17 || list[0] != UNTOUCHED ||
        second_pieces(board, table, SECOND_BYTES, p, s, list, SECOND_PIECES + 1) != (uint64_t)n << 32)
        return false;
    for (unsigned i = 0; i < SECOND_PIECES + 1; i++)
        if (list[i] != (i < n ? expected[i] : UNTOUCHED))
            return false;
    return second_pieces(board, table, SECOND_BYTES, p, s, list, n) == (uint64_t)n << 32;
}

static bool pieces_refused(uint64_t p, uint64_t s, uint64_t list_len, unsigned refusal)
{
    uint64_t list[SECOND_PIECES];
    for (unsigned i = 0; i < SECOND_PIECES; i++)
        list[i] = UNTOUCHED;
    if (second_pieces(board, table, SECOND_BYTES, p, s, list, list_len) != refusal)
        return false;
    for (unsigned i = 0; i < SECOND_PIECES; i++)
        if (list[i] != UNTOUCHED)
            return false;
    return true;
}

/* No cover by pieces of the board's shape has fewer: tried for every block of this many lines. */
static bool none_fewer(void)
{
    enum { MOST = 160 };
    static unsigned fewest[MOST + 1];
    bool good = true;
    for (unsigned end = 1; end <= MOST; end++) {
        fewest[end] = 0;
        for (unsigned start = end; start-- > 0;) {
            fewest[start] = MOST;
            for (unsigned lines = 1; start % lines == 0 && start + lines <= end; lines *= 2)
                if (1 + fewest[start + lines] < fewest[start])
                    fewest[start] = 1 + fewest[start + lines];
            good = good && second_piece_count(SECOND_V7, start, end) == fewest[start];
        }
    }
    return good;
}

static void test_pieces(void)
{
    const uint64_t three[] = {UINT64_C(288) << 32 | 32, UINT64_C(320) << 32 | 64, UINT64_C(384) << 32 | 128};
    const uint64_t two[] = {UINT64_C(256) << 32 | 256, UINT64_C(512) << 32 | 512};
    const uint64_t one[] = {UINT64_C(288) << 32 | 224};
    check(none_fewer(), "a block has as many pieces as the fewest that cover it");
    make_b();
    check(pieces_are(0, 0, two, 2), "B: two pieces");
    make_x();
    check(pieces_are(1, 0, three, 3) && pieces_are(0, 3, three, 3), "288 to 512: three pieces, of 32, 64 and 128 lines");
    check(pieces_refused(0, 4, 0, 4) && pieces_refused(0, 31, 0, 4) && pieces_refused(0, 32, 52, 4) &&
              pieces_refused(2, 0, 52, 4) && pieces_refused(16, 0, 52, 4) && pieces_refused(UINT64_MAX, 0, 52, 4) &&
              pieces_refused((UINT64_C(1) << 32) + 1, 0, 52, 4) && pieces_refused(1, UINT64_C(1) << 32, 52, 4) &&
              pieces_refused(1, 0, 2, 17) && pieces_refused(1, 0, 0, 17),
          "pieces of no entry: 4; then 17 for a list shorter than them");
    set(table, 0, ZERO, 1);
    check(pieces_refused(0, 0, 52, 1) && pieces_refused(16, 0, 0, 1), "pieces of a table not sound: 1 before 4 and 17");
    board = SECOND_V8;
    make_x();
    check(pieces_are(1, 0, one, 1), "on an ARMv8-M an entry is one piece");
    board = SECOND_V7;

    check(boot_to(1, 134217727) && pieces_refused(0, 0, 51, 17) && !pieces_refused(0, 0, 52, 17), "1 to 134,217,727: 52 pieces");
    check(boot_to(0, 134217727) && is_refused(LOAD, 0, 0, 0, 0, 0, 19) && is_refused(LOAD, 0, 0, 8, 0, 0, 16) &&
              pieces_refused(0, 0, 26, 17) && !pieces_refused(0, 0, 27, 17),
          "0 to 134,217,727: 27 pieces, load is refused 19, 16 comes first");
}

/* Slots 0 to 4 of the root: 5, 2, 4, 2 and 1 pieces. */
static bool make_pieces(void)
{
    return boot_to(1, 128) && goes(CUT, 0, 0, 0, 0, 32) && goes(CUT, 0, 1, 0, 0, 42) && goes(CUT, 0, 2, 0, 0, 60) &&
           goes(CUT, 0, 3, 0, 0, 68) && goes(CUT, 0, 4, 0, 0, 72) &&
           second_piece_count(board, 1, 32) == 5 && second_piece_count(board, 32, 42) == 2 &&
           second_piece_count(board, 42, 60) == 4 && second_piece_count(board, 60, 68) == 2 &&
           second_piece_count(board, 68, 72) == 1;
}

static void test_limit_of_pieces(void)
{
    check(make_pieces() && goes(LOAD, 0, 0, 0, 0, 0) && goes(LOAD, 0, 1, 1, 0, 0) && is_refused(LOAD, 0, 3, 2, 0, 0, 19) &&
              is_refused(LOAD, 0, 2, 2, 0, 0, 19) && is_done(LOAD, 0, 4, 2, 0, 0, 0, 0),
          "load up to 8 pieces: done; beyond them: 19");
    check(is_done(LOAD, 0, 0, 0, 0, 0, 0, 0) && is_done(LOAD, 0, 3, 1, 0, 0, 0, 0) && is_refused(LOAD, 0, 2, 1, 0, 0, 19) &&
              is_refused(LOAD, 0, 0, 7, 0, 0, 16),
          "what the region named before is not counted, the same again counts once");
    check(is_done(LOAD, 0, 2, 0, 0, 0, 0, 0) && is_refused(LOAD, 0, 1, 3, 0, 0, 19) && is_done(LOAD, 0, 0, 1, 1, 0, 0, 0) &&
              is_done(LOAD, 0, 1, 3, 0, 0, 0, 0) && get_word(table, regions_at(0)) == UINT64_C(0x8200848100000000),
          "unload makes room");
    *region_byte(table, 0, 7) = 0x83;
    check(second_unsound(board, table, SECOND_BYTES) == 10 && is_refused(LOAD, 0, 0, 7, 1, 0, 1), "S10: 9 pieces loaded");
    *region_byte(table, 0, 2) = 0;
    check(second_unsound(board, table, SECOND_BYTES) == 0, "8 pieces loaded: sound");
    board = SECOND_V8;
    *region_byte(table, 0, 2) = 0x84;
    check(second_unsound(board, table, SECOND_BYTES) == 0 && is_done(LOAD, 0, 0, 5, 0, 0, 0, 0), "on an ARMv8-M neither is asked");
    board = SECOND_V7;
    check(is_refused(LOAD, 0, 0, 5, 1, 0, 1), "that table is not one of an ARMv7-M");
}

/* Service 9 takes both: R = 0 loads, R = 1 with S = 0 unloads. */
static void test_one_service_for_a_region(void)
{
    make_x();
    bool good = goes(LOAD, 0, 3, 2, 0, 0);
    for (unsigned p = 0; p < 16; p++)
        for (unsigned s = 0; s < 32; s++) {
            good = good && is_refused(10, p, s, 2, 0, 0, 2) && is_refused(10, p, s, 2, 1, 0, 2);
            for (unsigned r = 1; r < 8; r++)
                if (r > 1 || s > 0)
                    good = good && is_refused(LOAD, p, s, 2, r, 0, 2) && is_refused(LOAD, p, s, 31, r, 0, 2);
        }
    check(good && is_refused(LOAD, 0, 0, 2, 1, 300, 2) && *region_byte(table, 0, 2) == 0x83,
          "service 10, service 9 with R above 1, or with R = 1 and S not 0: 2, before 3 and 16");

    make_x(); /* slot 0 of the root is closed, and slot 0 of an absent partition is empty: neither is asked */
    good = goes(LOAD, 0, 3, 2, 0, 0) && goes(LOAD, 0, 1, 6, 0, 0);
    for (unsigned region = 0; region < 32; region++)
        good = good && is_refused(LOAD, 2, 0, region, 1, 0, 3) &&
               (region < 8 ? is_done(LOAD, 0, 0, region, 1, 0, 0, 0) : is_refused(LOAD, 0, 0, region, 1, 0, 16)) &&
               *region_byte(table, 0, 6) == (region < 6 ? 0x81 : 0);
    check(good && get_word(table, regions_at(0)) == 0, "unload: 3, then 16 for T above 7; else done, one region zero");
}

static void test_regions_find_switch(void)
{
    make_x();
    check(is_refused(LOAD, 2, 0, 0, 0, 0, 3) && is_refused(LOAD, 1, 1, 0, 0, 0, 4) &&
              is_refused(LOAD, 0, 0, 0, 0, 0, 5) && is_refused(LOAD, 0, 1, 8, 0, 0, 16) &&
              is_refused(LOAD, 0, 1, 31, 0, 0, 16) && is_refused(LOAD, 0, 0, 8, 0, 0, 5),
          "load: 3, 4, 5, 16, 16, 5");
    check(is_done(LOAD, 0, 3, 0, 0, 0, 0, 0) && is_done(READ, 0, 0, 0, 0, 0, 0, UINT64_C(0xf880001200000400)),
          "load and read of a given entry");
    check(is_done(LOAD, 0, 3, 0, 0, 0, 0, 0) && is_refused(LOAD, 0, 3, 1, 0, 0, 16) &&
              is_done(LOAD, 0, 1, 0, 0, 0, 0, 0) && is_done(LOAD, 0, 3, 1, 0, 0, 0, 0) &&
              get_word(table, regions_at(0)) == UINT64_C(0x8183000000000000),
          "load: the same again, another region 16, replacing");
    check(is_done(LOAD, 1, 0, 5, 0, 0, 0, 0) && is_done(READ, 1, 0, 5, 0, 0, 0, UINT64_C(0xf000001200000400)) &&
              is_done(READ, 1, 0, 4, 0, 0, 0, 0) && is_refused(READ, 1, 0, 8, 0, 0, 16) &&
              is_refused(READ, 2, 0, 8, 0, 0, 3),
          "load and read in a child; an empty region reads 0; 16, 3");
    check(is_done(LOAD, 1, 0, 5, 1, 0, 0, 0) && get_word(table, regions_at(1)) == 0 &&
              is_done(LOAD, 1, 0, 5, 1, 0, 0, 0) && is_refused(LOAD, 1, 0, 8, 1, 0, 16) &&
              is_refused(LOAD, 15, 0, 8, 1, 0, 3),
          "unload, also of an empty region; 16, 3");
    check(goes(LOAD, 1, 0, 5, 0, 0) && goes(TAKE, 0, 3, 0, 0, 0) && get_word(table, regions_at(1)) == 0 &&
              goes(GIVE, 1, 1, 0, 7, 0) && is_done(READ, 1, 0, 5, 0, 0, 0, 0),
          "trap: take zeroes the child's region");

    make_x();
    check(is_done(FIND, 0, 0, 0, 0, 256, 0, UINT64_C(0xb800001000000220)) &&
              is_done(FIND, 0, 0, 0, 0, 271, 0, UINT64_C(0xb800001000000220)) &&
              is_done(FIND, 0, 0, 0, 0, 511, 3, UINT64_C(0xf880001200000400)) &&
              is_done(FIND, 1, 0, 0, 0, 511, 0, UINT64_C(0xf000001200000400)),
          "find in closed, given and a child's entries");
    check(is_refused(FIND, 0, 0, 0, 0, 255, 7) && is_refused(FIND, 0, 0, 0, 0, 1024, 7) &&
              is_refused(FIND, 1, 0, 0, 0, 512, 7) && is_refused(FIND, 1, 0, 0, 0, 134217727, 7) &&
              is_refused(FIND, 2, 0, 0, 0, 300, 3),
          "find: 7, 7, 7, 7, 3");

    check(is_refused(SWITCH, 2, 0, 0, 0, 0, 3) && is_done(SWITCH, 1, 0, 0, 0, 0, 0, 0) &&
              get(table, 0, CURRENT) == 1 && is_refused(SWITCH, 1, 0, 0, 0, 0, 3) &&
              is_refused(DELETE, 1, 0, 0, 0, 0, 3) && is_refused(FIND, 0, 0, 0, 0, 300, 3) &&
              is_done(SWITCH, 0, 0, 0, 0, 0, 0, 0) && get(table, 0, CURRENT) == 0,
          "switch to a child and back; not to oneself");
    check(goes(CUT, 0, 1, 0, 0, 600) && goes(CREATE, 0, 4, 0, 0, 0) && goes(SWITCH, 2, 0, 0, 0, 0) &&
              is_refused(SWITCH, 1, 0, 0, 0, 0, 3),
          "switch to a sibling: 3");
    /* Numbers need not rise with depth: 1 becomes a child of 2. */
    make_x();
    bool good = goes(CUT, 0, 1, 0, 0, 528) && goes(CUT, 0, 4, 0, 0, 544) && goes(CREATE, 0, 1, 0, 0, 0) &&
                goes(PREPARE, 2, 4, 0, 0, 0) && goes(GIVE, 2, 5, 0, 7, 0) && goes(DELETE, 1, 0, 0, 0, 0) &&
                goes(SWITCH, 2, 0, 0, 0, 0) && goes(CUT, 0, 0, 0, 0, 560) && goes(CUT, 0, 1, 0, 0, 576) &&
                is_done(CREATE, 0, 0, 0, 0, 0, 1, 0) && goes(PREPARE, 1, 1, 0, 0, 0) &&
                goes(GIVE, 1, 2, 0, 5, 0);
    check(good && holders_are(600, "\0\2\1", 3), "holders stand root first, by depth and not by number");
    second_run runs[] = {{256, 544, 0}, {544, 576, 2}, {576, 1024, 1}};
    check(runs_are(runs, 3), "runs name the deepest holder, not the highest number");
    check(goes(SWITCH, 0, 0, 0, 0, 0) && is_done(CLEAR_OUT, 2, 0, 0, 0, 0, 2, 0) && is_blank(1) && is_blank(2),
          "clear out of a parent with a higher number than its child");
}

/*
 * Z: partition 1 of X has the children 2 and 3, 2 the child 4; 5 is the root's
 * other child. The root has given 1 two blocks, in slots 3 and 5; it has loaded
 * slots 4 and 5, 1 its slot 4, and 4 its slot 0.
 */
static bool make_z(void)
{
    make_x();
    return goes(SWITCH, 1, 0, 0, 0, 0) && is_done(CUT, 0, 0, 0, 0, 304, 1, 0) &&
           is_done(CUT, 0, 1, 0, 0, 320, 2, 0) && is_done(CUT, 0, 2, 0, 0, 416, 3, 0) &&
           is_done(CUT, 0, 3, 0, 0, 432, 4, 0) && is_done(CREATE, 0, 0, 0, 0, 0, 2, 0) &&
           is_done(PREPARE, 2, 1, 0, 0, 0, 0, 0) && is_done(GIVE, 2, 2, 0, 6, 0, 0, 0) &&
           is_done(CREATE, 0, 3, 0, 0, 0, 3, 0) && goes(LOAD, 1, 4, 0, 0, 0) &&
           goes(SWITCH, 2, 0, 0, 0, 0) && is_done(CUT, 0, 0, 0, 0, 336, 1, 0) &&
           is_done(CUT, 0, 1, 0, 0, 352, 2, 0) && is_done(CREATE, 0, 0, 0, 0, 0, 4, 0) &&
           is_done(PREPARE, 4, 1, 0, 0, 0, 0, 0) && is_done(GIVE, 4, 2, 0, 4, 0, 0, 0) &&
           goes(LOAD, 4, 0, 0, 0, 0) && goes(SWITCH, 1, 0, 0, 0, 0) && goes(SWITCH, 0, 0, 0, 0, 0) &&
           is_done(CUT, 0, 1, 0, 0, 528, 4, 0) && is_done(CREATE, 0, 1, 0, 0, 0, 5, 0) &&
           is_done(CUT, 0, 4, 0, 0, 600, 5, 0) && is_done(GIVE, 1, 5, 0, 5, 0, 5, 0) &&
           goes(LOAD, 0, 4, 0, 0, 0) && goes(LOAD, 0, 5, 1, 0, 0);
}

static void test_clear_out_refusals(void)
{
    check(make_z() && is_refused(CLEAR_OUT, 0, 0, 0, 0, 0, 3) && is_refused(CLEAR_OUT, 9, 0, 0, 0, 0, 3),
          "clear out of oneself, of an absent one: 3");
    check(is_refused(CLEAR_OUT, 2, 0, 0, 0, 0, 3) && is_refused(CLEAR_OUT, 4, 0, 0, 0, 0, 3),
          "clear out of a grandchild, of its child: 3");
    check(is_refused(CLEAR_OUT, 1, 1, 0, 0, 0, 2) && is_refused(CLEAR_OUT, 1, 0, 1, 0, 0, 2) &&
              is_refused(CLEAR_OUT, 1, 0, 0, 1, 0, 2) && is_refused(CLEAR_OUT, 1, 0, 0, 0, 1, 2) &&
              is_refused(CLEAR_OUT, 2, 1, 0, 0, 0, 2),
          "clear out with another field than P: 2, and 2 before 3");
    check(goes(SWITCH, 1, 0, 0, 0, 0) && is_refused(CLEAR_OUT, 1, 0, 0, 0, 0, 3) &&
              is_refused(CLEAR_OUT, 0, 0, 0, 0, 0, 3) && is_refused(CLEAR_OUT, 5, 0, 0, 0, 0, 3),
          "clear out of oneself, of the parent, of a sibling: 3");
}

/* A branch of one: what delete does, but for the first value. */
static void test_clear_out_of_one(void)
{
    static uint8_t deleted[SECOND_BYTES];
    make_x();
    bool good = goes(LOAD, 0, 3, 2, 0, 0) && goes(LOAD, 1, 0, 5, 0, 0) && is_done(DELETE, 1, 0, 0, 0, 0, 0, 0);
    memcpy(deleted, table, SECOND_BYTES);
    make_x();
    good = good && goes(LOAD, 0, 3, 2, 0, 0) && goes(LOAD, 1, 0, 5, 0, 0);
    check(good && is_done(CLEAR_OUT, 1, 0, 0, 0, 0, 1, 0) && memcmp(deleted, table, SECOND_BYTES) == 0,
          "clear out of one without a child: 1, and the table as after delete");
    check(is_refused(CLEAR_OUT, 1, 0, 0, 0, 0, 3), "clear out once more: 3");
    check(make_z() && is_done(CLEAR_OUT, 5, 0, 0, 0, 0, 1, 0) && is_blank(5) && !is_blank(1) && !is_blank(4) &&
              get(table, slot_at(0, 1), E_OPEN) == 1 && get(table, slot_at(0, 5), E_GIVEN) == 1 &&
              holders_are(360, "\0\1\2\4", 4),
          "clear out leaves the sibling's branch and what it was given");
}

static void test_clear_out_of_a_branch(void)
{
    check(make_z() && is_refused(DELETE, 1, 0, 0, 0, 0, 15) && holders_are(360, "\0\1\2\4", 4) &&
              is_done(CLEAR_OUT, 1, 0, 0, 0, 0, 4, 0),
          "clear out of a branch three deep, with siblings: 4");
    check(is_blank(1) && is_blank(2) && is_blank(3) && is_blank(4) && !is_blank(5), "every member's record is zero");
    check(get_word(table, slot_at(0, 3)) == UINT64_C(0xf800001200000400) &&
              get_word(table, slot_at(0, 5)) == UINT64_C(0xf800002580000800),
          "what the caller gave is not given and open again");
    check(get(table, slot_at(0, 0), E_OPEN) == 1 && get(table, slot_at(0, 2), E_OPEN) == 1 &&
              get(table, slot_at(0, 1), E_OPEN) == 0,
          "what served the branch is open again, what serves another is not");
    check(get_word(table, regions_at(0)) == UINT64_C(0x8485000000000000), "the caller's regions stay");
    second_run whole = {256, 1024, 0};
    check(runs_are(&whole, 1) && holders_are(360, "\0", 1) && is_done(CREATE, 0, 0, 0, 0, 0, 1, 0),
          "no member holds a line; the lowest number is absent again");

    check(make_z() && goes(SWITCH, 1, 0, 0, 0, 0) && is_done(CLEAR_OUT, 2, 0, 0, 0, 0, 2, 0) && is_blank(2) &&
              is_blank(4) && !is_blank(3) && get(table, header_at(1), H_PRESENT) == 1,
          "clear out by a child: its own child's branch, and no other");
    check(get_word(table, slot_at(1, 2)) == UINT64_C(0xf000001400000340) && get(table, slot_at(1, 0), E_OPEN) == 1 &&
              get(table, slot_at(1, 1), E_OPEN) == 1 && get(table, slot_at(1, 3), E_OPEN) == 0 &&
              get(table, slot_at(0, 3), E_OPEN) == 0 && *region_byte(table, 1, 0) == 0x84,
          "entries over the other child's area stay closed, also the ancestor's");
    check(is_done(CLEAR_OUT, 3, 0, 0, 0, 0, 1, 0) && get(table, slot_at(0, 3), E_OPEN) == 1 &&
              get(table, slot_at(0, 3), E_GIVEN) == 1,
          "then the ancestor's is open, and still given");
}

/* Each the child of the one before, from 1 to 15, which is current. */
static bool make_chain(void)
{
    bool good = boot_to(0, 2000);
    for (unsigned i = 1; good && i < 16; i++)
        good = goes(CUT, 0, 0, 0, 0, 32 * (i - 1) + 16) && goes(CUT, 0, 1, 0, 0, 32 * i) &&
               is_done(CREATE, 0, 0, 0, 0, 0, i, 0) && goes(PREPARE, i, 1, 0, 0, 0) &&
               goes(GIVE, i, 2, 0, 7, 0) && goes(SWITCH, i, 0, 0, 0, 0);
    return good;
}

static void test_clear_out_of_a_chain(void)
{
    bool good = make_chain();
    for (unsigned i = 15; i-- > 7;)
        good = good && goes(SWITCH, i, 0, 0, 0, 0);
    check(good && is_done(CLEAR_OUT, 8, 0, 0, 0, 0, 8, 0) && !is_blank(7) && is_blank(8) && is_blank(15) &&
              holders_are(1999, "\0\1\2\3\4\5\6\7", 8),
          "clear out of the lower half of a chain: 8");
    good = make_chain();
    for (unsigned i = 15; i-- > 0;)
        good = good && goes(SWITCH, i, 0, 0, 0, 0);
    good = good && is_done(CLEAR_OUT, 1, 0, 0, 0, 0, 15, 0);
    for (unsigned p = 1; p < 16; p++)
        good = good && is_blank(p);
    check(good && holders_are(1999, "\0", 1), "clear out of a chain of 15: 15");
}

/* A long day: 32 entries of one line in partition 1, of which one is left in each of its four structures. */
static bool make_long_day(void)
{
    bool good = boot_to(0, 2000) && goes(CUT, 0, 0, 0, 0, 16);
    for (unsigned i = 1; i < 5; i++)
        good = good && is_done(CUT, 0, i, 0, 0, 16 * i + 16, i + 1, 0);
    good = good && goes(CUT, 0, 5, 0, 0, 112) && is_done(CREATE, 0, 0, 0, 0, 0, 1, 0);
    for (unsigned i = 0; i < 4; i++)
        good = good && is_done(PREPARE, 1, i + 1, 0, 0, 0, i, 0);
    good = good && is_done(GIVE, 1, 5, 0, 7, 0, 0, 0) && goes(SWITCH, 1, 0, 0, 0, 0);
    for (unsigned i = 1; i < 32; i++)
        good = good && is_done(CUT, 0, i - 1, 0, 0, 80 + i, i, 0);
    for (unsigned i = 1; i < 32; i++)
        if (i % 8 != 0)
            good = good && goes(MERGE, 0, i - i % 8, i, 0, 0);
    return good && goes(SWITCH, 0, 0, 0, 0, 0);
}

/* Partition 1 was given nine blocks, and eight were taken back: it has the last one, in slot 8, and no structure 0. */
static bool make_upper(void)
{
    bool good = boot_to(0, 2000);
    for (unsigned i = 0; i < 5; i++)
        good = good && is_done(CUT, 0, i, 0, 0, 16 * i + 16, i + 1, 0);
    good = good && goes(PREPARE, 0, 0, 0, 0, 0) && goes(PREPARE, 0, 1, 0, 0, 0) && is_done(CREATE, 0, 2, 0, 0, 0, 1, 0) &&
           goes(PREPARE, 1, 3, 0, 0, 0) && goes(PREPARE, 1, 4, 0, 0, 0);
    for (unsigned i = 0; i < 9; i++)
        good = good && goes(CUT, 0, 5 + i, 0, 0, 90 + 10 * i) && is_done(GIVE, 1, 5 + i, 0, 7, 0, i, 0);
    for (unsigned i = 0; i < 8; i++)
        good = good && goes(TAKE, 0, 5 + i, 0, 0, 0);
    return good && goes(COLLECT, 1, 0, 0, 0, 0);
}

/* The entry in slot s of partition 1 starts at a line. */
static bool starts(unsigned s, uint32_t line)
{
    return get(table, slot_at(1, s), E_PRESENT) == 1 && get(table, slot_at(1, s), E_START) == line;
}

static void test_pack(void)
{
    check(make_long_day() && is_refused(COLLECT, 1, 0, 0, 0, 0, 15) && is_refused(COLLECT, 1, 0, 1, 0, 0, 15) &&
              is_refused(COLLECT, 1, 0, 2, 0, 0, 15) && is_refused(COLLECT, 1, 0, 3, 0, 0, 15),
          "one entry in each of four structures: none can be collected");
    check(goes(LOAD, 1, 24, 0, 0, 0) && goes(LOAD, 1, 8, 7, 0, 0) && is_done(PACK, 1, 0, 0, 0, 0, 3, 0) &&
              starts(0, 80) && starts(1, 88) && starts(2, 96) && starts(3, 104) &&
              get_word(table, slot_at(1, 8)) == 0 && get_word(table, slot_at(1, 16)) == 0 && get_word(table, slot_at(1, 24)) == 0,
          "pack: 3 moved, in slot order, freed slots are zero");
    check(get_word(table, regions_at(1)) == UINT64_C(0x8300000000000081), "pack: regions follow their entries");
    check(is_done(PACK, 1, 0, 0, 0, 0, 0, 0) && is_done(PACK, 0, 0, 0, 0, 0, 0, 0), "packing twice moves none");
    check(goes(COLLECT, 1, 0, 1, 0, 0) && goes(COLLECT, 1, 0, 2, 0, 0) && goes(COLLECT, 1, 0, 3, 0, 0) &&
              is_refused(COLLECT, 1, 0, 0, 0, 0, 15) && holders_are(111, "\0\1", 2),
          "then the other three are collected");

    check(make_long_day() && goes(SWITCH, 1, 0, 0, 0, 0) && is_done(CUT, 0, 24, 0, 0, 107, 1, 0) &&
              is_done(PACK, 1, 0, 0, 0, 0, 3, 0) && starts(0, 80) && starts(1, 107) && starts(2, 88) && starts(3, 96) && starts(4, 104),
          "pack: slot order is not the order of lines");
    check(is_refused(PACK, 0, 0, 0, 0, 0, 3) && is_refused(PACK, 2, 0, 0, 0, 0, 3) && is_refused(PACK, 1, 1, 0, 0, 0, 2) &&
              is_refused(PACK, 1, 0, 1, 0, 0, 2) && is_refused(PACK, 1, 0, 0, 1, 0, 2) && is_refused(PACK, 0, 0, 0, 0, 1, 2),
          "pack of the parent, of an absent one: 3; another field than P: 2");
    check(make_upper() && is_done(PACK, 1, 0, 0, 0, 0, 0, 0) && starts(8, 160) && is_done(GIVE, 1, 5, 0, 7, 0, 9, 0) &&
              goes(TAKE, 0, 13, 0, 0, 0) && is_done(PACK, 1, 0, 0, 0, 0, 1, 0) && starts(8, 80),
          "pack: the slots of an absent structure are not used");
}

/* A chain of 16 partitions with 32 entries each, the last lines in slot 31 of each. */
static bool make_farthest(void)
{
    uint32_t line = 0;
    bool good = boot_to(0, 8000);
    for (unsigned p = 0; p < 16; p++) {
        if (p > 0)
            good = good && is_done(CREATE, 0, 3, 0, 0, 0, p, 0) && goes(PREPARE, p, 4, 0, 0, 0) &&
                   is_done(GIVE, p, 31, 0, 7, 0, 0, 0) && goes(SWITCH, p, 0, 0, 0, 0);
        for (unsigned s = 0; s < 31; s++) {
            line += 16;
            good = good && is_done(CUT, 0, s, 0, 0, line, s + 1, 0) && (s > 2 || goes(PREPARE, p, s, 0, 0, 0));
        }
    }
    return good;
}

static void test_how_far(void)
{
    make_b();
    check(sum_for(300) == 1 && goes(CUT, 0, 0, 0, 0, 512) && sum_for(511) == 1 && sum_for(512) == 2,
          "holders: the slot found is counted, and those before it");
    check(goes(CUT, 0, 1, 0, 0, 600) && goes(MERGE, 0, 0, 1, 0, 0) && sum_for(599) == 1 && sum_for(600) == 3,
          "empty slots are counted");
    make_x();
    check(goes(PREPARE, 0, 1, 0, 0, 0) && sum_for(600) == 2 && goes(DELETE, 1, 0, 0, 0, 0) && sum_for(300) == 4,
          "the sum is that of the holders, and of no other");
    check(make_farthest() && holders_are(7999, "\0\1\2\3\4\5\6\7\10\11\12\13\14\15\16\17", 16) && sum_for(7999) == 512,
          "a chain of 16, the line in slot 31 of each: 512");
    check(sum_for(0) == 1 && sum_for(495) == 31 && sum_for(496) == 33 && sum_for(7935) == 511,
          "each search of the chain adds its own");
}

/* ======================= 4. The clauses of soundness ======================= */

/*
 * Y: the session's X, then partition 1 cuts its entry (slots 0, 1, 2) and
 * makes partition 2 from slot 0 with a structure from slot 1; slot 2 is given
 * to 2. Root regions 0 and 1 hold slots 1 and 4, of partition 1 region 3 slot 3.
 */
static void make_y(void)
{
    make_x();
    goes(CUT, 0, 1, 0, 0, 1000);  /* root: slot 1 512 to 1000, slot 4 1000 to 1024 */
    goes(LOAD, 0, 1, 0, 0, 0);
    goes(LOAD, 0, 4, 1, 0, 0);
    goes(SWITCH, 1, 0, 0, 0, 0);
    goes(CUT, 0, 0, 0, 0, 304);   /* 1: slot 0 288 to 304 */
    goes(CUT, 0, 1, 0, 0, 320);   /* slot 1 304 to 320 */
    goes(CUT, 0, 2, 0, 0, 400);   /* slot 2 320 to 400, slot 3 400 to 512 */
    goes(CREATE, 0, 0, 0, 0, 0);
    goes(PREPARE, 2, 1, 0, 0, 0);
    goes(GIVE, 2, 2, 0, 4, 0);
    goes(LOAD, 1, 3, 3, 0, 0);
}

static void clause(int expected, unsigned i, field f, uint64_t v, const char *name)
{
    make_y();
    bool sound = second_unsound(board, table, SECOND_BYTES) == 0;
    set(table, i, f, v);
    check(sound && second_unsound(board, table, SECOND_BYTES) == expected &&
              (expected == 0 || is_refused(LOAD, 1, 0, 0, 1, 0, 1)),
          name);
}

static void clause_word(int expected, unsigned i, uint64_t w, const char *name)
{
    field whole = {0, 63}, last = {63, 1};
    make_y();
    set(table, i, whole, w >> 1);
    set(table, i, last, w & 1);
    check(second_unsound(board, table, SECOND_BYTES) == expected &&
              (expected == 0 || is_refused(LOAD, 1, 0, 0, 1, 0, 1)),
          name);
}

static void test_clauses(void)
{
    clause(0, 0, CURRENT, 2, "sound with another present current");
    clause(1, 0, CURRENT, 3, "S1: current is absent");
    clause(1, 0, BASE, 1024, "S1: base = end");
    clause(1, 0, BASE, 1025, "S1: base above end");
    clause(2, header_at(0), H_PARENT, 1, "S2: root with a parent");
    clause(2, header_at(0), H_END, 16, "S2: root with an area");
    clause_word(1, header_at(1), 0, "S1: current with header zero");
    clause_word(2, header_at(2), 0, "S2: absent header, other words not zero");
    clause_word(2, header_at(9), 1, "S2: a zero bit set in an absent partition");
    clause_word(2, slot_at(15, 31), 1, "S2: last bit of the table set");
    clause(2, header_at(2), H_PARENT, 9, "S2: absent parent");
    clause(2, header_at(2), H_PARENT, 2, "S2: its own parent");
    clause(2, header_at(1), H_PARENT, 2, "S2: two are each other's parents");
    clause_word(2, header_at(2), UINT64_C(9) << 60 | UINT64_C(1) << 59, "S2: no area");
    clause(3, 0, ZERO, 1, "S3: zero bit of word 0");
    clause(3, header_at(1), H_ZERO, 16, "S3: zero bit of a header");
    clause(3, structure_at(1, 0), T_ZERO, 256, "S3: zero bit of a structure");
    clause(3, structure_at(1, 3), T_ZERO, 1, "S3: zero bit of an absent structure");
    clause_word(3, header_at(1) + 6, 1, "S3: word 6");
    clause_word(3, header_at(1) + 7, UINT64_C(1) << 63, "S3: word 7");
    clause_word(3, regions_at(1), UINT64_C(0x000000c300000000), "S3: first zero bit of a region");
    clause_word(3, regions_at(1), UINT64_C(0x000000a300000000), "S3: second zero bit of a region");
    clause_word(3, regions_at(1), UINT64_C(0x0000000300000000), "S3: a slot in a region not loaded");
    clause(4, structure_at(0, 0), T_PRESENT, 0, "S4: root structure 0 absent");
    clause(4, structure_at(0, 0), T_END, 16, "S4: root structure 0 with an area");
    clause(4, structure_at(1, 0), T_PRESENT, 0, "S4: absent structure with an area");
    clause(4, structure_at(0, 1), T_END, 1, "S4: absent structure with an end");
    clause_word(4, structure_at(1, 1), UINT64_C(1) << 63, "S4: present structure without an area");
    clause(4, structure_at(1, 0), T_END, 287, "S4: structure area of 15 lines");
    clause(4, structure_at(1, 0), T_END, 272, "S4: structure area of 0 lines");
    clause(4, structure_at(1, 0), T_END, 0, "S4: structure area inverted");
    clause(4, header_at(1), H_END, 271, "S4: header area of 15 lines");
    clause(4, header_at(1), H_END, 3, "S4: header area inverted");
    clause_word(5, structure_at(1, 0), 0, "S5: entries in an absent structure");
    clause(5, slot_at(1, 8), E_PRESENT, 1, "S5: an entry in an absent structure");
    clause(5, slot_at(1, 3), E_END, 400, "S5: start = end");
    clause(5, slot_at(1, 3), E_END, 4, "S5: start above end");
    clause(5, slot_at(1, 3), E_PRESENT, 0, "S5: an absent slot not zero");
    clause(5, slot_at(1, 5), E_OPEN, 1, "S5: open in an empty slot");
    clause(5, slot_at(1, 5), E_RIGHTS, 1, "S5: rights in an empty slot");
    clause(5, slot_at(1, 5), E_GIVEN, 2, "S5: given in an empty slot");
    clause(5, slot_at(1, 5), E_START, 1, "S5: start in an empty slot");
    clause(5, slot_at(1, 5), E_END, 1, "S5: end in an empty slot");
    clause(5, slot_at(1, 5), E_WHOLE, 1, "S5: a lone last bit in an empty slot");
    clause(5, slot_at(1, 31), E_WHOLE, 1, "S5: a lone last bit in a slot of an absent structure");
    clause(6, slot_at(1, 3), E_START, 399, "S6: one line in two entries");
    clause(6, slot_at(0, 2), E_END, 1024, "S6: an entry over all others");
    clause(7, 0, BASE, 255, "S7: root's entries begin after base");
    clause(7, 0, BASE, 257, "S7: root's entries begin before base");
    clause(7, 0, END, 1023, "S7: root's entries end after end");
    clause(7, 0, END, 1025, "S7: root's entries end before end");
    clause(7, slot_at(0, 1), E_END, 999, "S7: a gap in the root");
    clause(7, slot_at(0, 1), E_GIVEN, 2, "S7: given to a grandchild");
    clause(7, slot_at(0, 1), E_GIVEN, 9, "S7: given to an absent one");
    clause(7, slot_at(1, 3), E_GIVEN, 1, "S7: given to itself");
    clause(7, slot_at(0, 1), E_GIVEN, 1, "S7: given, but the child has no entry of it");
    clause(7, slot_at(0, 3), E_GIVEN, 0, "S7: the child's entries were not given");
    clause(7, slot_at(1, 3), E_END, 511, "S7: the child's entries end before the grant");
    clause(7, slot_at(1, 3), E_END, 513, "S7: the child's entries end after the grant");
    clause(7, slot_at(1, 3), E_START, 401, "S7: a gap in the child");
    clause(7, slot_at(2, 0), E_START, 319, "S7: the grandchild's entry is not inside");
    clause(7, slot_at(1, 3), E_WHOLE, 1, "S7: a piece of a grant is whole");
    clause(7, slot_at(1, 2), E_WHOLE, 1, "S7: a piece of a grant that is given on is whole");
    clause(7, slot_at(0, 1), E_WHOLE, 1, "S7: an entry of the root is whole");
    clause(7, slot_at(0, 3), E_WHOLE, 1, "S7: a given entry of the root is whole");
    clause(0, slot_at(2, 0), E_WHOLE, 1, "sound with a whole entry that equals its grant");
    clause(8, header_at(1), H_START, 255, "S8: header area longer than the entry");
    clause(8, header_at(1), H_END, 273, "S8: header area not an entry");
    clause(8, structure_at(2, 0), T_END, 321, "S8: structure area not an entry");
    clause(9, slot_at(0, 0), E_OPEN, 1, "S9: open over an area");
    clause(9, slot_at(0, 3), E_OPEN, 1, "S9: an ancestor's entry open over an area");
    clause(9, slot_at(0, 1), E_OPEN, 0, "S9: closed without an area");
    clause_word(10, regions_at(1), UINT64_C(0x8000000000000000), "S10: a closed entry loaded");
    clause_word(10, regions_at(1), UINT64_C(0x9f00000000000000), "S10: an empty slot loaded");
    clause_word(10, regions_at(1), UINT64_C(0x8300830000000000), "S10: a slot twice");
    clause_word(0, regions_at(1), UINT64_C(0x0000000000000082), "a given entry may be loaded");
    clause(11, slot_at(0, 1), E_RIGHTS, 6, "S11: a root entry without all rights");
    clause(11, slot_at(1, 3), E_RIGHTS, 7, "S11: more rights than the others inside the grant have");
    clause(11, slot_at(1, 1), E_RIGHTS, 2, "S11: fewer rights than the others inside the grant have, in a closed entry");
    clause(11, slot_at(1, 2), E_RIGHTS, 4, "S11: fewer rights than the others inside the grant have, in a given entry");
    clause(11, slot_at(2, 0), E_RIGHTS, 3, "S11: a right that the parent's entry around it lacks");
    clause(0, slot_at(2, 0), E_RIGHTS, 6, "sound with all rights of the parent's entry");

    /* A whole entry that equals its grant, but is closed, given on, or open by its bit alone. */
    make_x();
    bool good = goes(SWITCH, 1, 0, 0, 0, 0) && goes(PREPARE, 1, 0, 0, 0, 0);
    set(table, slot_at(1, 0), E_WHOLE, 1);
    check(good && second_unsound(board, table, SECOND_BYTES) == 7, "S7: a whole entry is closed");
    set(table, slot_at(1, 0), E_OPEN, 1);
    check(second_unsound(board, table, SECOND_BYTES) == 9, "S9: a whole entry over an area, with its open bit set");
    make_y();
    set(table, header_at(2), H_PARENT, 0); /* 2 is the root's, and has nothing */
    set(table, header_at(2), H_START, 512);
    set(table, header_at(2), H_END, 1000);
    set_word(table, slot_at(2, 0), 0);
    set(table, slot_at(1, 2), E_GIVEN, 0);
    set_word(table, structure_at(2, 0), 0);
    set(table, slot_at(0, 1), E_OPEN, 0);
    for (unsigned s = 0; s < 2; s++)
        set(table, slot_at(1, s), E_OPEN, 1);
    set(table, slot_at(0, 3), E_OPEN, 1);
    set_word(table, regions_at(0), UINT64_C(0x0084000000000000));
    good = second_unsound(board, table, SECOND_BYTES) == 0;
    check(good, "two children of the root, the one with pieces: sound");
    for (unsigned s = 1; s < 4; s++)
        set_word(table, slot_at(1, s), 0);
    set_word(table, regions_at(1), 0);
    set(table, slot_at(1, 0), E_END, 512);
    set(table, slot_at(1, 0), E_WHOLE, 1);
    check(second_unsound(board, table, SECOND_BYTES) == 0, "a whole entry beside a sibling: sound");
    set(table, slot_at(1, 0), E_GIVEN, 2);
    check(second_unsound(board, table, SECOND_BYTES) == 7, "S7: a whole entry is given");

    /* Two grants side by side, one entry of the child over both. */
    make_x();
    good = goes(GIVE, 1, 1, 0, 6, 0);
    set_word(table, slot_at(1, 1), 0);
    set(table, slot_at(1, 0), E_END, 1024);
    check(good && second_unsound(board, table, SECOND_BYTES) == 7, "S7: a child's entry over two grants");
    /* The header's area moved onto a given entry, and one area used twice. */
    make_y();
    set(table, header_at(1), H_START, 288);
    set(table, header_at(1), H_END, 512);
    check(second_unsound(board, table, SECOND_BYTES) == 8, "S8: header area equals a given entry");
    make_y();
    set(table, header_at(1), H_START, 272);
    set(table, header_at(1), H_END, 288);
    check(second_unsound(board, table, SECOND_BYTES) == 8, "S8: two areas share all lines");
    make_y();
    set(table, header_at(2), H_START, 256);
    set(table, header_at(2), H_END, 272);
    check(second_unsound(board, table, SECOND_BYTES) == 8, "S8: header area equals an entry of the grandparent");
    make_y();
    set(table, structure_at(1, 0), T_START, 400);
    set(table, structure_at(1, 0), T_END, 512);
    set(table, slot_at(1, 3), E_OPEN, 0);
    set(table, slot_at(0, 2), E_OPEN, 1);
    set_word(table, regions_at(1), 0);
    check(second_unsound(board, table, SECOND_BYTES) == 0, "S8: structure area equals an own entry: sound");
    check(make_chain() && holders_are(1999, "\0\1\2\3\4\5\6\7\10\11\12\13\14\15\16\17", 16),
          "a chain of 15 steps is sound, with 16 holders");
}

/* ======================= 5. Generated calls and damaged tables ======================= */

/* The model works on the packed words and counts single lines, up to this many. */
#define LINES 1200

static bool m_present(const uint8_t *t, unsigned p) { return get(t, header_at(p), H_PRESENT) == 1; }
static unsigned m_parent(const uint8_t *t, unsigned p) { return get(t, header_at(p), H_PARENT); }
static bool m_entry(const uint8_t *t, unsigned p, unsigned s) { return get(t, slot_at(p, s), E_PRESENT) == 1; }
static bool m_open(const uint8_t *t, unsigned p, unsigned s) { return get(t, slot_at(p, s), E_OPEN) == 1; }
static unsigned m_given(const uint8_t *t, unsigned p, unsigned s) { return get(t, slot_at(p, s), E_GIVEN); }
static unsigned m_rights(const uint8_t *t, unsigned p, unsigned s) { return get(t, slot_at(p, s), E_RIGHTS); }
static uint32_t m_start(const uint8_t *t, unsigned p, unsigned s) { return get(t, slot_at(p, s), E_START); }
static uint32_t m_end(const uint8_t *t, unsigned p, unsigned s) { return get(t, slot_at(p, s), E_END); }
static bool m_whole(const uint8_t *t, unsigned p, unsigned s) { return get(t, slot_at(p, s), E_WHOLE) == 1; }
static unsigned m_region(const uint8_t *t, unsigned p, unsigned r) { return t[8 * regions_at(p) + r]; }

static bool m_child(const uint8_t *t, unsigned p, unsigned of)
{
    return p != 0 && m_present(t, p) && m_parent(t, p) == of;
}

static unsigned m_depth(const uint8_t *t, unsigned p)
{
    return p == 0 ? 0 : 1 + m_depth(t, m_parent(t, p));
}

static bool m_holds(const uint8_t *t, unsigned p, uint32_t line)
{
    for (unsigned s = 0; s < 32; s++)
        if (m_entry(t, p, s) && m_start(t, p, s) <= line && line < m_end(t, p, s))
            return true;
    return false;
}

/* The range of area i: 0 a header's, 1 to 4 a structure's. False if it has none. */
static bool m_area(const uint8_t *t, unsigned p, unsigned i, uint32_t *start, uint32_t *end)
{
    *start = i == 0 ? get(t, header_at(p), H_START) : get(t, structure_at(p, i - 1), T_START);
    *end = i == 0 ? get(t, header_at(p), H_END) : get(t, structure_at(p, i - 1), T_END);
    return m_present(t, p) && (*start != 0 || *end != 0);
}

/* How many areas lie on each line. */
static void m_count_areas(const uint8_t *t, unsigned char count[LINES])
{
    uint32_t start, end;
    memset(count, 0, LINES);
    for (unsigned p = 0; p < 16; p++)
        for (unsigned i = 0; i < 5; i++)
            if (m_area(t, p, i, &start, &end))
                for (uint32_t line = start; line < end; line++)
                    count[line]++;
}

/* Every line number in the table is small enough to count lines. */
static bool m_small(const uint8_t *t)
{
    uint32_t start, end;
    if (get(t, 0, END) > LINES)
        return false;
    for (unsigned p = 0; p < 16; p++) {
        for (unsigned i = 0; i < 5; i++)
            if (m_area(t, p, i, &start, &end) && end > LINES)
                return false;
        for (unsigned s = 0; s < 32; s++)
            if (m_end(t, p, s) > LINES)
                return false;
    }
    return true;
}

/* An entry of p of exactly that range that is not given. */
static bool m_equals(const uint8_t *t, unsigned p, uint32_t start, uint32_t end)
{
    for (unsigned s = 0; s < 32; s++)
        if (m_entry(t, p, s) && m_given(t, p, s) == 0 && m_start(t, p, s) == start && m_end(t, p, s) == end)
            return true;
    return false;
}

/* The slot of p's parent, given to p, that contains the range; 32 if none. */
static unsigned m_around(const uint8_t *t, unsigned p, uint32_t start, uint32_t end)
{
    unsigned q = m_parent(t, p), s = 0;
    while (s < 32 && !(m_entry(t, q, s) && m_given(t, q, s) == p && m_start(t, q, s) <= start &&
                       end <= m_end(t, q, s)))
        s++;
    return s;
}

/* How many pieces start to end has among so many lines from a line on: halved, until a half lies inside or outside. */
static unsigned m_pieces_of(uint32_t start, uint32_t end, uint32_t from, uint32_t lines)
{
    if (end <= from || from + lines <= start)
        return 0;
    if (start <= from && from + lines <= end)
        return 1;
    return m_pieces_of(start, end, from, lines / 2) + m_pieces_of(start, end, from + lines / 2, lines / 2);
}

static unsigned m_pieces(const uint8_t *t, unsigned p, unsigned s)
{
    if (board == SECOND_V8 || !m_entry(t, p, s))
        return m_entry(t, p, s);
    return m_pieces_of(m_start(t, p, s), m_end(t, p, s), 0, UINT32_C(1) << 27);
}

/* The pieces over p's loaded entries, with region r (8: none) naming slot s. */
static unsigned m_loaded(const uint8_t *t, unsigned p, unsigned r, unsigned s)
{
    unsigned n = r < 8 ? m_pieces(t, p, s) : 0;
    for (unsigned q = 0; q < 8; q++)
        if (q != r && m_region(t, p, q) != 0)
            n += m_pieces(t, p, m_region(t, p, q) & 31);
    return n;
}

/* The entry has the very lines that p's parent gave it in one entry. */
static bool m_is_grant(const uint8_t *t, unsigned p, unsigned s)
{
    unsigned around = p == 0 ? 32 : m_around(t, p, m_start(t, p, s), m_end(t, p, s));
    return around < 32 && m_end(t, m_parent(t, p), around) - m_start(t, m_parent(t, p), around) ==
                              m_end(t, p, s) - m_start(t, p, s);
}

/* The number of the lowest clause that fails, or 0; -2 where the numbers are too large to tell. */
static int m_unsound(const uint8_t *t)
{
    uint32_t start, end;
    static unsigned char areas[LINES], held[16][LINES];

    if (get(t, 0, BASE) >= get(t, 0, END) || !m_present(t, get(t, 0, CURRENT)))
        return 1;

    if (!m_present(t, 0) || m_parent(t, 0) != 0 || m_area(t, 0, 0, &start, &end))
        return 2;
    for (unsigned p = 1; p < 16; p++) {
        if (!m_present(t, p)) {
            for (unsigned i = 0; i < 40; i++)
                if (get_word(t, header_at(p) + i) != 0)
                    return 2;
            continue;
        }
        if (!m_present(t, m_parent(t, p)) || !m_area(t, p, 0, &start, &end))
            return 2;
        unsigned at = p, steps = 0;
        while (at != 0 && steps <= 15) {
            at = m_parent(t, at);
            steps++;
        }
        if (steps > 15)
            return 2;
    }

    if (get(t, 0, ZERO) != 0)
        return 3;
    for (unsigned p = 0; p < 16; p++) {
        if (get(t, header_at(p), H_ZERO) != 0 || get_word(t, header_at(p) + 6) != 0 ||
            get_word(t, header_at(p) + 7) != 0)
            return 3;
        for (unsigned i = 0; i < 4; i++)
            if (get(t, structure_at(p, i), T_ZERO) != 0)
                return 3;
        for (unsigned r = 0; r < 8; r++)
            if ((m_region(t, p, r) & 0x60) != 0 || (m_region(t, p, r) < 0x80 && m_region(t, p, r) != 0))
                return 3;
    }

    for (unsigned p = 0; p < 16; p++)
        for (unsigned i = 0; i < 5; i++) {
            bool has = m_area(t, p, i, &start, &end);
            if (has && (end < start || end - start < 16))
                return 4;
            if (i == 0 || !m_present(t, p))
                continue;
            bool present = get(t, structure_at(p, i - 1), T_PRESENT) == 1;
            if (p == 0 && i == 1 ? !present || has : present != has)
                return 4;
        }

    for (unsigned p = 0; p < 16; p++)
        for (unsigned s = 0; s < 32; s++) {
            if (!m_entry(t, p, s)) {
                if (get_word(t, slot_at(p, s)) != 0)
                    return 5;
            } else if (get(t, structure_at(p, s / 8), T_PRESENT) == 0 || m_start(t, p, s) >= m_end(t, p, s)) {
                return 5;
            }
        }

    if (!m_small(t))
        return -2;
    memset(held, 0, sizeof held);
    for (unsigned p = 0; p < 16; p++)
        for (unsigned s = 0; s < 32; s++)
            for (uint32_t line = m_start(t, p, s); line < m_end(t, p, s); line++)
                if (held[p][line]++ != 0)
                    return 6;

    for (uint32_t line = 0; line < LINES; line++)
        if (held[0][line] != (get(t, 0, BASE) <= line && line < get(t, 0, END)))
            return 7;
    for (unsigned p = 0; p < 16; p++) {
        static unsigned char granted[LINES];
        for (unsigned s = 0; s < 32; s++) {
            if (m_given(t, p, s) != 0 && !m_child(t, m_given(t, p, s), p))
                return 7;
            if (p != 0 && m_entry(t, p, s) && m_around(t, p, m_start(t, p, s), m_end(t, p, s)) == 32)
                return 7;
            if (m_whole(t, p, s) && (!m_open(t, p, s) || m_given(t, p, s) != 0 || !m_is_grant(t, p, s)))
                return 7;
        }
        if (p == 0 || !m_present(t, p))
            continue;
        memset(granted, 0, sizeof granted);
        for (unsigned s = 0; s < 32; s++)
            if (m_given(t, m_parent(t, p), s) == p)
                for (uint32_t line = m_start(t, m_parent(t, p), s); line < m_end(t, m_parent(t, p), s); line++)
                    granted[line] = 1;
        if (memcmp(granted, held[p], LINES) != 0)
            return 7;
    }

    m_count_areas(t, areas);
    for (unsigned p = 0; p < 16; p++)
        for (unsigned i = 0; i < 5; i++)
            if (m_area(t, p, i, &start, &end) && !(i > 0 && m_equals(t, p, start, end)) &&
                !(p > 0 && m_equals(t, m_parent(t, p), start, end)))
                return 8;
    for (uint32_t line = 0; line < LINES; line++)
        if (areas[line] > 1)
            return 8;

    for (unsigned p = 0; p < 16; p++)
        for (unsigned s = 0; s < 32; s++) {
            if (!m_entry(t, p, s))
                continue;
            bool open = true;
            for (uint32_t line = m_start(t, p, s); line < m_end(t, p, s); line++)
                if (areas[line] != 0)
                    open = false;
            if (open != m_open(t, p, s))
                return 9;
        }

    for (unsigned p = 0; p < 16; p++)
        for (unsigned r = 0; r < 8; r++) {
            unsigned g = m_region(t, p, r);
            if (g != 0 && !(m_entry(t, p, g & 31) && m_open(t, p, g & 31)))
                return 10;
            for (unsigned q = 0; q < r; q++)
                if (g != 0 && m_region(t, p, q) == g)
                    return 10;
        }
    for (unsigned p = 0; p < 16; p++)
        if (m_loaded(t, p, 8, 0) > 8)
            return 10;

    for (unsigned p = 0; p < 16; p++)
        for (unsigned s = 0; s < 32; s++) {
            if (!m_entry(t, p, s))
                continue;
            if (p == 0 && m_rights(t, p, s) != 7)
                return 11;
            if (p != 0) {
                unsigned around = m_around(t, p, m_start(t, p, s), m_end(t, p, s));
                if ((m_rights(t, p, s) | m_rights(t, m_parent(t, p), around)) !=
                    m_rights(t, m_parent(t, p), around))
                    return 11;
                for (unsigned u = 0; u < s; u++)
                    if (m_entry(t, p, u) && m_rights(t, p, u) != m_rights(t, p, s) &&
                        m_around(t, p, m_start(t, p, u), m_end(t, p, u)) == around)
                        return 11;
            }
        }
    return 0;
}

typedef struct {
    unsigned service, p, s, t, r, l, w;
} fields;

static fields fields_of(uint64_t w)
{
    fields f = {(unsigned)(w >> 60), (unsigned)(w >> 56 & 15), (unsigned)(w >> 51 & 31),
                (unsigned)(w >> 46 & 31), (unsigned)(w >> 43 & 7), (unsigned)(w >> 16 & 0x7ffffff),
                (unsigned)(w >> 15 & 1)};
    return f;
}

/* The same, with the row of what it calls in the place of the service. */
static fields called(uint64_t w)
{
    fields f = fields_of(w);
    if (f.service == LOAD && f.r == 1)
        f.service = UNLOAD;
    return f;
}

/* The checks of each, ended by 0. */
static const unsigned char checks[SERVICES + 1][8] = {
    {0}, {4, 5, 6, 8, 9, 18}, {3, 15}, {3, 4, 5, 6, 8, 9, 18}, {3, 4, 15}, {3, 4, 5, 6, 8, 10, 18}, {4, 6, 14},
    {4, 5, 6, 7, 8, 18}, {4, 5, 6, 11, 12}, {3, 4, 5, 16, 19}, {3, 16}, {3, 16}, {3, 7}, {3}, {3}, {3}};

static unsigned m_free(const uint8_t *t, unsigned p)
{
    unsigned s = 0;
    while (s < 32 && !(get(t, structure_at(p, s / 8), T_PRESENT) == 1 && get_word(t, slot_at(p, s)) == 0))
        s++;
    return s;
}

/* The slot of the child that take would empty; 32 if none. */
static unsigned m_taken(const uint8_t *t, unsigned c, unsigned s)
{
    unsigned q = m_given(t, c, s), i = 0;
    while (i < 32 && !(m_entry(t, q, i) && m_open(t, q, i) && m_given(t, q, i) == 0 &&
                       m_start(t, q, i) == m_start(t, c, s) && m_end(t, q, i) == m_end(t, c, s)))
        i++;
    return i;
}

/* A refusal number's condition holds for a call. */
static bool m_applies(const uint8_t *t, fields f, unsigned number)
{
    unsigned c = get(t, 0, CURRENT);
    unsigned of = f.service == LOAD ? f.p : c; /* whose slot S is */
    bool merge = f.service == MERGE;
    unsigned n = 0;

    switch (number) {
    case 3:
        if (f.service == DELETE || f.service == GIVE || f.service == CLEAR_OUT)
            return !m_child(t, f.p, c);
        if (f.service == SWITCH)
            return !m_child(t, f.p, c) && !m_child(t, c, f.p);
        return f.p != c && !m_child(t, f.p, c);
    case 4:
        if (f.service == COLLECT)
            return f.t > 3 || get(t, structure_at(f.p, f.t), T_PRESENT) == 0;
        return !m_entry(t, of, f.s) || (merge && !m_entry(t, c, f.t));
    case 5:
        return !m_open(t, of, f.s) || (merge && !m_open(t, c, f.t));
    case 6:
        if (f.service == TAKE)
            return m_given(t, c, f.s) == 0;
        return m_given(t, c, f.s) != 0 || (merge && m_given(t, c, f.t) != 0);
    case 7:
        if (f.service == CUT)
            return f.l <= m_start(t, c, f.s) || m_end(t, c, f.s) <= f.l;
        return !m_holds(t, f.p, f.l);
    case 8:
        if (f.service == CREATE) {
            for (unsigned p = 1; p < 16; p++)
                n += m_present(t, p);
            return n == 15;
        }
        if (f.service == PREPARE) {
            for (unsigned i = 0; i < 4; i++)
                n += get(t, structure_at(f.p, i), T_PRESENT);
            return n == 4;
        }
        return m_free(t, f.service == GIVE ? f.p : c) == 32;
    case 9:
        return m_end(t, c, f.s) < m_start(t, c, f.s) + 16;
    case 10:
        return (f.r | m_rights(t, c, f.s)) != m_rights(t, c, f.s);
    case 11:
        return m_end(t, c, f.s) != m_start(t, c, f.t);
    case 12:
        return c != 0 && m_around(t, c, m_start(t, c, f.s), m_end(t, c, f.t)) == 32;
    case 14:
        return m_taken(t, c, f.s) == 32;
    case 15:
        if (f.service == DELETE) {
            for (unsigned p = 1; p < 16; p++)
                n += m_child(t, p, f.p);
            return n != 0;
        }
        for (unsigned i = 0; i < 8; i++)
            n += m_entry(t, f.p, 8 * f.t + i);
        return n != 0 || (f.p == 0 && f.t == 0);
    case 16:
        if (f.t > 7)
            return true;
        for (unsigned r = 0; r < 8; r++)
            n += f.service == LOAD && r != f.t && m_region(t, f.p, r) == (0x80 | f.s);
        return n != 0;
    case 18:
        return m_whole(t, c, f.s);
    case 19:
        return m_loaded(t, f.p, f.t, f.s) > 8;
    default:
        return false;
    }
}

static uint64_t m_entry_word(unsigned rights, uint32_t start, uint32_t end)
{
    return UINT64_C(1) << 63 | (uint64_t)rights << 59 | (uint64_t)start << 28 | (uint64_t)end << 1;
}

/* Zeroes the records of all whose walk up to the root meets p; answers how many there were. */
static uint32_t m_remove(uint8_t *t, unsigned p)
{
    bool member[16];
    uint32_t n = 0;
    for (unsigned q = 0; q < 16; q++) {
        unsigned at = q;
        while (at != 0 && at != p)
            at = m_parent(t, at);
        member[q] = at == p && m_present(t, q);
    }
    for (unsigned q = 0; q < 16; q++) {
        if (!member[q])
            continue;
        for (unsigned i = 0; i < 40; i++)
            set_word(t, header_at(q) + i, 0);
        n++;
    }
    return n;
}

/* The entry of a slot moves to the lowest free slot below it, if there is one; answers whether it moved. */
static bool m_move(uint8_t *t, unsigned p, unsigned s)
{
    unsigned to = m_free(t, p);
    if (to > s)
        return false;
    set_word(t, slot_at(p, to), get_word(t, slot_at(p, s)));
    set_word(t, slot_at(p, s), 0);
    for (unsigned r = 0; r < 8; r++)
        if (m_region(t, p, r) == (0x80 | s))
            *region_byte(t, p, r) = (uint8_t)(0x80 | to);
    return true;
}

static void m_unload(uint8_t *t, unsigned p, unsigned s)
{
    for (unsigned r = 0; r < 8; r++)
        if (m_region(t, p, r) == (0x80 | s))
            *region_byte(t, p, r) = 0;
}

/* The effect of an accepted call on the words; the open bits and regions come after. */
static void m_effect(uint8_t *t, fields f, uint32_t *first, uint64_t *second)
{
    unsigned c = get(t, 0, CURRENT), n = 0;
    uint32_t start = m_start(t, c, f.s), end = m_end(t, c, f.s);
    *first = 0;
    *second = 0;
    switch (f.service) {
    case CREATE:
        while (m_present(t, n))
            n++;
        set_word(t, header_at(n), UINT64_C(1) << 63 | (uint64_t)c << 59 | (uint64_t)start << 32 | end << 5);
        *first = n;
        break;
    case DELETE: /* of one without a child, so the branch is it alone */
    case CLEAR_OUT:
        for (unsigned s = 0; s < 32; s++)
            if (m_given(t, c, s) == f.p)
                set(t, slot_at(c, s), E_GIVEN, 0);
        n = m_remove(t, f.p);
        *first = f.service == CLEAR_OUT ? n : 0;
        break;
    case PREPARE:
        while (get(t, structure_at(f.p, n), T_PRESENT) == 1)
            n++;
        set_word(t, structure_at(f.p, n), UINT64_C(1) << 63 | (uint64_t)start << 36 | (uint64_t)end << 9);
        *first = n;
        break;
    case COLLECT:
        set_word(t, structure_at(f.p, f.t), 0);
        break;
    case GIVE:
        n = m_free(t, f.p);
        set_word(t, slot_at(f.p, n), m_entry_word(f.r, start, end) + f.w);
        set(t, slot_at(c, f.s), E_GIVEN, f.p);
        *first = n;
        break;
    case TAKE:
        set_word(t, slot_at(m_given(t, c, f.s), m_taken(t, c, f.s)), 0);
        set(t, slot_at(c, f.s), E_GIVEN, 0);
        break;
    case CUT:
        n = m_free(t, c);
        set_word(t, slot_at(c, n), m_entry_word(m_rights(t, c, f.s), f.l, end));
        set(t, slot_at(c, f.s), E_END, f.l);
        m_unload(t, c, f.s);
        *first = n;
        break;
    case MERGE:
        set(t, slot_at(c, f.s), E_END, m_end(t, c, f.t));
        set_word(t, slot_at(c, f.t), 0);
        m_unload(t, c, f.s);
        m_unload(t, c, f.t);
        break;
    case LOAD:
        *region_byte(t, f.p, f.t) = (uint8_t)(0x80 | f.s);
        break;
    case UNLOAD:
        *region_byte(t, f.p, f.t) = 0;
        break;
    case READ:
        if (m_region(t, f.p, f.t) != 0)
            *second = get_word(t, slot_at(f.p, m_region(t, f.p, f.t) & 31));
        break;
    case FIND:
        while (!(m_start(t, f.p, n) <= f.l && f.l < m_end(t, f.p, n)))
            n++;
        *first = n;
        *second = get_word(t, slot_at(f.p, n));
        break;
    case SWITCH:
        set(t, 0, CURRENT, f.p);
        break;
    case PACK:
        for (unsigned s = 0; s < 32; s++)
            *first += m_entry(t, f.p, s) && m_move(t, f.p, s);
        break;
    }
}

static void m_settle(uint8_t *t)
{
    static unsigned char areas[LINES];
    m_count_areas(t, areas);
    for (unsigned p = 0; p < 16; p++) {
        for (unsigned s = 0; s < 32; s++) {
            unsigned touched = 0;
            for (uint32_t line = m_start(t, p, s); line < m_end(t, p, s); line++)
                touched += areas[line];
            if (m_entry(t, p, s))
                set(t, slot_at(p, s), E_OPEN, touched == 0);
        }
        for (unsigned r = 0; r < 8; r++)
            if (!(m_entry(t, p, m_region(t, p, r) & 31) && m_open(t, p, m_region(t, p, r) & 31)))
                *region_byte(t, p, r) = 0;
    }
}

/* The refusal number of a call on a sound table, or 0. */
static unsigned m_refusal(const uint8_t *t, uint64_t word)
{
    fields f = fields_of(word);
    if (f.service < 1 || f.service == 10 || f.service > SERVICES || (word & 0x7fff) != 0 ||
        (f.service == LOAD && (f.r > 1 || (f.r == 1 && f.s != 0))) ||
        (f.p != 0 && strchr(used[f.service], 'P') == NULL) ||
        (f.s != 0 && strchr(used[f.service], 'S') == NULL) ||
        (f.t != 0 && strchr(used[f.service], 'T') == NULL) ||
        (f.r != 0 && strchr(used[f.service], 'R') == NULL) ||
        (f.l != 0 && strchr(used[f.service], 'L') == NULL) || (f.w != 0 && strchr(used[f.service], 'W') == NULL))
        return 2;
    f = called(word);
    for (unsigned i = 0; checks[f.service][i] != 0; i++)
        if (m_applies(t, f, checks[f.service][i]))
            return checks[f.service][i];
    return 0;
}

/* What a call on a sound table answers, and the table after it. */
static result m_call(uint8_t *t, uint64_t word)
{
    result a = {m_refusal(t, word), get(t, 0, CURRENT), 0, UNTOUCHED, true};
    if (a.refusal == 0) {
        m_effect(t, called(word), &a.first, &a.second);
        m_settle(t);
    }
    return a;
}

/* ---- what is generated ---- */

static uint64_t seed = UINT64_C(0x9e3779b97f4a7c1b);

static uint64_t random_word(void)
{
    seed ^= seed << 13;
    seed ^= seed >> 7;
    seed ^= seed << 17;
    return seed * UINT64_C(0x2545f4914f6cdd1d);
}

/* A number below n. */
static unsigned below(unsigned n)
{
    return (unsigned)((random_word() >> 33) % n);
}

static bool chance(unsigned percent)
{
    return below(100) < percent;
}

static unsigned some_entry(const uint8_t *t, unsigned p)
{
    unsigned s = below(32), tries = 0;
    while (tries < 32 && !m_entry(t, p, (s + tries) % 32))
        tries++;
    return (s + tries) % 32;
}

/* Some entry that is whole, or some slot. */
static unsigned some_whole(const uint8_t *t, unsigned p)
{
    unsigned s = below(32), tries = 0;
    while (tries < 32 && !m_whole(t, p, (s + tries) % 32))
        tries++;
    return (s + tries) % 32;
}

/* It has an entry with which more can be done than to load it. */
static bool has_something(const uint8_t *t, unsigned p)
{
    for (unsigned s = 0; s < 32; s++)
        if (m_entry(t, p, s) && !m_whole(t, p, s))
            return true;
    return false;
}

static unsigned some_relative(const uint8_t *t, unsigned c)
{
    unsigned p = below(16), tries = 0;
    if (chance(25))
        return c;
    if (chance(20))
        return m_parent(t, c);
    while (tries < 16 && !m_child(t, (p + tries) % 16, c))
        tries++;
    return (p + tries) % 16;
}

/* The shortest or longest open entry, not given and not whole, of 16 lines or more; some slot if there is none. */
static unsigned fit_entry(const uint8_t *t, unsigned p, bool shortest)
{
    unsigned found = 32;
    uint32_t length = 0;
    for (unsigned s = 0; s < 32; s++) {
        uint32_t n = m_end(t, p, s) - m_start(t, p, s);
        if (!m_entry(t, p, s) || !m_open(t, p, s) || m_given(t, p, s) != 0 || m_whole(t, p, s) || n < 16)
            continue;
        if (found == 32 || (shortest ? n < length : n > length)) {
            found = s;
            length = n;
        }
    }
    return found < 32 ? found : below(32);
}

/* A call word that has some chance of being accepted. */
static uint64_t one_word(const uint8_t *t, const unsigned char weights[SERVICES + 1])
{
    unsigned total = 0, service = 1, c = get(t, 0, CURRENT);
    for (unsigned i = 1; i <= SERVICES; i++)
        total += weights[i];
    unsigned pick = below(total);
    while (pick >= weights[service])
        pick -= weights[service++];

    unsigned p = chance(90) ? some_relative(t, c) : below(16);
    if (c != 0 && !has_something(t, c) && chance(50))
        return word_of(SWITCH, m_parent(t, c), 0, 0, 0, 0);
    if (service == SWITCH && m_child(t, p, c) && !has_something(t, p) && chance(80))
        service = m_free(t, p) < 32 ? GIVE : PREPARE;
    unsigned of = service == LOAD ? p : c;
    unsigned s = chance(90) ? some_entry(t, of) : below(32);
    unsigned u = 0, r = 0;
    uint32_t l = 0;
    uint64_t w = 0;
    switch (service) {
    case CREATE:
    case PREPARE:
        if (chance(90))
            s = fit_entry(t, c, true);
        else if (chance(50))
            s = some_whole(t, c);
        if (!m_whole(t, c, s) && m_end(t, c, s) - m_start(t, c, s) > 40 && chance(95)) { /* not all of it */
            service = CUT;
            l = m_start(t, c, s) + 16 + below(3);
        }
        break;
    case COLLECT:
        u = below(chance(90) ? 4 : 32);
        break;
    case GIVE:
        if (chance(60))
            s = fit_entry(t, c, false);
        r = chance(80) ? m_rights(t, c, s) & (below(8) | below(8)) : below(8);
        w = chance(weights[SWITCH] > 10 ? 3 : 15) ? WHOLE : 0; /* seldom where chains are to grow */
        break;
    case CUT:
        if (chance(30))
            l = m_start(t, c, s) + 16;
        else if (chance(30))
            l = m_start(t, c, s) + 1 + below(40);
        else
            l = m_start(t, c, s) + below(m_end(t, c, s) - m_start(t, c, s) + 2);
        if (chance(30)) /* few pieces on either side */
            l -= l % (2u << below(8));
        break;
    case MERGE:
        u = chance(90) ? some_entry(t, c) : below(32);
        for (unsigned i = 0; i < 32; i++)
            if (chance(90) && m_entry(t, c, i) && m_start(t, c, i) == m_end(t, c, s))
                u = i;
        break;
    case LOAD:
    case UNLOAD:
    case READ:
        u = below(chance(95) ? 8 : 32);
        break;
    case FIND:
        l = chance(95) ? below(LINES) : (uint32_t)(random_word() & 0x7ffffff);
        break;
    }
    bool has_p = checks[service][0] == 3, has_s = service != DELETE && service != COLLECT && service < UNLOAD;
    if (service == UNLOAD)
        return word_of(LOAD, p, 0, u, 1, 0);
    return word_of(service, has_p ? p : 0, has_s ? s : 0, u, r, l & 0x7ffffff) | w;
}

/* Mostly one that the model accepts, if there is one among five; at times a broken one. */
static uint64_t likely_word(const uint8_t *t, const unsigned char weights[SERVICES + 1])
{
    uint64_t word = one_word(t, weights);
    for (unsigned i = 0; i < 4 && m_refusal(t, word) != 0 && chance(80); i++)
        word = one_word(t, weights);
    if (chance(2))
        word ^= UINT64_C(1) << below(64);
    return word;
}

/* Its listing is the model's: so many pieces, rising, each a power of two of lines at a multiple of it, from end to end. */
static bool pieces_agree(unsigned p, unsigned s)
{
    uint64_t list[SECOND_PIECES];
    unsigned n = m_pieces(table, p, s);
    uint32_t at = m_start(table, p, s);
    if (!m_entry(table, p, s))
        return pieces_refused(p, s, 0, 4);
    if (!pieces_refused(p, s, n - 1, 17) || second_pieces(board, table, SECOND_BYTES, p, s, list, n) != (uint64_t)n << 32)
        return false;
    for (unsigned i = 0; i < n; i++) {
        uint32_t lines = (uint32_t)list[i];
        if (list[i] >> 32 != at || (board == SECOND_V7 && ((lines & (lines - 1)) != 0 || at % lines != 0)))
            return false;
        at += lines;
    }
    return at == m_end(table, p, s);
}

static unsigned long met[SERVICES + 1][20], accepted;
static uint32_t most_removed; /* by one clear out */
static uint32_t most_packed;  /* by one pack */

/* Calls the program and the model, and compares everything. */
static bool agree(uint64_t word)
{
    static uint8_t model[SECOND_BYTES];
    memcpy(model, table, SECOND_BYTES);
    result expected = m_call(model, word);
    result a = call_word_on(table, word);
    if ((word >> 60) != 10)
        met[called(word).service][expected.refusal]++;
    if ((word >> 60) == CLEAR_OUT && a.first > most_removed)
        most_removed = a.first;
    if ((word >> 60) == PACK && a.first > most_packed)
        most_packed = a.first;
    accepted += a.refusal == 0;
    return a.clean && a.refusal == expected.refusal && a.caller == expected.caller &&
           a.first == expected.first && a.second == expected.second &&
           memcmp(model, table, SECOND_BYTES) == 0;
}

/* Holders of a line, and the runs, by counting lines. */
static bool holders_agree(uint32_t line)
{
    char expected[16];
    unsigned n = 0;
    if (line < get(table, 0, BASE) || line >= get(table, 0, END))
        return holders_refused(line, 16, 7) && holders_refused(line, 15, 7);
    for (unsigned depth = 0; depth < 16; depth++)
        for (unsigned p = 0; p < 16; p++)
            if (m_present(table, p) && m_depth(table, p) == depth && m_holds(table, p, line))
                expected[n++] = (char)p;
    return holders_are(line, expected, n) && holders_refused(line, 15, 17);
}

static bool runs_agree(void)
{
    static unsigned holders[LINES + 1];
    static second_run expected[SECOND_RUNS];
    unsigned n = 0;
    memset(holders, 0, sizeof holders);
    for (unsigned p = 0; p < 16; p++)
        for (unsigned s = 0; s < 32; s++)
            for (uint32_t line = m_start(table, p, s); line < m_end(table, p, s); line++)
                holders[line] |= 1u << p;
    for (uint32_t line = 0; line < LINES; line++) {
        if (holders[line] == 0)
            continue;
        if (line > 0 && holders[line] == holders[line - 1]) {
            expected[n - 1].end = line + 1;
            continue;
        }
        unsigned deepest = 0;
        for (unsigned p = 1; p < 16; p++)
            if ((holders[line] >> p & 1) != 0 && m_depth(table, p) > m_depth(table, deepest))
                deepest = p;
        second_run run = {line, line + 1, deepest};
        expected[n++] = run;
    }
    return runs_are(expected, n);
}

/* A field with another value that is not out of the way. */
static void damage(uint8_t *t)
{
    unsigned p = chance(80) ? get(t, 0, CURRENT) : below(16);
    unsigned q = below(16), s = some_entry(t, p), u = some_entry(t, p), i = below(4);
    uint32_t near = m_start(t, p, s) + below(3) - 1;
    uint64_t w;
    if (chance(50))
        p = 0;
    switch (below(25)) {
    case 0: t[below(SECOND_BYTES)] ^= (uint8_t)(1u << below(8)); break;
    case 1: t[8 * header_at(p) + below(8 * 40)] ^= (uint8_t)(1u << below(8)); break;
    case 2: set_word(t, below(SECOND_WORDS), random_word()); break;
    case 3: set(t, 0, CURRENT, q); break;
    case 4: set(t, 0, chance(50) ? BASE : END, below(LINES)); break;
    case 5: set(t, header_at(q), H_PARENT, below(16)); break;
    case 6: set(t, header_at(q), H_PRESENT, below(2)); break;
    case 7: set(t, header_at(q), H_START, near); set(t, header_at(q), H_END, m_end(t, p, s)); break;
    case 8: set(t, structure_at(q, i), T_START, near); set(t, structure_at(q, i), T_END, m_end(t, p, s)); break;
    case 9: set(t, structure_at(p, i), T_PRESENT, below(2)); break;
    case 10: *region_byte(t, p, below(8)) = (uint8_t)(0x80 | s); break;
    case 11: set(t, slot_at(p, s), E_OPEN, below(2)); break;
    case 12: set(t, slot_at(p, s), E_RIGHTS, below(8)); break;
    case 13: set(t, slot_at(p, s), E_GIVEN, chance(50) ? 0 : below(16)); break;
    case 14: set(t, slot_at(p, s), E_START, near); break;
    case 15: set(t, slot_at(p, s), E_END, m_end(t, p, s) + below(3) - 1); break;
    case 16: set(t, slot_at(p, s), E_END, m_end(t, p, u)); break;
    case 17: set_word(t, slot_at(p, s), 0); break;
    case 18: /* two slots change places */
    case 19:
        u = below(32);
        w = get_word(t, slot_at(p, s));
        set_word(t, slot_at(p, s), get_word(t, slot_at(p, u)));
        set_word(t, slot_at(p, u), w);
        break;
    case 20: set_word(t, slot_at(q, below(32)), get_word(t, slot_at(p, s))); break;
    case 21:
        if (m_small(t))
            m_settle(t);
        break;
    case 22: /* an entry in two, or more lines at its end taken from the next */
        for (u = 0; u < 32; u++)
            if (m_entry(t, p, u) && m_start(t, p, u) == m_end(t, p, s)) {
                set(t, slot_at(p, u), E_START, near + 1);
                set(t, slot_at(p, s), E_END, near + 1);
                break;
            }
        break;
    case 23: /* fewer rights in all of some grants */
        for (q = 1; q < 16; q++)
            for (u = 0; u < 32; u++) {
                unsigned left = chance(30) ? below(8) : 7;
                for (s = 0; s < 32; s++)
                    if (m_entry(t, q, s) && m_around(t, q, m_start(t, q, s), m_end(t, q, s)) == u)
                        set(t, slot_at(q, s), E_RIGHTS, m_rights(t, q, s) & left);
            }
        break;
    case 24: set(t, slot_at(p, s), E_WHOLE, 1); break;
    }
}

static void test_generated(void)
{
    /* How often each service is tried: fairly, with many partitions, with many slots, deep. */
    static const unsigned char weights[4][SERVICES + 1] = {
        {0, 6, 2, 6, 3, 9, 4, 14, 8, 8, 2, 3, 3, 9, 2, 3},
        {0, 14, 1, 2, 1, 2, 1, 14, 1, 3, 1, 1, 1, 2, 1, 1},
        {0, 4, 1, 9, 1, 9, 1, 24, 2, 6, 1, 1, 1, 6, 1, 1},
        {0, 4, 0, 8, 0, 14, 1, 9, 1, 3, 1, 1, 1, 14, 1, 1}};
    static uint8_t kept[SECOND_BYTES];
    static unsigned long clauses[12];
    bool good_calls = true, good_sound = true, good_lists = true, good_clauses = true,
         good_damaged = true, good_noise = true;
    unsigned deepest = 0;

    for (unsigned round = 0; round < 200; round++) {
        board = round % 5 == 4 ? SECOND_V8 : SECOND_V7;
        uint32_t base = chance(20) ? 0 : below(100);
        boot_to(base, chance(20) ? base + 1 + below(200) : base + 500 + below(LINES - 100 - 500));
        for (unsigned i = 0; i < 400; i++) {
            good_calls = good_calls && agree(likely_word(table, weights[round / 5 % 4]));
            good_sound = good_sound && second_unsound(board, table, SECOND_BYTES) == 0;
            if (i % 10 == 0) {
                good_sound = good_sound && m_unsound(table) == 0;
                good_lists = good_lists && holders_agree(below(LINES)) && runs_agree() && pieces_agree(below(16), i % 32) &&
                             pieces_agree(0, some_entry(table, 0));
                for (unsigned p = 1; p < 16; p++)
                    if (m_present(table, p) && m_depth(table, p) > deepest)
                        deepest = m_depth(table, p);
            }
            if (i % 4 != 0)
                continue;

            /* Damage it, ask, and go on from the table as it was, if it isn't sound. */
            memcpy(kept, table, SECOND_BYTES);
            for (unsigned k = 1 + below(3); k > 0; k--)
                damage(table);
            int found = second_unsound(board, table, SECOND_BYTES), expected = m_unsound(table);
            if (expected >= 0) {
                good_clauses = good_clauses && found == expected;
                clauses[expected]++;
            }
            if (found != 0) {
                fields f = fields_of(likely_word(kept, weights[0]));
                good_damaged = good_damaged && is_refused(f.service, f.p, f.s, f.t, f.r, f.l, 1) &&
                               holders_refused(below(LINES), 16, 1) &&
                               second_runs(board, table, SECOND_BYTES, NULL, 0) == 1;
            } else if (expected == 0) {
                good_damaged = good_damaged && agree(likely_word(table, weights[0])) &&
                               second_unsound(board, table, SECOND_BYTES) == 0 &&
                               holders_agree(below(LINES)) && runs_agree();
            }
            if (found != 0 || expected != 0 || chance(90))
                memcpy(table, kept, SECOND_BYTES);
        }
    }
    board = SECOND_V7;
    check(good_calls, "generated calls: answers and tables as in the model, refused calls change nothing");
    check(good_sound, "generated calls: the table is sound after each");
    check(good_lists, "generated calls: holders, runs and pieces as counted line by line");
    check(good_clauses, "damaged tables: the lowest clause that fails as in the model");
    check(good_damaged, "damaged tables: 1 and nothing written, or, if still sound, as in the model");

    /* Words and tables of noise. */
    for (unsigned i = 0; i < 20000; i++) {
        if (i % 1000 == 0)
            make_x();
        good_noise = good_noise && agree(i % 2 == 0 ? random_word() : random_word() & ~UINT64_C(0xffff));
        good_noise = good_noise && second_unsound(board, table, SECOND_BYTES) == 0;
    }
    for (unsigned i = 0; i < 4000; i++) { /* services 9 and 10 with any R */
        if (i % 100 == 0)
            make_x();
        good_noise = good_noise && agree(word_of(LOAD + below(2), below(3), below(4), below(10), below(chance(50) ? 2 : 8), 0));
        good_noise = good_noise && second_unsound(board, table, SECOND_BYTES) == 0;
    }
    for (unsigned i = 0; i < 2000; i++) {
        unsigned first = below(SECOND_BYTES), count = 1 + below(SECOND_BYTES - first);
        make_x();
        for (unsigned b = 0; b < count; b++)
            table[first + b] = (uint8_t)(random_word() >> 40);
        int expected = m_unsound(table);
        good_noise = good_noise && (expected < 0 || expected == second_unsound(board, table, SECOND_BYTES));
        if (second_unsound(board, table, SECOND_BYTES) != 0)
            good_noise = good_noise && call_word_on(table, session[1]).refusal == 1 &&
                         holders_refused(300, 16, 1) && second_runs(board, table, SECOND_BYTES, NULL, 0) == 1;
        else
            good_noise = good_noise && call_word_on(table, session[1]).clean;
    }
    check(good_noise, "noise: as in the model, nothing written to a table that is not sound");

    bool all = true;
    for (unsigned service = 1; service <= SERVICES; service++) {
        all = all && met[service][0] > 0 && met[service][2] > 0;
        for (unsigned i = 0; checks[service][i] != 0; i++)
            if (met[service][checks[service][i]] == 0) {
                printf("# service %u was not refused with %u\n", service, checks[service][i]);
                all = false;
            }
    }
    check(all, "every service was done, and refused with each of its numbers");
    for (unsigned k = 0; k < 12; k++)
        all = all && clauses[k] >= 10;
    check(all, "every clause was the lowest failing one");
    check(accepted > 10000 && deepest >= 10, "thousands of calls were accepted, ten levels deep");
    check(most_removed >= 5, "branches of five partitions were cleared out");
    check(most_packed >= 5, "five entries were packed at once");
}

/* ---- A sheet beside the table, request 108. ---- */

static uint64_t sheet_word(const uint8_t *sheet, unsigned n)
{
    uint64_t word = 0;
    for (unsigned i = 0; i < 8; i++)
        word = word << 8 | sheet[8 * n + i];
    return word;
}

/* Worked by hand from the session that 01 prints: the root has slots 0 to 3, child 1 and structure 0, and holds 256 to 1024, of which
 * 256 to 288 serve the kernel; child 1 has one entry of 224 lines in structure 0. */
static void test_sheet(void)
{
    uint8_t t[SECOND_BYTES], sheet[SECOND_SHEET_BYTES], was[SECOND_SHEET_BYTES];
    uint64_t second = 7;
    memset(t, 0xa5, sizeof t);
    memset(sheet, 0xa5, sizeof sheet);
    check(second_boot_sheet(t, sizeof t - 1, sheet, 255, 256, 1024) == 1 && second_boot_sheet(t, sizeof t, sheet, 255, 1024, 256) == 20 &&
              second_boot_sheet(t, sizeof t, sheet, sizeof sheet, 1024, 256) == 7 && t[0] == 0xa5 && sheet[0] == 0xa5,
          "sheet: boot gives 1, then 20, then 7, nothing written");
    check(second_boot_sheet(t, sizeof t, sheet, sizeof sheet, 256, 1024) == 0 && sheet_word(sheet, 0) == UINT64_C(0x0000000000011000) &&
              sheet_word(sheet, 1) == UINT64_C(0x00006000000c0000) && sheet_word(sheet, 2) == 0 && sheet_word(sheet, 31) == 0,
          "sheet: boot writes it from any content");
    bool done = true;
    for (unsigned i = 1; i < 7; i++)
        done = (second_call_sheet(SECOND_V7, t, sizeof t, sheet, sizeof sheet, session[i], &second) & 0xff) == 0 && done;
    check(done && sheet_word(sheet, 0) == UINT64_C(0x00020000000f1000) && sheet_word(sheet, 1) == UINT64_C(0x00006000000b8000) &&
              sheet_word(sheet, 2) == UINT64_C(0x0000000000011000) && sheet_word(sheet, 3) == UINT64_C(0x00001c0000038000) &&
              sheet_word(sheet, 4) == 0,
          "sheet: the words after the printed session");
    memcpy(was, sheet, sizeof was);
    check(second_call_sheet(SECOND_V7, t, sizeof t, sheet, 255, session[7], &second) == 20 &&
              second_call_sheet(SECOND_V7, t, sizeof t, sheet, 257, 0, &second) == 20 && memcmp(was, sheet, sizeof was) == 0,
          "sheet: 20 for another length, before 2");
    sheet[255] ^= 1;
    check(second_call_sheet(SECOND_V7, t, sizeof t, sheet, sizeof sheet, 0, &second) == 20 && sheet[255] == 1, "sheet: 20 for one bit");
    sheet[255] ^= 1;
    t[8] ^= 0x80;
    check(second_call_sheet(SECOND_V7, t, sizeof t, sheet, 3, 0, &second) == 1, "sheet: 1 before 20");
}

/* ---- The line engine, request 110. ---- */

static uint16_t masks[SECOND_ENGINE_LINES + 8];

static void paint_masks(void)
{
    for (unsigned i = 0; i < SECOND_ENGINE_LINES + 8; i++)
        masks[i] = 0xa5a5;
}

static bool masks_are(unsigned from, unsigned to, uint16_t mask)
{
    bool good = true;
    for (unsigned i = from; i < to; i++)
        good = good && masks[i] == mask;
    return good;
}

static void test_engine(void)
{
    const uint64_t most = UINT64_C(0xffffffffffffffff);
    paint_masks();
    check(second_engine_start(masks, 8, 5, 5) == 21 && second_engine_start(masks, 8, 6, 5) == 21 &&
              second_engine_start(masks, 8, 0, 9) == 21 && second_engine_start(masks, 2056, 0, 2049) == 21 &&
              second_engine_start(masks, 8, 0, most) == 21 && masks_are(0, 2056, 0xa5a5),
          "engine: 21 for memory that it doesn't take, nothing written");
    check(second_engine_start(masks, 2056, most - 2048, most) == 0 && masks_are(0, 2048, 1) && masks_are(2048, 2056, 0xa5a5),
          "engine: start takes 2,048 lines anywhere, masks past them stay");
    paint_masks();
    check(second_engine_start(masks, 10, 100, 108) == 0 && second_engine_give(masks, 10, 100, 108, 3, 102, 105) == 0 &&
              second_engine_give(masks, 10, 100, 108, 15, 104, 108) == 0 && masks_are(0, 2, 1) && masks_are(2, 4, 9) &&
              masks[4] == 0x8009 && masks_are(5, 8, 0x8001) && masks_are(8, 10, 0xa5a5),
          "engine: give enters the child from to to, to excluded");
    check(second_engine_give(masks, 10, 100, 108, 0, 102, 105) == 21 && second_engine_give(masks, 10, 100, 108, 16, 102, 105) == 21 &&
              second_engine_take(masks, 10, 100, 108, 3, 105, 105) == 21 && second_engine_take(masks, 10, 100, 108, 3, 99, 105) == 21 &&
              second_engine_take(masks, 10, 100, 108, 3, 102, 109) == 21 && second_engine_strike(masks, 10, 100, 108, 1) == 21 &&
              second_engine_strike(masks, 10, 100, 108, 0x10000) == 21 && second_engine_strike(masks, 7, 100, 108, 8) == 21 &&
              masks_are(2, 4, 9) && masks_are(5, 8, 0x8001),
          "engine: 21 for a child that isn't 1 to 15 and for no block of that memory");
    check(second_engine_take(masks, 10, 100, 108, 3, 102, 104) == 0 && masks_are(0, 4, 1) && masks[4] == 0x8009 &&
              second_engine_strike(masks, 10, 100, 108, 0) == 0 && masks[4] == 0x8009 &&
              second_engine_strike(masks, 10, 100, 108, 0x8008) == 0 && masks_are(0, 8, 1) && masks_are(8, 10, 0xa5a5),
          "engine: take and strike clear, all members at once");
}

int main(void)
{
    test_tally();
    test_list();
    test_lengths();
    test_refusal_1_and_2();
    test_create_and_delete();
    test_full();
    test_prepare_and_collect();
    test_give_take_cut_merge();
    test_lending_whole();
    test_pieces();
    test_limit_of_pieces();
    test_one_service_for_a_region();
    test_regions_find_switch();
    test_clear_out_refusals();
    test_clear_out_of_one();
    test_clear_out_of_a_branch();
    test_clear_out_of_a_chain();
    test_pack();
    test_how_far();
    test_clauses();
    test_generated();
    test_sheet();
    test_engine();
    printf("%u passed, %u failed\n", passed, failed);
    return failed == 0 ? 0 : 1;
}
