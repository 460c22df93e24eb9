/*
 * A region's register pair on ARMv8-M (document 02, request 107), on the library as it is linked, against values that are
 * worked out here from the manual's fields: RBAR is base address, shareability 4:3, access 2:1, execute-never 0; RLAR is
 * limit address, reserved 4, attribute 3:1, enable 0. Lines that begin with # are for the reader; the others are one check each.
 */
#include "check.h"
#include "lent.h"
#include "session.h"
#include "ulavrepit8.h"

enum { UNTOUCHED = 0x5a5a5a5a };
static const uint64_t untouched_word = UINT64_C(0x5a5a5a5a5a5a5a5a);

/* ---- from the manual ---- */

static bool tells_an_entry(uint32_t rbar, uint32_t rlar)
{
    uint64_t base = rbar & ~UINT32_C(31), last = rlar | 31u;
    uint32_t access = rbar >> 1 & 3;
    return (rbar >> 3 & 3) == 0 && (access == 1 || access == 3) && (rlar >> 4 & 1) == 0 && (rlar >> 1 & 7) == 0 &&
           (rlar & 1) == 1 && base <= last && (last + 1) / 32 <= ULAVREPIT_LAST_LINE;
}

static uint64_t entry_told(uint32_t rbar, uint32_t rlar)
{
    uint64_t base = rbar & ~UINT32_C(31), last = rlar | 31u;
    uint64_t rights = UINT64_C(4) | ((rbar >> 1 & 3) == 1 ? 2u : 0u) | ((rbar & 1) == 0 ? 1u : 0u);
    return UINT64_C(3) << 62 | rights << 59 | base / 32 << 28 | (last + 1) / 32 << 1;
}

/* ---- reading: bases and limits at both ends of memory, with all low bits of both registers ---- */

static void read_all(void)
{
    static const uint32_t lines[] = {0, 1, 2, ULAVREPIT_LAST_LINE - 2, ULAVREPIT_LAST_LINE - 1, ULAVREPIT_LAST_LINE};
    const unsigned count = sizeof lines / sizeof lines[0];
    unsigned long pairs = 0, entries = 0, wrong_answers = 0, wrong_words = 0, written = 0;
    for (unsigned i = 0; i < count * count * 32 * 32; i++) {
        uint32_t rbar = lines[i / (count * 1024)] * 32 + i / 32 % 32, rlar = lines[i / 1024 % count] * 32 + i % 32;
        uint64_t entry = untouched_word, answer = ulavrepit_region_read(rbar, rlar, &entry);
        bool good = tells_an_entry(rbar, rlar);
        pairs++;
        entries += good;
        wrong_answers += answer != (good ? 0u : ULAVREPIT_REFUSED_PAIR);
        wrong_words += good && entry != entry_told(rbar, rlar);
        written += !good && entry != untouched_word;
    }
    printf("# %lu pairs, of which %lu tell an entry\n", pairs, entries);
    check(entries > 0 && wrong_answers == 0, "22 exactly where the manual's fields tell no readable entry");
    check(wrong_words == 0, "each entry word is that of the fields");
    check(written == 0, "a refusal writes nothing");
}

/* ---- writing: every slot of a table, and numbers past them ---- */

static lent m;

static bool calls(const uint64_t *words, unsigned count)
{
    bool all = true;
    for (unsigned i = 0; i < count; i++) {
        uint64_t second;
        all = (ulavrepit_call(m.table, sizeof m.table, words[i], &second) & 0xff) == 0 && all;
    }
    return all;
}

static bool one_slot(unsigned p, unsigned s, unsigned long *met)
{
    uint32_t rbar = UNTOUCHED, rlar = UNTOUCHED;
    uint64_t back = untouched_word, answer = ulavrepit_region_write(m.table, sizeof m.table, p, s, &rbar, &rlar);
    bool inside = p < ULAVREPIT_PARTITIONS && s < ULAVREPIT_SLOTS;
    ulavrepit_entry e = ulavrepit_unpack_entry(inside ? table_word(m.table, slot_at(p, s)) : 0);
    unsigned refusal = !e.present ? 4 : (e.rights & ULAVREPIT_READ) == 0 ? ULAVREPIT_REFUSED_PAIR : 0;
    met[refusal]++;
    if (answer != refusal)
        return false;
    if (refusal != 0)
        return rbar == UNTOUCHED && rlar == UNTOUCHED;
    return rbar == (e.start * 32 | (e.rights & ULAVREPIT_WRITE ? 1u : 3u) << 1 | (e.rights & ULAVREPIT_EXECUTE ? 0u : 1u)) &&
           rlar == ((e.end - 1) * 32 | 1u) && tells_an_entry(rbar, rlar) &&
           ulavrepit_region_read(rbar, rlar, &back) == 0 && back == entry_told(rbar, rlar);
}

static void write_all(void)
{
    /* after 01's session: two more blocks for partition 1, one to write only and one to read and execute */
    const uint64_t more[] = {ulavrepit_cut(1, 600), ulavrepit_give(1, 1, ULAVREPIT_WRITE), ulavrepit_cut(4, 700),
                             ulavrepit_give(1, 4, ULAVREPIT_READ | ULAVREPIT_EXECUTE)};
    unsigned long met[ULAVREPIT_REFUSED_PAIR + 1] = {0};
    uint32_t rbar = UNTOUCHED, rlar = UNTOUCHED;
    bool good = true;
    paint(&m);
    ulavrepit_boot(m.table, sizeof m.table, SESSION_BASE, SESSION_END);
    for (unsigned i = 0; i < SESSION_CALLS; i++) {
        uint64_t second;
        ulavrepit_call(m.table, sizeof m.table, session[i].word, &second);
    }
    check(ulavrepit_region_write(m.table, sizeof m.table, 1, 0, &rbar, &rlar) == 0 && rbar == 0x2403 && rlar == 0x3fe1,
          "f000001200000400 is RBAR 00002403, RLAR 00003fe1");
    check(calls(more, sizeof more / sizeof more[0]), "two more blocks are given");
    for (unsigned p = 0; p < ULAVREPIT_PARTITIONS + 3; p++)
        for (unsigned s = 0; s < ULAVREPIT_SLOTS + 3; s++)
            good = one_slot(p, s, met) && good;
    printf("# %lu slots written, %lu refused 4, %lu refused 22\n", met[0], met[4], met[ULAVREPIT_REFUSED_PAIR]);
    check(good && met[0] > 0 && met[ULAVREPIT_REFUSED_PAIR] > 0, "each slot's pair, or its refusal, and it reads back");
    check(ulavrepit_region_write(m.table, sizeof m.table, UINT64_C(1) << 32, 0, &rbar, &rlar) == 4 &&
              ulavrepit_region_write(m.table, sizeof m.table, 0, UINT64_C(1) << 32, &rbar, &rlar) == 4,
          "numbers of 33 bits are out of range");
    rbar = rlar = UNTOUCHED;
    check(ulavrepit_region_write(m.table, sizeof m.table - 1, 1, 0, &rbar, &rlar) == 1 && rbar == UNTOUCHED,
          "5,127 bytes are refused 1");
    m.table[0] ^= 1;
    check(ulavrepit_region_write(m.table, sizeof m.table, 1, 0, &rbar, &rlar) == 1 && rbar == UNTOUCHED && rlar == UNTOUCHED,
          "a table that is not sound is refused 1");
    check(guards_kept(&m), "nothing else is written");
}

int main(void)
{
    read_all();
    write_all();
    return 0;
}
