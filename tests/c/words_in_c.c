/* The words of the library against a packing made from the table of words and from nothing else. It
 * prints a line for each group of checks; its exit status says only that it came to its end. */
#include <inttypes.h>
#include <stdio.h>
#include <stdlib.h>
#include <string.h>

/* The table: the widths of a word's parts, most significant first; one below 0 is of zero bits. */
#define REGION 1, -2, 5
#define KINDS(X) \
    X(first, 27, 27, 4, -6) \
    X(header, 1, 4, 27, 27, -5) \
    X(structure, 1, 27, 27, -9) \
    X(regions, REGION, REGION, REGION, REGION, REGION, REGION, REGION, REGION) \
    X(slot, 1, 1, 1, 1, 1, 4, 27, 27, 1) \
    X(call, 4, 4, 5, 5, 1, 1, 1, 27, 1, -15) \
    X(boot, 27, 27, -10)

/* The library's functions. A list has the fields of a word of any kind: regions have the most, 16. */
typedef uint32_t list[16];
#define SPREAD(f) f[0], f[1], f[2], f[3], f[4], f[5], f[6], f[7], f[8], f[9], f[10], f[11], f[12], f[13], f[14], f[15]
#define FOUR uint32_t, uint32_t, uint32_t, uint32_t
typedef void fields_fn(uint64_t, list);
typedef uint64_t read_fn(uint64_t, list), write_fn(FOUR, FOUR, FOUR, FOUR, uint64_t *);
struct kind { const char *name; int parts[25]; fields_fn *fields; read_fn *read; write_fn *write; };
#define DECLARED(k, ...) fields_fn k##_fields; read_fn k##_read; write_fn k##_write;
#define ROW(k, ...) {#k, {__VA_ARGS__}, k##_fields, k##_read, k##_write},
#define NUMBER(k, ...) k,
KINDS(DECLARED)
static const struct kind kinds[] = {KINDS(ROW)};
enum { KINDS(NUMBER) COUNT };

static const struct { int kind; uint64_t word; list fields; } printed[] = {
    {slot, 0xf800001000000800, {1, 1, 1, 1, 1, 0, 256, 1024, 0}},
    {slot, 0xf880001200000400, {1, 1, 1, 1, 1, 1, 288, 512, 0}},
    {slot, 0xf000001200000400, {1, 1, 1, 1, 0, 0, 288, 512, 0}},
    {slot, 0xf000001200000401, {1, 1, 1, 1, 0, 0, 288, 512, 1}},
    {call, 0x5118300000000000, {5, 1, 3, 0, 1, 1, 0, 0, 0}},
    {call, 0x5118300000008000, {5, 1, 3, 0, 1, 1, 0, 0, 1}},
    {boot, 0x0000200000100000, {256, 1024}},
};

static void unpack(const int *part, uint64_t w, uint32_t *f) {
    for (; *part; w <<= abs(*part++))
        if (*part > 0)
            *f++ = w >> (64 - *part);
}

static int has_zeros(const int *part) {
    while (*part > 0)
        part++;
    return *part < 0;
}

static uint64_t pack(const int *part, const uint32_t *f) {
    uint64_t w = 0;
    for (; *part; part++)
        w = w << abs(*part) | (*part > 0 ? *f++ : 0);
    return w;
}

/* 0, all ones, and then random words (xorshift64): in turn as they are, with no zero bit set, and so
 * with one bit turned. */
static uint64_t word(const int *parts, int i) {
    static uint64_t seed = 0x9e3779b97f4a7c15;
    seed ^= seed << 13, seed ^= seed >> 7, seed ^= seed << 17;
    uint64_t w = i < 3 * 64 ? 0 : i < 6 * 64 ? UINT64_MAX : seed;
    list f;
    unpack(parts, w, f);
    return i % 3 == 0 ? w : pack(parts, f) ^ (uint64_t)(i % 3 == 2) << i / 3 % 64;
}

enum { FIELDS, READINGS, REFUSALS, WRITINGS, MAXIMA, TOO_WIDE, GROUPS };
static const char *const names[] = {"fields", "readings", "refusals", "writings", "maxima", "too wide"};
static struct { unsigned all, wrong; uint64_t first; } seen[GROUPS];

static void check(int group, int right, uint64_t on) {
    seen[group].all++;
    if (!right && seen[group].wrong++ == 0)
        seen[group].first = on;
}

static int same(const list a, const list b) { return memcmp(a, b, sizeof(list)) == 0; }

static int writes(const struct kind *k, const list f, uint64_t w) {
    uint64_t back = ~w;
    return k->write(SPREAD(f), &back) == 0 && back == w;
}

static void check_word(const struct kind *k, uint64_t w) {
    list own, its[2]; /* no field is as wide as what is put there first: one that is not stored is seen */
    memset(own, 0xff, sizeof own), memset(its, 0xff, sizeof its);
    unpack(k->parts, w, own);
    uint64_t clean = pack(k->parts, own), answer = k->read(w, its[0]);
    if (w == clean)
        check(READINGS, answer == 0 && same(own, its[0]), w);
    else
        check(REFUSALS, answer == 2, w);
    k->fields(w, its[1]);
    check(FIELDS, same(own, its[1]), w);
    check(WRITINGS, writes(k, own, clean), w);
}

/* Each field at its most and beyond it, with the other fields of a word. */
static void check_limits(const struct kind *k, uint64_t others) {
    list most = {0}, f = {0};
    unpack(k->parts, UINT64_MAX, most);
    for (int n = 0; n < 16 && most[n]; n++) {
        uint64_t w;
        unpack(k->parts, others, f);
        f[n] = most[n];
        check(MAXIMA, writes(k, f, pack(k->parts, f)), f[n]);
        for (int i = 0; i < 2 && most[n] > 1; i++) { /* a flag is a bool there, and never too wide */
            f[n] = i ? UINT32_MAX : most[n] + 1;
            check(TOO_WIDE, k->write(SPREAD(f), &w) == 2, f[n]);
        }
    }
}

int main(void) {
    setvbuf(stdout, NULL, _IOLBF, BUFSIZ); /* where it dies, the lines before are there */
    for (const struct kind *k = kinds; k < kinds + COUNT; k++) {
        memset(seen, 0, sizeof seen);
        for (int i = 0; i < 300000; i++)
            check_word(k, word(k->parts, i));
        check_limits(k, 0), check_limits(k, UINT64_MAX);
        for (int g = 0; g < GROUPS; g++)
            if (g == REFUSALS && !has_zeros(k->parts))
                continue;
            else if (seen[g].all > 0 && seen[g].wrong == 0)
                printf("ok %s: %s, %u checks\n", k->name, names[g], seen[g].all);
            else
                printf("not ok %s: %s, %u of %u checks wrong, first on %" PRIx64 "\n",
                    k->name, names[g], seen[g].wrong, seen[g].all, seen[g].first);
    }
    for (size_t i = 0; i < sizeof printed / sizeof *printed; i++) {
        const struct kind *k = kinds + printed[i].kind;
        uint64_t w = printed[i].word;
        list its = {0};
        int good = k->read(w, its) == 0 && same(its, printed[i].fields) && writes(k, its, w);
        printf("%s %s: the printed word %016" PRIx64 "\n", good ? "ok" : "not ok", k->name, w);
    }
    return 0;
}
