/*
 * Ulavrepit: the tables of a separation kernel, kept by a proved library (libulavrepit.a).
 *
 * Memory is counted in lines of 32 bytes. A block is start to end, end excluded. There are 16 partitions in a
 * tree; 0 is the root. Each has 4 structures of 8 slots (slots 0 to 31) and 8 regions. The board is an ARMv7-M: a
 * region of its MPU has a power of two of bytes, 32 or more, and lies at a multiple of them. For an ARMv8-M there is a
 * library with the same functions and two more: its header is ulavrepit8.h.
 *
 * The table is 5,128 bytes of your memory; the library keeps nothing of its own and may be called from any
 * context, but only once at a time for one table. Whatever relies on the table reads all of it and refuses (1) one that
 * is not sound, so a damaged table does no harm. (Boot writes it whatever it held, check says why it is not sound, and the
 * line engine has memory of its own.) A refusal changes no byte of any buffer.
 */
#ifndef ULAVREPIT_H
#define ULAVREPIT_H

#include <stdint.h>

#ifdef __cplusplus
extern "C" {
#endif

enum {
    ULAVREPIT_TABLE_BYTES = 5128,
    ULAVREPIT_SHEET_BYTES = 256,
    ULAVREPIT_PARTITIONS = 16,
    ULAVREPIT_STRUCTURES = 4,
    ULAVREPIT_SLOTS = 32,
    ULAVREPIT_REGIONS = 8,
    ULAVREPIT_LINE_BYTES = 32,
    ULAVREPIT_LAST_LINE = 134217727, /* the highest number that a boot may name as its end */
    ULAVREPIT_AREA_LINES = 16,       /* a block that is to serve the kernel has so many lines or more */
    ULAVREPIT_HOLDERS_BYTES = 16,    /* a list for holders has so many bytes or more */
    ULAVREPIT_RUNS = 512,            /* no sound table has more runs */
    ULAVREPIT_LOOKS = 512,           /* no listing of holders looks at more slot words */
    ULAVREPIT_PIECES = 52,           /* no entry has more pieces */
    ULAVREPIT_ENGINE_LINES = 2048    /* the line engine takes memory of so many lines or fewer */
};

/* Rights of an entry, to be added up. */
enum { ULAVREPIT_EXECUTE = 1, ULAVREPIT_WRITE = 2, ULAVREPIT_READ = 4, ULAVREPIT_ALL_RIGHTS = 7 };

/* The services. The caller is the table's current partition. */
enum {
    ULAVREPIT_CREATE = 1,
    ULAVREPIT_DELETE = 2,
    ULAVREPIT_PREPARE = 3,
    ULAVREPIT_COLLECT = 4,
    ULAVREPIT_GIVE = 5,
    ULAVREPIT_TAKE = 6,
    ULAVREPIT_CUT = 7,
    ULAVREPIT_MERGE = 8,
    ULAVREPIT_LOAD = 9, /* with R = 1 it unloads; there is no service 10 */
    ULAVREPIT_READ_REGION = 11,
    ULAVREPIT_FIND = 12,
    ULAVREPIT_SWITCH = 13,
    ULAVREPIT_CLEAR_OUT = 14,
    ULAVREPIT_PACK = 15
};

/* Refusal numbers. Where several apply, the lowest is given, but for 20, which comes next after 1. */
enum {
    ULAVREPIT_DONE = 0,
    ULAVREPIT_REFUSED_TABLE = 1,          /* not 5,128 bytes, or not sound (boot, check: length only) */
    ULAVREPIT_REFUSED_WORD = 2,           /* no such service, a zero bit set, a field that it doesn't use not 0 (W is
                                             give's alone); service 9: R above 1, or R = 1 and S not 0 */
    ULAVREPIT_REFUSED_PARTITION = 3,      /* P is not as the service says */
    ULAVREPIT_REFUSED_NO_ENTRY = 4,       /* slot S (merge: S or T) is no entry; structure T absent or above 3;
                                             pieces: also an absent partition, or a number out of range */
    ULAVREPIT_REFUSED_NOT_OPEN = 5,       /* a line of the entry serves the kernel */
    ULAVREPIT_REFUSED_GIVEN = 6,          /* the entry is given already; take: it is not given */
    ULAVREPIT_REFUSED_LINE = 7,           /* find, holders: line outside; cut: not start < line < end;
                                             boot: no such range */
    ULAVREPIT_REFUSED_FULL = 8,           /* no partition, structure or slot is free */
    ULAVREPIT_REFUSED_SHORT = 9,          /* the entry has less than 16 lines */
    ULAVREPIT_REFUSED_RIGHTS = 10,        /* R has a right that the entry lacks */
    ULAVREPIT_REFUSED_APART = 11,         /* S doesn't end where T starts */
    ULAVREPIT_REFUSED_TWO_GRANTS = 12,    /* no one entry that the parent gave contains both */
    /* 13 is withdrawn and not used again */
    ULAVREPIT_REFUSED_IN_PIECES = 14,     /* the child has no open, not-given entry of exactly that range */
    ULAVREPIT_REFUSED_IN_USE = 15,        /* P has a child; the structure has an entry, or is the root's first */
    ULAVREPIT_REFUSED_REGION = 16,        /* T above 7; S already in another region */
    ULAVREPIT_REFUSED_LIST = 17,          /* the list is too short */
    ULAVREPIT_REFUSED_WHOLE = 18,         /* create, prepare, give, cut: the entry is lent whole */
    ULAVREPIT_REFUSED_PIECES = 19,        /* load: the partition's loaded entries would have more than 8 pieces */
    ULAVREPIT_REFUSED_SHEET = 20,         /* not 256 bytes or, except at boot, not the table's; next after 1 */
    ULAVREPIT_REFUSED_ENGINE = 21         /* the line engine alone gives it, and no other number */
};

/* ---- the library ---- */

/*
 * Each answers  refusal + 2^8 * caller + 2^32 * first;  bits 16 to 31 are zero. Refusal 0: done. The caller's
 * number is the one before the call; it is 0 where refusal is 1, and for boot (with a sheet or without), holders, runs,
 * pieces and check. Refused: first is 0, and *second, which is lent memory, stays as it was; it is written only when done.
 * Pointers are never null; buffers don't overlap.
 */

/* Rewrites the whole table, whatever it holds: base to end, all of it the root's. First 0. */
uint64_t ulavrepit_boot(uint8_t *table, uint64_t table_len, uint64_t base, uint64_t end);

/* Carries out one call word. First and second are as its service says, below. */
uint64_t ulavrepit_call(uint8_t *table, uint64_t table_len, uint64_t word, uint64_t *second);

/*
 * Who holds a line: the first n bytes of the list become the partitions' numbers, root first, and the rest
 * stay. First is n. A partition that is not listed cannot reach the line.
 *
 * Second is how many slot words the listing looked at, to size the time of a fault handler: the record of each of
 * the n holders is searched once, from slot 0 up to the slot whose entry holds the line, that slot and empty ones
 * counted. It is n or more, and at most ULAVREPIT_LOOKS, which is reached by a chain of 16 partitions with the line
 * in the last slot of each. A line in low slots, and few levels, make it small. Beside it stands, in every call, the
 * reading and checking of the whole table, which does not depend on the line.
 */
uint64_t ulavrepit_holders(const uint8_t *table, uint64_t table_len, uint64_t line,
                           uint8_t *list, uint64_t list_len, uint64_t *second);

/* Lines start to end, end excluded, with the same holders; the deepest of them, which decides who the others are. */
typedef struct {
    uint32_t start, end, deepest;
} ulavrepit_run;

/*
 * Each longest run of lines with the same holders, in rising order: the first n records of the list, whose
 * length is counted in records; those past them stay. First is n.
 */
uint64_t ulavrepit_runs(const uint8_t *table, uint64_t table_len, ulavrepit_run *list, uint64_t list_len);

/*
 * The regions of the MPU that an entry takes: the fewest pieces that cover it exactly, each a power of two of lines at a
 * multiple of it, in rising order. The first n words of the list, whose length is counted in words, become
 * start * 2^32 + lines (ulavrepit_unpack_piece, below), and those past them stay. First is n, at most ULAVREPIT_PIECES.
 * The entry may be loaded or not, open or not. Those that a partition has loaded have at most 8 pieces together, one for
 * each region of the MPU: load refuses (19) what would make them more.
 */
uint64_t ulavrepit_pieces(const uint8_t *table, uint64_t table_len, uint64_t partition, uint64_t slot, uint64_t *list,
                          uint64_t list_len);

/* ---- the verdict on an image ---- */

/*
 * For whoever makes tables without boot and calls: why a table is refused 1. Nothing is written. Refused 1: not 5,128
 * bytes. Else done, and first is 0 for a sound table; for another it is 16 * clause + partition: the lowest of S1 to S11
 * that fails (docs/SOUND.md has their words) and the lowest partition where it fails, 0 for word 0. Of a grant that is
 * badly covered that is the child, of two areas that share a line the lower owner.
 */
uint64_t ulavrepit_check(const uint8_t *table, uint64_t table_len);
/* ---- a sheet beside the table ---- */

/*
 * Diagnostics need not scan the table: keep 256 bytes beside it, two words a partition, and call these two in place of
 * boot and call. Both answer as those do, and leave in the sheet what each partition has, by the table that they leave;
 * ulavrepit_sheet_of, below, reads it. A call is refused 20 where the sheet is not that of the table, which never comes up
 * as long as no one else writes into either. A refusal changes neither.
 */

/* Writes both, whatever they hold. */
uint64_t ulavrepit_boot_sheet(uint8_t *table, uint64_t table_len, uint8_t *sheet, uint64_t sheet_len, uint64_t base,
                              uint64_t end);

uint64_t ulavrepit_call_sheet(uint8_t *table, uint64_t table_len, uint8_t *sheet, uint64_t sheet_len, uint64_t word,
                              uint64_t *second);

/* ---- the line engine ---- */

/*
 * Who holds which line once more, in the plainest way: n masks of 16 bits, which you lend. Mask i is that of line
 * base + i, its bit p says whether partition p holds it; masks past the lines of base to end stay. It knows nothing of
 * slots. Drive it by what ulavrepit_call accepts: then each mask names exactly the partitions that holders lists.
 * docs/LINES.md has it in one page.
 *
 * Each answers 0, or 21 and writes nothing: if base is not below end, the lines are more than 2,048, the masks are
 * fewer than the lines, a child is not 1 to 15, or not base <= from < to <= end. Of members, bit 0 and the bits from 16
 * on must be clear, else 21; 0 is done and changes nothing.
 *
 * Child, lines and members are to be known before the call: once it is accepted, the given of the entry that take
 * names is 0, and the records of those who go by delete or clear out are zero.
 */

/* Boot: the root alone holds every line. */
uint64_t ulavrepit_engine_start(uint16_t *masks, uint64_t n, uint64_t base, uint64_t end);

/* Give: the child holds the lines of the entry too, from to to, to excluded. */
uint64_t ulavrepit_engine_give(uint16_t *masks, uint64_t n, uint64_t base, uint64_t end, uint64_t child, uint64_t from,
                               uint64_t to);

/* Take: the child that had them, the given of the entry before the call, holds its lines no more. */
uint64_t ulavrepit_engine_take(uint16_t *masks, uint64_t n, uint64_t base, uint64_t end, uint64_t child, uint64_t from,
                               uint64_t to);

/*
 * Delete and clear out: who goes holds no line. Bit p of members is partition p: of delete P alone, of clear out P and
 * every partition below it, by the parents before the call.
 */
uint64_t ulavrepit_engine_strike(uint16_t *masks, uint64_t n, uint64_t base, uint64_t end, uint64_t members);

/* ---- the same, with a struct for an answer ---- */

typedef struct {
    uint32_t refusal, caller, first;
    uint64_t second; /* 0 where refused */
} ulavrepit_answer;

static inline ulavrepit_answer ulavrepit_unpack_answer(uint64_t result, uint64_t second)
{
    ulavrepit_answer answer;
    answer.refusal = (uint32_t)(result & 0xff);
    answer.caller = (uint32_t)(result >> 8 & 0xff);
    answer.first = (uint32_t)(result >> 32);
    answer.second = second;
    return answer;
}

static inline ulavrepit_answer ulavrepit_boot_answer(uint8_t *table, uint64_t table_len, uint64_t base, uint64_t end)
{
    return ulavrepit_unpack_answer(ulavrepit_boot(table, table_len, base, end), 0);
}

static inline ulavrepit_answer ulavrepit_call_answer(uint8_t *table, uint64_t table_len, uint64_t word)
{
    uint64_t second = 0;
    uint64_t result = ulavrepit_call(table, table_len, word, &second);
    return ulavrepit_unpack_answer(result, second);
}

static inline ulavrepit_answer ulavrepit_boot_sheet_answer(uint8_t *table, uint64_t table_len, uint8_t *sheet,
                                                           uint64_t sheet_len, uint64_t base, uint64_t end)
{
    return ulavrepit_unpack_answer(ulavrepit_boot_sheet(table, table_len, sheet, sheet_len, base, end), 0);
}

static inline ulavrepit_answer ulavrepit_call_sheet_answer(uint8_t *table, uint64_t table_len, uint8_t *sheet,
                                                           uint64_t sheet_len, uint64_t word)
{
    uint64_t second = 0;
    uint64_t result = ulavrepit_call_sheet(table, table_len, sheet, sheet_len, word, &second);
    return ulavrepit_unpack_answer(result, second);
}

static inline ulavrepit_answer ulavrepit_holders_answer(const uint8_t *table, uint64_t table_len, uint64_t line,
                                                        uint8_t *list, uint64_t list_len)
{
    uint64_t second = 0;
    uint64_t result = ulavrepit_holders(table, table_len, line, list, list_len, &second);
    return ulavrepit_unpack_answer(result, second);
}

static inline ulavrepit_answer ulavrepit_runs_answer(const uint8_t *table, uint64_t table_len,
                                                     ulavrepit_run *list, uint64_t list_len)
{
    return ulavrepit_unpack_answer(ulavrepit_runs(table, table_len, list, list_len), 0);
}

static inline ulavrepit_answer ulavrepit_pieces_answer(const uint8_t *table, uint64_t table_len, uint64_t partition,
                                                       uint64_t slot, uint64_t *list, uint64_t list_len)
{
    return ulavrepit_unpack_answer(ulavrepit_pieces(table, table_len, partition, slot, list, list_len), 0);
}

typedef struct {
    uint32_t refusal;           /* 1: not 5,128 bytes */
    uint32_t clause, partition; /* 0, 0 where refused, and for a sound table; else 1 to 11, and 0 to 15 */
} ulavrepit_verdict;

static inline ulavrepit_verdict ulavrepit_unpack_verdict(uint64_t result)
{
    ulavrepit_verdict verdict;
    verdict.refusal = (uint32_t)(result & 0xff);
    verdict.clause = (uint32_t)(result >> 36);
    verdict.partition = (uint32_t)(result >> 32 & 15);
    return verdict;
}

/* ---- call words: service 4, P 4, S 5, T 5, R 3, L 27, W 1, zero 15 bits, most significant first ---- */

/* What the packers answer for a field too wide: no call, refused with 2 (with 1 or 20 where those come before it). */
#define ULAVREPIT_NO_CALL UINT64_C(0xffffffffffffffff)

static inline uint64_t ulavrepit_word(uint32_t service, uint32_t partition, uint32_t slot, uint32_t other,
                                      uint32_t rights, uint32_t line)
{
    if (service > 15 || partition > 15 || slot > 31 || other > 31 || rights > 7 || line > ULAVREPIT_LAST_LINE)
        return ULAVREPIT_NO_CALL;
    return (uint64_t)service << 60 | (uint64_t)partition << 56 | (uint64_t)slot << 51 | (uint64_t)other << 46 |
           (uint64_t)rights << 43 | (uint64_t)line << 16;
}

/* W: to be added to the word of a give. */
enum { ULAVREPIT_WHOLE = 0x8000 };

/* A new child, whose record lies in the caller's entry. First: the child's number. */
static inline uint64_t ulavrepit_create(uint32_t slot)
{
    return ulavrepit_word(ULAVREPIT_CREATE, 0, slot, 0, 0, 0);
}

/* The child goes, if it has no child itself, and what it was given is left to the caller and those above. */
static inline uint64_t ulavrepit_delete(uint32_t child)
{
    return ulavrepit_word(ULAVREPIT_DELETE, child, 0, 0, 0, 0);
}

/* Eight slots more for the caller or a child, kept in the caller's entry. First: the structure's number. */
static inline uint64_t ulavrepit_prepare(uint32_t partition, uint32_t slot)
{
    return ulavrepit_word(ULAVREPIT_PREPARE, partition, slot, 0, 0, 0);
}

/* An empty structure goes, and the memory that it lay in is open again. */
static inline uint64_t ulavrepit_collect(uint32_t partition, uint32_t structure)
{
    return ulavrepit_word(ULAVREPIT_COLLECT, partition, 0, structure, 0, 0);
}

/* The child holds the block too, with these rights. First: its slot in the child. */
static inline uint64_t ulavrepit_give(uint32_t child, uint32_t slot, uint32_t rights)
{
    return ulavrepit_word(ULAVREPIT_GIVE, child, slot, 0, rights, 0);
}

/*
 * The same, and the child's entry has the whole mark: it is found and loaded, but neither cut nor given on, and no child or
 * structure is made of it. So taking it back is never refused 14. Lend whole what you must have back, such as a buffer; give
 * what the child is to make its own.
 */
static inline uint64_t ulavrepit_give_whole(uint32_t child, uint32_t slot, uint32_t rights)
{
    return ulavrepit_give(child, slot, rights) | ULAVREPIT_WHOLE; /* no call stays no call */
}

/* A block that was given comes back, if the child has it in one piece, open and not given on. */
static inline uint64_t ulavrepit_take(uint32_t slot)
{
    return ulavrepit_word(ULAVREPIT_TAKE, 0, slot, 0, 0, 0);
}

/* The entry ends at the line, and a region that named it names nothing; a new one starts there. First: the new one's slot. */
static inline uint64_t ulavrepit_cut(uint32_t slot, uint32_t line)
{
    return ulavrepit_word(ULAVREPIT_CUT, 0, slot, 0, 0, line);
}

/* The entry and the one that starts where it ends become one, in slot; regions that named either name nothing. */
static inline uint64_t ulavrepit_merge(uint32_t slot, uint32_t next_slot)
{
    return ulavrepit_word(ULAVREPIT_MERGE, 0, slot, next_slot, 0, 0);
}

/* The region of the caller or a child names that partition's slot, if all that it has loaded then has at most 8 pieces. */
static inline uint64_t ulavrepit_load(uint32_t partition, uint32_t slot, uint32_t region)
{
    return ulavrepit_word(ULAVREPIT_LOAD, partition, slot, region, 0, 0);
}

/* The region names nothing: service 9 with R = 1. */
static inline uint64_t ulavrepit_unload(uint32_t partition, uint32_t region)
{
    return ulavrepit_word(ULAVREPIT_LOAD, partition, 0, region, 1, 0);
}

/* Second: the word of the entry that the region names, or 0. */
static inline uint64_t ulavrepit_read_region(uint32_t partition, uint32_t region)
{
    return ulavrepit_word(ULAVREPIT_READ_REGION, partition, 0, region, 0, 0);
}

/* The entry of the caller or a child that holds the line. First: its slot; second: its word. */
static inline uint64_t ulavrepit_find(uint32_t partition, uint32_t line)
{
    return ulavrepit_word(ULAVREPIT_FIND, partition, 0, 0, 0, line);
}

/* The parent or a child becomes the current partition. */
static inline uint64_t ulavrepit_switch(uint32_t partition)
{
    return ulavrepit_word(ULAVREPIT_SWITCH, partition, 0, 0, 0, 0);
}

/*
 * The child goes with all it started: its children, theirs, and so on. What it was given is left to the caller and
 * those above, and the memory in which their records and structures lay is open. First: how many partitions went,
 * the child counted.
 */
static inline uint64_t ulavrepit_clear_out(uint32_t child)
{
    return ulavrepit_word(ULAVREPIT_CLEAR_OUT, child, 0, 0, 0, 0);
}

/*
 * The entries of the caller, or of a child, move to its lowest slots in present structures, in unchanged slot order, and
 * its regions follow them: so each structure that is not needed has no entry and can be collected. Slot numbers that were
 * noted are to be looked up anew. First: how many entries moved.
 */
static inline uint64_t ulavrepit_pack(uint32_t partition)
{
    return ulavrepit_word(ULAVREPIT_PACK, partition, 0, 0, 0, 0);
}

/* ---- entry words, as find and read region answer them ---- */

typedef struct {
    uint32_t present, open; /* 0 or 1; open: no line of it serves the kernel */
    uint32_t rights;        /* ULAVREPIT_READ + .. */
    uint32_t given;         /* the child that holds it too, or 0 */
    uint32_t start, end;
    uint32_t whole; /* 0 or 1; lent whole by the parent */
} ulavrepit_entry;

static inline ulavrepit_entry ulavrepit_unpack_entry(uint64_t word)
{
    ulavrepit_entry entry;
    entry.present = (uint32_t)(word >> 63);
    entry.open = (uint32_t)(word >> 62 & 1);
    entry.rights = (uint32_t)(word >> 59 & 7);
    entry.given = (uint32_t)(word >> 55 & 15);
    entry.start = (uint32_t)(word >> 28 & ULAVREPIT_LAST_LINE);
    entry.end = (uint32_t)(word >> 1 & ULAVREPIT_LAST_LINE);
    entry.whole = (uint32_t)(word & 1);
    return entry;
}

/* ---- pieces, and the registers of an ARMv7-M's MPU for them ---- */

typedef struct {
    uint32_t start, lines; /* on ARMv7-M lines is a power of two, and start a multiple of it; on ARMv8-M a piece is the entry */
} ulavrepit_piece;

static inline ulavrepit_piece ulavrepit_unpack_piece(uint64_t word)
{
    ulavrepit_piece piece;
    piece.start = (uint32_t)(word >> 32);
    piece.lines = (uint32_t)word;
    return piece;
}

/* MPU_RBAR: the address. VALID is 0, so the region is the one that MPU_RNR names. */
static inline uint32_t ulavrepit_rbar(ulavrepit_piece piece)
{
    return piece.start * ULAVREPIT_LINE_BYTES;
}

/*
 * MPU_RASR of a piece of an entry with these rights: XN (bit 28), AP (26 to 24), SIZE (5 to 1), ENABLE (0). Unprivileged code
 * may do what the rights say, but for this: what it may not read, it may neither write nor execute. Privileged code reads and
 * writes. TEX, S, C, B and the subregions' bits are 0: add what suits the memory.
 */
static inline uint32_t ulavrepit_rasr(ulavrepit_piece piece, uint32_t rights)
{
    uint32_t access = !(rights & ULAVREPIT_READ) ? 1 : rights & ULAVREPIT_WRITE ? 3 : 2;
    uint32_t never_execute = !(rights & ULAVREPIT_EXECUTE);
    uint32_t size = 4; /* 2^(size + 1) bytes: a line has 32 */
    while (piece.lines >> (size - 4) > 1)
        size++;
    return never_execute << 28 | access << 24 | size << 1 | 1;
}

/* ---- what a sheet says of a partition: two words, each most significant byte first ---- */

typedef struct {
    uint32_t children;   /* bit p: partition p is a child of it */
    uint32_t slots;      /* bit i: slot i has an entry */
    uint32_t structures; /* bit j: structure j is present */
    uint32_t held, open; /* lines in its entries; of these, lines in its open entries */
} ulavrepit_sheet_pair;

/* The first word: children 16, slots 32, structures 4, zero 12; the second: held 27, open 27, zero 10. */
static inline ulavrepit_sheet_pair ulavrepit_unpack_pair(uint64_t masks, uint64_t lines)
{
    ulavrepit_sheet_pair pair;
    pair.children = (uint32_t)(masks >> 48);
    pair.slots = (uint32_t)(masks >> 16 & 0xffffffff);
    pair.structures = (uint32_t)(masks >> 12 & 15);
    pair.held = (uint32_t)(lines >> 37);
    pair.open = (uint32_t)(lines >> 10 & ULAVREPIT_LAST_LINE);
    return pair;
}

static inline uint64_t ulavrepit_sheet_word(const uint8_t *sheet, uint32_t n)
{
    uint64_t word = 0;
    for (uint32_t i = 0; i < 8; i++)
        word = word << 8 | sheet[8 * n + i];
    return word;
}

/* Partition p, 0 to 15: all zero where it is absent, or has nothing yet; that it is present its parent's children tell. */
static inline ulavrepit_sheet_pair ulavrepit_sheet_of(const uint8_t *sheet, uint32_t p)
{
    return ulavrepit_unpack_pair(ulavrepit_sheet_word(sheet, 2 * p), ulavrepit_sheet_word(sheet, 2 * p + 1));
}

#ifdef __cplusplus
}
#endif

#endif
