/* test STDIN STDOUT CASES: calls the library as a web service would, and compares with what document 01 says. The first two files are case S
 * and the text that the document prints for it; the third has stored order files with their texts. Others are laid out by the
 * document's words. Late claims, of document 02, are compared with a build afresh. */
#include "layout.h"
#include <stdio.h>
#include <stdlib.h>
#include <string.h>

#define PATTERN UINT64_C(0xa5a5a5a5a5a5a5a5)
#define NUMBERS (2 * WHARFTHRUM_SLOTS)

static unsigned passed, failed;

static void expect(int held, const char *what)
{
    if (held) {
        passed++;
    } else {
        failed++;
        printf("failed: %s\n", what);
    }
}

/* ---- the calls ---- */

static uint64_t slots[NUMBERS];
static uint8_t text[WHARFTHRUM_TEXT];

static void read_file(Bytes *b, const char *path)
{
    FILE *f = fopen(path, "rb");
    if (!f) {
        perror(path);
        exit(2);
    }
    b->len = fread(b->at, 1, sizeof b->at, f);
    fclose(f);
}

static int untouched(size_t from)
{
    for (size_t i = from; i < NUMBERS; i++)
        if (slots[i] != PATTERN)
            return 0;
    return 1;
}

static WharfthrumReport build(const Bytes *file, size_t numbers)
{
    for (size_t i = 0; i < NUMBERS; i++)
        slots[i] = PATTERN;
    return wharfthrum_build(file->at, file->len, slots, numbers);
}

static uint64_t bits_of(double x)
{
    uint64_t bits;
    memcpy(&bits, &x, sizeof bits);
    return bits;
}

static int is_refusal(WharfthrumReport r, uint64_t number)
{
    return r.number == number && r.count == 0 && r.free == 0 && r.usable == 0 && r.has_share == 0 && bits_of(r.share) == 0;
}

static int prints(const Bytes *file, const uint8_t *said, size_t bytes)
{
    for (size_t i = 0; i < NUMBERS; i++)
        slots[i] = PATTERN;
    memset(text, 0xa5, sizeof text);
    size_t n = wharfthrum_report(file->at, file->len, slots, text);
    for (size_t i = n; i < sizeof text; i++)
        if (text[i] != 0xa5)
            return 0;
    return n == bytes && memcmp(text, said, bytes) == 0;
}

static int prints_words(const Bytes *file, const char *said)
{
    return prints(file, (const uint8_t *)said, strlen(said));
}

static WharfthrumMap map;

static WharfthrumReport build_map(const Bytes *file, size_t numbers)
{
    for (size_t i = 0; i < NUMBERS; i++)
        slots[i] = PATTERN;
    for (size_t i = 0; i < WHARFTHRUM_MAP; i++)
        map.numbers[i] = PATTERN;
    return wharfthrum_build_map(file->at, file->len, slots, numbers, &map);
}

/* Both builds answer the same and leave the same slots; the one that leaves its map leaves none where it refuses. */
static int builds_agree(const Bytes *file, size_t numbers)
{
    static uint64_t left[NUMBERS];
    WharfthrumReport a = build(file, numbers);
    memcpy(left, slots, sizeof left);
    WharfthrumReport b = build_map(file, numbers);
    int held = memcmp(left, slots, sizeof left) == 0;
    held = held && a.number == b.number && a.count == b.count && a.free == b.free && a.usable == b.usable;
    held = held && a.has_share == b.has_share && bits_of(a.share) == bits_of(b.share);
    for (size_t i = 0; b.number != 0 && i < WHARFTHRUM_MAP; i++)
        held = held && map.numbers[i] == PATTERN;
    return held && (b.number != 0 || map.numbers[WHARFTHRUM_MAP - 1] <= 512);
}

/* All calls refuse a file with its number, and nothing is written. */
static void refuses(const Bytes *file, uint64_t number, const char *what)
{
    char said[32];
    int n = snprintf(said, sizeof said, "refused %u\n", (unsigned)number);
    int held = is_refusal(build(file, NUMBERS), number) && untouched(0) && builds_agree(file, NUMBERS);
    held = held && wharfthrum_number(file->at, file->len) == number;
    held = held && prints(file, (const uint8_t *)said, (size_t)n) && untouched(0);
    expect(held, what);
}

static Bytes file, stored, blob, structure;

static void case_s(const char *stdin_path, const char *stdout_path)
{
    static const uint64_t areas[6] = {0, 0x100000, 0x300000, 0x100000, 0x402000, 0x3fe000};
    static const Entry list[1] = {{0, 0x800000, 1}};
    uint64_t pairs[5][2] = {{0}};
    pairs[KERNEL][0] = 0x100000, pairs[KERNEL][1] = 0x200000;
    pairs[STACK][0] = 0x400800, pairs[STACK][1] = 0x1000;
    order(&file, pairs, list, 1, NULL);
    read_file(&stored, stdin_path);
    expect(stored.len == file.len && memcmp(stored.at, file.at, file.len) == 0, "the stored file is case S");

    /* 8 numbers: one slot more than there are areas */
    WharfthrumReport r = build(&file, 8);
    expect(r.number == 0 && r.count == 3, "S: done, 3 areas");
    expect(memcmp(slots, areas, sizeof areas) == 0, "S: the areas");
    expect(untouched(6), "S: all past the count is untouched");
    expect(r.free == 2048 && r.usable == 1534, "S: the pages");
    expect(r.has_share == 1 && bits_of(r.share) == UINT64_C(0x3fe7f80000000000), "S: the share");
    r = build(&file, NUMBERS);
    expect(r.number == 0 && memcmp(slots, areas, sizeof areas) == 0 && untouched(6), "S: the same in 512 slots");
    r = build(&file, 6);
    expect(r.number == 0 && r.count == 3 && untouched(6), "S: the same in 3 slots");
    r = build(&file, 7);
    expect(r.number == 0 && r.count == 3 && untouched(6), "S: a seventh number is no slot");
    expect(is_refusal(build(&file, 4), WHARFTHRUM_TOO_MANY_AREAS) && untouched(0), "S: refused in 2 slots");
    expect(is_refusal(build(&file, 5), WHARFTHRUM_TOO_MANY_AREAS) && untouched(0), "S: a fifth number is no slot");
    expect(is_refusal(build(&file, 0), WHARFTHRUM_TOO_MANY_AREAS) && untouched(0), "S: refused in no slot");
    expect(wharfthrum_number(file.at, file.len) == 0, "S: its number");
    for (size_t numbers = 0; numbers <= 8; numbers++)
        expect(builds_agree(&file, numbers), "S: the same with its map");

    read_file(&stored, stdout_path);
    expect(prints(&file, stored.at, stored.len), "S: its text, as stored");
    expect(prints_words(&file, "areas 3\n"
                               "0000000000000000 0000000000100000\n"
                               "0000000000300000 0000000000100000\n"
                               "0000000000402000 00000000003fe000\n"
                               "pages 2048 1534 3fe7f80000000000\n"),
           "S: its text, as in the document");
    expect(memcmp(slots, areas, sizeof areas) == 0 && untouched(6), "S: the report's slots");
}

static void shares(void)
{
    static const Entry nothing[1] = {{0x800, 0x1000, 1}};
    static const Entry page[1] = {{0, 0x1000, 1}};
    uint64_t pairs[5][2] = {{0}};
    order(&file, NULL, nothing, 1, NULL);
    WharfthrumReport r = build(&file, 2);
    expect(is_refusal(r, 0) && untouched(0), "no page is Free: no share");
    expect(prints_words(&file, "areas 0\npages 0 0 none\n") && untouched(0), "no page is Free: its text");
    expect(wharfthrum_number(file.at, file.len) == 0, "no page is Free: done");
    pairs[KERNEL][0] = 0, pairs[KERNEL][1] = 0x1000;
    order(&file, pairs, page, 1, NULL);
    r = build(&file, 2);
    expect(r.number == 0 && r.count == 0 && r.free == 1 && r.usable == 0, "no page is usable: the counts");
    expect(r.has_share == 1 && bits_of(r.share) == 0, "no page is usable: the share is positive zero");
    expect(prints_words(&file, "areas 0\npages 1 0 0000000000000000\n"), "no page is usable: its text");
    order(&file, NULL, page, 1, NULL);
    r = build(&file, 2);
    expect(r.number == 0 && r.count == 1 && slots[0] == 0 && slots[1] == 0x1000 && untouched(2), "one page: its area");
    expect(r.free == 1 && r.usable == 1 && r.has_share == 1 && r.share == 1.0, "one page: its share");
}

static void refusals(void)
{
    static const uint8_t zeros[16];
    static const Entry unknown[1] = {{0, 0, 4}};
    static Entry many[513];

    file.len = 0;
    refuses(&file, 9, "9: an empty file");
    order(&file, NULL, NULL, 0, NULL);
    file.len -= 1;
    refuses(&file, 9, "9: a byte short");
    file.len += 2;
    file.at[file.len - 1] = 0;
    refuses(&file, 9, "9: a byte over");

    /* The longest file and one byte more, all of it tree: the tree's zeros are no header, but the length comes first. */
    memset(blob.at, 0, sizeof blob.at);
    blob.len = WHARFTHRUM_FILE - 112;
    order(&file, NULL, NULL, 0, &blob);
    refuses(&file, 4, "4: a tree of zeros, in the longest file");
    blob.len += 1;
    order(&file, NULL, NULL, 0, &blob);
    refuses(&file, 9, "9: one byte more");

    order(&file, NULL, unknown, 1, NULL);
    refuses(&file, 1, "1: no such kind");

    /* every second page */
    for (unsigned i = 0; i < 513; i++)
        many[i].base = 0x2000 * (uint64_t)i, many[i].size = 0x1000, many[i].kind = 1;
    order(&file, NULL, many, 513, NULL);
    refuses(&file, 2, "2: a Free page after 512 apart");
    order(&file, NULL, many, 512, NULL);
    WharfthrumReport r = build(&file, NUMBERS);
    expect(r.number == 0 && r.count == 512 && r.free == 512 && r.usable == 512, "512 areas in 512 slots");
    expect(slots[1022] == 0x2000 * 511 && slots[1023] == 0x1000, "the last of 512 areas");
    expect(is_refusal(build(&file, NUMBERS - 1), 3) && untouched(0), "3: 512 areas in 511 slots");

    structure.len = 0;
    begin(&structure, "");
    ends(&structure, 1);
    big(&structure, 9);
    tree(&blob, &structure, 0xd00dfeed);
    order(&file, NULL, NULL, 0, &blob);
    expect(wharfthrum_number(file.at, file.len) == 0, "a root alone is a tree");
    tree(&blob, &structure, 0xd00dfeee);
    order(&file, NULL, NULL, 0, &blob);
    refuses(&file, 4, "4: another magic");

    structure.len = 0;
    begin(&structure, "");
    big(&structure, 9);
    tree(&blob, &structure, 0xd00dfeed);
    order(&file, NULL, NULL, 0, &blob);
    refuses(&file, 5, "5: a root that does not end");

    for (unsigned levels = 32; levels <= 33; levels++) {
        structure.len = 0;
        begin(&structure, "");
        for (unsigned i = 1; i < levels; i++)
            begin(&structure, "a");
        ends(&structure, levels);
        big(&structure, 9);
        tree(&blob, &structure, 0xd00dfeed);
        order(&file, NULL, NULL, 0, &blob);
        if (levels == 32)
            expect(wharfthrum_number(file.at, file.len) == 0, "32 levels");
        else
            refuses(&file, 6, "6: 33 levels");
    }

    for (uint32_t bytes = 8; bytes <= 9; bytes++) {
        structure.len = 0;
        begin(&structure, "");
        one_cell_each(&structure);
        begin(&structure, "reserved-memory");
        one_cell_each(&structure);
        property(&structure, RANGES, 0, zeros);
        begin(&structure, "a");
        property(&structure, REG, bytes, zeros);
        ends(&structure, 3);
        big(&structure, 9);
        tree(&blob, &structure, 0xd00dfeed);
        order(&file, NULL, NULL, 0, &blob);
        if (bytes == 8)
            expect(wharfthrum_number(file.at, file.len) == 0, "a readable `reg`");
        else
            refuses(&file, 7, "7: a `reg` with a byte left over");
    }

    for (uint32_t bytes = 12; bytes <= 13; bytes++) {
        structure.len = 0;
        begin(&structure, "");
        one_cell_each(&structure);
        begin(&structure, "soc");
        one_cell_each(&structure);
        property(&structure, RANGES, bytes, zeros);
        begin(&structure, "a");
        property(&structure, REG, 8, zeros);
        ends(&structure, 3);
        big(&structure, 9);
        tree(&blob, &structure, 0xd00dfeed);
        order(&file, NULL, NULL, 0, &blob);
        if (bytes == 12)
            expect(wharfthrum_number(file.at, file.len) == 0, "a readable `ranges`");
        else
            refuses(&file, 8, "8: a `ranges` with a byte left over");
    }
}

/* Whether a file's areas and pages are these, in its build and in its text, and its number 0. A share of no Free page has no bits. */
static int gives(const Bytes *file, unsigned count, const uint64_t areas[][2], uint64_t free, uint64_t usable, uint64_t share)
{
    char said[256];
    int n = snprintf(said, sizeof said, "areas %u\n", count);
    for (unsigned i = 0; i < count; i++)
        n += snprintf(said + n, sizeof said - n, "%016llx %016llx\n", (unsigned long long)areas[i][0], (unsigned long long)areas[i][1]);
    n += snprintf(said + n, sizeof said - n, "pages %llu %llu ", (unsigned long long)free, (unsigned long long)usable);
    snprintf(said + n, sizeof said - n, free ? "%016llx\n" : "none\n", (unsigned long long)share);
    WharfthrumReport r = build(file, NUMBERS);
    int held = r.number == 0 && r.count == count && r.free == free && r.usable == usable;
    held = held && r.has_share == (free != 0) && bits_of(r.share) == share;
    held = held && memcmp(slots, areas, count * sizeof areas[0]) == 0 && untouched(2 * count);
    held = held && wharfthrum_number(file->at, file->len) == 0;
    return held && prints_words(file, said);
}

/* "low up, high down, missing low 0, missing high 2^64 - 1", on 16 Free pages from 0 with the kernel in the fourth */
static void limits(void)
{
    static const Entry list[1] = {{0, 0x10000, 1}};
    static const uint64_t all[2][2] = {{0, 0x3000}, {0x4000, 0xc000}};
    static const uint64_t from_two[2][2] = {{0x2000, 0x1000}, {0x4000, 0xc000}};
    static const uint64_t to_five[2][2] = {{0, 0x3000}, {0x4000, 0x1000}};
    static const uint64_t both[2][2] = {{0x2000, 0x1000}, {0x4000, 0x1000}};
    uint64_t pairs[5][2] = {{0}};
    pairs[KERNEL][0] = 0x3000, pairs[KERNEL][1] = 0x1000;

    order_under(&file, 0, 0, 0, pairs, list, 1, NULL);
    expect(gives(&file, 2, all, 16, 15, UINT64_C(0x3fee000000000000)), "no limits");
    order_under(&file, LOW, 0x1001, 0, pairs, list, 1, NULL);
    expect(gives(&file, 2, from_two, 14, 13, UINT64_C(0x3fedb6db6db6db6e)), "low, rounded up");
    order_under(&file, HIGH, 0, 0x5fff, pairs, list, 1, NULL);
    expect(gives(&file, 2, to_five, 5, 4, UINT64_C(0x3fe999999999999a)), "high, rounded down");
    order_under(&file, LOW | HIGH, 0x1001, 0x5fff, pairs, list, 1, NULL);
    expect(gives(&file, 2, both, 3, 2, UINT64_C(0x3fe5555555555555)), "both");
    order_under(&file, LOW | HIGH, 0x2000, 0x5000, pairs, list, 1, NULL);
    expect(gives(&file, 2, both, 3, 2, UINT64_C(0x3fe5555555555555)), "both, on whole pages");
    order_under(&file, LOW | HIGH, 0, UINT64_MAX, pairs, list, 1, NULL);
    expect(gives(&file, 2, all, 16, 15, UINT64_C(0x3fee000000000000)), "both, where a missing one would be");
    order_under(&file, LOW | HIGH, 0x3000, 0x4000, pairs, list, 1, NULL);
    expect(gives(&file, 0, NULL, 1, 0, 0), "both, around the kernel: no area");
    order_under(&file, LOW | HIGH, 1, 0x1fff, pairs, list, 1, NULL);
    expect(gives(&file, 0, NULL, 0, 0, 0), "limits 1 and 0x1fff: no area");
    order_under(&file, HIGH, 0, 0, pairs, list, 1, NULL);
    expect(gives(&file, 0, NULL, 0, 0, 0), "high 0: no area");

    order_under(&file, HIGH, 0x1000, 0x5000, pairs, list, 1, NULL);
    refuses(&file, 9, "9: low that is not flagged");
    order_under(&file, LOW, 0x1000, 0x5000, pairs, list, 1, NULL);
    refuses(&file, 9, "9: high that is not flagged");
    order_under(&file, 8, 0, 0, pairs, list, 1, NULL);
    refuses(&file, 9, "9: another flag");
}

/* a tree of a model, with one device of /soc, in the second page */
static void board(const char *model)
{
    structure.len = 0;
    begin(&structure, "");
    one_cell_each(&structure);
    string(&structure, MODEL, model);
    begin(&structure, "soc");
    one_cell_each(&structure);
    property(&structure, RANGES, 0, "");
    begin(&structure, "a");
    property(&structure, REG, 8, "\0\0\x10\0\0\0\x10");
    ends(&structure, 3);
    big(&structure, 9);
    tree(&blob, &structure, 0xd00dfeed);
}

/* "If the build is for 64-bit ARM and the root's `model` contains `linux,dummy-virt`": two fixed ranges, "and nothing else" */
static void arm(void)
{
    static const Entry list[1] = {{0, 0x50000000, 1}};
    static const uint64_t ranges[2][2] = {{0, 0x8000000}, {0x40000000, 0x10000000}};
    static const uint64_t device[2][2] = {{0, 0x1000}, {0x2000, 0x4fffe000}};
    static const uint64_t both[2][2] = {{0x2000, 0x7ffe000}, {0x40000000, 0x10000000}};

    board("linux,dummy-virt");
    order_under(&file, ARM, 0, 0, NULL, list, 1, &blob);
    expect(gives(&file, 2, ranges, 0x50000, 0x18000, UINT64_C(0x3fd3333333333333)), "ARM, a virtual board: the two ranges");
    order_under(&file, 0, 0, 0, NULL, list, 1, &blob);
    expect(gives(&file, 2, device, 0x50000, 0x4ffff, UINT64_C(0x3feffff99999999a)), "not ARM, a virtual board: its device");
    order_under(&file, ARM | LOW, 0x1001, 0, NULL, list, 1, &blob);
    expect(gives(&file, 2, both, 0x4fffe, 0x17ffe, UINT64_C(0x3fd3332147a6e976)), "ARM, a virtual board, from a low limit");
    board("qemu,linux,dummy-virt,8");
    order_under(&file, ARM, 0, 0, NULL, list, 1, &blob);
    expect(gives(&file, 2, ranges, 0x50000, 0x18000, UINT64_C(0x3fd3333333333333)), "ARM, a model that contains it");
    board("linux,dummy-vir");
    order_under(&file, ARM, 0, 0, NULL, list, 1, &blob);
    expect(gives(&file, 2, device, 0x50000, 0x4ffff, UINT64_C(0x3feffff99999999a)), "ARM, another board: its device");
}

/* The stored order files: the text of each, and the number that its text tells. A frame is a length in 64 bits and as many bytes. */
static int frame(FILE *f, Bytes *b)
{
    uint8_t length[8];
    if (fread(length, 1, 8, f) != 8)
        return 0;
    b->len = length[0] + 256 * length[1] + 65536 * (size_t)length[2];
    return b->len <= sizeof b->at && fread(b->at, 1, b->len, f) == b->len;
}

static void stored_cases(const char *path)
{
    FILE *f = fopen(path, "rb");
    if (!f) {
        perror(path);
        exit(2);
    }
    while (frame(f, &file)) {
        if (!frame(f, &stored)) {
            expect(0, "a stored case that is cut off");
            break;
        }
        uint64_t number = stored.at[0] == 'r' ? (uint64_t)(stored.at[8] - '0') : 0;
        int held = wharfthrum_number(file.at, file.len) == number && build(&file, NUMBERS).number == number;
        held = held && builds_agree(&file, NUMBERS);
        expect(held && prints(&file, stored.at, stored.len), "a stored case");
    }
    fclose(f);
}

/* ---- late claims ---- */

#define T UINT64_C(0xfffffffffffff000)

/* Numbers that are lent to a late claim, and what they and the map were before it. */
static uint64_t table[2 * 1001], table_was[2 * 1001];
static WharfthrumMap map_was;

static WharfthrumLate claim_late(Entry claim, uint64_t *at, size_t numbers, size_t count)
{
    return wharfthrum_claim_late(&map, claim.base, claim.size, claim.kind, at, numbers, count);
}

/* A claim on the numbers in `table`, all of which are kept to compare with, as the map is. */
static WharfthrumLate claim_in_table(Entry claim, size_t numbers, size_t count)
{
    memcpy(table_was, table, sizeof table);
    map_was = map;
    return claim_late(claim, table, numbers, count);
}

static int all_unchanged(void)
{
    return memcmp(table, table_was, sizeof table) == 0 && memcmp(&map, &map_was, sizeof map) == 0;
}

/* A refusal hands back the count, and leaves every number of the map and of the slots. */
static int refuses_late(Entry claim, size_t numbers, size_t count, uint64_t number)
{
    WharfthrumLate late = claim_in_table(claim, numbers, count);
    return late.number == number && late.count == count && all_unchanged();
}

/* Done, with this count; past the slots that were used or are, nothing is written, and slots that fell out of use are zero. */
static int done_late(WharfthrumLate late, size_t count, const uint64_t *at, size_t was, size_t numbers)
{
    int held = late.number == 0 && late.count == count;
    for (size_t i = 2 * count; i < numbers; i++)
        held = held && at[i] == (i < 2 * was ? 0 : PATTERN);
    return held;
}

/* Builds from the first entries of a list, and claims the others late. After each the slots are those of a build afresh that has it in its
 * list, and so is the map: nothing is registered behind the list. */
static int as_afresh(uint8_t flags, uint64_t low, uint64_t high, const Entry *list, unsigned first, unsigned entries)
{
    static uint64_t afresh[NUMBERS];
    static WharfthrumMap map_afresh;
    order_under(&file, flags, low, high, NULL, list, first, NULL);
    WharfthrumReport built = build_map(&file, NUMBERS);
    int held = built.number == 0;
    size_t used = built.count, most = used;
    for (unsigned i = first; i < entries; i++) {
        order_under(&file, flags, low, high, NULL, list, i + 1, NULL);
        WharfthrumReport again = wharfthrum_build_map(file.at, file.len, afresh, NUMBERS, &map_afresh);
        WharfthrumLate late = claim_late(list[i], slots, NUMBERS, used);
        most = late.count > most ? late.count : most;
        held = held && again.number == 0 && done_late(late, again.count, slots, most, NUMBERS);
        held = held && memcmp(slots, afresh, 16 * late.count) == 0 && memcmp(&map, &map_afresh, sizeof map) == 0;
        used = late.count;
    }
    return held;
}

static void late_as_afresh(void)
{
    /* 256 Free pages, every fourth 16 of them reserved, and more Free memory up to T */
    static Entry list[23] = {
        {0, 0x100000, 1}, {0x30000, 0x10000, 3}, {0x70000, 0x10000, 3}, {0xb0000, 0x10000, 3}, {T - 0x10000, 0x20000, 1}};
    static const Entry claims[18] = {
        {0x10000, 0x1000, 0x101},     /* inside an area */
        {0x10800, 0x1000, 2},         /* rounded outward, over what is claimed */
        {0, 1, 3},                    /* the first page */
        {0x2f000, 0x1000, 0x100},     /* the end of an area */
        {0x40000, 0x1000, 0x102},     /* the start of an area */
        {0x30000, 0x10000, 0x101},    /* where no area is */
        {0x20000, 0, 3},              /* size 0 */
        {0x60001, 0, 0x101},          /* size 0 at an address that is not aligned */
        {0x6ffff, 0x10002, 3},        /* the end of one area, and the start of the next */
        {0xa0000, 0x20000, 2},        /* the same, over a reservation */
        {T - 0x1000, 0x1000, 3},      /* the last page below T */
        {T, 0x1000, 3},               /* the page at T, which no area has */
        {T - 0x8000, UINT64_MAX, 3},  /* past the end of all addresses */
        {0x20000, 0x70000, 0x101},    /* whole areas */
        {UINT64_MAX, UINT64_MAX, 2},  /* the last address */
        {0xff000, 0x1000, 0x100},     /* an area's last page */
        {0, 0x80000, 3},              /* the first areas */
        {0, UINT64_MAX, 0x102},       /* all */
    };
    memcpy(list + 5, claims, sizeof claims);
    expect(as_afresh(0, 0, 0, list, 5, 23), "late claims, as built afresh");
    expect(as_afresh(LOW | HIGH, 0x5001, 0xfefff, list, 5, 23), "late claims under limits, as built afresh");
    for (unsigned first = 6; first < 23; first++)
        expect(as_afresh(0, 0, 0, list, first, 23), "late claims after more in the list, as built afresh");
    for (unsigned i = 0; i < 18; i++) {
        list[5] = claims[i];
        expect(as_afresh(0, 0, 0, list, 5, 6), "one late claim, as built afresh");
    }
}

/* case S in `table`, with its map: three areas; all past them is the pattern */
static void table_of_s(void)
{
    static const Entry list[1] = {{0, 0x800000, 1}};
    uint64_t pairs[5][2] = {{0}};
    pairs[KERNEL][0] = 0x100000, pairs[KERNEL][1] = 0x200000;
    pairs[STACK][0] = 0x400800, pairs[STACK][1] = 0x1000;
    order(&file, pairs, list, 1, NULL);
    build_map(&file, NUMBERS);
    for (size_t i = 0; i < sizeof table / sizeof table[0]; i++)
        table[i] = PATTERN;
    memcpy(table, slots, 6 * sizeof slots[0]);
}

/* "Refusals, in order: 1, 13 kind Null or Free, 14 .., 2, 3; all leave map and table unchanged." */
static void late_kinds(void)
{
    static const uint64_t unknown[4] = {4, 0xff, 0x103, UINT64_MAX};
    table_of_s();
    for (unsigned i = 0; i < 4; i++) {
        expect(refuses_late((Entry){0x1000, 0x1000, unknown[i]}, 8, 3, 1), "1: no such kind");
        expect(refuses_late((Entry){0x1000, 0, unknown[i]}, 8, 3, 1), "1: no such kind, size 0");
        expect(refuses_late((Entry){0x1000, 0x1000, unknown[i]}, 8, 5, 1), "1 before 14");
    }
    for (uint64_t kind = 0; kind <= 1; kind++) {
        expect(refuses_late((Entry){0x1000, 0x1000, kind}, 8, 3, 13), "13: Null, Free");
        expect(refuses_late((Entry){0x1000, 0, kind}, 8, 3, 13), "13: Null, Free, size 0");
        expect(refuses_late((Entry){0x1000, 0x1000, kind}, 8, 5, 13), "13 before 14");
    }
}

/* Of case S's table with one number changed, whether it is refused with 14, also where the claim has size 0. */
static int no_table(size_t at, uint64_t number)
{
    table_of_s();
    table[at] = number;
    return refuses_late((Entry){0x1000, 0x1000, 3}, 8, 3, 14) && refuses_late((Entry){0x1000, 0, 3}, 8, 3, 14);
}

static void late_tables(void)
{
    table_of_s();
    expect(refuses_late((Entry){0x1000, 0x1000, 3}, 6, 4, 14), "14: count above the slots");
    expect(refuses_late((Entry){0x1000, 0x1000, 3}, 7, 4, 14), "14: an odd number is no slot");
    expect(refuses_late((Entry){0x1000, 0x1000, 3}, 8, SIZE_MAX, 14), "14: the largest count");
    expect(refuses_late((Entry){0x1000, 0x1000, 3}, 0, 1, 14), "14: no slots, count 1");
    expect(no_table(1, 0), "14: an empty area");
    expect(no_table(0, 0x800) && no_table(2, 0x300001), "14: a base that is not aligned");
    expect(no_table(1, 0x100001) && no_table(5, 0x3fe800), "14: a size that is not aligned");
    expect(no_table(1, 0x300000), "14: areas that touch");
    expect(no_table(1, 0x301000), "14: areas that overlap");
    expect(no_table(2, 0x500000), "14: areas that do not ascend");
    expect(no_table(5, T - 0x401000), "14: an area that ends at 2^64");
    expect(no_table(4, T) && no_table(5, T), "14: an area that ends past 2^64");
    table_of_s();
    table[5] = T - 0x402000;
    expect(claim_in_table((Entry){0x1000, 0, 3}, 8, 3).number == 0 && all_unchanged(), "an area that ends at T");
}

/* The map of one Free range and 511 reservations, given as pages, is full: of a kind that it has not, nothing more enters. */
static void late_full(void)
{
    static Entry list[512];
    static const Entry inside = {0x1000000, 0x1000, 0x101};
    list[0] = (Entry){0, 0x8000000, 1};
    for (unsigned i = 1; i < 512; i++)
        list[i] = (Entry){0x4000 * (uint64_t)i, 0x1000, 3};
    order(&file, NULL, list, 512, NULL);
    WharfthrumReport r = build_map(&file, NUMBERS);
    expect(r.number == 0 && r.count == 512, "a full map: its build");
    memcpy(table, slots, sizeof slots);
    table[1024] = table[1025] = PATTERN;
    expect(refuses_late(inside, 1026, 512, 2), "2: a late claim on a full map");
    expect(refuses_late(inside, 1024, 512, 2), "2 before 3");
    expect(refuses_late(inside, 1026, 514, 14), "14 before 2");
    expect(refuses_late((Entry){0x4000, 0x2000, 0x101}, 1026, 512, 2), "2: a late claim that touches one of another kind");
    expect(claim_in_table((Entry){0x1000000, 0, 0x101}, 1026, 512).number == 0 && all_unchanged(), "size 0 on a full map");
    WharfthrumLate late = claim_in_table((Entry){0x4000, 0x2000, 3}, 1026, 512);
    expect(done_late(late, 512, table, 512, 1026), "a full map: a claim that touches one of its kind");
    expect(table[2] == 0x6000 && table[3] == 0x2000 && table_was[2] == 0x5000, "a full map: the area's start moves");
}

/* Slots: none, an odd count of numbers, one for each area and one more. */
static void late_slots(void)
{
    static const uint64_t left[8] = {0, 0x1000, 0x2000, 0xfe000, 0x300000, 0x100000, 0x402000, 0x3fe000};
    static const Entry split = {0x1000, 0x1000, 3};
    table_of_s();
    expect(refuses_late(split, 6, 3, 3), "3: no slot for the second piece");
    expect(refuses_late(split, 7, 3, 3), "3: an odd number is no slot");
    expect(done_late(claim_in_table(split, 8, 3), 4, table, 3, 2002), "a slot for the second piece");
    expect(memcmp(table, left, sizeof left) == 0 && memcmp(&map, &map_was, sizeof map) != 0, "the pieces");
    table_of_s();
    expect(done_late(claim_in_table(split, 9, 3), 4, table, 3, 2002) && memcmp(table, left, sizeof left) == 0, "an odd count of numbers");
    table_of_s();
    WharfthrumLate late = claim_in_table(split, 0, 0);
    expect(late.number == 0 && late.count == 0 && memcmp(table, table_was, sizeof table) == 0, "no slots: done, nothing is written");
    expect(memcmp(&map, &map_was, sizeof map) != 0, "no slots: the claim enters the map");
    table_of_s();
    expect(done_late(claim_in_table((Entry){0, 0x400000, 3}, 6, 3), 1, table, 3, 2002), "two areas less");
    expect(table[0] == 0x402000 && table[1] == 0x3fe000, "the area that is left");
    table_of_s();
    late = claim_in_table((Entry){0x1001, 0, 3}, 8, 3);
    expect(late.number == 0 && late.count == 3 && all_unchanged(), "size 0 changes nothing");
}

/* A table from elsewhere: 1,000 areas of three pages, a gap of one between them. */
static void thousand(void)
{
    table_of_s();
    for (unsigned i = 0; i < 1000; i++)
        table[2 * i] = 0x4000 * (uint64_t)i, table[2 * i + 1] = 0x3000;
    table[2000] = table[2001] = PATTERN;
}

static void late_elsewhere(void)
{
    static const Entry middle = {0x4000 * 500 + 0x1000, 0x1000, 0x101};
    thousand();
    expect(refuses_late(middle, 2000, 1000, 3) && refuses_late(middle, 2001, 1000, 3), "1,000 areas: no slot for one more");
    expect(done_late(claim_in_table(middle, 2002, 1000), 1001, table, 1000, 2002), "1,000 areas: one more");
    expect(memcmp(table, table_was, 1000 * 8) == 0, "1,000 areas: those before it stay");
    expect(table[1000] == middle.base - 0x1000 && table[1001] == 0x1000, "1,000 areas: the piece before it");
    expect(table[1002] == middle.base + 0x1000 && table[1003] == 0x1000, "1,000 areas: the piece after it");
    expect(memcmp(table + 1004, table_was + 1002, 998 * 8) == 0, "1,000 areas: those after it move");
    thousand();
    WharfthrumLate late = claim_in_table((Entry){0x4000 * 100 + 0x2800, 0x4000 * 800, 2}, 2002, 1000);
    expect(done_late(late, 200, table, 1000, 2002), "1,000 areas: 800 less");
    expect(memcmp(table, table_was, 201 * 8) == 0 && table[201] == 0x2000, "1,000 areas: up to the one that it cuts");
    expect(memcmp(table + 202, table_was + 1802, 198 * 8) == 0, "1,000 areas: those behind it");
}

int main(int argc, char **argv)
{
    if (argc != 4) {
        fprintf(stderr, "usage: test STDIN STDOUT CASES\n");
        return 2;
    }
    case_s(argv[1], argv[2]);
    shares();
    limits();
    arm();
    refusals();
    stored_cases(argv[3]);
    late_as_afresh();
    late_kinds();
    late_tables();
    late_full();
    late_slots();
    late_elsewhere();
    printf("C: %u passed, %u failed\n", passed, failed);
    return failed != 0;
}
