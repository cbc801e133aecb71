/* NO POINTER MAY BE NULL, ALSO WHERE THE LENGTH BESIDE IT IS 0. For an empty file hand over the address of any byte, with 0 bytes. Nothing
 * in the library looks for a null pointer.
 *
 * The build of document 01 for a web service: an order file in, the area table with its page sheet out. Every call answers for all bytes
 * of the file, keeps nothing, and shares nothing with another call: threads may call at once, each with WHARFTHRUM_STACK bytes of stack.
 * Slots are aligned as uint64_t is; lengths are true; what one call is lent does not overlap.
 *
 * For a boot stage that learns of a window late (document 02, L3): a build that leaves its map in the caller's memory, and a claim on that
 * map and on the finished table. The memory of the map is the one thing that the caller keeps for the library: see WharfthrumMap. */
#ifndef WHARFTHRUM_H
#define WHARFTHRUM_H

#include <stddef.h>
#include <stdint.h>

#ifdef __cplusplus
extern "C" {
#endif

/* Slots of a report. A slot is two numbers, base and size. */
#define WHARFTHRUM_SLOTS 512
/* Bytes of the buffer for a report's text: 512 areas, and room for every number. */
#define WHARFTHRUM_TEXT 17500
/* Bytes of the longest order file. A longer one is refused by its length alone, so no more than one byte more need be read. */
#define WHARFTHRUM_FILE 65536
/* Bytes of stack for a thread that makes any of the calls. The most that we found is 170 KiB, with the 5 that the thread itself takes: for
 * wharfthrum_build_map, on one Free range carved by 511 reservations given from the top down. For wharfthrum_claim_late it is 41 KiB. Measured
 * and not proved: service/stack.c. */
#define WHARFTHRUM_STACK 262144

/* The numbers, in the order in which they are checked: the first fault decides. */
enum {
    WHARFTHRUM_DONE = 0,              /* done */
    WHARFTHRUM_BAD_ORDER = 9,         /* the order file breaks its layout, or is longer than 65,536 bytes */
    WHARFTHRUM_UNKNOWN_KIND = 1,      /* a kind in the list is none of the seven, size 0 included */
    WHARFTHRUM_BAD_HEADER = 4,        /* the tree's header is broken */
    WHARFTHRUM_OVER_LIMIT = 6,        /* the tree is over a size, level or node limit */
    WHARFTHRUM_BAD_STRUCTURE = 5,     /* the tree's structure is broken */
    WHARFTHRUM_UNREADABLE_REG = 7,    /* a counted reserved child's nonempty `reg` is unreadable */
    WHARFTHRUM_UNREADABLE_RANGES = 8, /* a readable /soc entry meets an unreadable `ranges` */
    WHARFTHRUM_MAP_FULL = 2,          /* the map is full */
    WHARFTHRUM_TOO_MANY_AREAS = 3     /* there are more areas than slots */
};

/* The numbers of a late claim, in the order in which they are checked: the first fault decides. */
enum {
    WHARFTHRUM_LATE_DONE = 0,          /* done */
    WHARFTHRUM_LATE_UNKNOWN_KIND = 1,  /* the kind is none of the seven, size 0 included */
    WHARFTHRUM_LATE_NOT_LATE = 13,     /* the kind is Null or Free */
    WHARFTHRUM_LATE_BAD_TABLE = 14,    /* the count is above the slots, or the areas are no table: see wharfthrum_claim_late */
    WHARFTHRUM_LATE_MAP_FULL = 2,      /* the map is full */
    WHARFTHRUM_LATE_TOO_MANY_AREAS = 3 /* the claim makes two areas of one, and there is no slot for the second */
};

/* What a build answers. A refusal has 0 in every field but the first. */
typedef struct WharfthrumReport {
    uint64_t number;    /* 0, or the number of the refusal */
    uint64_t count;     /* how many areas were written */
    uint64_t free;      /* Free pages inside the limits, of 4,096 bytes */
    uint64_t usable;    /* usable pages */
    uint64_t has_share; /* 1 if a page is Free, else 0 */
    double share;       /* usable over Free, rounded once; 0.0 where has_share is 0 */
} WharfthrumReport;

/* Numbers of a map's memory: 12,296 bytes. */
#define WHARFTHRUM_MAP 1537

/* The memory of a map, lent by the caller and kept by it between the calls: the starts of the map's 512 entries, their ends, their kinds,
 * and how many are held. It may be copied and moved as a whole. ONLY wharfthrum_build_map AND wharfthrum_claim_late MAY CHANGE A NUMBER OF
 * IT, and none is handed to wharfthrum_claim_late before a build into it answered 0. A caller that does otherwise breaks what is proved:
 * then nothing is promised, not even that other memory is left alone. */
typedef struct WharfthrumMap {
    uint64_t numbers[WHARFTHRUM_MAP];
} WharfthrumMap;

/* What a late claim answers. */
typedef struct WharfthrumLate {
    uint64_t number; /* 0, or the number of the refusal */
    uint64_t count;  /* how many slots are used now; after a refusal, the count that was handed in */
} WharfthrumLate;

/* Builds the area table of a file in the lent slots: base and size of each area, sorted by base. `numbers` is the count of the numbers
 * lent, so numbers / 2 slots: an odd one at the end is no slot. All past the count is untouched, and a refusal writes nothing. */
WharfthrumReport wharfthrum_build(const uint8_t *file, size_t bytes, uint64_t *slots, size_t numbers);

/* The same in 512 slots, with the report's text at the start of the buffer; the rest of it is untouched. Answers how many bytes the text
 * has. It ends in a newline and not in a zero byte. `slots` has 2 * WHARFTHRUM_SLOTS numbers and `text` has WHARFTHRUM_TEXT bytes. */
size_t wharfthrum_report(const uint8_t *file, size_t bytes, uint64_t *slots, uint8_t *text);

/* The number alone that a file is answered with under 512 slots, for a form that only checks it. */
uint64_t wharfthrum_number(const uint8_t *file, size_t bytes);

/* As wharfthrum_build, and leaves the map of all the file's registrations in the lent memory, for late claims. What was there before is not
 * read. A refusal leaves it as it was. */
WharfthrumReport wharfthrum_build_map(const uint8_t *file, size_t bytes, uint64_t *slots, size_t numbers, WharfthrumMap *map);

/* A late claim, of kind 2 Reclaim, 3 Reserved, 0x100 Kernel, 0x101 Device or 0x102 IdentityMap: it enters the map, and those of the areas in
 * the first `count` slots that the claim overlaps, rounded outward to whole pages, are edited where they stand. The areas after them move,
 * slots that fall out of use become zero, and all past these is untouched. Size 0, once 1, 13 and 14 are checked, is done and changes
 * nothing. A refusal leaves every number of the map and of the slots.
 *
 * If the table came from this map, by a build or by earlier late claims, it is afterwards that of a build afresh with the claim in the
 * file's list. A table from elsewhere is allowed, of any count and with any numbers: 14 says that it is none. A table's areas ascend, each
 * base and size is a multiple of 4,096, no size is 0, no two areas touch, and none ends past 2^64 - 4,096. `numbers` is the count of the
 * numbers lent, so numbers / 2 slots. For a table that came from its map 512 slots are always enough; another can gain one area by a
 * claim. */
WharfthrumLate wharfthrum_claim_late(WharfthrumMap *map, uint64_t base, uint64_t size, uint64_t kind, uint64_t *slots, size_t numbers,
                                     size_t count);

#ifdef __cplusplus
}
#endif

#endif
