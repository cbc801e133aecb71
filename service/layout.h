/* Order files and trees, laid out by document 01's words, for the tests. */
#ifndef LAYOUT_H
#define LAYOUT_H

#include "wharfthrum.h"
#include <string.h>

/* ---- bytes ---- */

typedef struct {
    uint8_t at[WHARFTHRUM_FILE + 1];
    size_t len;
} Bytes;

static inline void little(Bytes *b, uint64_t value, unsigned bytes)
{
    for (unsigned i = 0; i < bytes; i++)
        b->at[b->len++] = (uint8_t)(value >> (8 * i));
}

static inline void big(Bytes *b, uint32_t value)
{
    for (unsigned i = 0; i < 4; i++)
        b->at[b->len++] = (uint8_t)(value >> (24 - 8 * i));
}

/* ---- order files ---- */

typedef struct {
    uint64_t base, size, kind;
} Entry;

enum { KERNEL, ENV, HWDESC, BOOTSTRAP, STACK };

/* bits of the flags */
enum { ARM = 1, LOW = 2, HIGH = 4 };

/* flags and limits, the five pairs, a list and a tree */
static inline void order_under(Bytes *b, uint8_t flags, uint64_t low, uint64_t high, uint64_t pairs[5][2], const Entry *list,
                               unsigned entries, const Bytes *tree)
{
    static uint64_t none[5][2];
    if (!pairs)
        pairs = none;
    b->len = 0;
    memcpy(b->at, "GBO", 3);
    b->len = 3;
    little(b, 1, 2);
    little(b, flags, 1);
    little(b, entries, 2);
    little(b, low, 8);
    little(b, high, 8);
    for (unsigned i = 0; i < 5; i++) {
        little(b, pairs[i][0], 8);
        little(b, pairs[i][1], 8);
    }
    little(b, tree ? tree->len : 0, 4);
    little(b, 0, 4);
    for (unsigned i = 0; i < entries; i++) {
        little(b, list[i].base, 8);
        little(b, list[i].size, 8);
        little(b, list[i].kind, 8);
    }
    if (tree) {
        memcpy(b->at + b->len, tree->at, tree->len);
        b->len += tree->len;
    }
}

/* the same with flags 0 and no limits */
static inline void order(Bytes *b, uint64_t pairs[5][2], const Entry *list, unsigned entries, const Bytes *tree)
{
    order_under(b, 0, 0, 0, pairs, list, entries, tree);
}

/* ---- trees ---- */

static const char names[] = "#address-cells\0#size-cells\0ranges\0reg\0model\0stdout-path\0compatible";

/* where each stands in the strings */
enum { ADDRESS_CELLS = 0, SIZE_CELLS = 15, RANGES = 27, REG = 34, MODEL = 38, STDOUT_PATH = 44, COMPATIBLE = 56 };

static inline void begin(Bytes *b, const char *name)
{
    big(b, 1);
    size_t bytes = strlen(name) + 1;
    memcpy(b->at + b->len, name, bytes);
    b->len += bytes;
    while (b->len % 4)
        b->at[b->len++] = 0;
}

static inline void property(Bytes *b, uint32_t name, size_t bytes, const void *value)
{
    big(b, 3);
    big(b, (uint32_t)bytes);
    big(b, name);
    memcpy(b->at + b->len, value, bytes);
    b->len += bytes;
    while (b->len % 4)
        b->at[b->len++] = 0;
}

/* a string with its zero byte */
static inline void string(Bytes *b, uint32_t name, const char *value)
{
    property(b, name, strlen(value) + 1, value);
}

static inline void one_cell_each(Bytes *b)
{
    property(b, ADDRESS_CELLS, 4, "\0\0\0\1");
    property(b, SIZE_CELLS, 4, "\0\0\0\1");
}

static inline void ends(Bytes *b, unsigned count)
{
    while (count--)
        big(b, 2);
}

/* a header of version 17, a reservation block of its end alone, the structure and the strings */
static inline void tree(Bytes *b, const Bytes *structure, uint32_t magic)
{
    uint32_t at = 40 + 16;
    uint32_t strings = at + (uint32_t)structure->len;
    b->len = 0;
    big(b, magic);
    big(b, strings + sizeof names);
    big(b, at);
    big(b, strings);
    big(b, 40);
    big(b, 17);
    big(b, 16);
    big(b, 0);
    big(b, sizeof names);
    big(b, (uint32_t)structure->len);
    little(b, 0, 8);
    little(b, 0, 8);
    memcpy(b->at + b->len, structure->at, structure->len);
    b->len += structure->len;
    memcpy(b->at + b->len, names, sizeof names);
    b->len += sizeof names;
}

#endif
