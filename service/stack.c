/* stack: makes each call of the library in a thread that has WHARFTHRUM_STACK bytes of stack and no more, on the order files that take
 * the most that we found: one Free range carved by 511 reservations given from the top down, and a tree of 32 levels whose last one is
 * searched. Prints how deep the deepest went, from a pattern that was painted on the stack before. One that goes deeper than the stack ends
 * this program by a signal. */
#define _DEFAULT_SOURCE
#include "layout.h"
#include <pthread.h>
#include <stdio.h>
#include <stdlib.h>
#include <sys/mman.h>

#define PAINT 0xa5
#define GUARD 65536

static Bytes carved, deep, blob, structure;
static uint64_t slots[2 * WHARFTHRUM_SLOTS];
static uint8_t text[WHARFTHRUM_TEXT];
static WharfthrumMap map;

/* 1,023 Free pages, and every second one of them reserved, the highest first: each piece on the left is carved again. */
static void lay_carved(void)
{
    static Entry list[512];
    list[0] = (Entry){0, 1023 * 0x1000, 1};
    for (unsigned i = 1; i < 512; i++)
        list[i] = (Entry){0x1000 * (uint64_t)(1023 - 2 * i), 0x1000, 3};
    order(&carved, NULL, list, 512, NULL);
}

/* A console at the 32nd level, through buses that leave its address as it is. */
static void lay_deep(void)
{
    static const Entry list[1] = {{0, 0x3000, 1}};
    char path[2 * 31 + 1] = "";
    structure.len = 0;
    begin(&structure, "");
    one_cell_each(&structure);
    for (unsigned level = 2; level <= 32; level++)
        strcat(path, "/a");
    begin(&structure, "chosen");
    string(&structure, STDOUT_PATH, path);
    ends(&structure, 1);
    for (unsigned level = 2; level < 32; level++) {
        begin(&structure, "a");
        one_cell_each(&structure);
        property(&structure, RANGES, 0, "");
    }
    begin(&structure, "a");
    string(&structure, COMPATIBLE, "console");
    property(&structure, REG, 8, "\0\0\x10\0\0\0\x10");
    ends(&structure, 32);
    big(&structure, 9);
    tree(&blob, &structure, 0xd00dfeed);
    order(&deep, NULL, list, 1, &blob);
}

/* ---- the calls: each answers whether its answer is right ---- */

static void *nothing(void *file)
{
    return file;
}

static void *build(void *file)
{
    uint64_t count = file == &carved ? 512 : 2;
    WharfthrumReport r = wharfthrum_build(((Bytes *)file)->at, ((Bytes *)file)->len, slots, 2 * WHARFTHRUM_SLOTS);
    return r.number == 0 && r.count == count ? file : NULL;
}

static void *report(void *file)
{
    const char *said = file == &carved ? "areas 512\n" : "areas 2\n0000000000000000 0000000000001000\n0000000000002000 ";
    size_t n = wharfthrum_report(((Bytes *)file)->at, ((Bytes *)file)->len, slots, text);
    return n >= strlen(said) && memcmp(text, said, strlen(said)) == 0 ? file : NULL;
}

static void *number(void *file)
{
    return wharfthrum_number(((Bytes *)file)->at, ((Bytes *)file)->len) == 0 ? file : NULL;
}

static void *build_map(void *file)
{
    uint64_t count = file == &carved ? 512 : 2;
    WharfthrumReport r = wharfthrum_build_map(((Bytes *)file)->at, ((Bytes *)file)->len, slots, 2 * WHARFTHRUM_SLOTS, &map);
    return r.number == 0 && r.count == count ? file : NULL;
}

/* A claim inside the one area of a table from elsewhere, on the map that `build_map` left: with no slot for the second piece, and with one.
 * The carved file's map is full. */
static void *claim_late(void *file)
{
    uint64_t table[4] = {0x1000000, 0x3000, 0, 0};
    int full = file == &carved;
    WharfthrumLate crowded = wharfthrum_claim_late(&map, 0x1001000, 0x1000, 0x101, table, 2, 1);
    WharfthrumLate split = wharfthrum_claim_late(&map, 0x1001000, 0x1000, 0x101, table, 4, 1);
    return crowded.number == (full ? 2 : 3) && split.number == (full ? 2 : 0) && split.count == (full ? 1 : 2) ? file : NULL;
}

/* ---- the thread ---- */

static void need(int held, const char *what)
{
    if (!held) {
        printf("failed: %s\n", what);
        exit(1);
    }
}

/* The bytes that one call took of a painted stack, with those that the thread itself takes. Below the stack nothing can be touched. */
static size_t depth(void *(*call)(void *), Bytes *file, const char *what)
{
    uint8_t *low = mmap(NULL, GUARD + WHARFTHRUM_STACK, PROT_READ | PROT_WRITE, MAP_PRIVATE | MAP_ANONYMOUS, -1, 0);
    need(low != MAP_FAILED && mprotect(low, GUARD, PROT_NONE) == 0, "no memory for a stack");
    uint8_t *stack = low + GUARD;
    memset(stack, PAINT, WHARFTHRUM_STACK);
    pthread_attr_t attr;
    pthread_t thread;
    void *answer;
    need(pthread_attr_init(&attr) == 0 && pthread_attr_setstack(&attr, stack, WHARFTHRUM_STACK) == 0, "no such stack");
    need(pthread_create(&thread, &attr, call, file) == 0 && pthread_join(thread, &answer) == 0, "no thread");
    need(answer == file, what);
    size_t free = 0;
    while (free < WHARFTHRUM_STACK && stack[free] == PAINT)
        free++;
    munmap(low, GUARD + WHARFTHRUM_STACK);
    return WHARFTHRUM_STACK - free;
}

int main(void)
{
    static void *(*const calls[5])(void *) = {build, report, number, build_map, claim_late};
    static const char *const names[5] = {"wharfthrum_build", "wharfthrum_report", "wharfthrum_number", "wharfthrum_build_map",
                                         "wharfthrum_claim_late"};
    lay_carved();
    lay_deep();
    size_t own = depth(nothing, &carved, "a thread that does nothing"), deepest = 0;
    for (unsigned f = 0; f < 2; f++) {
        Bytes *files[2] = {&carved, &deep};
        for (unsigned i = 0; i < 5; i++) {
            size_t bytes = depth(calls[i], files[f], names[i]);
            deepest = bytes > deepest ? bytes : deepest;
        }
    }
    printf("stack: the deepest call took %zu of %d bytes, %zu of them the thread's own\n", deepest, WHARFTHRUM_STACK, own);
    return 0;
}
