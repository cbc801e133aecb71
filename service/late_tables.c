/* late_tables: makes late claims on tables that are read from standard input, and writes what the library answers to standard output, so
 * that another judge can be asked the same. All numbers are 64 bits, the lowest byte first. A case is
 *
 *     how many bytes the order file has, and these bytes
 *     base, size, kind        the claim
 *     count                   how many slots are used
 *     K, and K numbers        the lent numbers
 *
 * and cases follow one another until the input ends. The map is that of wharfthrum_build_map on the order file, with 512 slots of its own.
 * The answer to a case is
 *
 *     the number of that build; where it is not 0, nothing else
 *     number, count           what wharfthrum_claim_late answers
 *     K numbers               the lent numbers as they are then
 *     1 or 0                  1 where the claim left every number of the map's memory as it was
 *
 * Exit status 2 where the input ends inside a case, and where memory or the output fails. */
#include "wharfthrum.h"
#include <stdio.h>
#include <stdlib.h>
#include <string.h>

static void fail(const char *what)
{
    fprintf(stderr, "late_tables: %s\n", what);
    exit(2);
}

/* Bytes of the input, or 0 where it ends before the first of them. */
static int bytes_in(uint8_t *bytes, size_t count)
{
    size_t got = fread(bytes, 1, count, stdin);
    if (got != 0 && got != count)
        fail("the input ends inside a case");
    return got == count;
}

static int number_in(uint64_t *number)
{
    uint8_t bytes[8];
    *number = 0;
    if (!bytes_in(bytes, sizeof bytes))
        return 0;
    for (unsigned i = 0; i < 8; i++)
        *number |= (uint64_t)bytes[i] << (8 * i);
    return 1;
}

/* The next number of a case that has begun. */
static uint64_t next(void)
{
    uint64_t number;
    if (!number_in(&number))
        fail("the input ends inside a case");
    return number;
}

static void number_out(uint64_t number)
{
    uint8_t bytes[8];
    for (unsigned i = 0; i < 8; i++)
        bytes[i] = (uint8_t)(number >> (8 * i));
    if (fwrite(bytes, 1, sizeof bytes, stdout) != sizeof bytes)
        fail("the output fails");
}

/* Memory for so many things of a size, and one more, so that there is an address also where there are none. */
static void *room(uint64_t count, size_t size)
{
    void *at = count < SIZE_MAX / size - 1 ? malloc(((size_t)count + 1) * size) : NULL;
    if (!at)
        fail("no memory");
    return at;
}

static uint64_t build(WharfthrumMap *map, uint64_t bytes)
{
    static uint64_t slots[2 * WHARFTHRUM_SLOTS];
    uint8_t *file = room(bytes, 1);
    if (bytes != 0 && !bytes_in(file, (size_t)bytes))
        fail("the input ends inside a case");
    uint64_t number = wharfthrum_build_map(file, (size_t)bytes, slots, 2 * WHARFTHRUM_SLOTS, map).number;
    free(file);
    return number;
}

static void answer(uint64_t bytes)
{
    static WharfthrumMap map, before;
    uint64_t built = build(&map, bytes);
    uint64_t base = next(), size = next(), kind = next(), count = next(), lent = next();
    uint64_t *numbers = room(lent, sizeof *numbers);
    for (uint64_t i = 0; i < lent; i++)
        numbers[i] = next();
    number_out(built);
    if (built == 0) {
        before = map;
        WharfthrumLate late = wharfthrum_claim_late(&map, base, size, kind, numbers, (size_t)lent, (size_t)count);
        number_out(late.number);
        number_out(late.count);
        for (uint64_t i = 0; i < lent; i++)
            number_out(numbers[i]);
        number_out(memcmp(&map, &before, sizeof map) == 0);
    }
    free(numbers);
}

int main(void)
{
    uint64_t bytes;
    while (number_in(&bytes))
        answer(bytes);
    if (ferror(stdin))
        fail("the input fails");
    if (fflush(stdout) != 0)
        fail("the output fails");
    return 0;
}
