/* What the C tests share: failures that are counted, packed maps, and slices that are lent between guard bytes. After a
 * call the guards and all that the call may not write are compared byte for byte with what they were.
 */
#ifndef LENT_H
#define LENT_H

#include <stdint.h>
#include <stdio.h>
#include <stdlib.h>
#include <string.h>

static int failures = 0;
static int provoked[256]; /* how often each answer was given and was the expected one */

static inline void fail(const char *where, const char *what, const char *fault)
{
    printf("%s: %s %s\n", where, what, fault);
    failures++;
}

static inline void expect(const char *where, const char *what, unsigned long long is, unsigned long long wanted)
{
    if (is != wanted) {
        printf("%s: %s is %llu, not %llu\n", where, what, is, wanted);
        failures++;
    }
}

static inline void expect_answer(const char *where, uint8_t answer, uint8_t wanted)
{
    expect(where, "the answer", answer, wanted);
    if (answer == wanted) provoked[wanted]++;
}

/* A map has a bit to a cell; the largest has 2,017 bytes, with 7 unused bits. */
enum { MOST_CELLS = 127 * 127, MOST_BYTES = 2017 };

static inline size_t map_length(uint32_t width, uint32_t height)
{
    return ((size_t)width * height + 7) / 8;
}

/* Packs cells that are written with a byte each: cell c is bit c % 8, from the low end, of byte c / 8. */
static inline void pack(const uint8_t *cells, size_t count, uint8_t *map)
{
    memset(map, 0, (count + 7) / 8);
    for (size_t c = 0; c < count; c++) map[c / 8] |= (uint8_t)(cells[c] << c % 8);
}

/* Floors with every number of unused bits, of one byte and of more. */
typedef struct {
    uint32_t width, height;
} sides;

static const sides any_sides[] = {
    {1, 1}, {2, 1}, {1, 3}, {2, 2}, {5, 1}, {3, 2}, {7, 1}, {4, 2}, {3, 3}, {5, 2}, {11, 1}, {4, 3},
    {13, 1}, {7, 2}, {5, 3}, {4, 4}, {3, 11}, {127, 2}, {127, 127},
};
enum { ANY_SIDES = sizeof any_sides / sizeof any_sides[0] };

/* The first unused bit of the last byte, 8 where there is none. */
static inline unsigned first_unused(sides s)
{
    const unsigned left = s.width * s.height % 8;
    return left == 0 ? 8 : left;
}

/* The number at a place of a slice, by the size of its elements. */
static inline uint64_t number_at(const void *slice, size_t size, size_t place)
{
    if (size == 2) return ((const uint16_t *)slice)[place];
    if (size == 4) return ((const uint32_t *)slice)[place];
    return ((const uint64_t *)slice)[place];
}

static inline void put_number(void *slice, size_t size, size_t place, uint64_t number)
{
    if (size == 2) ((uint16_t *)slice)[place] = (uint16_t)number;
    else if (size == 4) ((uint32_t *)slice)[place] = (uint32_t)number;
    else ((uint64_t *)slice)[place] = number;
}

/* A slice lent to a call: its bytes between two guards, a copy of both guards and bytes, and the pointer that is handed
 * in. With no bytes the pointer is null, or one that no read would survive. */
enum { GUARD = 64 };

typedef struct {
    size_t size;
    unsigned char *block, *copy;
    void *p;
} lent;

static inline lent lend(size_t size, unsigned char fill)
{
    lent s = {size, malloc(size + 2 * GUARD), malloc(size + 2 * GUARD), NULL};
    if (s.block == NULL || s.copy == NULL) abort();
    for (size_t k = 0; k < GUARD; k++) {
        s.block[k] = (unsigned char)(0xA0 ^ k);
        s.block[GUARD + size + k] = (unsigned char)(0x50 ^ k);
    }
    memset(s.block + GUARD, fill, size);
    s.p = size != 0 ? s.block + GUARD : fill % 2 == 0 ? NULL : (void *)64;
    return s;
}

static inline lent lend_copy(const void *from, size_t size)
{
    lent s = lend(size, 0);
    if (size != 0) memcpy(s.p, from, size);
    return s;
}

static inline void before_call(lent *s)
{
    memcpy(s->copy, s->block, s->size + 2 * GUARD);
}

static inline void expect_guards(const char *where, const char *what, const lent *s)
{
    if (memcmp(s->block, s->copy, GUARD) != 0) fail(where, what, "was written before its first byte");
    if (memcmp(s->block + GUARD + s->size, s->copy + GUARD + s->size, GUARD) != 0)
        fail(where, what, "was written past its last byte");
}

static inline void expect_untouched(const char *where, const char *what, const lent *s)
{
    if (memcmp(s->block + GUARD, s->copy + GUARD, s->size) != 0) fail(where, what, "was touched");
}

/* A slice that the call only reads. */
static inline void expect_read_only(const char *where, const char *what, const lent *s)
{
    expect_guards(where, what, s);
    expect_untouched(where, what, s);
}

static inline void expect_zeros(const char *where, const char *what, const lent *s)
{
    for (size_t k = 0; k < s->size; k++)
        if (s->block[GUARD + k] != 0) {
            fail(where, what, "is not all 0");
            break;
        }
}

static inline void give_back(lent *s)
{
    free(s->block);
    free(s->copy);
}

/* The last line of a test, and the status of its program. Each of the answers listed must have been given. */
static inline int finish(const char *test, const uint8_t *answers, size_t count)
{
    for (size_t k = 0; k < count; k++)
        if (provoked[answers[k]] == 0) {
            printf("%s: answer %d was never given\n", test, answers[k]);
            failures++;
        }
    if (failures != 0) printf("c: %s: %d failed\n", test, failures);
    else printf("c: %s as expected\n", test);
    return failures != 0;
}

#endif
