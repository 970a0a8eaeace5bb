/* What the header says of the stack: every call takes less than 10 KiB. A call is made on a stack of its own that is
 * filled with one byte, and what is no longer that byte was used. What a call that does nothing uses is subtracted.
 * Each call is made twice and the second counts, since the first may have to look up memcpy and memset. */
#define _POSIX_C_SOURCE 200809L
#include <pthread.h>
#include <stdio.h>
#include <stdlib.h>
#include <string.h>
#include "lurfanzi.h"

enum { WIDE = 127, HIGH = 127, V = (WIDE + 1) * (HIGH + 1), BYTES = 2017, ROOM = 1 << 18, END = 20 * (WIDE + 1) + 20,
       MOST = 10 * 1024 };

static uint8_t map[BYTES], other[BYTES], working[BYTES], change[V], log_bytes[16384];
static uint32_t d[V], e[V], work[4 * V], d2[V], e2[V], slots[64];
static uint64_t f[V], back[V], f2[V], back2[V];
static uint16_t route[V], next[V], route2[V], next2[V], kept[V], legs[V], cells[WIDE * HIGH];
static uint32_t moves;
static size_t points, kept_count, logged;

static void costs(void) { lurfanzi_costs(WIDE, HIGH, map, BYTES, moves, 0, d, V, work, 4 * V); }
static void finish(void)
{
    points = lurfanzi_finish(WIDE, HIGH, map, BYTES, moves, 0, END, d, V, e, V, f, V, back, V, route, V, next, V, work,
                             4 * V).points;
}
static void check(void)
{
    lurfanzi_check(WIDE, HIGH, map, BYTES, moves, 0, END, d, V, e, V, f, V, back, V, route, V, next, V, points);
}
static void mend(void)
{
    lurfanzi_mend(WIDE, HIGH, map, BYTES, moves, 0, END, d, V, e, V, f, V, back, V, route, V, next, V, d2, V, e2, V, f2,
                  V, back2, V, route2, V, next2, V, work, 4 * V);
}
static void thin(void) { lurfanzi_thin(WIDE, HIGH, map, BYTES, route, V, kept, V, points); }
static void fewest(void)
{
    kept_count = lurfanzi_fewest_legs(WIDE, HIGH, map, BYTES, route, V, kept, V, legs, V, points).kept;
}
static void check_legs(void)
{
    lurfanzi_check_legs(WIDE, HIGH, map, BYTES, route, V, points, kept, V, kept_count, legs, V);
}
static void sight(void) { lurfanzi_sight(WIDE, HIGH, map, BYTES, 0, V - 2); }
static void changes(void) { lurfanzi_changes(WIDE, HIGH, map, BYTES, WIDE, HIGH, other, BYTES, cells, WIDE * HIGH); }
static void cost_changes(void)
{
    lurfanzi_cost_changes(WIDE, HIGH, map, BYTES, WIDE, HIGH, other, BYTES, moves, 0, d2, V, e2, V, change, V, work,
                          4 * V);
}
static void replay(void) { lurfanzi_replay(WIDE, HIGH, map, BYTES, moves, log_bytes, logged, d2, V, work, 4 * V); }
static void post(void) { lurfanzi_post(WIDE, HIGH, slots, 3, 4, 5, 6); }
static void working_map(void) { lurfanzi_working_map(WIDE, HIGH, slots, map, BYTES, working, BYTES); }
static void nothing(void) {}

static void (*call)(void);
static void *made(void *unused)
{
    call();
    return unused;
}

/* How much of its stack a thread that makes the call uses. */
static size_t used(void (*function)(void))
{
    static unsigned char *stack;
    pthread_attr_t attributes;
    pthread_t thread;
    size_t untouched = 0;
    if (!stack)
        stack = aligned_alloc(4096, ROOM);
    call = function;
    memset(stack, 0xA5, ROOM);
    pthread_attr_init(&attributes);
    if (pthread_attr_setstack(&attributes, stack, ROOM) || pthread_create(&thread, &attributes, made, NULL) ||
        pthread_join(thread, NULL)) {
        puts("c: stack: no thread could be made");
        exit(2);
    }
    pthread_attr_destroy(&attributes);
    while (untouched < ROOM && stack[untouched] == 0xA5)
        untouched++;
    return ROOM - untouched;
}

int main(void)
{
    static const struct { const char *name; void (*function)(void); } calls[] = {
        {"costs", costs}, {"finish", finish}, {"check", check}, {"mend", mend}, {"thin", thin},
        {"fewest_legs", fewest}, {"check_legs", check_legs}, {"sight", sight}, {"changes", changes},
        {"cost_changes", cost_changes}, {"replay", replay}, {"post", post}, {"working_map", working_map},
    };
    static const uint32_t neighbourhoods[] = {4, 8, 16};
    size_t most = 0, empty;
    uint32_t seed = 1;
    for (int k = 300; k < 1700; k++)
        for (int bit = 0; bit < 8; bit++) {
            seed = seed * 1103515245 + 12345;
            if ((seed >> 16) % 100 < 10)
                map[k] |= (uint8_t)(1 << bit);
        }
    memcpy(other, map, BYTES);
    other[1000] ^= 4;
    for (int n = 0; n < 3; n++) {
        moves = neighbourhoods[n];
        costs();
        finish();
        fewest();
        logged = 4 * points;
        for (size_t k = 0; k < points && k < 4096; k++) {
            log_bytes[4 * k] = 0x56;
            log_bytes[4 * k + 1] = 0x54;
            log_bytes[4 * k + 2] = (uint8_t)(route[k] % 256);
            log_bytes[4 * k + 3] = (uint8_t)(route[k] / 256);
        }
        if (points < 2) {
            printf("c: stack: there is no route with %u\n", (unsigned)moves);
            return 1;
        }
        for (size_t k = 0; k < sizeof calls / sizeof *calls; k++) {
            used(nothing);
            empty = used(nothing);
            used(calls[k].function);
            size_t taken = used(calls[k].function) - empty;
            if (taken > most)
                most = taken;
            if (taken >= MOST) {
                printf("c: stack: %s with %u takes %zu bytes\n", calls[k].name, (unsigned)moves, taken);
                return 1;
            }
        }
    }
    if (most < 1024) {
        printf("c: stack: %zu bytes cannot be the most\n", most);
        return 1;
    }
    puts("c: stack as expected");
    return 0;
}
