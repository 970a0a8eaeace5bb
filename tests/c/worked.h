/* Jobs on small floors with their whole sheets, worked by hand: the floors a to h of the rules and more. */
#ifndef WORKED_H
#define WORKED_H

#include "lurfanzi.h"

#define M LURFANZI_UNREACHABLE

enum { PLACES = 12 };

/* A floor with its whole sheet. Its map is one byte, in which cell c counts 2^c; those after it are not the map's. A
 * number that the floor's text leaves out follows from the costs and the counts. */
typedef struct {
    const char *name;
    uint32_t width, height;
    uint8_t map[4];
    uint32_t neighbourhood, a, b;
    uint8_t answer;
    uint32_t cost;
    uint64_t total;
    uint32_t d[PLACES], e[PLACES];
    uint64_t f[PLACES], back[PLACES];
    size_t points;
    uint16_t route[PLACES], next[PLACES];
    size_t kept;
    uint16_t positions[PLACES];
} worked;

static const worked floors[] = {
    {"floor a", 1, 1, {0}, 8, 0, 3, 0, 577, 1, {0, 408, 408, 577}, {577, 408, 408, 0}, {1, 0, 0, 1}, {1, 0, 0, 1},
     2, {0, 3}, {3, 0, 0, 3}, 2, {0, 1}},
    {"floor b", 1, 1, {0}, 4, 0, 3, 0, 816, 2, {0, 408, 408, 816}, {816, 408, 408, 0}, {1, 1, 1, 2}, {2, 1, 1, 1},
     3, {0, 1, 3}, {1, 3, 3, 3}, 2, {0, 2}},
    {"floor c", 1, 1, {1}, 8, 0, 3, 7, 0, 0, {0, M, M, M}, {0}, {0}, {0}, 0, {0}, {0}, 0, {0}},
    {"floor d", 1, 1, {1}, 8, 0, 0, 0, 0, 1, {0, M, M, M}, {0, M, M, M}, {1}, {1}, 1, {0}, {0}, 1, {0}},
    {"floor e", 2, 1, {0}, 8, 0, 5, 0, 985, 2, {0, 408, 816, 408, 577, 985}, {985, 577, 408, 816, 408, 0},
     {1, 1, 0, 0, 1, 2}, {2, 1, 0, 0, 1, 1}, 3, {0, 1, 5}, {1, 5, 0, 0, 5, 5}, 2, {0, 2}},
    {"floor f", 2, 1, {2}, 8, 0, 5, 7, 0, 0, {0, 408, M, 408, 577, M}, {0}, {0}, {0}, 0, {0}, {0}, 0, {0}},
    {"floor g", 2, 2, {9}, 8, 2, 6, 7, 0, 0, {M, 408, 0, M, M, 408, M, M, M}, {0}, {0}, {0}, 0, {0}, {0}, 0, {0}},
    {"floor h", 2, 2, {0}, 4, 0, 8, 0, 1632, 6, {0, 408, 816, 408, 816, 1224, 816, 1224, 1632},
     {1632, 1224, 816, 1224, 816, 408, 816, 408, 0}, {1, 1, 1, 1, 2, 3, 1, 3, 6}, {6, 3, 1, 3, 2, 1, 1, 1, 1},
     5, {0, 1, 4, 5, 8}, {1, 4, 5, 4, 5, 8, 7, 8, 8}, 2, {0, 4}},
    /* Not of the rules' letters: walked by f alone, the route would go from 1 to 5, where f is 2, and not to 2, where
     * it is 1; the traversal counts are 2 at both. */
    {"three cells in a row", 3, 1, {0}, 4, 0, 7, 0, 1632, 4, {0, 408, 816, 1224, 408, 816, 1224, 1632},
     {1632, 1224, 816, 408, 1224, 816, 408, 0}, {1, 1, 1, 1, 1, 2, 3, 4}, {4, 3, 2, 1, 1, 1, 1, 1},
     5, {0, 1, 2, 6, 7}, {1, 2, 6, 7, 5, 6, 7, 7}, 2, {0, 4}},
    /* Floor g within its cell 1: vertex 4 is no way round. */
    {"round the pinch", 2, 2, {9}, 4, 1, 5, 0, 816, 1, {M, 0, 408, M, M, 816, M, M, M},
     {M, 816, 408, M, M, 0, M, M, M}, {0, 1, 1, 0, 0, 1}, {0, 1, 1, 0, 0, 1}, 3, {1, 2, 5},
     {0, 2, 5, 0, 0, 5}, 2, {0, 2}},
    {"floor g mirrored", 2, 2, {6}, 8, 0, 8, 7, 0, 0, {0, 408, M, 408, M, M, M, M, M}, {0}, {0}, {0},
     0, {0}, {0}, 0, {0}},
    /* Of 1 and of 4, on the way, vertex 0 is the next vertex; at 2 and 3, off the way, 0 stands too. */
    {"floor e turned round", 2, 1, {0}, 8, 5, 0, 0, 985, 2, {985, 577, 408, 816, 408, 0}, {0, 408, 816, 408, 577, 985},
     {2, 1, 0, 0, 1, 1}, {1, 1, 0, 0, 1, 2}, 3, {5, 4, 0}, {0, 0, 0, 0, 0, 4}, 2, {0, 2}},
    {"equal ends", 2, 1, {0}, 4, 4, 4, 0, 0, 1, {816, 408, 816, 408, 0, 408}, {816, 408, 816, 408, 0, 408},
     {0, 0, 0, 0, 1}, {0, 0, 0, 0, 1}, 1, {4}, {0, 0, 0, 0, 4}, 1, {0}},
};

/* Floors with neighbourhood 16, whose moves cost 1000, 1414 and 2236. The vertices of the floors of 3 by 2 cells are 0
 * to 3, 4 to 7 and 8 to 11 by rows. */
static const worked of_sixteen[] = {
    {"floor e, 16", 2, 1, {0}, 16, 0, 5, 0, 2236, 1, {0, 1000, 2000, 1000, 1414, 2236},
     {2236, 1414, 1000, 2000, 1000, 0}, {1, 0, 0, 0, 0, 1}, {1, 0, 0, 0, 0, 1}, 2, {0, 5}, {5, 0, 0, 0, 0, 5},
     2, {0, 1}},
    {"floor a, 16", 1, 1, {0}, 16, 0, 3, 0, 1414, 1, {0, 1000, 1000, 1414}, {1414, 1000, 1000, 0}, {1, 0, 0, 1},
     {1, 0, 0, 1}, 2, {0, 3}, {3, 0, 0, 3}, 2, {0, 1}},
    {"floor c, 16", 1, 1, {1}, 16, 0, 3, 7, 0, 0, {0, M, M, M}, {0}, {0}, {0}, 0, {0}, {0}, 0, {0}},
    {"floor f, 16", 2, 1, {2}, 16, 0, 5, 7, 0, 0, {0, 1000, M, 1000, 1414, M}, {0}, {0}, {0}, 0, {0}, {0}, 0, {0}},
    {"floor g, 16", 2, 2, {9}, 16, 2, 6, 7, 0, 0, {M, 1000, 0, M, M, 1000, M, M, M}, {0}, {0}, {0}, 0, {0}, {0},
     0, {0}},
    {"floor h, 16", 2, 2, {0}, 16, 0, 8, 0, 2828, 1, {0, 1000, 2000, 1000, 1414, 2236, 2000, 2236, 2828},
     {2828, 2236, 2000, 2236, 1414, 1000, 2000, 1000, 0}, {1, 0, 0, 0, 1, 0, 0, 0, 1}, {1, 0, 0, 0, 1, 0, 0, 0, 1},
     3, {0, 4, 8}, {4, 0, 0, 0, 8, 0, 0, 0, 8}, 2, {0, 2}},
    /* The move (1, 0) comes before (2, 1): of 1 and 6, by which one route each goes, 1 is taken. */
    {"three cells in a row, 16", 3, 1, {0}, 16, 0, 7, 0, 3236, 2, {0, 1000, 2000, 3000, 1000, 1414, 2236, 3236},
     {3236, 2236, 1414, 1000, 3000, 2000, 1000, 0}, {1, 1, 0, 0, 0, 0, 1, 2}, {2, 1, 0, 0, 0, 0, 1, 1},
     3, {0, 1, 7}, {1, 7, 0, 0, 0, 0, 7, 7}, 2, {0, 2}},
    /* The move (2, 1) comes before (1, 1): of 5 and 6, by which one route each goes, 6 is taken. */
    {"two rows of three cells, 16", 3, 2, {0}, 16, 0, 11, 0, 3650, 2,
     {0, 1000, 2000, 3000, 1000, 1414, 2236, 3236, 2000, 2236, 2828, 3650},
     {3650, 2828, 2236, 2000, 3236, 2236, 1414, 1000, 3000, 2000, 1000, 0}, {1, 0, 0, 0, 0, 1, 1, 0, 0, 0, 0, 2},
     {2, 0, 0, 0, 0, 1, 1, 0, 0, 0, 0, 1}, 3, {0, 6, 11}, {6, 0, 0, 0, 0, 11, 11, 0, 0, 0, 0, 11}, 2, {0, 2}},
    /* Cell 1 is blocked, which the move from 0 to 6 enters. */
    {"past a cell, 16", 3, 2, {2}, 16, 0, 6, 0, 2414, 1,
     {0, 1000, 3414, 3828, 1000, 1414, 2414, 3414, 2000, 2236, 2828, 3650},
     {2414, 2000, 1000, 1414, 2000, 1000, 0, 1000, 2236, 1414, 1000, 1414}, {1, 0, 0, 0, 0, 1, 1},
     {1, 0, 0, 0, 0, 1, 1}, 3, {0, 5, 6}, {5, 0, 0, 0, 0, 6, 6}, 3, {0, 1, 2}},
    /* Cells 1 and 3 are blocked and touch at vertex 5: none of the moves from 0 to 5, 6 and 9 is open. */
    {"across a corner, 16", 3, 2, {2 | 8}, 16, 0, 9, 7, 0, 0, {0, 1000, M, M, 1000, M, M, M, M, M, M, M}, {0}, {0}, {0},
     0, {0}, {0}, 0, {0}},
    /* Cells 0 and 4 are blocked and touch at vertex 5, beside which the move from 1 to 7 passes. */
    {"beside a corner, 16", 3, 2, {1 | 16}, 16, 1, 7, 0, 2236, 1,
     {M, 0, 1000, 2000, M, M, 1414, 2236, M, M, 2414, 2828}, {M, 2236, 1414, 1000, M, M, 1000, 0, M, M, 1414, 1000},
     {0, 1, 0, 0, 0, 0, 0, 1}, {0, 1, 0, 0, 0, 0, 0, 1}, 2, {1, 7}, {0, 7, 0, 0, 0, 0, 0, 7}, 2, {0, 1}},
    /* Cells 2 and 4 are blocked and touch at vertex 6, which the move from 0 does not reach, though cells 0 and 1 are
     * open. The move from 0 to 9 is. */
    {"to a pinch, 16", 3, 2, {4 | 16}, 16, 0, 9, 0, 2236, 1, {0, 1000, 2000, M, 1000, 1414, M, M, 2000, 2236, M, M},
     {2236, 2000, 2414, M, 1414, 1000, M, M, 1000, 0, M, M}, {1, 0, 0, 0, 0, 0, 0, 0, 0, 1},
     {1, 0, 0, 0, 0, 0, 0, 0, 0, 1}, 2, {0, 9}, {9, 0, 0, 0, 0, 0, 0, 0, 0, 9}, 2, {0, 1}},
};

#endif
