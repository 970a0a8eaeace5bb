/* The sight question and what is in the way, from C, with the map between guard bytes. The expected answers are read
 * off the rules: floors f, g, i and l are worked there by hand. Cells are written with a byte each and packed for the
 * call; a map that is to be refused is written as it is lent.
 */
#include "lent.h"
#include "lurfanzi.h"

_Static_assert(sizeof(lurfanzi_obstacle_result) == 8, "size of the result");
_Static_assert(offsetof(lurfanzi_obstacle_result, place) == 0, "place of place");
_Static_assert(offsetof(lurfanzi_obstacle_result, answer) == 4, "place of answer");
_Static_assert(LURFANZI_SIGHT_YES == 0 && LURFANZI_SIGHT_NO == 100, "answers of the sight question");
_Static_assert(LURFANZI_BLOCKED_CELL == 101 && LURFANZI_SHUT_STEP == 102, "a cell or a step in the way");
_Static_assert(LURFANZI_PINCH == 103, "a pinch in the way");

/* What is in the way is `answer` with `place`; the sight question then answers yes where that is 0, and no where it is
 * a cell, a step or a pinch, and gives the same refusals. */
static void expect_obstacle(
    const char *where, uint32_t w, uint32_t h, const uint8_t *map, size_t length, uint32_t a, uint32_t b,
    uint8_t answer, uint32_t place)
{
    lent m = lend_copy(map, length);
    before_call(&m);
    lurfanzi_obstacle_result r = lurfanzi_obstacle(w, h, m.p, length, a, b);
    expect_answer(where, r.answer, answer);
    expect(where, "the place", r.place, place);
    uint8_t sight = answer >= LURFANZI_BLOCKED_CELL ? LURFANZI_SIGHT_NO : answer;
    expect_answer(where, lurfanzi_sight(w, h, m.p, length, a, b), sight);
    expect_read_only(where, "the map", &m);
    give_back(&m);
}

/* The same for cells, from a to b and from b to a. */
static void expect_both_ways(
    const char *where, uint32_t w, uint32_t h, const uint8_t *cells, uint32_t a, uint32_t b,
    uint8_t answer, uint32_t from_a, uint32_t from_b)
{
    uint8_t map[MOST_BYTES];
    pack(cells, (size_t)w * h, map);
    expect_obstacle(where, w, h, map, map_length(w, h), a, b, answer, from_a);
    expect_obstacle(where, w, h, map, map_length(w, h), b, a, answer, from_b);
}

static void expect_clear(const char *where, uint32_t w, uint32_t h, const uint8_t *cells, uint32_t a, uint32_t b)
{
    expect_both_ways(where, w, h, cells, a, b, LURFANZI_SIGHT_YES, 0, 0);
}

static void expect_cells(
    const char *where, uint32_t w, uint32_t h, const uint8_t *cells, uint32_t a, uint32_t b,
    uint32_t from_a, uint32_t from_b)
{
    expect_both_ways(where, w, h, cells, a, b, LURFANZI_BLOCKED_CELL, from_a, from_b);
}

static void expect_steps(
    const char *where, uint32_t w, uint32_t h, const uint8_t *cells, uint32_t a, uint32_t b,
    uint32_t from_a, uint32_t from_b)
{
    expect_both_ways(where, w, h, cells, a, b, LURFANZI_SHUT_STEP, from_a, from_b);
}

static void expect_pinches(
    const char *where, uint32_t w, uint32_t h, const uint8_t *cells, uint32_t a, uint32_t b,
    uint32_t from_a, uint32_t from_b)
{
    expect_both_ways(where, w, h, cells, a, b, LURFANZI_PINCH, from_a, from_b);
}

static void expect_refused(
    const char *where, uint32_t w, uint32_t h, const uint8_t *map, size_t length, uint32_t a, uint32_t b,
    uint8_t refusal)
{
    expect_obstacle(where, w, h, map, length, a, b, refusal, 0);
}

/* Floor i: 3 by 2, from (0,0) to (3,2) exactly the cells (0,0), (1,0), (1,1), (2,1) are entered. */
static void floor_i(void)
{
    const int entered[6] = {1, 1, 0, 0, 1, 1};
    uint8_t map[6] = {0};
    expect_clear("floor i, open", 3, 2, map, 0, 11);
    for (uint32_t cell = 0; cell < 6; cell++) {
        map[cell] = 1;
        if (entered[cell]) expect_cells("floor i, one cell", 3, 2, map, 0, 11, cell, cell);
        else expect_clear("floor i, a cell beside the segment", 3, 2, map, 0, 11);
        map[cell] = 0;
    }
    /* Cells 1 and 5: the first is nearer to (0,0) in columns, the second to (3,2). */
    const uint8_t apart[6] = {0, 1, 0, 0, 0, 1};
    expect_cells("floor i, two columns", 3, 2, apart, 0, 11, 1, 5);
    /* Cells 1 and 4 stand in one column: the nearer in rows is named. */
    const uint8_t column[6] = {0, 1, 0, 0, 1, 0};
    expect_cells("floor i, one column", 3, 2, column, 0, 11, 1, 4);
    const uint8_t all[6] = {1, 1, 1, 1, 1, 1};
    expect_cells("floor i, blocked", 3, 2, all, 0, 11, 0, 5);
}

/* The same floor upright and mirrored: 2 by 3, from (2,0) to (0,3). The cells entered are (1,0), (1,1), (0,1), (0,2),
 * which have numbers 1, 3, 2 and 4. */
static void mirrored(void)
{
    const uint8_t row[6] = {0, 0, 1, 1, 0, 0};
    expect_cells("mirrored, two columns of a row", 2, 3, row, 2, 9, 3, 2);
    const uint8_t column[6] = {0, 1, 0, 1, 0, 0};
    expect_cells("mirrored, two rows of a column", 2, 3, column, 2, 9, 1, 3);
    const uint8_t beside[6] = {1, 0, 0, 0, 0, 1};
    expect_clear("mirrored, cells beside the segment", 2, 3, beside, 2, 9);
}

/* Floor g: 2 by 2 with cells 0 and 3 blocked. Vertex 4, where they touch, is a pinch: nothing starts there, ends there
 * or passes. */
static void floor_g(void)
{
    const uint8_t map[4] = {1, 0, 0, 1};
    expect_pinches("floor g, between the touching cells", 2, 2, map, 2, 6, 4, 4);
    expect_cells("floor g, through the blocked cells", 2, 2, map, 0, 8, 0, 3);
    expect_pinches("floor g, to the corner they share", 2, 2, map, 2, 4, 4, 4);
    expect_pinches("floor g, along one cell to the corner they share", 2, 2, map, 5, 4, 4, 4);
    expect_pinches("floor g, along one cell and the other", 2, 2, map, 1, 7, 4, 4);
    expect_steps("floor g, along a blocked border", 2, 2, map, 0, 1, 0, 1);
    expect_steps("floor g, down a blocked border", 2, 2, map, 0, 3, 0, 3);
    expect_steps("floor g, along the left border", 2, 2, map, 0, 6, 0, 3);
    expect_clear("floor g, along an open border", 2, 2, map, 1, 2);
    expect_clear("floor g, a vertex sees itself", 2, 2, map, 0, 0);
    expect_clear("floor g, a pinch sees itself", 2, 2, map, 4, 4);
    expect_clear("floor g, past the pinch", 2, 2, map, 1, 5);
}

/* Every 2 by 2 floor: vertex 4 is a pinch where cells 0 and 3 alone are blocked, or cells 1 and 2 alone. */
static void across(const uint8_t *map, int pinched, uint32_t a, uint32_t b, uint32_t near_a, uint32_t near_b)
{
    const char *const where = "four cells, a diagonal";
    if (map[near_a] || map[near_b])
        expect_cells(where, 2, 2, map, a, b, map[near_a] ? near_a : near_b, map[near_b] ? near_b : near_a);
    else if (pinched) expect_pinches(where, 2, 2, map, a, b, 4, 4);
    else expect_clear(where, 2, 2, map, a, b);
}

static void along(const uint8_t *map, int pinched, uint32_t a, uint32_t b, int shut_at_a, int shut_at_b)
{
    const char *const where = "four cells, a line";
    if (shut_at_a || shut_at_b) expect_steps(where, 2, 2, map, a, b, shut_at_a ? a : 4, shut_at_b ? b : 4);
    else if (pinched) expect_pinches(where, 2, 2, map, a, b, 4, 4);
    else expect_clear(where, 2, 2, map, a, b);
}

static void outwards(const uint8_t *map, int pinched, uint32_t cell, uint32_t corner)
{
    const char *const where = "four cells, from the middle";
    if (map[cell]) expect_cells(where, 2, 2, map, 4, corner, cell, cell);
    else if (pinched) expect_pinches(where, 2, 2, map, 4, corner, 4, 4);
    else expect_clear(where, 2, 2, map, 4, corner);
}

static void four_cells(void)
{
    const uint32_t corners[4] = {0, 2, 6, 8};
    for (unsigned bits = 0; bits < 16; bits++) {
        uint8_t m[4];
        for (int cell = 0; cell < 4; cell++) m[cell] = bits >> cell & 1;
        const int pinched = bits == 9 || bits == 6;
        across(m, pinched, 0, 8, 0, 3);
        across(m, pinched, 2, 6, 1, 2);
        along(m, pinched, 1, 7, m[0] && m[1], m[2] && m[3]);
        along(m, pinched, 3, 5, m[0] && m[2], m[1] && m[3]);
        for (uint32_t cell = 0; cell < 4; cell++) outwards(m, pinched, cell, corners[cell]);
        expect_clear("four cells, the middle", 2, 2, m, 4, 4);
    }
}

/* Floors with pinches inside. */
static void pinches(void)
{
    /* 4 by 4 with cells 1, 6, 9 and 14 blocked: vertices 7, 12 and 17 of column line 2 are pinches. */
    const uint8_t column[16] = {0, 1, 0, 0, 0, 0, 1, 0, 0, 1, 0, 0, 0, 0, 1, 0};
    expect_pinches("the nearest of three pinches", 4, 4, column, 2, 22, 7, 17);
    expect_pinches("from the first pinch to the second", 4, 4, column, 7, 12, 7, 12);
    expect_pinches("along a row line", 4, 4, column, 5, 9, 7, 7);
    expect_pinches("along a row line to the pinch", 4, 4, column, 9, 7, 7, 7);
    expect_clear("along a row line before the pinch", 4, 4, column, 9, 8);
    /* 6 by 3 with cells 2 and 9 blocked: vertex 10, in column 3 and row 1, is a pinch. */
    const uint8_t one[18] = {0, 0, 1, 0, 0, 0, 0, 0, 0, 1, 0, 0};
    expect_pinches("strictly inside a slanted segment", 6, 3, one, 5, 15, 10, 10);
    expect_pinches("strictly inside a diagonal", 6, 3, one, 4, 16, 10, 10);
    expect_pinches("an end of a slanted segment", 6, 3, one, 5, 10, 10, 10);
    expect_clear("beyond the pinch", 6, 3, one, 11, 13);
    /* With cell 7, which the segment from (6,0) to (0,2) enters behind the pinch: a cell is named before a pinch. */
    const uint8_t behind[18] = {0, 0, 1, 0, 0, 0, 0, 1, 0, 1, 0, 0};
    expect_cells("a cell behind the pinch", 6, 3, behind, 6, 14, 7, 7);
    /* With cells 5 and 11, which shut the last step of row line 1: a step is named before a pinch. */
    const uint8_t shut[18] = {0, 0, 1, 0, 0, 1, 0, 0, 0, 1, 0, 1};
    expect_steps("a step behind the pinch", 6, 3, shut, 7, 13, 12, 13);
    expect_pinches("the line before that step", 6, 3, shut, 7, 12, 10, 10);
    /* The same pinch from the other diagonal: cells 3 and 8. */
    const uint8_t other[18] = {0, 0, 0, 1, 0, 0, 0, 0, 1, 0, 0, 0};
    expect_pinches("the other diagonal", 6, 3, other, 1, 19, 10, 10);
    expect_cells("the other diagonal, crossed", 6, 3, other, 5, 15, 3, 8);
}

/* Along a grid line between two blocked cells, and along the border of floor f. */
static void shut_steps(void)
{
    const uint8_t f[2] = {0, 1};
    expect_steps("floor f, along its upper border", 2, 1, f, 0, 2, 1, 2);
    const uint8_t beside[6] = {0, 1, 0, 0, 1, 0};
    expect_steps("a step between two blocked cells", 3, 2, beside, 4, 7, 5, 6);
    const uint8_t one[6] = {0, 1, 0, 0, 0, 0};
    expect_clear("a step beside one blocked cell", 3, 2, one, 4, 7);
    /* Column line 1 of 2 by 4, with two steps shut: from the top the one from row 1 to 2, from below from 4 to 3. */
    const uint8_t upright[8] = {0, 0, 1, 1, 0, 0, 1, 1};
    expect_steps("two shut steps of a column line", 2, 4, upright, 1, 13, 4, 13);
}

/* Each bit of a map alone: it is the cell of its number, in the way across itself and across no other. */
static void every_bit(void)
{
    for (size_t k = 0; k < ANY_SIDES; k++) {
        const uint32_t w = any_sides[k].width, h = any_sides[k].height, cells = w * h;
        const uint32_t step = cells > 300 ? 97 : 1; /* fewer of the largest */
        for (uint32_t blocked = 0; blocked < cells; blocked += step) {
            uint8_t map[MOST_BYTES] = {0};
            map[blocked / 8] = (uint8_t)(1u << blocked % 8);
            for (uint32_t c = 0; c < cells; c += step) {
                const uint32_t corner = c + c / w, across = corner + w + 2;
                const uint8_t answer = c == blocked ? LURFANZI_BLOCKED_CELL : LURFANZI_SIGHT_YES;
                const uint32_t place = c == blocked ? c : 0;
                expect_obstacle("one bit", w, h, map, map_length(w, h), corner, across, answer, place);
            }
        }
    }
}

/* Refusal 3: each unused bit of the last byte, alone and on a map whose other bits are all set. */
static void unused_bits(void)
{
    for (size_t k = 0; k < ANY_SIDES; k++) {
        const uint32_t w = any_sides[k].width, h = any_sides[k].height, v = (w + 1) * (h + 1);
        const size_t length = map_length(w, h), last = length - 1;
        const unsigned unused = first_unused(any_sides[k]);
        uint8_t none[MOST_BYTES] = {0}, all[MOST_BYTES];
        memset(all, 0xFF, sizeof all);
        all[last] = (uint8_t)(0xFF >> (8 - unused));
        expect_obstacle("no bit set", w, h, none, length, 0, v - 1, LURFANZI_SIGHT_YES, 0);
        expect_obstacle("every cell's bit set", w, h, all, length, 0, 0, LURFANZI_SIGHT_YES, 0);
        for (unsigned bit = unused; bit < 8; bit++) {
            const uint8_t set = (uint8_t)(1u << bit);
            none[last] |= set, all[last] |= set;
            expect_refused("an unused bit", w, h, none, length, 0, 0, LURFANZI_UNUSED_BIT);
            expect_refused("an unused bit, and a bad end", w, h, none, length, v, 0, LURFANZI_UNUSED_BIT);
            expect_refused("an unused bit beside all others", w, h, all, length, 0, v - 1, LURFANZI_UNUSED_BIT);
            none[last] ^= set, all[last] ^= set;
        }
    }
}

/* Refusal 2: lengths off by one either way, with every bit of the map set; and a byte to a cell. */
static void map_lengths(void)
{
    static uint8_t map[MOST_CELLS];
    for (size_t k = 0; k < ANY_SIDES; k++) {
        const uint32_t w = any_sides[k].width, h = any_sides[k].height, v = (w + 1) * (h + 1);
        const size_t length = map_length(w, h), others[] = {0, length - 1, length + 1, (size_t)w * h, 256 + length};
        for (int fill = 0; fill < 256; fill += 255) {
            memset(map, fill, sizeof map);
            for (size_t other = 0; other < 5; other++) {
                if (others[other] == length) continue; /* one cell */
                expect_refused("a bad map length", w, h, map, others[other], 0, 0, LURFANZI_BAD_MAP_LENGTH);
                expect_refused("a bad length and end", w, h, map, others[other], v, 0, LURFANZI_BAD_MAP_LENGTH);
            }
        }
    }
}

/* Floor l: sizes, map lengths and ends at their limits; numbers that would pass if cut down to 8 or 16 bits. */
static void floor_l(void)
{
    static uint8_t cells[MOST_CELLS], map[MOST_BYTES + 1];
    const uint8_t cell[1] = {0};
    const uint32_t sizes[] = {0, 128, 257, 65537, 4294967295u};
    for (size_t k = 0; k < sizeof sizes / sizeof sizes[0]; k++) {
        expect_refused("a bad width", sizes[k], 1, cell, 1, 0, 0, LURFANZI_BAD_SIZE);
        expect_refused("a bad height", 1, sizes[k], cell, 1, 0, 0, LURFANZI_BAD_SIZE);
    }
    static uint8_t too_large[2048];
    expect_refused("a map of 128 by 128", 128, 128, too_large, 2048, 0, 0, LURFANZI_BAD_SIZE);
    expect_refused("a null map on a bad size", 0, 0, NULL, 0, 0, 0, LURFANZI_BAD_SIZE);
    expect_refused("a null map of length 0", 1, 1, NULL, 0, 0, 0, LURFANZI_BAD_MAP_LENGTH);
    expect_clear("the largest floor", 127, 127, cells, 0, 16383);
    expect_refused("one byte short", 127, 127, map, 2016, 0, 16383, LURFANZI_BAD_MAP_LENGTH);
    expect_refused("one byte more", 127, 127, map, 2018, 0, 16383, LURFANZI_BAD_MAP_LENGTH);
    for (unsigned bit = 1; bit < 8; bit++) {
        map[2016] = (uint8_t)(1u << bit);
        expect_refused("an unused bit of the largest map", 127, 127, map, 2017, 0, 16384, LURFANZI_UNUSED_BIT);
    }
    map[2016] = 0;
    cells[127 * 127 - 1] = 1;
    expect_cells("the last cell of the largest floor", 127, 127, cells, 0, 16383, 16128, 16128);
    expect_steps("the last step of the largest floor", 127, 127, cells, 127, 16383, 16255, 16383);
    cells[127 * 127 - 1] = 0;
    /* Two cells that touch at (126, 126), beside the diagonal. */
    cells[125 * 127 + 126] = cells[126 * 127 + 125] = 1;
    expect_pinches("the last pinch of the largest floor", 127, 127, cells, 0, 16383, 16254, 16254);
    cells[125 * 127 + 126] = cells[126 * 127 + 125] = 0;
    const uint32_t ends[] = {16384, 65536, 65536 + 5, 4294967295u};
    for (size_t k = 0; k < sizeof ends / sizeof ends[0]; k++) {
        expect_refused("a bad first end", 127, 127, map, 2017, ends[k], 0, LURFANZI_BAD_END);
        expect_refused("a bad second end", 127, 127, map, 2017, 0, ends[k], LURFANZI_BAD_END);
    }
    expect_clear("the last vertex of 1 by 1", 1, 1, cell, 3, 0);
    expect_refused("V of 1 by 1", 1, 1, cell, 1, 4, 0, LURFANZI_BAD_END);
}

int main(void)
{
    setbuf(stdout, NULL); /* so that a crash loses no line */
    floor_i();
    mirrored();
    floor_g();
    four_cells();
    pinches();
    shut_steps();
    every_bit();
    unused_bits();
    map_lengths();
    floor_l();
    const uint8_t answers[] = {
        0, 1, 2, 3, 5, LURFANZI_SIGHT_NO, LURFANZI_BLOCKED_CELL, LURFANZI_SHUT_STEP, LURFANZI_PINCH};
    return finish("sight", answers, sizeof answers);
}
