/* What changed between two floors, from C, with both maps and every slice between guard bytes. The expected numbers are
 * worked by hand; where many cells or vertices follow one rule, a plain loop says it.
 */
#include "lent.h"
#include "lurfanzi.h"

#define M LURFANZI_UNREACHABLE

_Static_assert(sizeof(lurfanzi_changes_result) == 24, "size of the result");
_Static_assert(offsetof(lurfanzi_changes_result, closed) == 0, "place of closed");
_Static_assert(offsetof(lurfanzi_changes_result, opened) == 8, "place of opened");
_Static_assert(offsetof(lurfanzi_changes_result, answer) == 16, "place of answer");
_Static_assert(LURFANZI_SIZES_DIFFER == 15, "answer 15");
_Static_assert(LURFANZI_COST_EQUAL == 0 && LURFANZI_COST_FELL == 1 && LURFANZI_COST_ROSE == 2, "bytes 0 to 2");
_Static_assert(LURFANZI_COST_FROM_UNREACHABLE == 3 && LURFANZI_COST_TO_UNREACHABLE == 4, "bytes 3 and 4");

typedef struct {
    uint32_t width, height;
    const uint8_t *map;
    size_t map_length;
} plan;

/* Two floors, the first and the second; the lengths of the slices; and what the costs are asked for. */
enum { COSTS, NEW_COSTS, BYTES, WORK, SLICES };
static const char *const slice_name[SLICES] = {"the costs", "the second costs", "the bytes", "work"};
static const size_t element[SLICES] = {4, 4, 1, 4};

typedef struct {
    plan floor[2];
    size_t cells_length;
    uint32_t neighbourhood, a;
    size_t length[SLICES];
} pair;

static pair make_pair(uint32_t width, uint32_t height, const uint8_t *map, const uint8_t *new_map)
{
    const size_t bytes = map_length(width, height), v = (size_t)(width + 1) * (height + 1);
    return (pair){
        {{width, height, map, bytes}, {width, height, new_map, bytes}},
        (size_t)width * height, 8, 0, {v, v, v, 4 * v}};
}

static const unsigned char fills[] = {0x00, 0x5A, 0xFF};

/* Compares over a slice that holds anything: at answer 0 it has the cells given, then 0, and else what it held. */
static void compare(
    const char *where, const pair *p, uint8_t answer, size_t closed, size_t opened, const uint16_t *listed)
{
    const plan *f = &p->floor[0], *g = &p->floor[1];
    for (size_t k = 0; k < sizeof fills; k++) {
        lent map = lend_copy(f->map, f->map_length), other = lend_copy(g->map, g->map_length);
        lent cells = lend(2 * p->cells_length, fills[k]);
        before_call(&map), before_call(&other), before_call(&cells);
        lurfanzi_changes_result r = lurfanzi_changes(
            f->width, f->height, map.p, f->map_length, g->width, g->height, other.p, g->map_length,
            cells.p, p->cells_length);
        expect_answer(where, r.answer, answer);
        expect(where, "closed", r.closed, closed);
        expect(where, "opened", r.opened, opened);
        expect_read_only(where, "the first map", &map);
        expect_read_only(where, "the second map", &other);
        expect_guards(where, "the cells", &cells);
        if (answer != 0) {
            expect_untouched(where, "the cells", &cells);
        } else {
            const uint16_t *is = cells.p;
            for (size_t place = 0; place < p->cells_length; place++)
                expect(where, "a cell", is[place], place < closed + opened ? listed[place] : 0);
        }
        give_back(&map), give_back(&other), give_back(&cells);
    }
}

static void refused(const char *where, const pair *p, uint8_t answer)
{
    compare(where, p, answer, 0, 0, NULL);
}

/* Both ways: from the first floor to the second, and back, where what closed opens. */
static void compare_both(
    const char *where, pair p, size_t closed, size_t opened, const uint16_t *listed)
{
    compare(where, &p, 0, closed, opened, listed);
    const plan first = p.floor[0];
    p.floor[0] = p.floor[1], p.floor[1] = first;
    compare(where, &p, 0, opened, closed, listed);
}

static const uint8_t open[2], shut[1] = {2}, touching[1] = {9}, crossed[1] = {6};

static void small_floors(void)
{
    compare_both("equal floors", make_pair(2, 1, shut, shut), 0, 0, NULL);
    compare_both("a wall", make_pair(2, 1, open, shut), 1, 0, (const uint16_t[]){1});
    /* The list is 0 0 here, as for equal floors: the counts tell them apart. */
    compare_both("cell 0", make_pair(2, 1, open, (const uint8_t[]){1}), 1, 0, (const uint16_t[]){0});
    compare_both("a wall moved", make_pair(2, 1, shut, (const uint8_t[]){1}), 1, 1, (const uint16_t[]){0, 1});
    compare_both("floor g mirrored", make_pair(2, 2, touching, crossed), 2, 2, (const uint16_t[]){0, 1, 2, 3});
    /* Cells 1, 3, 7, 8 and then 1, 5, 7: on three rows of three, across the first byte's end. */
    compare_both(
        "three rows", make_pair(3, 3, (const uint8_t[]){2 | 8 | 128, 1}, (const uint8_t[]){2 | 32 | 128, 0}),
        1, 2, (const uint16_t[]){3, 5, 8});
    /* The same memory twice. */
    static const uint8_t once[1] = {9};
    uint16_t cells[4] = {7, 7, 7, 7};
    lurfanzi_changes_result r = lurfanzi_changes(2, 2, once, 1, 2, 2, once, 1, cells, 4);
    expect_answer("one map twice", r.answer, 0);
    expect("one map twice", "closed and opened", r.closed + r.opened, 0);
    expect("one map twice", "the cells", cells[0] | cells[1] | cells[2] | cells[3], 0);
}

/* Every pair of floors of 3 by 2 cells. */
static void every_pair(void)
{
    for (unsigned pairs = 0; pairs < 1u << 12; pairs++) {
        const uint8_t map[1] = {(uint8_t)(pairs & 63)}, new_map[1] = {(uint8_t)(pairs >> 6)};
        const pair p = make_pair(3, 2, map, new_map);
        uint16_t listed[6];
        size_t closed = 0, opened = 0;
        for (uint16_t c = 0; c < 6; c++) {
            const int before = map[0] >> c & 1, after = new_map[0] >> c & 1;
            if (before != after) listed[closed + opened] = c;
            closed += before < after, opened += before > after;
        }
        compare("every pair", &p, 0, closed, opened, listed);
    }
}

/* On floors with every number of unused bits: one cell alone, all cells, and all but one. */
static void any_floors(void)
{
    static uint8_t none[MOST_BYTES], all[MOST_BYTES], one[MOST_BYTES], but_one[MOST_BYTES];
    static uint16_t listed[MOST_CELLS], others[MOST_CELLS];
    for (uint16_t c = 0; c < MOST_CELLS; c++) listed[c] = c;
    for (size_t k = 0; k < ANY_SIDES; k++) {
        const sides s = any_sides[k];
        const uint16_t count = (uint16_t)(s.width * s.height), last = (uint16_t)(count - 1);
        const size_t length = map_length(s.width, s.height);
        memset(all, 0xFF, length);
        all[length - 1] = (uint8_t)(0xFF >> (8 - first_unused(s)));
        compare_both("all cells", make_pair(s.width, s.height, none, all), count, 0, listed);
        const uint16_t places[] = {0, (uint16_t)(count / 2), last};
        for (size_t i = 0; i < 3; i++) {
            const uint16_t c = places[i];
            memcpy(one, none, length), memcpy(but_one, all, length);
            one[c / 8] = (uint8_t)(1u << c % 8), but_one[c / 8] ^= one[c / 8];
            for (uint16_t other = 0; other < last; other++) others[other] = (uint16_t)(other + (other >= c));
            compare_both("one cell", make_pair(s.width, s.height, none, one), 1, 0, &c);
            compare_both("all cells but one", make_pair(s.width, s.height, none, but_one), last, 0, others);
            compare_both("that one", make_pair(s.width, s.height, but_one, all), 1, 0, &c);
            compare_both("all others", make_pair(s.width, s.height, one, all), last, 0, others);
        }
    }
}

/* Floors of other sides, also where their maps are as long; and lists of another length. */
static void sizes_and_lengths(void)
{
    static const uint8_t map[MOST_BYTES];
    const sides other[][2] = {
        {{127, 1}, {1, 127}}, {{2, 1}, {1, 2}}, {{8, 1}, {4, 2}}, {{2, 2}, {2, 1}}, {{2, 2}, {1, 2}},
        {{7, 1}, {8, 1}}, {{127, 127}, {127, 126}}, {{126, 127}, {127, 127}},
    };
    for (size_t k = 0; k < sizeof other / sizeof other[0]; k++) {
        const sides s = other[k][0], t = other[k][1];
        pair p = make_pair(s.width, s.height, map, map);
        p.floor[1] = (plan){t.width, t.height, map, map_length(t.width, t.height)};
        refused("other sides", &p, LURFANZI_SIZES_DIFFER);
        p.cells_length = (size_t)t.width * t.height;
        refused("other sides, and as many cells as the second", &p, LURFANZI_SIZES_DIFFER);
    }
    const size_t lengths[] = {0, 1, 5, 7, 12, 256 + 6, 65536 + 6};
    for (size_t k = 0; k < sizeof lengths / sizeof lengths[0]; k++) {
        pair p = make_pair(3, 2, touching, crossed);
        p.cells_length = lengths[k];
        refused("a list of another length", &p, LURFANZI_BAD_SLICE_LENGTH);
    }
}

/* ---- The costs on both floors. ---- */

/* The costs over slices that hold anything: at answer 0 they are those given, and else all is untouched. */
static void cost_changes(
    const char *where, const pair *p, uint8_t answer,
    const uint32_t *costs, const uint32_t *new_costs, const uint8_t *bytes)
{
    const plan *f = &p->floor[0], *g = &p->floor[1];
    const void *const wanted[] = {costs, new_costs, bytes};
    for (size_t k = 0; k < sizeof fills; k++) {
        lent map = lend_copy(f->map, f->map_length), other = lend_copy(g->map, g->map_length), s[SLICES];
        before_call(&map), before_call(&other);
        for (int i = 0; i < SLICES; i++) s[i] = lend(p->length[i] * element[i], fills[k]), before_call(&s[i]);
        const uint8_t is = lurfanzi_cost_changes(
            f->width, f->height, map.p, f->map_length, g->width, g->height, other.p, g->map_length,
            p->neighbourhood, p->a, s[COSTS].p, p->length[COSTS], s[NEW_COSTS].p, p->length[NEW_COSTS],
            s[BYTES].p, p->length[BYTES], s[WORK].p, p->length[WORK]);
        expect_answer(where, is, answer);
        expect_read_only(where, "the first map", &map);
        expect_read_only(where, "the second map", &other);
        for (int i = 0; i < SLICES; i++) {
            expect_guards(where, slice_name[i], &s[i]);
            if (answer != 0) expect_untouched(where, slice_name[i], &s[i]);
            else if (i == WORK) expect_zeros(where, "work", &s[WORK]);
            else if (memcmp(s[i].p, wanted[i], s[i].size) != 0) fail(where, slice_name[i], "are not the expected ones");
            give_back(&s[i]);
        }
        give_back(&map), give_back(&other);
    }
}

static void costs_refused(const char *where, const pair *p, uint8_t answer)
{
    cost_changes(where, p, answer, NULL, NULL, NULL);
}

static void both_refuse(const char *where, const pair *p, uint8_t answer)
{
    refused(where, p, answer);
    costs_refused(where, p, answer);
}

/* Faults of the first floor alone, and of the second alone. */
static void bad_floors(void)
{
    const uint32_t none[] = {0, 128, 256 + 2, 65536 + 2, 4294967295u};
    for (int which = 0; which < 2; which++) {
        for (size_t k = 0; k < sizeof none / sizeof none[0]; k++) {
            pair p = make_pair(2, 2, touching, crossed);
            p.floor[which].width = none[k];
            both_refuse("a bad width", &p, LURFANZI_BAD_SIZE);
            p = make_pair(2, 2, touching, crossed);
            p.floor[which].height = none[k];
            both_refuse("a bad height", &p, LURFANZI_BAD_SIZE);
        }
        for (size_t length = 0; length <= 4; length++) {
            static const uint8_t longer[4] = {9};
            pair p = make_pair(2, 2, touching, crossed);
            p.floor[which].map = longer, p.floor[which].map_length = length;
            if (length != 1) both_refuse("a map of another length", &p, LURFANZI_BAD_MAP_LENGTH);
        }
        for (unsigned bit = 4; bit < 8; bit++) {
            const uint8_t stray[1] = {(uint8_t)(9 | 1u << bit)};
            pair p = make_pair(2, 2, touching, crossed);
            p.floor[which].map = stray;
            both_refuse("an unused bit", &p, LURFANZI_UNUSED_BIT);
        }
    }
}

/* The byte for the way back: fell and rose change places, and so do from M and to M. */
static const uint8_t turned[5] = {0, 2, 1, 4, 3};

/* The costs worked by hand, with the change of each; both ways, and each floor beside itself. */
static void both_ways(
    const char *where, pair p, const uint32_t *costs, const uint32_t *new_costs, const uint8_t *bytes)
{
    static const uint8_t none[20];
    uint8_t back[20];
    const size_t v = p.length[BYTES];
    for (size_t k = 0; k < v; k++) back[k] = turned[bytes[k]];
    cost_changes(where, &p, 0, costs, new_costs, bytes);
    const plan first = p.floor[0], second = p.floor[1];
    p.floor[0] = second, p.floor[1] = first;
    cost_changes(where, &p, 0, new_costs, costs, back);
    p.floor[0] = first;
    cost_changes(where, &p, 0, costs, costs, none);
    p.floor[0] = p.floor[1] = second;
    cost_changes(where, &p, 0, new_costs, new_costs, none);
}

typedef struct {
    const char *name;
    uint32_t width, height;
    uint8_t map[1], new_map[1];
    uint32_t neighbourhood, a;
    uint32_t costs[15], new_costs[15];
    uint8_t bytes[15];
} worked;

static const worked list[] = {
    /* Floors e and f: the wall cuts off 2 and 5. */
    {"a wall, 4", 2, 1, {0}, {2}, 4, 0, {0, 408, 816, 408, 816, 1224}, {0, 408, M, 408, 816, M}, {0, 0, 4, 0, 0, 4}},
    {"a wall, 8", 2, 1, {0}, {2}, 8, 0, {0, 408, 816, 408, 577, 985}, {0, 408, M, 408, 577, M}, {0, 0, 4, 0, 0, 4}},
    {"a wall, 16", 2, 1, {0}, {2}, 16, 0, {0, 1000, 2000, 1000, 1414, 2236}, {0, 1000, M, 1000, 1414, M},
     {0, 0, 4, 0, 0, 4}},
    /* No walk leads to 2 on either floor: M is equal to M. */
    {"a corner, 8", 2, 1, {2}, {3}, 8, 0, {0, 408, M, 408, 577, M}, {0, M, M, M, M, M}, {0, 4, 0, 4, 4, 0}},
    /* Floor g: from 2 alone 1 and 5 are left, since 4 becomes a pinch. */
    {"a pinch, 8", 2, 2, {0}, {9}, 8, 2, {816, 408, 0, 985, 577, 408, 1154, 985, 816}, {M, 408, 0, M, M, 408, M, M, M},
     {4, 0, 0, 4, 4, 0, 4, 4, 4}},
    /* 4 is a pinch of both floors, with the other cells blocked: to the right, and then to the left of it. */
    {"a pinch turned, 4", 2, 2, {9}, {6}, 4, 1, {M, 0, 408, M, M, 816, M, M, M}, {408, 0, M, 816, M, M, M, M, M},
     {3, 0, 4, 3, 0, 4, 0, 0, 0}},
    /* Three columns, two rows; then cell 1 is blocked, the middle one above. Vertices 0 to 3, 4 to 7, 8 to 11. */
    {"round a cell, 4", 3, 2, {0}, {2}, 4, 0, {0, 408, 816, 1224, 408, 816, 1224, 1632, 816, 1224, 1632, 2040},
     {0, 408, 1632, 2040, 408, 816, 1224, 1632, 816, 1224, 1632, 2040}, {0, 0, 2, 2}},
    {"round a cell, 8", 3, 2, {0}, {2}, 8, 0, {0, 408, 816, 1224, 408, 577, 985, 1393, 816, 985, 1154, 1562},
     {0, 408, 1393, 1562, 408, 577, 985, 1393, 816, 985, 1154, 1562}, {0, 0, 2, 2}},
    {"round a cell, 16", 3, 2, {0}, {2}, 16, 0, {0, 1000, 2000, 3000, 1000, 1414, 2236, 3236, 2000, 2236, 2828, 3650},
     {0, 1000, 3414, 3828, 1000, 1414, 2414, 3414, 2000, 2236, 2828, 3650}, {0, 0, 2, 2, 0, 0, 2, 2}},
    /* Four columns, two rows. Cells 1 and 3 of the upper row are blocked, then those of the lower row: from vertex 5,
     * in the middle of the left side, the second floor is the first upside down. All five bytes stand there. */
    {"upside down, 4", 4, 2, {2 | 8}, {32 | 128}, 4, 5,
     {408, 816, 1224, 1632, M, 0, 408, 816, 1224, 1632, 408, 816, 1224, 1632, 2040},
     {408, 816, 1224, 1632, 2040, 0, 408, 816, 1224, 1632, 408, 816, 1224, 1632, M},
     {0, 0, 0, 0, 3, 0, 0, 0, 0, 0, 0, 0, 0, 0, 4}},
    {"upside down, 8", 4, 2, {2 | 8}, {32 | 128}, 8, 5,
     {408, 577, 1224, 1393, M, 0, 408, 816, 1224, 1632, 408, 577, 985, 1393, 1801},
     {408, 577, 985, 1393, 1801, 0, 408, 816, 1224, 1632, 408, 577, 1224, 1393, M},
     {0, 0, 1, 0, 3, 0, 0, 0, 0, 0, 0, 0, 2, 0, 4}},
    {"upside down, 16", 4, 2, {2 | 8}, {32 | 128}, 16, 5,
     {1000, 1414, 3000, 3414, M, 0, 1000, 2000, 3000, 4000, 1000, 1414, 2236, 3236, 4236},
     {1000, 1414, 2236, 3236, 4236, 0, 1000, 2000, 3000, 4000, 1000, 1414, 3000, 3414, M},
     {0, 0, 1, 1, 3, 0, 0, 0, 0, 0, 0, 0, 2, 2, 4}},
};

static void worked_costs(void)
{
    for (size_t k = 0; k < sizeof list / sizeof list[0]; k++) {
        const worked *w = &list[k];
        pair p = make_pair(w->width, w->height, w->map, w->new_map);
        p.neighbourhood = w->neighbourhood, p.a = w->a;
        both_ways(w->name, p, w->costs, w->new_costs, w->bytes);
    }
}

/* Vertex 4 is a pinch of floor g. It is refused on either floor; its neighbours are not. */
static void pinched_starts(void)
{
    const uint8_t *const maps[] = {open, touching, crossed};
    for (int first = 0; first < 3; first++)
        for (int second = 0; second < 3; second++)
            for (uint32_t neighbourhood = 4; neighbourhood <= 16; neighbourhood *= 2) {
                pair p = make_pair(2, 2, maps[first], maps[second]);
                p.neighbourhood = neighbourhood, p.a = 4;
                if (first + second == 0) continue;
                costs_refused("a pinched start", &p, LURFANZI_PINCHED_END);
                p.length[BYTES] = 8;
                costs_refused("a pinched start, and a short slice", &p, LURFANZI_PINCHED_END);
            }
}

static void numbers(void)
{
    const pair good = make_pair(2, 1, open, shut);
    const uint32_t none[] = {0, 1, 5, 7, 9, 12, 15, 17, 24, 32, 256 + 8, 65536 + 16, 2147483648u + 4, 4294967295u};
    for (size_t k = 0; k < sizeof none / sizeof none[0]; k++) {
        pair p = good;
        p.neighbourhood = none[k];
        costs_refused("a bad neighbourhood", &p, LURFANZI_BAD_NEIGHBOURHOOD);
    }
    const uint32_t starts[] = {6, 7, 256, 65536, 65536 + 5, 4294967295u};
    for (size_t k = 0; k < sizeof starts / sizeof starts[0]; k++) {
        pair p = good;
        p.a = starts[k];
        costs_refused("a bad start", &p, LURFANZI_BAD_END);
    }
    /* The last vertex: on the second floor nothing is reached from it. */
    pair last = good;
    last.a = 5;
    both_ways(
        "the last vertex", last, (const uint32_t[]){985, 577, 408, 816, 408, 0}, (const uint32_t[]){M, M, M, M, M, 0},
        (const uint8_t[]){4, 4, 4, 4, 4, 0});
    for (int slice = 0; slice < SLICES; slice++) {
        const size_t length = good.length[slice];
        const size_t bad[] = {length - 1, length + 1, 0, 2 * length, 256 + length, 65536 + length};
        for (size_t k = 0; k < sizeof bad / sizeof bad[0]; k++) {
            pair p = good;
            p.length[slice] = bad[k];
            costs_refused(slice_name[slice], &p, LURFANZI_BAD_SLICE_LENGTH);
        }
    }
    pair empty = good;
    memset(empty.length, 0, sizeof empty.length);
    costs_refused("every slice empty", &empty, LURFANZI_BAD_SLICE_LENGTH);
}

/* The faults in their order; those of the second floor are its numbers and 100. */
static const uint8_t order[] = {1, 2, 3, 101, 102, 103, LURFANZI_SIZES_DIFFER, 4, 5, LURFANZI_PINCHED_END, 6};
enum { FAULTS = sizeof order };

static void spoil(pair *p, uint8_t fault)
{
    static const uint8_t stray[4] = {9 | 16}, wide[4] = {9};
    plan *f = &p->floor[fault > 100];
    if (fault % 100 == 1) f->width = 0;
    if (fault % 100 == 2) f->map_length += 1, f->map = wide;
    if (fault % 100 == 3) f->map = stray;
    if (fault == LURFANZI_SIZES_DIFFER) p->floor[1].width = 4, p->floor[1].height = 1;
    if (fault == 4) p->neighbourhood = 12;
    if (fault == 5) p->a = 9;
    if (fault == LURFANZI_PINCHED_END) p->a = 4;
    if (fault == 6) p->cells_length = 3, p->length[WORK] = 35;
}

static void order_of_refusals(void)
{
    for (int first = 0; first < FAULTS; first++)
        for (int second = first; second < FAULTS; second++) {
            pair p = make_pair(2, 2, touching, crossed);
            p.a = 1;
            spoil(&p, order[second]);
            if (second != first) spoil(&p, order[first]);
            const uint8_t answer = (uint8_t)(order[first] % 100);
            costs_refused("two faults of the costs", &p, answer);
            const int costs_alone = answer == 4 || answer == 5 || answer == LURFANZI_PINCHED_END;
            if (!costs_alone) refused("two faults", &p, answer);
        }
}

/* The largest floor, open; and then with its middle column, 63, blocked: what is right of it is cut off. */
static void largest_floor(void)
{
    static uint8_t cells[MOST_CELLS], map[MOST_BYTES], walled[MOST_BYTES], bytes[16384], none[16384];
    static uint32_t costs[16384], new_costs[16384];
    static uint16_t listed[127];
    for (uint16_t row = 0; row < 127; row++) {
        listed[row] = (uint16_t)(127 * row + 63);
        cells[listed[row]] = 1;
    }
    pack(cells, MOST_CELLS, walled);
    for (uint32_t v = 0; v < 16384; v++) {
        const uint32_t x = v % 128, y = v / 128, less = x < y ? x : y, more = x < y ? y : x;
        costs[v] = 577 * less + 408 * (more - less);
        new_costs[v] = x <= 63 ? costs[v] : M;
        bytes[v] = x <= 63 ? LURFANZI_COST_EQUAL : LURFANZI_COST_TO_UNREACHABLE;
    }
    pair p = make_pair(127, 127, map, walled);
    compare_both("the largest floor", p, 127, 0, listed);
    cost_changes("the largest floor", &p, 0, costs, new_costs, bytes);
    p.floor[1].map = map;
    cost_changes("the largest floor twice", &p, 0, costs, costs, none);
}

int main(void)
{
    setbuf(stdout, NULL); /* so that a crash loses no line */
    small_floors();
    every_pair();
    any_floors();
    sizes_and_lengths();
    worked_costs();
    bad_floors();
    pinched_starts();
    numbers();
    order_of_refusals();
    largest_floor();
    const uint8_t answers[] = {0, 1, 2, 3, 4, 5, 6, LURFANZI_PINCHED_END, LURFANZI_SIZES_DIFFER};
    return finish("changes", answers, sizeof answers);
}
