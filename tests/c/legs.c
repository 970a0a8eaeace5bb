/* Fewest legs from C: proposals checked and made, with every slice between guard bytes. The lists, their numbers of
 * legs and the kept positions are worked by hand; what is seen there is said beside each.
 */
#include "lent.h"
#include "lurfanzi.h"

_Static_assert(LURFANZI_FALSE_CHOICE == 19, "answer 19");

enum { PLACES = 9, MOST_LIST = 16384 };

/* A list with a proposal for it. */
typedef struct {
    uint32_t width, height;
    const uint8_t *map;
    size_t map_length;
    const uint16_t *list, *kept, *legs;
    size_t list_length, kept_length, legs_length, n, kept_count;
} proposal;

static uint8_t check(const char *where, const proposal *p)
{
    lent map = lend_copy(p->map, p->map_length), list = lend_copy(p->list, 2 * p->list_length);
    lent kept = lend_copy(p->kept, 2 * p->kept_length), legs = lend_copy(p->legs, 2 * p->legs_length);
    before_call(&map), before_call(&list), before_call(&kept), before_call(&legs);
    const uint8_t answer = lurfanzi_check_legs(
        p->width, p->height, map.p, p->map_length, list.p, p->list_length, p->n,
        kept.p, p->kept_length, p->kept_count, legs.p, p->legs_length);
    expect_read_only(where, "the map", &map);
    expect_read_only(where, "the list", &list);
    expect_read_only(where, "kept", &kept);
    expect_read_only(where, "legs", &legs);
    give_back(&map), give_back(&list), give_back(&kept), give_back(&legs);
    return answer;
}

static void checked(const char *where, const proposal *p, uint8_t answer)
{
    expect_answer(where, check(where, p), answer);
}

/* Makes a proposal over slices that hold anything: at answer 0 it is the one given, else both are untouched. */
static void proposed(const char *where, const proposal *p, uint8_t answer)
{
    const unsigned char fills[] = {0x00, 0x5A, 0xFF};
    for (size_t k = 0; k < sizeof fills; k++) {
        lent map = lend_copy(p->map, p->map_length), list = lend_copy(p->list, 2 * p->list_length);
        lent kept = lend(2 * p->kept_length, fills[k]), legs = lend(2 * p->legs_length, fills[k]);
        before_call(&map), before_call(&list), before_call(&kept), before_call(&legs);
        lurfanzi_thin_result r = lurfanzi_fewest_legs(
            p->width, p->height, map.p, p->map_length, list.p, p->list_length,
            kept.p, p->kept_length, legs.p, p->legs_length, p->n);
        expect_answer(where, r.answer, answer);
        expect(where, "kept", r.kept, answer == 0 ? p->kept_count : 0);
        expect_read_only(where, "the map", &map);
        expect_read_only(where, "the list", &list);
        expect_guards(where, "kept", &kept);
        expect_guards(where, "legs", &legs);
        if (answer != 0) {
            expect_untouched(where, "kept", &kept);
            expect_untouched(where, "legs", &legs);
        } else {
            if (memcmp(kept.p, p->kept, kept.size) != 0) fail(where, "kept", "are not the expected positions");
            if (memcmp(legs.p, p->legs, legs.size) != 0) fail(where, "legs", "are not the expected numbers");
        }
        give_back(&map), give_back(&list), give_back(&kept), give_back(&legs);
    }
}

/* Both functions refuse a list alike. */
static void refused(const char *where, const proposal *p, uint8_t answer)
{
    checked(where, p, answer);
    proposed(where, p, answer);
}

/* ---- Worked lists. ---- */

typedef struct {
    const char *name;
    uint32_t width, height;
    uint8_t map[2];
    size_t places, n;
    uint16_t list[PLACES], legs[PLACES];
    size_t count;
    uint16_t kept[PLACES]; /* our own */
} worked;

/* The vertices of the floor of 2 by 2 cells are 0 1 2, 3 4 5 and 6 7 8 by rows, and where its cell 0 is blocked 3 and 1
 * do not see each other, nor 6 and 1, nor 3 and 2, nor does 0 see any other; all others see each other. */
static const worked lists[] = {
    /* All see 8, so that one leg is enough from each. The thinning keeps position 2 too: from 6 it looks no further
     * than 1, which is not seen. */
    {"round a corner", 2, 2, {1}, 7, 7, {6, 3, 4, 1, 2, 5, 8}, {1, 1, 1, 1, 1, 1, 0}, 2, {0, 6}},
    /* 3 does not see 1, and each of 4, 5, 8 and 7 between them sees both: four choices are right, ours by the last. */
    {"four ways", 2, 2, {1}, 6, 6, {3, 4, 5, 8, 7, 1}, {2, 1, 1, 1, 1, 0}, 3, {0, 4, 5}},
    /* The number rises at position 3, from where 1 is not seen. */
    {"away and back", 2, 2, {1}, 6, 6, {2, 1, 4, 3, 4, 1}, {1, 1, 1, 2, 1, 0}, 2, {0, 5}},
    {"back again", 2, 2, {1}, 4, 4, {3, 4, 1, 4}, {1, 1, 1, 0}, 2, {0, 3}},
    /* 3 by 3 with the middle blocked, between 5, 6, 10 and 9: 5 sees 9, past which 6 has to go by 10. */
    {"round a cell", 3, 3, {16}, 4, 4, {5, 6, 10, 9}, {1, 2, 1, 0}, 2, {0, 3}},
    {"round a cell, the other way", 3, 3, {16}, 5, 5, {5, 6, 10, 9, 10}, {2, 1, 1, 1, 0}, 3, {0, 3, 4}},
    /* 4 by 4 with cells 5 and 10 blocked, which touch at the pinch (2, 2): on the way from (3, 1) to (1, 3), vertices 8
     * and 16, and on that from 16 to 4. From 16 vertex 9 is behind cell 10. */
    {"round a pinch", 4, 4, {1 << 5, 1 << (10 - 8)}, 3, 3, {8, 18, 16}, {2, 1, 0}, 3, {0, 1, 2}},
    {"round a pinch and back", 4, 4, {1 << 5, 1 << (10 - 8)}, 5, 5, {16, 18, 8, 9, 4}, {2, 1, 1, 1, 0}, 3, {0, 1, 4}},
    /* Halls of one cell, 3 by 5 cells with 3, 4, 10 and 11 blocked: (0, 0), (1, 1), (2, 1), (3, 1), (2, 2), (1, 3),
     * (1, 4), (3, 5). (3, 1) sees (1, 3), along the diagonal past the corners of 4 and 10; else each sees what is in
     * its hall. */
    {"winding halls", 3, 5, {8 | 16, 4 | 8}, 8, 8, {0, 5, 6, 7, 10, 13, 17, 23}, {4, 4, 4, 3, 3, 2, 1, 0},
     5, {0, 3, 5, 6, 7}},
    /* The same halls by (0, 0), (2, 1), (2, 2), (3, 1), (2, 2), (3, 1), (1, 3), (0, 4), (3, 5). (3, 1), which stands
     * there twice, is the one that (0, 0) sees and that sees (0, 4). */
    {"to and fro", 3, 5, {8 | 16, 4 | 8}, 9, 9, {0, 6, 10, 7, 10, 7, 13, 16, 23}, {3, 3, 2, 2, 2, 2, 2, 1, 0},
     4, {0, 5, 7, 8}},
    {"one vertex", 1, 1, {1}, 1, 1, {3}, {0}, 1, {0}},
    {"one vertex of three", 1, 1, {1}, 3, 1, {3, 65535, 4}, {0}, 1, {0}},
    {"two of four", 2, 1, {2}, 4, 2, {0, 4, 5, 65535}, {1, 0}, 2, {0, 1}},
    {"repeated vertices", 1, 1, {0}, 4, 4, {0, 0, 3, 3}, {1, 1, 1, 0}, 2, {0, 3}},
    {"one vertex twice", 1, 1, {1}, 2, 2, {0, 0}, {1, 0}, 2, {0, 1}},
    {"a pinch three times", 2, 2, {9}, 4, 3, {4, 4, 4, 5}, {1, 1, 0}, 2, {0, 2}},
};
enum { LISTS = sizeof lists / sizeof lists[0] };

static proposal proposal_of(const worked *w)
{
    return (proposal){
        w->width, w->height, w->map, map_length(w->width, w->height), w->list, w->kept, w->legs,
        w->places, w->places, w->places, w->n, w->count};
}

/* Whether kept positions are right beside the worked numbers, by the rule itself and the sight question. */
static int is_right(const worked *w, const uint16_t *kept, size_t count)
{
    if (count != w->legs[0] + 1u || kept[0] != 0 || kept[count - 1] != w->n - 1) return 0;
    for (size_t k = count; k < w->places; k++)
        if (kept[k] != 0) return 0;
    for (size_t k = 0; k + 1 < count; k++) {
        if (kept[k] >= kept[k + 1] || kept[k + 1] >= w->n) return 0;
        const uint32_t a = w->list[kept[k]], b = w->list[kept[k + 1]];
        const size_t length = map_length(w->width, w->height);
        if (lurfanzi_sight(w->width, w->height, w->map, length, a, b) != LURFANZI_SIGHT_YES) return 0;
    }
    return 1;
}

/* Another number of kept at one place: still right, or 19. */
static void other_positions(const worked *w)
{
    proposal p = proposal_of(w);
    uint16_t kept[PLACES];
    memcpy(kept, w->kept, sizeof kept), p.kept = kept;
    for (size_t place = 0; place < w->places; place++) {
        for (unsigned number = 0; number < 65536; number += number < PLACES + 2 ? 1 : 251) {
            kept[place] = (uint16_t)number;
            checked(w->name, &p, is_right(w, kept, w->count) ? 0 : LURFANZI_FALSE_CHOICE);
        }
        kept[place] = w->kept[place];
    }
    const size_t counts[] = {0, w->count - 1, w->count + 1, w->places, w->places + 1, 65536 + w->count, SIZE_MAX};
    for (size_t k = 0; k < sizeof counts / sizeof counts[0]; k++) {
        p.kept_count = counts[k];
        if (counts[k] != w->count) checked(w->name, &p, LURFANZI_FALSE_CHOICE);
    }
}

/* Another number of legs at one place, of the list or past it, is false. */
static void other_numbers(const worked *w)
{
    proposal p = proposal_of(w);
    uint16_t legs[PLACES];
    memcpy(legs, w->legs, sizeof legs), p.legs = legs;
    for (size_t place = 0; place < w->places; place++) {
        for (unsigned number = 0; number < 65536; number += number < PLACES + 2 ? 1 : 251) {
            legs[place] = (uint16_t)number;
            if (number != w->legs[place]) checked(w->name, &p, LURFANZI_FALSE_CHOICE);
        }
        legs[place] = w->legs[place];
    }
    /* All one more, and so too many. */
    for (size_t place = 0; place < w->n; place++) legs[place]++;
    checked(w->name, &p, LURFANZI_FALSE_CHOICE);
}

static void worked_lists(void)
{
    for (size_t k = 0; k < LISTS; k++) {
        proposal p = proposal_of(&lists[k]);
        checked(lists[k].name, &p, 0);
        proposed(lists[k].name, &p, 0);
        other_positions(&lists[k]);
        other_numbers(&lists[k]);
    }
}

/* Every kept slice and every count for the list with four ways: the four are accepted, and no other. Then every slice
 * of numbers up to 3: the true one alone. */
static void four_ways(void)
{
    const worked *w = &lists[1];
    proposal p = proposal_of(w);
    uint16_t kept[6], legs[6];
    unsigned accepted = 0;
    p.kept = kept;
    for (unsigned all = 0; all < 6 * 6 * 6 * 6 * 6 * 6; all++) {
        for (unsigned place = 0, rest = all; place < 6; place++, rest /= 6) kept[place] = (uint16_t)(rest % 6);
        for (p.kept_count = 0; p.kept_count <= 7; p.kept_count++) {
            const int right = p.kept_count == 3 && kept[0] == 0 && 1 <= kept[1] && kept[1] <= 4 && kept[2] == 5 &&
                              kept[3] + kept[4] + kept[5] == 0;
            const uint8_t answer = check(w->name, &p);
            expect(w->name, "the answer to a choice", answer, right ? 0 : LURFANZI_FALSE_CHOICE);
            accepted += answer == 0;
        }
    }
    expect(w->name, "how many are accepted", accepted, 4);
    p = proposal_of(w), p.legs = legs;
    for (unsigned all = 0; all < 1u << 12; all++) {
        for (unsigned place = 0; place < 6; place++) legs[place] = (uint16_t)(all >> 2 * place & 3);
        checked(w->name, &p, memcmp(legs, w->legs, sizeof legs) == 0 ? 0 : LURFANZI_FALSE_CHOICE);
    }
}

/* Choices that are clear and not the fewest, with the numbers that they would need: the thinning's, and each next. */
static void not_the_fewest(void)
{
    static const uint16_t thinned[PLACES] = {0, 1, 5, 7, 8}, each[PLACES] = {0, 1, 2, 3, 4, 5, 6, 7, 8};
    static const uint16_t legs[PLACES] = {4, 3, 2, 2, 2, 2, 2, 1, 0}, all[PLACES] = {8, 7, 6, 5, 4, 3, 2, 1, 0};
    const worked *w = &lists[9];
    proposal p = proposal_of(w);
    p.kept = thinned, p.kept_count = 5;
    checked("the thinned list", &p, LURFANZI_FALSE_CHOICE);
    p.legs = legs;
    checked("the thinned list, with its number", &p, LURFANZI_FALSE_CHOICE);
    p.kept = each, p.kept_count = 9, p.legs = all;
    checked("each position", &p, LURFANZI_FALSE_CHOICE);
    p = proposal_of(w);
    p.kept = (const uint16_t[PLACES]){0, 3, 7, 8};
    checked("the other of two", &p, 0);
    p.kept = (const uint16_t[PLACES]){0, 4, 7, 8};
    checked("through a wall", &p, LURFANZI_FALSE_CHOICE);
}

/* ---- Limits and refusals. ---- */

static const uint8_t open[2], wall[2] = {2}, touching[1] = {9};

/* Three positions of seven places, on floor e. */
static const uint16_t some[7] = {0, 1, 5, 4, 65535, 6, 65535}, some_legs[7] = {1, 1, 0}, some_kept[7] = {0, 2};

static proposal good_proposal(void)
{
    return (proposal){2, 1, open, 1, some, some_kept, some_legs, 7, 7, 7, 3, 2};
}

static void bad_floors(void)
{
    static const uint8_t longer[4];
    const uint32_t none[] = {0, 128, 256 + 2, 65536 + 2, 4294967295u};
    proposal p = good_proposal();
    checked("a good call", &p, 0);
    proposed("a good call", &p, 0);
    for (size_t k = 0; k < sizeof none / sizeof none[0]; k++) {
        p = good_proposal(), p.width = none[k];
        refused("a bad width", &p, LURFANZI_BAD_SIZE);
        p = good_proposal(), p.height = none[k];
        refused("a bad height", &p, LURFANZI_BAD_SIZE);
    }
    for (size_t length = 0; length <= 4; length++) {
        p = good_proposal(), p.map = longer, p.map_length = length;
        if (length != 1) refused("a map of another length", &p, LURFANZI_BAD_MAP_LENGTH);
    }
    for (unsigned bit = 2; bit < 8; bit++) {
        const uint8_t stray[1] = {(uint8_t)(1u << bit)};
        p = good_proposal(), p.map = stray;
        refused("an unused bit", &p, LURFANZI_UNUSED_BIT);
    }
}

static uint16_t long_list[MOST_LIST + 1], long_kept[MOST_LIST + 1], long_legs[MOST_LIST + 1];

static void lengths(void)
{
    static uint16_t any[65536 + 7];
    const size_t bad[] = {0, 6, 8, 14, 256 + 7, 65536 + 7};
    for (size_t k = 0; k < sizeof bad / sizeof bad[0]; k++) {
        proposal p = good_proposal();
        p.kept = any, p.kept_length = bad[k];
        refused("kept of another length", &p, LURFANZI_BAD_SLICE_LENGTH);
        p = good_proposal(), p.legs = any, p.legs_length = bad[k];
        refused("legs of another length", &p, LURFANZI_BAD_SLICE_LENGTH);
        p.kept = any, p.kept_length = bad[k];
        refused("both of another length", &p, LURFANZI_BAD_SLICE_LENGTH);
    }
    /* All as long, and a place too many. */
    const size_t most = MOST_LIST + 1;
    const proposal p = {2, 1, open, 1, long_list, long_kept, long_legs, most, most, most, 1, 1};
    refused("a list that is too long", &p, LURFANZI_BAD_SLICE_LENGTH);
    const proposal empty = {2, 1, open, 1, NULL, NULL, NULL, 0, 0, 0, 0, 0};
    refused("an empty list", &empty, LURFANZI_NOT_JOINED);
}

static void not_joined(void)
{
    const size_t counts[] = {0, 8, 65536 + 3, (size_t)4294967296 + 3, SIZE_MAX};
    proposal p = good_proposal();
    for (size_t k = 0; k < sizeof counts / sizeof counts[0]; k++) {
        p.n = counts[k];
        refused("a bad n", &p, LURFANZI_NOT_JOINED);
    }
    p.n = 5;
    refused("the number 65535 in the list", &p, LURFANZI_NOT_JOINED);
    p = good_proposal(), p.list = (const uint16_t[7]){0, 1, 6};
    refused("V in the list", &p, LURFANZI_NOT_JOINED);
    p = good_proposal(), p.map = wall;
    refused("two that do not see each other", &p, LURFANZI_NOT_JOINED);
    const uint16_t pinched[][3] = {{2, 6, 6}, {2, 4, 5}, {4, 2, 1}, {4, 4, 5}, {5, 4, 4}, {1, 7, 7}};
    for (size_t k = 0; k < sizeof pinched / sizeof pinched[0]; k++) {
        p = (proposal){2, 2, touching, 1, pinched[k], some_kept, some_legs, 3, 3, 3, 3, 2};
        refused("a pinch on the way", &p, LURFANZI_NOT_JOINED);
    }
}

/* The longest list: one vertex again and again. One leg is enough from each position. */
static void longest_list(void)
{
    const char *const where = "the longest list";
    proposal p = {2, 1, open, 1, long_list, long_kept, long_legs, MOST_LIST, MOST_LIST, MOST_LIST, MOST_LIST, 2};
    for (size_t place = 0; place + 1 < MOST_LIST; place++) long_legs[place] = 1;
    long_kept[1] = MOST_LIST - 1;
    checked(where, &p, 0);
    proposed(where, &p, 0);
    const size_t places[] = {0, 1, MOST_LIST / 2, MOST_LIST - 2, MOST_LIST - 1};
    for (size_t k = 0; k < sizeof places / sizeof places[0]; k++) {
        long_legs[places[k]] ^= 2;
        checked("the longest list with another number", &p, LURFANZI_FALSE_CHOICE);
        long_legs[places[k]] ^= 2;
    }
}

static void spoil(proposal *p, uint8_t fault, int which)
{
    static const uint8_t stray[2] = {4};
    if (fault == 1) p->width = 0;
    if (fault == 2) p->map_length = 2;
    if (fault == 3) p->map = stray;
    if (fault == 6) *(which ? &p->kept_length : &p->legs_length) = 5;
    if (fault == 10) p->n = which ? 0 : 5;
    if (fault == LURFANZI_FALSE_CHOICE) p->kept_count = which ? 3 : SIZE_MAX;
}

static void order_of_refusals(void)
{
    const uint8_t faults[] = {1, 2, 3, 6, 10, LURFANZI_FALSE_CHOICE};
    for (size_t first = 0; first < sizeof faults; first++)
        for (size_t second = first; second < sizeof faults; second++)
            for (int which = 0; which < 2; which++) {
                proposal p = good_proposal();
                spoil(&p, faults[second], which);
                spoil(&p, faults[first], which);
                if (faults[first] == LURFANZI_FALSE_CHOICE) checked("two faults", &p, faults[first]);
                else refused("two faults", &p, faults[first]);
            }
}

int main(void)
{
    setbuf(stdout, NULL); /* so that a crash loses no line */
    worked_lists();
    four_ways();
    not_the_fewest();
    bad_floors();
    lengths();
    not_joined();
    longest_list();
    order_of_refusals();
    const uint8_t answers[] = {0, 1, 2, 3, 6, 10, LURFANZI_FALSE_CHOICE};
    return finish("legs", answers, sizeof answers);
}
