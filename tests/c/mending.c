/* Damaged sheets mended from C, with the map, the six damaged slices, the six written ones and the working slice
 * between guard bytes. The true sheets are those of worked.h; how many places differ is counted by a plain loop, or
 * worked by hand.
 */
#include "lent.h"
#include "lurfanzi.h"
#include "worked.h"

_Static_assert(sizeof(lurfanzi_mend_result) == 64, "size of the result");
_Static_assert(offsetof(lurfanzi_mend_result, n) == 0, "place of n");
_Static_assert(offsetof(lurfanzi_mend_result, d) == 8, "place of d");
_Static_assert(offsetof(lurfanzi_mend_result, e) == 16, "place of e");
_Static_assert(offsetof(lurfanzi_mend_result, f) == 24, "place of f");
_Static_assert(offsetof(lurfanzi_mend_result, back) == 32, "place of back");
_Static_assert(offsetof(lurfanzi_mend_result, route) == 40, "place of route");
_Static_assert(offsetof(lurfanzi_mend_result, next) == 48, "place of next");
_Static_assert(offsetof(lurfanzi_mend_result, answer) == 56, "place of answer");

/* The slices of a sheet, and the working slice after them. */
enum { D, E, F, BACK, ROUTE, NEXT, SHEET, WORK = SHEET, SLICES };
static const char *const slice_name[SLICES] = {"d", "e", "f", "back", "route", "next", "work"};
static const char *const old_name[SHEET] = {"old d", "old e", "old f", "old back", "old route", "old next"};
static const size_t element[SLICES] = {4, 4, 8, 8, 2, 2, 4};

typedef struct {
    uint32_t width, height, neighbourhood, a, b;
    const uint8_t *map;
    size_t map_length;
    size_t old_length[SHEET], length[SLICES];
} job;

static job make_job(uint32_t width, uint32_t height, const uint8_t *map, uint32_t neighbourhood, uint32_t a, uint32_t b)
{
    const size_t v = (size_t)(width + 1) * (height + 1);
    job j = {width, height, neighbourhood, a, b, map, map_length(width, height), {0}, {0}};
    for (int k = 0; k < SHEET; k++) j.old_length[k] = j.length[k] = v;
    j.length[WORK] = 4 * v;
    return j;
}

/* What a call is to answer, and the sheet that it is to leave: of 8 d and e alone, at a refusal none. */
typedef struct {
    uint8_t answer;
    size_t n, counts[SHEET];
    const void *sheet[SHEET];
} outcome;

static const outcome too_many = {.answer = LURFANZI_TOO_MANY};

/* The written slices after a call. */
static void expect_written(const char *where, const lent s[SLICES], const outcome *wanted)
{
    for (int k = 0; k < SLICES; k++) {
        expect_guards(where, slice_name[k], &s[k]);
        const int is_zero = k == WORK || (wanted->answer == LURFANZI_TOO_MANY && k >= F);
        if (wanted->answer != 0 && wanted->answer != LURFANZI_NO_ROUTE && wanted->answer != LURFANZI_TOO_MANY)
            expect_untouched(where, slice_name[k], &s[k]);
        else if (is_zero)
            expect_zeros(where, slice_name[k], &s[k]);
        else if (memcmp(s[k].p, wanted->sheet[k], s[k].size) != 0)
            fail(where, slice_name[k], "is not the true one");
    }
}

/* The checker's answer for what the call has written. */
static void expect_accepted(const char *where, const job *j, const lent s[SLICES], const outcome *wanted)
{
    const uint8_t verdict = lurfanzi_check(
        j->width, j->height, j->map, j->map_length, j->neighbourhood, j->a, j->b,
        s[D].p, j->length[D], s[E].p, j->length[E], s[F].p, j->length[F], s[BACK].p, j->length[BACK],
        s[ROUTE].p, j->length[ROUTE], s[NEXT].p, j->length[NEXT], wanted->n);
    expect(where, "the checker's answer", verdict, wanted->answer);
}

/* Mends the sheet `old`, or, where that is NULL, one with `fill` in every byte, over slices that hold `fill`. */
static void mend_over(
    const char *where, const job *j, const void *const *old, unsigned char fill, const outcome *wanted)
{
    lent map = lend_copy(j->map, j->map_length), o[SHEET], s[SLICES];
    before_call(&map);
    for (int k = 0; k < SHEET; k++) {
        const size_t size = j->old_length[k] * element[k];
        o[k] = old == NULL ? lend(size, fill) : lend_copy(old[k], size);
        before_call(&o[k]);
    }
    for (int k = 0; k < SLICES; k++) s[k] = lend(j->length[k] * element[k], fill), before_call(&s[k]);
    const lurfanzi_mend_result r = lurfanzi_mend(
        j->width, j->height, map.p, j->map_length, j->neighbourhood, j->a, j->b,
        o[D].p, j->old_length[D], o[E].p, j->old_length[E], o[F].p, j->old_length[F],
        o[BACK].p, j->old_length[BACK], o[ROUTE].p, j->old_length[ROUTE], o[NEXT].p, j->old_length[NEXT],
        s[D].p, j->length[D], s[E].p, j->length[E], s[F].p, j->length[F], s[BACK].p, j->length[BACK],
        s[ROUTE].p, j->length[ROUTE], s[NEXT].p, j->length[NEXT], s[WORK].p, j->length[WORK]);
    const size_t counts[SHEET] = {r.d, r.e, r.f, r.back, r.route, r.next};
    expect_answer(where, r.answer, wanted->answer);
    expect(where, "n", r.n, wanted->n);
    expect_read_only(where, "the map", &map);
    for (int k = 0; k < SHEET; k++) {
        expect(where, slice_name[k], counts[k], wanted->counts[k]);
        expect_read_only(where, old_name[k], &o[k]);
        give_back(&o[k]);
    }
    expect_written(where, s, wanted);
    if (wanted->answer == 0 || wanted->answer == LURFANZI_NO_ROUTE) expect_accepted(where, j, s, wanted);
    for (int k = 0; k < SLICES; k++) give_back(&s[k]);
    give_back(&map);
}

static const unsigned char fills[] = {0x00, 0x01, 0xFF};

static void mend(const char *where, const job *j, const void *const *old, const outcome *wanted)
{
    for (size_t k = 0; k < sizeof fills; k++) mend_over(where, j, old, fills[k], wanted);
}

static void refused(const char *where, const job *j, uint8_t answer)
{
    const outcome wanted = {.answer = answer};
    mend(where, j, NULL, &wanted);
}

/* ---- The worked sheets. ---- */

static job job_of(const worked *w)
{
    return make_job(w->width, w->height, w->map, w->neighbourhood, w->a, w->b);
}

static outcome outcome_of(const worked *w)
{
    return (outcome){w->answer, w->points, {0}, {w->d, w->e, w->f, w->back, w->route, w->next}};
}

/* A sheet that is not the true one has the answer with the places counted where the two differ. */
static void mend_other(const worked *w, const void *const other[SHEET])
{
    const job j = job_of(w);
    outcome wanted = outcome_of(w);
    for (int k = 0; k < SHEET; k++)
        for (size_t place = 0; place < j.length[k]; place++)
            wanted.counts[k] +=
                number_at(other[k], element[k], place) != number_at(wanted.sheet[k], element[k], place);
    mend_over(w->name, &j, other, 0x5A, &wanted);
}

/* One bit flipped at each place of each slice in turn: one place of that slice differs. Then several places of every
 * slice at once. */
static void turn_bits(const worked *w)
{
    worked damaged = *w;
    void *const slices[SHEET] = {damaged.d, damaged.e, damaged.f, damaged.back, damaged.route, damaged.next};
    const void *const old[SHEET] = {damaged.d, damaged.e, damaged.f, damaged.back, damaged.route, damaged.next};
    const job j = job_of(w);
    for (int k = 0; k < SHEET; k++)
        for (size_t place = 0; place < j.length[k]; place++) {
            const uint64_t number = number_at(slices[k], element[k], place);
            outcome wanted = outcome_of(w);
            wanted.counts[k] = 1;
            for (size_t bit = 0; bit < 8 * element[k]; bit++) {
                put_number(slices[k], element[k], place, number ^ UINT64_C(1) << bit);
                mend_over(w->name, &j, old, (unsigned char)bit, &wanted);
            }
            put_number(slices[k], element[k], place, number);
        }
    outcome wanted = outcome_of(w);
    for (size_t place = 0; place < j.length[D]; place++)
        for (int k = 0; k < SHEET; k++) {
            put_number(slices[k], element[k], place, number_at(slices[k], element[k], place) ^ 1);
            wanted.counts[k]++;
            mend_over(w->name, &j, old, 0x5A, &wanted);
        }
}

static void mend_worked(const worked *w)
{
    const job j = job_of(w);
    const outcome whole = outcome_of(w);
    mend(w->name, &j, whole.sheet, &whole);
    turn_bits(w);
    for (size_t k = 0; k < sizeof fills; k++) {
        uint64_t pattern[PLACES];
        memset(pattern, fills[k], sizeof pattern);
        const void *const filled[SHEET] = {pattern, pattern, pattern, pattern, pattern, pattern};
        mend_other(w, filled);
    }
    const void *const turned[SHEET] = {w->e, w->d, w->back, w->f, w->next, w->route};
    mend_other(w, turned);
}

static void worked_sheets(void)
{
    for (size_t k = 0; k < sizeof floors / sizeof floors[0]; k++) mend_worked(&floors[k]);
    for (size_t k = 0; k < sizeof of_sixteen / sizeof of_sixteen[0]; k++) mend_worked(&of_sixteen[k]);
}

/* The sheet of one job for another: floor e's for floor f, where no walk leads to 5, and back. On floor f the costs to
 * 2 and 5 are M; of the rest of floor e's sheet every number but 0 is damage. */
static void sheet_of_another(void)
{
    const worked *e = &floors[4], *f = &floors[5];
    const job with_route = job_of(e), without = job_of(f);
    outcome route = outcome_of(e), none = outcome_of(f);
    const void *const of_e[SHEET] = {e->d, e->e, e->f, e->back, e->route, e->next};
    const void *const of_f[SHEET] = {f->d, f->e, f->f, f->back, f->route, f->next};
    const size_t counts[SHEET] = {2, 5, 4, 4, 2, 4};
    memcpy(route.counts, counts, sizeof counts), memcpy(none.counts, counts, sizeof counts);
    mend("floor e's sheet on floor f", &without, of_e, &none);
    mend("floor f's sheet on floor e", &with_route, of_f, &route);
}

/* ---- Too many routes, and the largest floor. ---- */

enum { MOST_PLACES = 16384 };
static uint32_t from[MOST_PLACES], to[MOST_PLACES];

/* The costs from one vertex of an open floor with neighbourhood 4. */
static void fill_steps(uint32_t *costs, int width, int height, int x0, int y0)
{
    for (int y = 0; y <= height; y++)
        for (int x = 0; x <= width; x++)
            costs[x + y * (width + 1)] = 408 * (uint32_t)(abs(x - x0) + abs(y - y0));
}

/* Floor j: corner to corner of 34 by 34 cells. d and e are true, the rest is 0, and nothing is counted. */
static void floor_j(void)
{
    static const uint8_t map[(34 * 34 + 7) / 8];
    const job j = make_job(34, 34, map, 4, 0, 35 * 35 - 1);
    outcome wanted = too_many;
    fill_steps(from, 34, 34, 0, 0), fill_steps(to, 34, 34, 34, 34);
    wanted.sheet[D] = from, wanted.sheet[E] = to;
    mend("floor j", &j, NULL, &wanted);
    static const uint64_t none[35 * 35];
    const void *const old[SHEET] = {from, to, none, none, none, none};
    mend("floor j, with true costs", &j, old, &wanted);
}

/* Floor k, the largest floor, from vertex 0 to vertex 1, for sheets with 0 and with all ones at every place. */
static void floor_k(void)
{
    static const uint8_t map[MOST_BYTES];
    static uint64_t f[MOST_PLACES];
    static uint16_t route[MOST_PLACES], next[MOST_PLACES];
    const job j = make_job(127, 127, map, 4, 0, 1);
    fill_steps(from, 127, 127, 0, 0), fill_steps(to, 127, 127, 1, 0);
    f[0] = f[1] = 1, route[1] = 1, next[0] = next[1] = 1;
    const outcome zeros = {0, 2, {16383, 16383, 2, 2, 1, 2}, {from, to, f, f, route, next}};
    mend_over("floor k, for zeros", &j, NULL, 0x00, &zeros);
    const outcome ones = {0, 2, {16384, 16384, 16384, 16384, 16384, 16384}, {from, to, f, f, route, next}};
    mend_over("floor k, for ones", &j, NULL, 0xFF, &ones);
    const outcome whole = {0, 2, {0}, {from, to, f, f, route, next}};
    mend_over("floor k, for the true sheet", &j, whole.sheet, 0x5A, &whole);
}

/* ---- Limits and refusals, on floor e. ---- */

static void numbers(void)
{
    const job good = job_of(&floors[4]);
    const uint32_t sides[] = {0, 128, 257, 258, 65536 + 2, 4294967295u};
    for (size_t k = 0; k < sizeof sides / sizeof sides[0]; k++) {
        job j = good;
        j.width = sides[k];
        refused("a bad width", &j, LURFANZI_BAD_SIZE);
        j = good, j.height = sides[k];
        refused("a bad height", &j, LURFANZI_BAD_SIZE);
    }
    for (size_t length = 0; length <= 4; length++) {
        job j = good;
        j.map_length = length;
        if (length != 1) refused("a bad map length", &j, LURFANZI_BAD_MAP_LENGTH);
    }
    for (unsigned bit = 2; bit < 8; bit++) {
        const uint8_t stray[1] = {(uint8_t)(1u << bit)};
        job j = good;
        j.map = stray;
        refused("an unused bit", &j, LURFANZI_UNUSED_BIT);
    }
    const uint32_t none[] = {0, 1, 5, 7, 9, 12, 15, 17, 24, 32, 256 + 8, 65536 + 16, 2147483648u + 4, 4294967295u};
    for (size_t k = 0; k < sizeof none / sizeof none[0]; k++) {
        job j = good;
        j.neighbourhood = none[k];
        refused("a bad neighbourhood", &j, LURFANZI_BAD_NEIGHBOURHOOD);
    }
    const uint32_t ends[] = {6, 7, 256 + 5, 65536, 65536 + 5, 4294967295u};
    for (size_t k = 0; k < sizeof ends / sizeof ends[0]; k++) {
        job j = good;
        j.a = ends[k];
        refused("a bad first end", &j, LURFANZI_BAD_END);
        j = good, j.b = ends[k];
        refused("a bad second end", &j, LURFANZI_BAD_END);
    }
}

/* Each of the thirteen slices one place short, one place long, empty, and longer by what a narrow type would lose. Also
 * where no walk joins the ends. */
static void lengths(void)
{
    for (int slice = 0; slice < SHEET + SLICES; slice++)
        for (int floor = 4; floor <= 5; floor++) {
            const job good = job_of(&floors[floor]);
            const size_t length = slice < SHEET ? good.old_length[slice] : good.length[slice - SHEET];
            const size_t bad[] = {length - 1, length + 1, 0, 2 * length, 256 + length, 65536 + length};
            for (size_t k = 0; k < sizeof bad / sizeof bad[0]; k++) {
                job j = good;
                *(slice < SHEET ? &j.old_length[slice] : &j.length[slice - SHEET]) = bad[k];
                refused(slice < SHEET ? old_name[slice] : slice_name[slice - SHEET], &j, LURFANZI_BAD_SLICE_LENGTH);
            }
        }
    job empty = job_of(&floors[4]);
    memset(empty.old_length, 0, sizeof empty.old_length), memset(empty.length, 0, sizeof empty.length);
    refused("every slice empty", &empty, LURFANZI_BAD_SLICE_LENGTH);
}

static const uint8_t touching[2] = {9};

/* Vertex 4 is the pinch of floor g. */
static void pinched_ends(void)
{
    const uint32_t ends[][2] = {{2, 4}, {4, 2}, {4, 4}, {0, 4}, {4, 8}};
    for (size_t k = 0; k < sizeof ends / sizeof ends[0]; k++)
        for (uint32_t neighbourhood = 4; neighbourhood <= 16; neighbourhood *= 2) {
            job j = make_job(2, 2, touching, neighbourhood, ends[k][0], ends[k][1]);
            refused("a pinched end", &j, LURFANZI_PINCHED_END);
            j.old_length[E] = 8;
            refused("a pinched end, and a short slice", &j, LURFANZI_PINCHED_END);
        }
    job j = make_job(2, 2, touching, 8, 4, 9);
    refused("a pinched end, and one off the floor", &j, LURFANZI_BAD_END);
}

/* Of two faults the one that comes first in this order is answered. Of the ends one is off the floor at 5, and the
 * other the pinch at 11. */
static const uint8_t order[] = {1, 2, 3, 4, 5, LURFANZI_PINCHED_END, 6};
enum { FAULTS = sizeof order };

static void spoil(job *j, uint8_t fault, int turned)
{
    static const uint8_t stray[2] = {9 | 16};
    if (fault == 1) j->height = 128;
    if (fault == 2) j->map_length = 2;
    if (fault == 3) j->map = stray;
    if (fault == 4) j->neighbourhood = 12;
    if (fault == 5) *(turned ? &j->a : &j->b) = 9;
    if (fault == LURFANZI_PINCHED_END) *(turned ? &j->b : &j->a) = 4;
    if (fault == 6) *(turned ? &j->old_length[NEXT] : &j->length[WORK]) = 10;
}

static void order_of_refusals(void)
{
    for (int first = 0; first < FAULTS; first++)
        for (int second = first; second < FAULTS; second++)
            for (int turned = 0; turned < 2; turned++) {
                /* From 2 to 6 no walk leads, from 2 to 5 one does. */
                job j = make_job(2, 2, touching, 8, 2, turned ? 5 : 6);
                spoil(&j, order[second], turned);
                spoil(&j, order[first], turned);
                refused("two faults", &j, order[first]);
            }
}

int main(void)
{
    setbuf(stdout, NULL); /* so that a crash loses no line */
    worked_sheets();
    sheet_of_another();
    floor_j();
    floor_k();
    numbers();
    lengths();
    pinched_ends();
    order_of_refusals();
    const uint8_t answers[] = {0, 1, 2, 3, 4, 5, 6, 7, 8, LURFANZI_PINCHED_END};
    return finish("mending", answers, sizeof answers);
}
