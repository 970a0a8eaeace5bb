/* Compares lurfanzi.h with the code: the planner's two functions, checker and thinning, called as a C program calls
 * them, with every slice between guard bytes. The expected numbers are those of floors a to l, worked by hand in the
 * rules, and of floor e with neighbourhood 16; where a floor's text leaves a number out, it follows from the rule named
 * beside it.
 */
#include "lent.h"
#include "lurfanzi.h"
#include "worked.h"

/* The layout that a caller in another language relies on. */
_Static_assert(sizeof(size_t) == 8, "a size_t has 64 bits");
_Static_assert(sizeof(lurfanzi_plan_result) == 24, "size of the planner's result");
_Static_assert(offsetof(lurfanzi_plan_result, total) == 0, "place of total");
_Static_assert(offsetof(lurfanzi_plan_result, points) == 8, "place of points");
_Static_assert(offsetof(lurfanzi_plan_result, cost) == 16, "place of cost");
_Static_assert(offsetof(lurfanzi_plan_result, answer) == 20, "place of answer");
_Static_assert(sizeof(lurfanzi_thin_result) == 16, "size of the thinning's result");
_Static_assert(offsetof(lurfanzi_thin_result, kept) == 0, "place of kept");
_Static_assert(offsetof(lurfanzi_thin_result, answer) == 8, "place of the thinning's answer");
_Static_assert(LURFANZI_OK == 0 && LURFANZI_BAD_SIZE == 1 && LURFANZI_BAD_MAP_LENGTH == 2, "answers 0 to 2");
_Static_assert(LURFANZI_UNUSED_BIT == 3 && LURFANZI_BAD_NEIGHBOURHOOD == 4, "answers 3 and 4");
_Static_assert(LURFANZI_BAD_END == 5, "answer 5");
_Static_assert(LURFANZI_BAD_SLICE_LENGTH == 6 && LURFANZI_NO_ROUTE == 7 && LURFANZI_TOO_MANY == 8, "answers 6 to 8");
_Static_assert(LURFANZI_FALSE_SHEET == 9 && LURFANZI_NOT_JOINED == 10, "answers 9 and 10");
_Static_assert(LURFANZI_PINCHED_END == 11, "answer 11");
_Static_assert(LURFANZI_UNREACHABLE == 4294967295, "the cost of no walk");
_Static_assert(LURFANZI_INTERFACE == 3, "maps have a bit to a cell, and a sheet has the next vertices");

static const uint32_t neighbourhoods[] = {4, 8, 16};
enum { NEIGHBOURHOODS = sizeof neighbourhoods / sizeof neighbourhoods[0] };

/* The cost of a move over so many columns and rows; 0 where the neighbourhood has none. */
static uint32_t move_cost(uint32_t neighbourhood, int dx, int dy)
{
    const int squared = dx * dx + dy * dy;
    if (squared == 1) return neighbourhood == 16 ? 1000 : 408;
    if (squared == 2) return neighbourhood == 16 ? 1414 : neighbourhood == 8 ? 577 : 0;
    return squared == 5 && neighbourhood == 16 ? 2236 : 0;
}

/* A job for planner or checker: every number of the call, and the slices, of which all but work are the sheet's. */
enum { D, E, F, BACK, ROUTE, NEXT, WORK, SLICES, SHEET = WORK };
static const char *const slice_name[SLICES] = {"d", "e", "f", "back", "route", "next", "work"};
static const size_t element[SLICES] = {4, 4, 8, 8, 2, 2, 4};

typedef struct {
    uint32_t width, height, neighbourhood, a, b;
    const uint8_t *map;
    size_t map_length;
    size_t length[SLICES];
    size_t n; /* the checker's */
} job;

static size_t vertices(uint32_t width, uint32_t height)
{
    return ((size_t)width + 1) * ((size_t)height + 1);
}

/* A job whose slices have the right lengths. */
static job make_job(uint32_t width, uint32_t height, const uint8_t *map, uint32_t neighbourhood, uint32_t a, uint32_t b)
{
    job j = {width, height, neighbourhood, a, b, map, map_length(width, height), {0}, 0};
    for (int k = 0; k < SLICES; k++) j.length[k] = vertices(width, height) * (k == WORK ? 4 : 1);
    return j;
}

typedef struct {
    lurfanzi_plan_result result;
    lent slice[SLICES];
} planned;

/* The sheet that a plan left, for the checker. */
static void sheet_of(const planned *p, const void *sheet[SHEET])
{
    for (int k = 0; k < SHEET; k++) sheet[k] = p->slice[k].p;
}

static void give_back_sheet(planned *p)
{
    for (int k = 0; k < SLICES; k++) give_back(&p->slice[k]);
}

/* Fills the costs from a over slices that hold `fill` in every byte, and tests all that holds at every answer. */
static uint8_t fill_costs(const char *where, const job *j, unsigned char fill, lent *d)
{
    lent map = lend_copy(j->map, j->map_length), work = lend(j->length[WORK] * element[WORK], fill);
    *d = lend(j->length[D] * element[D], fill);
    before_call(&map), before_call(&work), before_call(d);
    const uint8_t answer = lurfanzi_costs(
        j->width, j->height, map.p, j->map_length, j->neighbourhood, j->a, d->p, j->length[D], work.p, j->length[WORK]);
    expect_read_only(where, "the map", &map);
    expect_guards(where, "d of the costs", d);
    expect_guards(where, "work of the costs", &work);
    if (answer > 6 && answer != LURFANZI_PINCHED_END) fail(where, "the costs", "gave an answer that is not theirs");
    if (answer == 0) {
        expect_zeros(where, "work of the costs", &work);
    } else {
        expect_untouched(where, "d of the costs", d);
        expect_untouched(where, "work of the costs", &work);
    }
    give_back(&map), give_back(&work);
    return answer;
}

/* The next vertices of a planned job. On the way each is a move of the neighbourhood away, which is the cost that e
 * falls by: so the walk through them from any vertex on the way reaches b at the cost left. At b stands b, off the way
 * 0. The route is the walk from a, and on the way is where f is not 0. */
static void expect_walks(const char *where, const job *j, const planned *p)
{
    const uint32_t *d = p->slice[D].p, *e = p->slice[E].p, columns = j->width + 1;
    const uint64_t *f = p->slice[F].p;
    const uint16_t *route = p->slice[ROUTE].p, *next = p->slice[NEXT].p;
    const size_t v_count = vertices(j->width, j->height), points = p->result.points;
    int good = points != 0 && points <= v_count;
    for (int k = 0; k < SHEET; k++) good = good && j->length[k] == v_count;
    if (!good) {
        fail(where, "the planner", "took a slice of another length, or answered a number of points that is none");
        return;
    }
    for (uint32_t v = 0; v < v_count; v++) {
        const int on_way = (uint64_t)d[v] + e[v] == p->result.cost;
        const uint32_t to = next[v];
        expect(where, "on the way, by f,", f[v] != 0, (unsigned)on_way);
        if (v == j->b || !on_way) {
            expect(where, v == j->b ? "next at b" : "next off the way", to, v == j->b ? j->b : 0);
            continue;
        }
        if (to >= v_count) {
            fail(where, "next", "is no vertex");
            continue;
        }
        const int dx = (int)(to % columns) - (int)(v % columns), dy = (int)(to / columns) - (int)(v / columns);
        const uint32_t cost = move_cost(j->neighbourhood, dx, dy);
        if (cost == 0) fail(where, "next", "is not a move away");
        expect(where, "the cost after a move", e[to], e[v] - cost);
    }
    uint32_t at = j->a;
    for (size_t k = 0; k < points; k++) {
        expect(where, "a point", route[k], at);
        at = next[at];
        if (at >= v_count) return;
    }
    expect(where, "the last point", route[points - 1], j->b);
}

/* Finishes the job from the costs given, or from d with `fill` in every byte where they are NULL. The other slices hold
 * `fill`. Tests all that holds at every answer. */
static planned finish_job(const char *where, const job *j, const void *d, unsigned char fill)
{
    planned p;
    lent map = lend_copy(j->map, j->map_length);
    before_call(&map);
    for (int k = 0; k < SLICES; k++) {
        const size_t size = j->length[k] * element[k];
        p.slice[k] = k == D && d != NULL ? lend_copy(d, size) : lend(size, fill);
        before_call(&p.slice[k]);
    }
    lent *s = p.slice;
    p.result = lurfanzi_finish(
        j->width, j->height, map.p, j->map_length, j->neighbourhood, j->a, j->b,
        s[D].p, j->length[D], s[E].p, j->length[E], s[F].p, j->length[F],
        s[BACK].p, j->length[BACK], s[ROUTE].p, j->length[ROUTE], s[NEXT].p, j->length[NEXT],
        s[WORK].p, j->length[WORK]);
    expect_read_only(where, "the map", &map);
    expect_read_only(where, "d", &s[D]);
    for (int k = E; k < SLICES; k++) expect_guards(where, slice_name[k], &s[k]);
    const uint8_t answer = p.result.answer;
    if (answer > 9 && answer != LURFANZI_PINCHED_END) fail(where, "the planner", "gave an answer that is not its own");
    if (answer != 0) {
        expect(where, "cost", p.result.cost, 0);
        expect(where, "total", p.result.total, 0);
        expect(where, "points", p.result.points, 0);
    }
    if ((1 <= answer && answer <= 6) || answer == 9 || answer == LURFANZI_PINCHED_END)
        for (int k = E; k < SLICES; k++) expect_untouched(where, slice_name[k], &s[k]);
    else
        expect_zeros(where, "work", &s[WORK]);
    if (answer == 7) expect_zeros(where, "e", &s[E]);
    if (answer == 7 || answer == 8)
        for (int k = F; k <= NEXT; k++) expect_zeros(where, slice_name[k], &s[k]);
    if (answer == 0) expect_walks(where, j, &p);
    give_back(&map);
    return p;
}

static void expect_finish(const char *where, const job *j, const void *d, unsigned char fill, uint8_t wanted)
{
    planned p = finish_job(where, j, d, fill);
    expect_answer(where, p.result.answer, wanted);
    give_back_sheet(&p);
}

/* Whether of the four cells at a vertex of the map one diagonal pair is blocked and the other open. */
static int is_pinch(const job *j, uint32_t v)
{
    const uint32_t x = v % (j->width + 1), y = v / (j->width + 1);
    if (x == 0 || x == j->width || y == 0 || y == j->height) return 0;
    int blocked[4];
    for (uint32_t k = 0; k < 4; k++) {
        const uint32_t c = x - 1 + k % 2 + (y - 1 + k / 2) * j->width;
        blocked[k] = j->map[c / 8] >> c % 8 & 1;
    }
    return blocked[0] == blocked[3] && blocked[1] == blocked[2] && blocked[0] != blocked[1];
}

/* What the costs answer where the whole job has this answer: they know neither b nor the other slices. */
static uint8_t costs_answer(const job *j, uint8_t answer)
{
    const size_t v = vertices(j->width, j->height);
    if (1 <= answer && answer <= 4) return answer;
    if (j->a >= v) return LURFANZI_BAD_END;
    if (is_pinch(j, j->a)) return LURFANZI_PINCHED_END;
    return j->length[D] == v && j->length[WORK] == 4 * v ? 0 : LURFANZI_BAD_SLICE_LENGTH;
}

/* Plans by both functions, with slices that hold `fill` in every byte. */
static planned plan(const char *where, const job *j, unsigned char fill)
{
    lent d;
    const uint8_t answer = fill_costs(where, j, fill, &d);
    planned p = finish_job(where, j, d.size == 0 ? NULL : d.p, fill);
    expect(where, "the answer of the costs", answer, costs_answer(j, p.result.answer));
    give_back(&d);
    return p;
}

static void expect_plan(const char *where, const job *j, uint8_t wanted)
{
    const unsigned char fills[] = {0x00, 0x01, 0xFF};
    for (size_t k = 0; k < sizeof fills; k++) {
        planned p = plan(where, j, fills[k]);
        expect_answer(where, p.result.answer, wanted);
        give_back_sheet(&p);
    }
}

/* Asks the checker about the sheet as the slices hold it. */
static uint8_t check(const char *where, const job *j, const void *const sheet[SHEET])
{
    lent s[SHEET], map = lend_copy(j->map, j->map_length);
    before_call(&map);
    for (int k = 0; k < SHEET; k++) {
        const size_t size = j->length[k] * element[k];
        s[k] = sheet[k] == NULL ? lend(size, 0xFF) : lend_copy(sheet[k], size);
        before_call(&s[k]);
    }
    uint8_t answer = lurfanzi_check(
        j->width, j->height, map.p, j->map_length, j->neighbourhood, j->a, j->b,
        s[D].p, j->length[D], s[E].p, j->length[E], s[F].p, j->length[F],
        s[BACK].p, j->length[BACK], s[ROUTE].p, j->length[ROUTE], s[NEXT].p, j->length[NEXT], j->n);
    expect_read_only(where, "the map", &map);
    for (int k = 0; k < SHEET; k++) {
        expect_read_only(where, slice_name[k], &s[k]);
        give_back(&s[k]);
    }
    give_back(&map);
    return answer;
}

/* A list for the thinning. */
typedef struct {
    uint32_t width, height;
    const uint8_t *map;
    size_t map_length;
    const uint16_t *list;
    size_t list_length, out_length, n;
} trail;

static lurfanzi_thin_result thin(const char *where, const trail *t, uint16_t *kept)
{
    lent map = lend_copy(t->map, t->map_length);
    lent list = lend_copy(t->list, t->list_length * sizeof(uint16_t));
    lent out = lend(t->out_length * sizeof(uint16_t), 0xFF);
    before_call(&map), before_call(&list), before_call(&out);
    lurfanzi_thin_result r = lurfanzi_thin(
        t->width, t->height, map.p, t->map_length, list.p, t->list_length, out.p, t->out_length, t->n);
    expect_read_only(where, "the map", &map);
    expect_read_only(where, "the list", &list);
    expect_guards(where, "the output", &out);
    if (r.answer != 0) {
        expect_untouched(where, "the output", &out);
        expect(where, "kept", r.kept, 0);
    } else if (kept != NULL)
        memcpy(kept, out.p, out.size);
    give_back(&map), give_back(&list), give_back(&out);
    return r;
}

static void expect_thin(const char *where, const trail *t, uint8_t wanted)
{
    expect_answer(where, thin(where, t, NULL).answer, wanted);
}

/* ---- The worked floors. ---- */

static job job_of(const worked *w)
{
    return make_job(w->width, w->height, w->map, w->neighbourhood, w->a, w->b);
}

static void expect_slice(const char *where, const char *what, const lent *s, const void *wanted)
{
    if (memcmp(s->p, wanted, s->size) != 0) fail(where, what, "is not the worked one");
}

/* Plans the floor over slices that hold anything, and compares the whole sheet with the worked one. */
static void plan_worked(const worked *w)
{
    const unsigned char fills[] = {0x00, 0x01, 0xFF};
    const job j = job_of(w);
    for (size_t k = 0; k < sizeof fills; k++) {
        planned p = plan(w->name, &j, fills[k]);
        expect_answer(w->name, p.result.answer, w->answer);
        expect(w->name, "cost", p.result.cost, w->cost);
        expect(w->name, "total", p.result.total, w->total);
        expect(w->name, "points", p.result.points, w->points);
        expect_slice(w->name, "d", &p.slice[D], w->d);
        expect_slice(w->name, "e", &p.slice[E], w->e);
        expect_slice(w->name, "f", &p.slice[F], w->f);
        expect_slice(w->name, "back", &p.slice[BACK], w->back);
        expect_slice(w->name, "route", &p.slice[ROUTE], w->route);
        expect_slice(w->name, "next", &p.slice[NEXT], w->next);
        give_back_sheet(&p);
    }
}

/* The checker's answer to each sheet that has another number at one place: one more, one less, 0, all ones, one bit
 * turned over, or, of route and next, any vertex. All of them are false. Of d, the planner's answer too: costs that are
 * not true are refused before all else that the job could answer. */
static void change_place(
    const worked *w, const job *j, const void *const sheet[SHEET], int slice, void *numbers, size_t place)
{
    const size_t size = element[slice];
    const uint64_t old = number_at(numbers, size, place), ones = UINT64_MAX >> (64 - 8 * size);
    const uint64_t others[] = {(old + 1) & ones, (old - 1) & ones, 0, ones};
    const size_t bits = 8 * size, any = slice >= ROUTE ? vertices(w->width, w->height) : 0;
    for (size_t k = 0; k < 4 + bits + any; k++) {
        const uint64_t number = k < 4 ? others[k] : k < 4 + bits ? old ^ UINT64_C(1) << (k - 4) : k - 4 - bits;
        if (number == old) continue;
        put_number(numbers, size, place, number);
        expect_answer(w->name, check(w->name, j, sheet), LURFANZI_FALSE_SHEET);
        if (slice == D) expect_finish(w->name, j, numbers, (unsigned char)k, LURFANZI_FALSE_SHEET);
    }
    put_number(numbers, size, place, old);
}

/* Sheets without sense. The first has 0 everywhere, though no vertex but A costs 0; every other has more than 0 at A,
 * which costs 0. */
static uint64_t nonsense(unsigned k, size_t place)
{
    if (k == 0) return 0;
    if (k == 1) return UINT64_MAX;
    if (k == 2) return place + 1;
    return 2 * (place * UINT64_C(2654435761) + k * UINT64_C(40503)) + 1;
}

static void check_nonsense(const worked *w)
{
    worked made = *w;
    job j = job_of(w);
    void *const slices[SHEET] = {made.d, made.e, made.f, made.back, made.route, made.next};
    const void *const sheet[SHEET] = {made.d, made.e, made.f, made.back, made.route, made.next};
    for (unsigned k = 0; k < 8; k++) {
        size_t place = 0;
        for (int slice = 0; slice < SHEET; slice++)
            for (size_t i = 0; i < j.length[slice]; i++)
                put_number(slices[slice], element[slice], i, nonsense(k, place++));
        expect_finish(w->name, &j, made.d, 0xFF, LURFANZI_FALSE_SHEET);
        j.n = nonsense(k, 0);
        expect_answer(w->name, check(w->name, &j, sheet), LURFANZI_FALSE_SHEET);
        j.n = w->points;
        expect_answer(w->name, check(w->name, &j, sheet), LURFANZI_FALSE_SHEET);
    }
}

/* Checks the worked sheet, then each sheet that differs from it in one number: all of those are false. */
static void check_worked(const worked *w)
{
    worked altered = *w;
    job j = job_of(w);
    j.n = w->points;
    void *const slices[SHEET] = {altered.d, altered.e, altered.f, altered.back, altered.route, altered.next};
    const void *const sheet[SHEET] = {altered.d, altered.e, altered.f, altered.back, altered.route, altered.next};
    expect_answer(w->name, check(w->name, &j, sheet), w->answer);
    for (int k = 0; k < SHEET; k++)
        for (size_t place = 0; place < j.length[k]; place++) change_place(w, &j, sheet, k, slices[k], place);
    const size_t v = vertices(w->width, w->height);
    const size_t counts[] = {0, 1, w->points - 1, w->points + 1, v, v + 1, 65536 + w->points, SIZE_MAX};
    for (size_t k = 0; k < sizeof counts / sizeof counts[0]; k++) {
        if (counts[k] == w->points) continue;
        j.n = counts[k];
        expect_answer(w->name, check(w->name, &j, sheet), LURFANZI_FALSE_SHEET);
    }
    const void *const turned_costs[SHEET] = {w->e, w->d, w->f, w->back, w->route, w->next};
    const void *const turned_counts[SHEET] = {w->d, w->e, w->back, w->f, w->route, w->next};
    const void *const turned_vertices[SHEET] = {w->d, w->e, w->f, w->back, w->next, w->route};
    j.n = w->points;
    if (memcmp(w->d, w->e, sizeof w->d) != 0) {
        expect_answer(w->name, check(w->name, &j, turned_costs), LURFANZI_FALSE_SHEET);
        /* The costs from the other end, or 0 everywhere. */
        expect_finish(w->name, &j, w->e, 0xFF, LURFANZI_FALSE_SHEET);
    }
    if (memcmp(w->f, w->back, sizeof w->f) != 0)
        expect_answer(w->name, check(w->name, &j, turned_counts), LURFANZI_FALSE_SHEET);
    if (memcmp(w->route, w->next, sizeof w->route) != 0)
        expect_answer(w->name, check(w->name, &j, turned_vertices), LURFANZI_FALSE_SHEET);
}

static trail trail_of(const worked *w)
{
    const size_t v = vertices(w->width, w->height);
    return (trail){w->width, w->height, w->map, map_length(w->width, w->height), w->route, v, v, w->points};
}

static void thin_worked(const worked *w)
{
    uint16_t kept[PLACES];
    trail t = trail_of(w);
    if (w->answer != 0) return;
    lurfanzi_thin_result r = thin(w->name, &t, kept);
    expect_answer(w->name, r.answer, 0);
    expect(w->name, "kept", r.kept, w->kept);
    if (memcmp(kept, w->positions, t.out_length * sizeof kept[0]) != 0)
        fail(w->name, "the output", "is not the worked one");
}

static void each_worked(const worked *list, size_t count)
{
    for (size_t k = 0; k < count; k++) {
        plan_worked(&list[k]);
        check_worked(&list[k]);
        check_nonsense(&list[k]);
        thin_worked(&list[k]);
    }
}

static void worked_floors(void)
{
    each_worked(floors, sizeof floors / sizeof floors[0]);
    each_worked(of_sixteen, sizeof of_sixteen / sizeof of_sixteen[0]);
    const worked *h = &floors[7];
    expect(h->name, "the traversal count of vertex 4", h->f[4] * h->back[4], 4);
}

/* Floors of 4 by 4 cells, from corner to corner, with a choice beside the route: at a vertex there, the next one by the
 * central rule and the one that another rule would take. */
typedef struct {
    const char *name;
    uint8_t map[2];
    uint32_t neighbourhood;
    size_t points;
    uint16_t next[25], place, other;
} choice;

static const choice choices[] = {
    /* Cell (2, 2) is blocked; the route is 0 6 7 13 18 24. After vertex 12, 13 and 17 are passed by 6 routes each, and
     * the move to 13 is the first. */
    {"equals beside the route", {0, 1 << (10 - 8)}, 8, 6,
     {6, 7, 0, 0, 0, 11, 7, 13, 0, 0, 0, 17, 13, 18, 0, 0, 0, 18, 24, 24, 0, 0, 0, 24, 24}, 12, 17},
    /* Cells (1, 1) and (2, 2) are blocked; the route is 0 1 6 7 8 13 18 19 24. After vertex 16, 17 is passed by 12
     * routes and 21 by 5, though f is 4 and 5. */
    {"f beside the route", {1 << 5, 1 << (10 - 8)}, 4, 9,
     {1, 6, 7, 8, 9, 6, 7, 8, 13, 14, 11, 16, 0, 18, 19, 16, 17, 18, 19, 24, 21, 22, 23, 24, 24}, 16, 21},
};

static void beside_the_route(void)
{
    for (size_t k = 0; k < sizeof choices / sizeof choices[0]; k++) {
        const choice *c = &choices[k];
        job j = make_job(4, 4, c->map, c->neighbourhood, 0, 24);
        planned p = plan(c->name, &j, 0xFF);
        const void *sheet[SHEET];
        sheet_of(&p, sheet);
        j.n = c->points;
        expect_answer(c->name, p.result.answer, 0);
        expect(c->name, "points", p.result.points, c->points);
        expect_slice(c->name, "next", &p.slice[NEXT], c->next);
        expect_answer(c->name, check(c->name, &j, sheet), 0);
        ((uint16_t *)p.slice[NEXT].p)[c->place] = c->other;
        expect_answer(c->name, check(c->name, &j, sheet), LURFANZI_FALSE_SHEET);
        give_back_sheet(&p);
    }
}

/* Floor j: an open floor, corner to corner with neighbourhood 4, where a cost is 408 for each unit step. */
static void expect_unit_steps(const char *where, const lent *s, int width, int height, int x0, int y0)
{
    const uint32_t *cost = s->p;
    for (int y = 0; y <= height; y++)
        for (int x = 0; x <= width; x++) {
            int steps = abs(x - x0) + abs(y - y0);
            expect(where, "a cost", cost[x + y * (width + 1)], 408ull * (unsigned)steps);
        }
}

static void expect_zero_count(const char *where, const planned *p, int slice, size_t wanted)
{
    size_t zeros = 0, places = p->slice[slice].size / element[slice];
    for (size_t place = 0; place < places; place++) zeros += number_at(p->slice[slice].p, element[slice], place) == 0;
    expect(where, slice_name[slice], zeros, wanted);
}

static void floor_j(void)
{
    static const uint8_t map[(34 * 34 + 7) / 8];
    job fits = make_job(33, 34, map, 4, 0, 34 * 35 - 1);
    planned p = plan("floor j, 33 by 34", &fits, 0xFF);
    expect_answer("floor j, 33 by 34", p.result.answer, 0);
    expect("floor j, 33 by 34", "cost", p.result.cost, 67 * 408);
    expect("floor j, 33 by 34", "total: the ways to place 33 steps among 67", p.result.total, 14226520737620288370u);
    expect("floor j, 33 by 34", "points", p.result.points, 68);
    expect_unit_steps("floor j, 33 by 34", &p.slice[D], 33, 34, 0, 0);
    expect_unit_steps("floor j, 33 by 34", &p.slice[E], 33, 34, 33, 34);
    /* Every vertex is on the way, and of 1190 places the route fills 68, the first with vertex 0. */
    expect_zero_count("zeros of floor j, 33 by 34", &p, F, 0);
    expect_zero_count("zeros of floor j, 33 by 34", &p, BACK, 0);
    expect_zero_count("zeros of floor j, 33 by 34", &p, ROUTE, 1190 - 67);
    expect_zero_count("zeros of floor j, 33 by 34", &p, NEXT, 0);
    const void *sheet[SHEET];
    sheet_of(&p, sheet);
    fits.n = 68;
    expect_answer("floor j, 33 by 34", check("floor j, 33 by 34", &fits, sheet), 0);
    give_back_sheet(&p);

    job many = make_job(34, 34, map, 4, 0, 35 * 35 - 1);
    p = plan("floor j, 34 by 34", &many, 0xFF);
    expect_answer("floor j, 34 by 34", p.result.answer, LURFANZI_TOO_MANY);
    expect_unit_steps("floor j, 34 by 34", &p.slice[D], 34, 34, 0, 0);
    expect_unit_steps("floor j, 34 by 34", &p.slice[E], 34, 34, 34, 34);
    sheet_of(&p, sheet);
    expect_answer("floor j, 34 by 34", check("floor j, 34 by 34", &many, sheet), LURFANZI_FALSE_SHEET);
    /* 9 before 8: every cost matters, also where the routes are too many. */
    uint32_t *d = p.slice[D].p;
    for (size_t place = 0; place < many.length[D]; place++) {
        d[place] += 1;
        expect_finish("a false cost on floor j", &many, d, 0xFF, LURFANZI_FALSE_SHEET);
        d[place] -= 1;
    }
    expect_finish("floor j, 34 by 34, again", &many, d, 0xFF, LURFANZI_TOO_MANY);
    give_back_sheet(&p);
}

/* The cost of a way over so many columns and rows of an open floor with neighbourhood 16, which is made up of the two
 * moves between whose angles it lies. */
static uint32_t open_cost(int dx, int dy)
{
    const int across = abs(dx), down = abs(dy);
    const uint32_t more = (uint32_t)(across > down ? across : down), less = (uint32_t)(across > down ? down : across);
    return 2 * less <= more ? 1000 * (more - 2 * less) + 2236 * less : 2236 * (more - less) + 1414 * (2 * less - more);
}

static void expect_open_costs(const char *where, const lent *s, int width, int height, int x0, int y0)
{
    const uint32_t *cost = s->p;
    for (int y = 0; y <= height; y++)
        for (int x = 0; x <= width; x++)
            expect(where, "a cost", cost[x + y * (width + 1)], open_cost(x - x0, y - y0));
}

/* As floor j, with neighbourhood 16: from corner to corner of 100 by 33 cells go 33 moves (2, 1) and 34 moves (1, 0) in
 * any order, as 33 and 34 unit steps do there; of 102 by 34 cells 34 of each, whose orders are too many. */
static void floor_j_of_sixteen(void)
{
    static const uint8_t map[(102 * 34 + 7) / 8];
    const char *const fits = "floor j with 16, 100 by 33", *const many = "floor j with 16, 102 by 34";
    job j = make_job(100, 33, map, 16, 0, 101 * 34 - 1);
    planned p = plan(fits, &j, 0xFF);
    expect_answer(fits, p.result.answer, 0);
    expect(fits, "cost", p.result.cost, 33 * 2236 + 34 * 1000);
    expect(fits, "total: the ways to place 33 moves among 67", p.result.total, 14226520737620288370u);
    expect(fits, "points", p.result.points, 68);
    expect_open_costs(fits, &p.slice[D], 100, 33, 0, 0);
    expect_open_costs(fits, &p.slice[E], 100, 33, 100, 33);
    /* On the way are the 34 * 35 vertices at so many moves of either kind. */
    expect_zero_count("zeros of floor j with 16", &p, F, 101 * 34 - 34 * 35);
    expect_zero_count("zeros of floor j with 16", &p, NEXT, 101 * 34 - 34 * 35);
    const void *sheet[SHEET];
    sheet_of(&p, sheet);
    j.n = 68;
    expect_answer(fits, check(fits, &j, sheet), 0);
    give_back_sheet(&p);

    j = make_job(102, 34, map, 16, 0, 103 * 35 - 1);
    p = plan(many, &j, 0xFF);
    expect_answer(many, p.result.answer, LURFANZI_TOO_MANY);
    expect_open_costs(many, &p.slice[D], 102, 34, 0, 0);
    expect_open_costs(many, &p.slice[E], 102, 34, 102, 34);
    sheet_of(&p, sheet);
    expect_answer(many, check(many, &j, sheet), LURFANZI_FALSE_SHEET);
    give_back_sheet(&p);
}

/* Open floors with neighbourhood 16: the costs from every vertex, with no move that leaves the floor, by one column or
 * by more. */
static void open_floors(void)
{
    static const uint8_t map[(6 * 6 + 7) / 8];
    for (uint32_t width = 1; width <= 6; width++)
        for (uint32_t height = 1; height <= 6; height++)
            for (uint32_t v = 0; v < vertices(width, height); v++) {
                const job j = make_job(width, height, map, 16, v, v);
                const int x = (int)(v % (width + 1)), y = (int)(v / (width + 1));
                lent d;
                expect_answer("an open floor", fill_costs("an open floor", &j, 0xFF, &d), 0);
                expect_open_costs("an open floor", &d, (int)width, (int)height, x, y);
                give_back(&d);
            }
}

/* The moves of neighbourhood 16 in their order: by angle. */
static const int moves[16][2] = {
    {1, 0}, {2, 1}, {1, 1}, {1, 2}, {0, 1}, {-1, 2}, {-1, 1}, {-2, 1},
    {-1, 0}, {-2, -1}, {-1, -1}, {-1, -2}, {0, -1}, {1, -2}, {1, -1}, {2, -1},
};

/* From the middle of an open floor of 6 by 6 cells to the sum of two neighbouring moves: two routes, of which that by
 * the first of the two is taken. The sheet with the other is false. */
static void ties_by_angle(void)
{
    static const uint8_t map[(6 * 6 + 7) / 8];
    const char *const where = "a tie by angle";
    for (int k = 0; k < 16; k++) {
        const int *const one = moves[k < 15 ? k : 0], *const two = moves[k < 15 ? k + 1 : 15];
        const uint16_t by = (uint16_t)(24 + 7 * one[1] + one[0]), beside = (uint16_t)(24 + 7 * two[1] + two[0]);
        job j = make_job(6, 6, map, 16, 24, by + beside - 24u);
        planned p = plan(where, &j, 0xFF);
        uint16_t *const route = p.slice[ROUTE].p, *const next = p.slice[NEXT].p;
        expect_answer(where, p.result.answer, 0);
        expect(where, "cost", p.result.cost, move_cost(16, one[0], one[1]) + move_cost(16, two[0], two[1]));
        expect(where, "total", p.result.total, 2);
        expect(where, "points", p.result.points, 3);
        expect(where, "the vertex between", route[1], by);
        expect(where, "next", next[24], by);
        const void *sheet[SHEET];
        sheet_of(&p, sheet);
        j.n = 3;
        expect_answer(where, check(where, &j, sheet), 0);
        next[24] = beside;
        expect_answer(where, check(where, &j, sheet), LURFANZI_FALSE_SHEET);
        route[1] = beside;
        expect_answer(where, check(where, &j, sheet), LURFANZI_FALSE_SHEET);
        give_back_sheet(&p);
    }
}

/* Jobs from one start share its costs. On floor h every vertex is on the way to the last one, so that f has the number
 * of cheapest routes to each. */
static void one_dock(void)
{
    const worked *h = &floors[7];
    job j = job_of(h);
    for (j.b = 0; j.b < 9; j.b++) {
        planned p = finish_job("one dock", &j, h->d, 0xFF);
        expect_answer("one dock", p.result.answer, 0);
        expect("one dock", "cost", p.result.cost, h->d[j.b]);
        expect("one dock", "total", p.result.total, h->f[j.b]);
        expect("one dock", "points", p.result.points, h->d[j.b] / 408 + 1);
        expect("one dock", "e at the dock", ((const uint32_t *)p.slice[E].p)[0], h->d[j.b]);
        give_back_sheet(&p);
    }
}

/* On floor a the costs of one neighbourhood are not those of another, nor is its sheet; on floor c, where no vertex is
 * reached, they are. */
static void costs_of_another_neighbourhood(void)
{
    const worked *const a[NEIGHBOURHOODS] = {&floors[1], &floors[0], &of_sixteen[1]};
    const worked *const c = &of_sixteen[2];
    for (int of = 0; of < NEIGHBOURHOODS; of++)
        for (int with = 0; with < NEIGHBOURHOODS; with++) {
            const char *const where = "the costs of another neighbourhood";
            const uint8_t wanted = of == with ? 0 : LURFANZI_FALSE_SHEET;
            const worked *const w = a[of];
            const void *const sheet[SHEET] = {w->d, w->e, w->f, w->back, w->route, w->next};
            job j = job_of(a[with]);
            expect_finish(where, &j, w->d, 0xFF, wanted);
            j.n = w->points;
            expect_answer(where, check(where, &j, sheet), wanted);
            j = job_of(c);
            j.neighbourhood = neighbourhoods[of];
            lent d;
            expect_answer(where, fill_costs(where, &j, 0xFF, &d), 0);
            j.neighbourhood = neighbourhoods[with];
            expect_finish(where, &j, d.p, 0xFF, LURFANZI_NO_ROUTE);
            give_back(&d);
        }
}

/* Costs of another start or floor are not the job's, nor, with 16, those of the eight moves at its costs. */
static void costs_of_another_job(void)
{
    const worked *e = &floors[4], *f = &floors[5];
    const uint32_t of_eight_moves[6] = {0, 1000, 2000, 1000, 1414, 2414};
    job j = job_of(&of_sixteen[0]);
    expect_finish("the costs of eight moves", &j, of_eight_moves, 0xFF, LURFANZI_FALSE_SHEET);
    j = job_of(e);
    expect_finish("the costs round a wall", &j, f->d, 0xFF, LURFANZI_FALSE_SHEET);
    for (j.a = 1; j.a < 6; j.a++) expect_finish("the costs of vertex 0", &j, e->d, 0xFF, LURFANZI_FALSE_SHEET);
    j = job_of(f);
    expect_finish("the costs without the wall", &j, e->d, 0xFF, LURFANZI_FALSE_SHEET);
}

/* Every list of four of these numbers: the true costs alone are taken, on floors a, b and c, and on a and c with 16. */
static void every_list_of_costs(void)
{
    const uint32_t of_eight[] = {0, 1, 407, 408, 577, 816, M - 1, M}, of_16[] = {0, 1, 999, 1000, 1414, 2236, M - 1, M};
    const worked *const lists[] = {&floors[0], &floors[1], &floors[2], &of_sixteen[1], &of_sixteen[2]};
    for (size_t k = 0; k < sizeof lists / sizeof lists[0]; k++) {
        const worked *w = lists[k];
        const uint32_t *const numbers = w->neighbourhood == 16 ? of_16 : of_eight;
        const job j = job_of(w);
        for (unsigned list = 0; list < 1u << 12; list++) {
            uint32_t d[4];
            for (int place = 0; place < 4; place++) d[place] = numbers[list >> 3 * place & 7];
            const int is_true = memcmp(d, w->d, sizeof d) == 0;
            expect_finish(w->name, &j, d, 0xFF, is_true ? w->answer : LURFANZI_FALSE_SHEET);
        }
    }
}

static const uint8_t largest[MOST_BYTES];

/* Floor k: the largest floor, open. */
static void floor_k(void)
{
    job j = make_job(127, 127, largest, 4, 0, 1);
    planned p = plan("floor k", &j, 0xFF);
    const uint16_t *route = p.slice[ROUTE].p;
    expect_answer("floor k", p.result.answer, 0);
    expect("floor k", "cost", p.result.cost, 408);
    expect("floor k", "total", p.result.total, 1);
    expect("floor k", "points", p.result.points, 2);
    expect("floor k", "the first vertex", route[0], 0);
    expect("floor k", "the second vertex", route[1], 1);
    expect_unit_steps("floor k", &p.slice[D], 127, 127, 0, 0);
    expect_unit_steps("floor k", &p.slice[E], 127, 127, 1, 0);
    /* Only vertices 0 and 1 are on the way, though far ones have more than 2^64 cheapest walks from 0. */
    expect_zero_count("zeros of floor k", &p, F, 16384 - 2);
    expect_zero_count("zeros of floor k", &p, BACK, 16384 - 2);
    expect_zero_count("zeros of floor k", &p, ROUTE, 16384 - 1);
    expect_zero_count("zeros of floor k", &p, NEXT, 16384 - 2);
    const void *sheet[SHEET];
    sheet_of(&p, sheet);
    j.n = 2;
    expect_answer("floor k", check("floor k", &j, sheet), 0);
    /* The last vertices, off the way. */
    uint16_t *next = p.slice[NEXT].p;
    for (size_t place = 16384 - 130; place < 16384; place++) {
        next[place] = 1;
        expect_answer("floor k, next off the way", check("floor k, next off the way", &j, sheet), LURFANZI_FALSE_SHEET);
        next[place] = 0;
    }
    give_back_sheet(&p);
}

/* The same with neighbourhood 16, to the end of the move (2, 1). */
static void floor_k_of_sixteen(void)
{
    const char *const where = "floor k with 16";
    job j = make_job(127, 127, largest, 16, 0, 130);
    planned p = plan(where, &j, 0xFF);
    const uint16_t *route = p.slice[ROUTE].p;
    expect_answer(where, p.result.answer, 0);
    expect(where, "cost", p.result.cost, 2236);
    expect(where, "total", p.result.total, 1);
    expect(where, "points", p.result.points, 2);
    expect(where, "the second vertex", route[1], 130);
    expect_open_costs(where, &p.slice[D], 127, 127, 0, 0);
    expect_open_costs(where, &p.slice[E], 127, 127, 2, 1);
    expect_zero_count("zeros of floor k with 16", &p, F, 16384 - 2);
    expect_zero_count("zeros of floor k with 16", &p, NEXT, 16384 - 2);
    const void *sheet[SHEET];
    sheet_of(&p, sheet);
    j.n = 2;
    expect_answer(where, check(where, &j, sheet), 0);
    give_back_sheet(&p);
}

/* ---- The limits of every number (floor l), on floor e, whose numbers 2, 1, 8, 0, 5 all differ. ---- */

static const worked *const e_floor = &floors[4];
static const void *const anything[SHEET] = {NULL, NULL, NULL, NULL, NULL, NULL};

/* Planner and checker refuse the job alike. */
static void expect_refused(const char *where, const job *j, uint8_t wanted)
{
    expect_plan(where, j, wanted);
    expect_answer(where, check(where, j, anything), wanted);
}

static void limits_of_numbers(void)
{
    const uint32_t sizes[] = {0, 128, 257, 258, 65537, 4294967295u};
    for (size_t k = 0; k < sizeof sizes / sizeof sizes[0]; k++) {
        job j = job_of(e_floor);
        j.width = sizes[k];
        expect_refused("a bad width", &j, LURFANZI_BAD_SIZE);
        j = job_of(e_floor);
        j.height = sizes[k];
        expect_refused("a bad height", &j, LURFANZI_BAD_SIZE);
    }
    for (int wide = 0; wide < 2; wide++) {
        job j = wide ? make_job(127, 1, largest, 4, 0, 127) : make_job(1, 127, largest, 4, 0, 254);
        planned p = plan("a side of 127", &j, 0xFF);
        expect_answer("a side of 127", p.result.answer, 0);
        expect("a side of 127", "cost", p.result.cost, 127 * 408);
        give_back_sheet(&p);
    }
    for (size_t length = 0; length <= 4; length++) {
        job j = job_of(e_floor);
        j.map_length = length;
        if (length != 1) expect_refused("a bad map length", &j, LURFANZI_BAD_MAP_LENGTH);
    }
    for (int byte = 4; byte < 256; byte++) {
        const uint8_t map[1] = {(uint8_t)byte};
        job j = make_job(2, 1, map, 8, 0, 5);
        expect_refused("an unused bit", &j, LURFANZI_UNUSED_BIT);
    }
    const uint32_t bad[] = {256 + 4, 256 + 8, 256 + 16, 65536 + 4, 65536 + 16, 2147483648u + 16, 4294967295u};
    for (uint32_t k = 0; k < 256 + sizeof bad / sizeof bad[0]; k++) {
        const uint32_t neighbourhood = k < 256 ? k : bad[k - 256];
        job j = job_of(e_floor);
        j.neighbourhood = neighbourhood;
        if (neighbourhood == 4 || neighbourhood == 8 || neighbourhood == 16)
            expect_plan("a good neighbourhood", &j, 0);
        else
            expect_refused("a bad neighbourhood", &j, LURFANZI_BAD_NEIGHBOURHOOD);
    }
    const uint32_t ends[] = {6, 7, 256 + 5, 65536 + 0, 65536 + 5, 4294967295u};
    for (size_t k = 0; k < sizeof ends / sizeof ends[0]; k++) {
        job j = job_of(e_floor);
        j.a = ends[k];
        expect_refused("a bad first end", &j, LURFANZI_BAD_END);
        j = job_of(e_floor);
        j.b = ends[k];
        expect_refused("a bad second end", &j, LURFANZI_BAD_END);
    }
    job back = job_of(e_floor);
    back.a = 5, back.b = 0;
    expect_plan("the last vertex as first end", &back, 0);
}

/* The thinning of a list of vertex 0 alone, on the map of a job, gives the answer `wanted`. */
static void expect_thin_map(const char *where, const job *j, uint8_t wanted)
{
    static const uint16_t first[1] = {0};
    const trail t = {j->width, j->height, j->map, j->map_length, first, 1, 1, 1};
    expect_answer(where, thin(where, &t, NULL).answer, wanted);
}

/* Floors with every number of unused bits: the open map and the one with every cell's bit set are taken; each unused
 * bit alone, and lengths off by one, are refused. From vertex 0 to itself. */
static void limits_of_maps(void)
{
    static uint8_t open[MOST_BYTES + 1], all[MOST_BYTES + 1];
    for (size_t k = 0; k < ANY_SIDES; k++) {
        const uint32_t w = any_sides[k].width, h = any_sides[k].height;
        const size_t length = map_length(w, h), last = length - 1;
        const unsigned unused = first_unused(any_sides[k]);
        memset(all, 0xFF, sizeof all);
        all[last] = (uint8_t)(0xFF >> (8 - unused));
        uint8_t *const maps[2] = {open, all};
        for (int m = 0; m < 2; m++) {
            job j = make_job(w, h, maps[m], neighbourhoods[k % NEIGHBOURHOODS], 0, 0);
            expect_plan("a good map", &j, 0);
            expect_answer("a good map", check("a good map", &j, anything), LURFANZI_FALSE_SHEET);
            expect_thin_map("a good map", &j, 0);
            for (unsigned bit = unused; bit < 8; bit++) {
                maps[m][last] ^= (uint8_t)(1u << bit);
                expect_refused("an unused bit", &j, LURFANZI_UNUSED_BIT);
                expect_thin_map("an unused bit", &j, LURFANZI_UNUSED_BIT);
                maps[m][last] ^= (uint8_t)(1u << bit);
            }
            for (j.map_length = length - 1; j.map_length <= length + 1; j.map_length += 2) {
                expect_refused("a map of another length", &j, LURFANZI_BAD_MAP_LENGTH);
                expect_thin_map("a map of another length", &j, LURFANZI_BAD_MAP_LENGTH);
            }
        }
    }
}

/* Each slice one place short, one place long, empty, and longer by a number that a narrow type would lose. */
static void limits_of_slices_of(const worked *w)
{
    for (int slice = 0; slice < SLICES; slice++) {
        const size_t length = job_of(w).length[slice];
        const size_t bad[] = {length - 1, length + 1, 0, 2 * length, 256 + length, 65536 + length};
        for (size_t k = 0; k < sizeof bad / sizeof bad[0]; k++) {
            job j = job_of(w);
            j.length[slice] = bad[k];
            expect_plan(slice_name[slice], &j, LURFANZI_BAD_SLICE_LENGTH);
            /* 6 before 9. */
            expect_finish(slice_name[slice], &j, NULL, 0x01, LURFANZI_BAD_SLICE_LENGTH);
            if (slice == WORK) continue;
            expect_answer(slice_name[slice], check(slice_name[slice], &j, anything), LURFANZI_BAD_SLICE_LENGTH);
        }
    }
}

static void limits_of_slices(void)
{
    limits_of_slices_of(e_floor);
    limits_of_slices_of(&of_sixteen[0]);
    job empty = job_of(e_floor);
    memset(empty.length, 0, sizeof empty.length);
    expect_refused("every slice empty", &empty, LURFANZI_BAD_SLICE_LENGTH);
    empty.map_length = 0;
    expect_refused("the map empty too", &empty, LURFANZI_BAD_MAP_LENGTH);
    empty.width = empty.height = 0;
    expect_refused("all empty on a floor without cells", &empty, LURFANZI_BAD_SIZE);
}

/* Of two faults the one that comes first in this order is answered. The job is on floor g, from 2 to 5. */
static const uint8_t order[] = {1, 2, 3, 4, 5, LURFANZI_PINCHED_END, 6};
enum { FAULTS = sizeof order };
static const uint8_t touching[2] = {9};

/* Of the ends one is off the floor at 5, and the other the pinch at 11. */
static void spoil(job *j, uint8_t fault, int turned)
{
    static const uint8_t stray[2] = {9 | 16};
    if (fault == 1) j->height = 128;
    if (fault == 2) j->map_length = 2;
    if (fault == 3) j->map = stray;
    if (fault == 4) j->neighbourhood = turned ? 12 : 6;
    if (fault == 5) *(turned ? &j->a : &j->b) = 9;
    if (fault == LURFANZI_PINCHED_END) *(turned ? &j->b : &j->a) = 4;
    if (fault == 6) j->length[ROUTE] = 10;
}

static void order_of_refusals(void)
{
    for (int first = 0; first < FAULTS; first++)
        for (int second = first; second < FAULTS; second++)
            for (int turned = 0; turned < 2; turned++) {
                job j = make_job(2, 2, touching, turned ? 16 : 8, 2, 5);
                spoil(&j, order[second], turned);
                spoil(&j, order[first], turned);
                expect_refused("two faults", &j, order[first]);
                expect_finish("two faults, and false costs", &j, NULL, 0xFF, order[first]);
            }
    /* Refusals 1 to 6 and 11 come before 7 and 9, and n is not looked at before them; 9 comes before 7. */
    job no_route = job_of(&floors[5]);
    expect_finish("no route, and false costs", &no_route, NULL, 0x01, LURFANZI_FALSE_SHEET);
    no_route.length[WORK] = 23;
    expect_plan("no route, and a short slice", &no_route, LURFANZI_BAD_SLICE_LENGTH);
    expect_finish("no route, false costs, and a short slice", &no_route, NULL, 0x01, LURFANZI_BAD_SLICE_LENGTH);
    job false_sheet = job_of(e_floor);
    false_sheet.n = SIZE_MAX;
    false_sheet.neighbourhood = 0;
    const char *const where = "a false sheet, and a bad neighbourhood";
    expect_answer(where, check(where, &false_sheet, anything), LURFANZI_BAD_NEIGHBOURHOOD);
}

/* The costs have one end, and two slices. */
static void spoil_costs(job *j, uint8_t fault, int slice)
{
    if (fault == 6) j->length[slice] -= 1;
    else spoil(j, fault, fault == 5);
}

static void order_of_costs_refusals(void)
{
    const char *const where = "two faults of the costs";
    for (int first = 0; first < FAULTS; first++)
        for (int second = first; second < FAULTS; second++)
            for (int slice = D; slice <= WORK; slice += WORK) {
                job j = make_job(2, 2, touching, slice == D ? 16 : 8, 2, 5);
                spoil_costs(&j, order[second], slice);
                if (second != first) spoil_costs(&j, order[first], slice);
                lent d;
                expect_answer(where, fill_costs(where, &j, 0xFF, &d), order[first]);
                give_back(&d);
            }
}

/* Ends on the pinch of floor g: also both, also from costs that are true, and though the sheet handed in were the true
 * one if a pinch could be an end. */
static void pinched_ends(void)
{
    const worked *g = &floors[6];
    const uint32_t ends[][2] = {{2, 4}, {4, 2}, {4, 4}, {0, 4}, {4, 8}};
    for (size_t k = 0; k < sizeof ends / sizeof ends[0]; k++)
        for (int i = 0; i < NEIGHBOURHOODS; i++) {
            job j = make_job(2, 2, touching, neighbourhoods[i], ends[k][0], ends[k][1]);
            expect_refused("a pinched end", &j, LURFANZI_PINCHED_END);
            expect_finish("a pinched end, from costs", &j, g->d, 0xFF, LURFANZI_PINCHED_END);
            j.length[E] = 8;
            expect_refused("a pinched end, and a short slice", &j, LURFANZI_PINCHED_END);
        }
    const uint32_t off[][2] = {{4, 9}, {9, 4}, {4, 4294967295u}, {65536 + 4, 4}};
    for (size_t k = 0; k < sizeof off / sizeof off[0]; k++) {
        job j = make_job(2, 2, touching, 8, off[k][0], off[k][1]);
        expect_refused("a pinched end, and one off the floor", &j, LURFANZI_BAD_END);
    }
    const worked alone = {
        "the pinch alone", 2, 2, {9}, 8, 4, 4, 0, 0, 1, {M, M, M, M, 0, M, M, M, M},
        {M, M, M, M, 0, M, M, M, M}, {0, 0, 0, 0, 1}, {0, 0, 0, 0, 1}, 1, {4}, {0, 0, 0, 0, 4}, 1, {0}};
    const void *const sheet[SHEET] = {alone.d, alone.e, alone.f, alone.back, alone.route, alone.next};
    for (int i = 0; i < NEIGHBOURHOODS; i++) {
        job j = job_of(&alone);
        j.neighbourhood = neighbourhoods[i];
        j.n = alone.points;
        expect_finish(alone.name, &j, alone.d, 0xFF, LURFANZI_PINCHED_END);
        expect_answer(alone.name, check(alone.name, &j, sheet), LURFANZI_PINCHED_END);
    }
    /* The end of the move (2, 1) from 0 is a pinch. */
    job reached = job_of(&of_sixteen[sizeof of_sixteen / sizeof of_sixteen[0] - 1]);
    reached.b = 6;
    expect_refused("a move to a pinch", &reached, LURFANZI_PINCHED_END);
}

/* ---- The thinning. ---- */

/* Lists on small floors, with the kept positions by the rule. The vertices of the 2 by 2 floor are 0 1 2, 3 4 5 and
 * 6 7 8 by rows; its cell (0, 0) is blocked. */
typedef struct {
    const char *name;
    uint32_t side;
    uint8_t map[2];
    size_t places, n;
    uint16_t list[7];
    size_t kept;
    uint16_t positions[7];
} thinned;

static const thinned lists[] = {
    /* 6 sees 3 and 4, not 1, since that segment enters the blocked cell: position 2 is kept. From there, vertex 4, all
     * that follow are seen. A thinner that thins the first leg and copies the rest would keep 3, 4 and 5 too. */
    {"round a corner", 2, {1}, 7, 7, {6, 3, 4, 1, 2, 5, 8}, 3, {0, 2, 6}},
    /* 3 sees 4, not 1: position 1 is kept, though position 3, which is vertex 4 again, is seen. A thinner that takes
     * the farthest position seen would keep 0 and 3. */
    {"back again", 2, {1}, 4, 4, {3, 4, 1, 4}, 3, {0, 1, 3}},
    {"repeated vertices", 1, {0}, 4, 4, {0, 0, 3, 3}, 2, {0, 3}},
    /* A vertex sees itself, between walls too. */
    {"one vertex twice", 1, {1}, 2, 2, {0, 0}, 2, {0, 1}},
    {"the first of two", 1, {0}, 2, 1, {3, 0}, 1, {0}},
    {"V past n", 1, {0}, 2, 1, {0, 4}, 1, {0}},
    {"one pinch", 2, {9}, 1, 1, {4}, 1, {0}},
    {"a pinch three times", 2, {9}, 4, 3, {4, 4, 4, 5}, 2, {0, 2}},
    /* 4 by 4 with cells (1, 1) and (2, 2), 5 and 10, blocked: from (3, 1) to (1, 3), vertices 8 and 16, the segment
     * passes the pinch (2, 2). Vertex 18, at (3, 3), is beside both cells. */
    {"round a pinch", 4, {1 << 5, 1 << (10 - 8)}, 3, 3, {8, 18, 16}, 3, {0, 1, 2}},
    {"round a pinch and back", 4, {1 << 5, 1 << (10 - 8)}, 5, 5, {16, 18, 8, 9, 4}, 3, {0, 1, 4}},
};

static void thinned_lists(void)
{
    for (size_t k = 0; k < sizeof lists / sizeof lists[0]; k++) {
        const thinned *l = &lists[k];
        const trail t = {l->side, l->side, l->map, map_length(l->side, l->side), l->list, l->places, l->places, l->n};
        uint16_t kept[7];
        lurfanzi_thin_result r = thin(l->name, &t, kept);
        expect_answer(l->name, r.answer, 0);
        expect(l->name, "kept", r.kept, l->kept);
        if (r.answer == 0 && memcmp(kept, l->positions, l->places * sizeof kept[0]) != 0)
            fail(l->name, "the output", "is not the worked one");
    }
}

static void limits_of_thinning(void)
{
    static const uint16_t zeros[16385];
    const uint16_t list[7] = {0, 1, 5, 4, 65535, 6, 65535};
    const uint8_t open[2] = {0}, wall[1] = {2}, bad[1] = {4};
    const trail good = {2, 1, open, 1, list, 7, 7, 3};
    uint16_t kept[7];
    trail t;

    expect_thin("three of seven places", &good, 0);
    /* All vertices of an open floor see each other: only the ends are kept, and places past n are not read. */
    const size_t lengths[] = {1, 2, 3, 4};
    for (size_t k = 0; k < 4; k++) {
        t = good, t.n = lengths[k];
        lurfanzi_thin_result r = thin("an open floor", &t, kept);
        expect_answer("an open floor", r.answer, 0);
        expect("an open floor", "kept", r.kept, t.n == 1 ? 1 : 2);
        expect("an open floor", "the first position", kept[0], 0);
        expect("an open floor", "the second position", kept[1], t.n - 1);
        for (size_t place = 2; place < 7; place++) expect("an open floor", "a place past the kept", kept[place], 0);
    }
    /* The slice that is used whole, with n = V places. */
    const uint16_t whole[6] = {0, 1, 2, 5, 4, 3};
    t = (trail){2, 1, open, 1, whole, 6, 6, 6};
    expect_thin("n as long as the list", &t, 0);
    const size_t counts[] = {0, 7, 65536 + 3, (size_t)4294967296 + 3, SIZE_MAX};
    for (size_t k = 0; k < sizeof counts / sizeof counts[0]; k++) {
        t.n = counts[k];
        expect_thin("a bad n", &t, LURFANZI_NOT_JOINED);
    }
    t = good, t.n = 5;
    expect_thin("the number 65535 in the list", &t, LURFANZI_NOT_JOINED);
    const uint16_t at_v[2] = {5, 6};
    t = (trail){2, 1, open, 1, at_v, 2, 2, 2};
    expect_thin("V in the list", &t, LURFANZI_NOT_JOINED);
    const uint16_t apart[2] = {0, 5};
    t = (trail){2, 1, wall, 1, apart, 2, 2, 2};
    expect_thin("two that do not see each other", &t, LURFANZI_NOT_JOINED);
    const uint16_t pinched[][3] = {{2, 6, 6}, {2, 4, 5}, {4, 2, 1}, {4, 4, 5}, {5, 4, 4}, {1, 7, 7}};
    for (size_t k = 0; k < sizeof pinched / sizeof pinched[0]; k++) {
        t = (trail){2, 2, touching, 1, pinched[k], 3, 3, 3};
        expect_thin("two with a pinch on the way", &t, LURFANZI_NOT_JOINED);
    }
    t = (trail){2, 1, open, 1, NULL, 0, 0, 1};
    expect_thin("an empty list, with n = 1", &t, LURFANZI_NOT_JOINED);

    const uint32_t sizes[] = {0, 128, 257, 258, 4294967295u};
    for (size_t k = 0; k < sizeof sizes / sizeof sizes[0]; k++) {
        t = good, t.width = sizes[k];
        expect_thin("a bad width", &t, LURFANZI_BAD_SIZE);
        t = good, t.height = sizes[k];
        expect_thin("a bad height", &t, LURFANZI_BAD_SIZE);
    }
    t = good, t.map_length = 0;
    expect_thin("a short map", &t, LURFANZI_BAD_MAP_LENGTH);
    t = good, t.map_length = 2;
    expect_thin("a long map", &t, LURFANZI_BAD_MAP_LENGTH);
    t = good, t.map = bad;
    expect_thin("an unused bit", &t, LURFANZI_UNUSED_BIT);
    const size_t outputs[] = {0, 6, 8, 256 + 7, 65536 + 7};
    for (size_t k = 0; k < sizeof outputs / sizeof outputs[0]; k++) {
        t = good, t.out_length = outputs[k];
        expect_thin("an output of another length", &t, LURFANZI_BAD_SLICE_LENGTH);
    }
    static uint16_t longest[16384];
    t = (trail){2, 1, open, 1, zeros, 16384, 16384, 16384};
    lurfanzi_thin_result r = thin("the longest list", &t, longest);
    expect_answer("the longest list", r.answer, 0);
    expect("the longest list", "kept", r.kept, 2);
    for (size_t place = 0; place < 16384; place++)
        expect("the longest list", "a place", longest[place], place == 1 ? 16383 : 0);
    t = (trail){2, 1, open, 1, zeros, 16385, 16385, 1};
    expect_thin("a list that is too long", &t, LURFANZI_BAD_SLICE_LENGTH);
    t = (trail){2, 1, open, 1, NULL, 0, 0, 0};
    expect_thin("an empty list", &t, LURFANZI_NOT_JOINED);
    t = (trail){2, 1, open, 1, NULL, 0, 1, 1};
    expect_thin("an empty list, with an output", &t, LURFANZI_BAD_SLICE_LENGTH);
    t = (trail){0, 0, NULL, 0, NULL, 0, 0, 0};
    expect_thin("nothing at all", &t, LURFANZI_BAD_SIZE);
}

static void spoil_trail(trail *t, uint8_t fault)
{
    static const uint8_t stray[2] = {4};
    if (fault == 1) t->width = 0;
    if (fault == 2) t->map_length = 2;
    if (fault == 3) t->map = stray;
    if (fault == 6) t->out_length = 5;
    if (fault == 10) t->n = 5;
}

static void order_of_thinning_refusals(void)
{
    static const uint8_t open[2];
    static const uint16_t list[4] = {0, 1, 5};
    const uint8_t faults[] = {1, 2, 3, 6, 10};
    for (size_t first = 0; first < 5; first++)
        for (size_t second = first; second < 5; second++) {
            trail t = {2, 1, open, 1, list, 4, 4, 3};
            spoil_trail(&t, faults[second]);
            spoil_trail(&t, faults[first]);
            expect_thin("two faults of a list", &t, faults[first]);
        }
}

int main(void)
{
    setbuf(stdout, NULL); /* so that a crash loses no line */
    worked_floors();
    beside_the_route();
    open_floors();
    ties_by_angle();
    one_dock();
    costs_of_another_neighbourhood();
    costs_of_another_job();
    every_list_of_costs();
    floor_j();
    floor_j_of_sixteen();
    floor_k();
    floor_k_of_sixteen();
    limits_of_numbers();
    limits_of_maps();
    limits_of_slices();
    order_of_refusals();
    order_of_costs_refusals();
    pinched_ends();
    thinned_lists();
    limits_of_thinning();
    order_of_thinning_refusals();
    const uint8_t answers[] = {0, 1, 2, 3, 4, 5, 6, 7, 8, 9, 10, LURFANZI_PINCHED_END};
    return finish("interface", answers, sizeof answers);
}
