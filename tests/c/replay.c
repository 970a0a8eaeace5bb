/* The replay of a log from C, with the map, the log and both slices between guard bytes. The expected numbers are
 * worked by hand. On the floor of 2 by 1 cells the vertices are 0 1 2 above 3 4 5; on that of 2 by 2 cells, of which
 * cells 0 and 3 are blocked, vertex 4 in the middle of 0 1 2, 3 4 5 and 6 7 8 is a pinch.
 */
#include "lent.h"
#include "lurfanzi.h"

#define M LURFANZI_UNREACHABLE

_Static_assert(sizeof(lurfanzi_replay_result) == 32, "size of the result");
_Static_assert(offsetof(lurfanzi_replay_result, read) == 0, "place of read");
_Static_assert(offsetof(lurfanzi_replay_result, unfollowed) == 8, "place of unfollowed");
_Static_assert(offsetof(lurfanzi_replay_result, bad) == 16, "place of bad");
_Static_assert(offsetof(lurfanzi_replay_result, cost) == 24, "place of cost");
_Static_assert(offsetof(lurfanzi_replay_result, cheapest) == 28, "place of cheapest");
_Static_assert(offsetof(lurfanzi_replay_result, answer) == 29, "place of answer");
_Static_assert(LURFANZI_LONG_LOG == 16 && LURFANZI_BAD_LOG_RECORD == 17, "answers 16 and 17");

/* Every number of a call. */
typedef struct {
    uint32_t width, height, neighbourhood;
    const uint8_t *map;
    size_t map_length;
    const uint8_t *log;
    size_t log_length, costs_length, work_length;
} night;

static const uint8_t open[2], shut[1] = {2}, touching[1] = {9};

static night make_night(uint32_t width, uint32_t height, const uint8_t *map, uint32_t neighbourhood)
{
    const size_t v = (size_t)(width + 1) * (height + 1);
    return (night){width, height, neighbourhood, map, map_length(width, height), NULL, 0, v, 4 * v};
}

/* The replay over slices that hold anything: the answer is `wanted`. At 0 and 17 the costs are those given, 0 where
 * none are, and the working slice is 0; at a refusal both are untouched. */
static void replay(const char *where, const night *n, lurfanzi_replay_result wanted, const uint32_t *costs)
{
    const unsigned char fills[] = {0x00, 0x5A, 0xFF};
    for (size_t k = 0; k < sizeof fills; k++) {
        lent map = lend_copy(n->map, n->map_length), log = lend_copy(n->log, n->log_length);
        lent c = lend(4 * n->costs_length, fills[k]), work = lend(4 * n->work_length, fills[k]);
        before_call(&map), before_call(&log), before_call(&c), before_call(&work);
        lurfanzi_replay_result r = lurfanzi_replay(
            n->width, n->height, map.p, n->map_length, n->neighbourhood, log.p, n->log_length,
            c.p, n->costs_length, work.p, n->work_length);
        expect_answer(where, r.answer, wanted.answer);
        expect(where, "read", r.read, wanted.read);
        expect(where, "unfollowed", r.unfollowed, wanted.unfollowed);
        expect(where, "bad", r.bad, wanted.bad);
        expect(where, "cost", r.cost, wanted.cost);
        expect(where, "cheapest", r.cheapest, wanted.cheapest);
        expect_read_only(where, "the map", &map);
        expect_read_only(where, "the log", &log);
        expect_guards(where, "the costs", &c);
        expect_guards(where, "work", &work);
        if (wanted.answer != 0 && wanted.answer != LURFANZI_BAD_LOG_RECORD) {
            expect_untouched(where, "the costs", &c);
            expect_untouched(where, "work", &work);
        } else {
            expect_zeros(where, "work", &work);
            if (costs == NULL) expect_zeros(where, "the costs", &c);
            else if (memcmp(c.p, costs, c.size) != 0) fail(where, "the costs", "are not the expected ones");
        }
        give_back(&map), give_back(&log), give_back(&c), give_back(&work);
    }
}

/* The log of some stops: 56 and 54 hex and the vertex number, the low byte first. */
enum { MOST_LOG = 16384 };
static uint8_t bytes[MOST_LOG + 8];

static void take_log(night *n, const uint16_t *stops, size_t count)
{
    for (size_t k = 0; k < count; k++) {
        const uint8_t record[4] = {0x56, 0x54, (uint8_t)(stops[k] % 256), (uint8_t)(stops[k] / 256)};
        memcpy(bytes + 4 * k, record, sizeof record);
    }
    n->log = bytes, n->log_length = 4 * count;
}

/* Logs of at most eight stops, on one floor. */
typedef struct {
    uint32_t neighbourhood;
    size_t count;
    uint16_t stops[8];
    uint32_t cost;
    uint8_t cheapest;
    size_t unfollowed, bad;
} drive;

static void drives(const char *where, night n, const drive *list, size_t count, const uint32_t *const costs[3])
{
    for (size_t k = 0; k < count; k++) {
        const drive *d = &list[k];
        const size_t read = d->bad != 0 ? d->bad - 1 : d->count;
        n.neighbourhood = d->neighbourhood;
        take_log(&n, d->stops, d->count);
        const uint8_t answer = d->bad != 0 ? LURFANZI_BAD_LOG_RECORD : 0;
        const lurfanzi_replay_result wanted = {read, d->unfollowed, d->bad, d->cost, d->cheapest, answer};
        const int good = d->bad == 0 && d->unfollowed == 0 && d->count != 0;
        replay(where, &n, wanted, good ? costs[d->neighbourhood / 8] : NULL);
    }
}

/* Floor e. All logs without a fault start at 0; the costs from there with 4, 8 and 16. */
static void two_open_cells(void)
{
    static const uint32_t four[6] = {0, 408, 816, 408, 816, 1224}, eight[6] = {0, 408, 816, 408, 577, 985};
    static const uint32_t sixteen[6] = {0, 1000, 2000, 1000, 1414, 2236};
    const uint32_t *const costs[3] = {four, eight, sixteen};
    static const drive list[] = {
        {8, 0, {0}, 0, 0, 0, 0},                         /* empty */
        {4, 1, {0}, 0, 1, 0, 0},                         /* one record */
        {8, 3, {0, 0, 0}, 0, 1, 0, 0},                   /* standing still */
        {4, 4, {0, 1, 2, 5}, 1224, 1, 0, 0},             /* cheapest with 4 */
        {8, 4, {0, 1, 2, 5}, 1224, 0, 0, 0},             /* and dearer by one move than with 8 */
        {8, 3, {0, 1, 5}, 985, 1, 0, 0},                 /* two cheapest ones */
        {8, 3, {0, 4, 5}, 985, 1, 0, 0},
        {16, 3, {0, 4, 5}, 2414, 0, 0, 0},
        {16, 2, {0, 5}, 2236, 1, 0, 0},                  /* a move across two cells */
        {8, 6, {0, 0, 4, 4, 5, 5}, 985, 1, 0, 0},        /* with rests */
        {8, 3, {0, 1, 0}, 816, 0, 0, 0},                 /* there and back */
        {4, 2, {0, 4}, 0, 0, 2, 0},                      /* no move of 4, none of 8, none of 16 */
        {8, 2, {0, 5}, 0, 0, 2, 0},
        {16, 3, {0, 2, 1}, 0, 0, 2, 0},                  /* and an open one after it */
        {8, 4, {0, 1, 3, 5}, 985, 0, 4, 0},              /* the last record */
        {4, 7, {0, 1, 5, 4, 3, 2, 1}, 408, 0, 3, 0},     /* open moves and a second fault after the first */
        {8, 4, {0, 1, 6, 2}, 408, 0, 0, 3},              /* off the floor: V, and the highest number */
        {8, 1, {65535}, 0, 0, 0, 1},
        {8, 2, {0, 256}, 0, 0, 0, 2},                    /* 1 with its bytes swapped */
        {8, 7, {0, 1, 3, 5, 4, 6, 0}, 985, 0, 4, 6},     /* both faults */
        {4, 3, {0, 5, 6}, 0, 0, 2, 3},
        {4, 4, {0, 1, 6, 5}, 408, 0, 0, 3},              /* a fault past the bad record */
    };
    drives("two open cells", make_night(2, 1, open, 0), list, sizeof list / sizeof list[0], costs);
}

/* Cell 1 is blocked: 1 to 2 runs between blocked cells, 1 to 5 and 0 to 5 across one. */
static void a_wall(void)
{
    static const uint32_t four[6] = {0, 408, M, 408, 816, M}, eight[6] = {0, 408, M, 408, 577, M};
    static const uint32_t sixteen[6] = {0, 1000, M, 1000, 1414, M};
    const uint32_t *const costs[3] = {four, eight, sixteen};
    static const drive list[] = {
        {4, 3, {0, 1, 4}, 816, 1, 0, 0},
        {8, 3, {0, 3, 4}, 816, 0, 0, 0},
        {16, 2, {0, 4}, 1414, 1, 0, 0},
        {4, 5, {0, 1, 2, 1, 0}, 408, 0, 3, 0},
        {8, 3, {0, 1, 5}, 408, 0, 3, 0},
        {16, 2, {0, 5}, 0, 0, 2, 0},
        {8, 1, {6}, 0, 0, 0, 1},
    };
    drives("a wall", make_night(2, 1, shut, 0), list, sizeof list / sizeof list[0], costs);
}

/* From 1 alone 2 and 5 are reached: along two sides of cell 1, or across it. */
static void a_pinch(void)
{
    static const uint32_t four[9] = {M, 0, 408, M, M, 816, M, M, M}, eight[9] = {M, 0, 408, M, M, 577, M, M, M};
    static const uint32_t sixteen[9] = {M, 0, 1000, M, M, 1414, M, M, M};
    const uint32_t *const costs[3] = {four, eight, sixteen};
    static const drive list[] = {
        {4, 3, {1, 2, 5}, 816, 1, 0, 0},
        {8, 3, {1, 2, 5}, 816, 0, 0, 0},
        {8, 2, {1, 5}, 577, 1, 0, 0},
        {16, 4, {1, 1, 5, 5}, 1414, 1, 0, 0},
        {4, 1, {4}, 0, 0, 1, 0},                         /* the first record on the pinch */
        {8, 3, {4, 4, 4}, 0, 0, 1, 0},                   /* standing still there */
        {16, 4, {4, 5, 2, 1}, 0, 0, 1, 0},               /* open moves from there on */
        {4, 7, {1, 2, 5, 4, 4, 5, 5}, 816, 0, 4, 0},     /* a later record on it */
        {8, 3, {1, 4, 7}, 0, 0, 2, 0},
        {8, 2, {2, 6}, 0, 0, 2, 0},
        {8, 4, {4, 5, 9, 5}, 0, 0, 1, 3},                /* with a bad record after it */
    };
    drives("a pinch", make_night(2, 2, touching, 0), list, sizeof list / sizeof list[0], costs);
}

/* The drive 0 1 2 5, at 408 a move, with each byte of each mark changed, and cut to every length. */
static void marks_and_cuts(void)
{
    static const uint16_t stops[4] = {0, 1, 2, 5};
    static const uint32_t costs[6] = {0, 408, 816, 408, 577, 985};
    night n = make_night(2, 1, open, 8);
    for (size_t record = 0; record < 4; record++) {
        const uint32_t cost = record == 0 ? 0 : 408 * (uint32_t)(record - 1);
        const lurfanzi_replay_result bad = {record, 0, record + 1, cost, 0, LURFANZI_BAD_LOG_RECORD};
        for (size_t place = 0; place < 2; place++)
            for (unsigned other = 1; other < 256; other++) {
                take_log(&n, stops, 4);
                bytes[4 * record + place] ^= (uint8_t)other;
                replay("a wrong mark", &n, bad, NULL);
            }
        take_log(&n, stops, 4);
        for (n.log_length = 4 * record + 1; n.log_length < 4 * record + 4; n.log_length++)
            replay("cut short", &n, bad, NULL);
        const uint32_t whole = 408 * (uint32_t)record;
        const uint8_t cheapest = record < 3;
        replay("cut after a record", &n, (lurfanzi_replay_result){record + 1, 0, 0, whole, cheapest, 0}, costs);
    }
}

/* 4,096 records are the most; a byte more is refused, whatever the bytes are. */
static void longest_logs(void)
{
    static uint16_t to_and_fro[MOST_LOG / 4];
    static const uint32_t costs[6] = {0, 1000, 2000, 1000, 1414, 2236};
    for (size_t k = 0; k < MOST_LOG / 4; k++) to_and_fro[k] = k % 2 == 0 ? 0 : 5;
    night n = make_night(2, 1, open, 16);
    take_log(&n, to_and_fro, MOST_LOG / 4);
    replay("the longest log", &n, (lurfanzi_replay_result){4096, 0, 0, 4095 * 2236, 0, 0}, costs);
    for (size_t left = 1; left < 4; left++) {
        n.log_length = MOST_LOG - 4 + left;
        replay("cut at last", &n, (lurfanzi_replay_result){4095, 0, 4096, 4094 * 2236, 0, 17}, NULL);
    }
    n.log_length = MOST_LOG, bytes[0] = 0;
    replay("bad from the first byte on", &n, (lurfanzi_replay_result){0, 0, 1, 0, 0, 17}, NULL);
    const lurfanzi_replay_result refused = {0, 0, 0, 0, 0, LURFANZI_LONG_LOG};
    for (size_t more = 1; more <= 8; more++) {
        n.log_length = MOST_LOG + more, bytes[0] = 0;
        replay("a long log that is bad", &n, refused, NULL);
        bytes[0] = 0x56;
        replay("a long log", &n, refused, NULL);
    }
    static const uint8_t far_longer[65536 + 4];
    n.log = far_longer, n.log_length = sizeof far_longer;
    replay("a log of 4 bytes where cut down to 16 bits", &n, refused, NULL);
}

static void numbers(void)
{
    static const uint16_t stops[2] = {0, 1};
    night good = make_night(2, 1, open, 8), n;
    take_log(&good, stops, 2);
    static const uint32_t costs[6] = {0, 408, 816, 408, 577, 985};
    replay("a good call", &good, (lurfanzi_replay_result){2, 0, 0, 408, 1, 0}, costs);
    const uint32_t sides[] = {0, 128, 257, 258, 65536 + 2, 4294967295u};
    for (size_t k = 0; k < sizeof sides / sizeof sides[0]; k++) {
        n = good, n.width = sides[k];
        replay("a bad width", &n, (lurfanzi_replay_result){.answer = 1}, NULL);
        n = good, n.height = sides[k];
        replay("a bad height", &n, (lurfanzi_replay_result){.answer = 1}, NULL);
    }
    const uint32_t none[] = {0, 1, 5, 7, 9, 12, 15, 17, 24, 32, 256 + 8, 65536 + 16, 2147483648u + 4, 4294967295u};
    for (size_t k = 0; k < sizeof none / sizeof none[0]; k++) {
        n = good, n.neighbourhood = none[k];
        replay("a bad neighbourhood", &n, (lurfanzi_replay_result){.answer = 4}, NULL);
    }
    const size_t lengths[][2] = {
        {5, 24}, {7, 24}, {6, 23}, {6, 25}, {0, 24}, {6, 0}, {0, 0}, {24, 24}, {6, 6}, {256 + 6, 24}, {6, 65536 + 24},
    };
    for (size_t k = 0; k < sizeof lengths / sizeof lengths[0]; k++) {
        n = good, n.costs_length = lengths[k][0], n.work_length = lengths[k][1];
        replay("a slice of another length", &n, (lurfanzi_replay_result){.answer = 6}, NULL);
        n.log_length = 0;
        replay("a slice of another length, with an empty log", &n, (lurfanzi_replay_result){.answer = 6}, NULL);
    }
}

static void spoil(night *n, uint8_t fault)
{
    static const uint8_t stray[2] = {4};
    if (fault == 1) n->width = 0;
    if (fault == 2) n->map_length = 2;
    if (fault == 3) n->map = stray;
    if (fault == 4) n->neighbourhood = 5;
    if (fault == 16) n->log_length = MOST_LOG + 1;
    if (fault == 6) n->costs_length = 5;
    if (fault == 17) n->log_length = 7;
}

static void order_of_refusals(void)
{
    static const uint16_t stops[2] = {0, 1};
    const uint8_t faults[] = {1, 2, 3, 4, 16, 6, 17};
    for (size_t first = 0; first < 7; first++)
        for (size_t second = first; second < 7; second++) {
            night n = make_night(2, 1, open, 8);
            take_log(&n, stops, 2);
            spoil(&n, faults[second]);
            spoil(&n, faults[first]);
            lurfanzi_replay_result wanted = {.answer = faults[first]};
            if (faults[first] == 17) wanted.read = 1, wanted.bad = 2;
            replay("two faults of a call", &n, wanted, NULL);
        }
}

/* The largest floor: from the first vertex to the last by 127 moves across a cell, and one vertex past it. */
static void largest_floor(void)
{
    static const uint8_t map[MOST_BYTES];
    static uint16_t diagonal[129];
    static uint32_t costs[16384];
    for (uint16_t k = 0; k <= 127; k++) diagonal[k] = (uint16_t)(129 * k);
    for (uint32_t v = 0; v < 16384; v++) {
        const uint32_t x = v % 128, y = v / 128, less = x < y ? x : y, more = x < y ? y : x;
        costs[v] = 577 * less + 408 * (more - less);
    }
    night n = make_night(127, 127, map, 8);
    take_log(&n, diagonal, 128);
    replay("the largest floor", &n, (lurfanzi_replay_result){128, 0, 0, 127 * 577, 1, 0}, costs);
    diagonal[128] = 16384;
    take_log(&n, diagonal, 129);
    replay("past the last vertex", &n, (lurfanzi_replay_result){128, 0, 129, 127 * 577, 0, 17}, NULL);
    n.neighbourhood = 4;
    replay("no move of 4", &n, (lurfanzi_replay_result){128, 2, 129, 0, 0, 17}, NULL);
    /* By number a move of one, and none: from the end of a row to the start of the next. */
    const uint16_t wrapped[3] = {126, 127, 128};
    take_log(&n, wrapped, 3);
    replay("from row to row", &n, (lurfanzi_replay_result){3, 3, 0, 408, 0, 0}, NULL);
}

int main(void)
{
    setbuf(stdout, NULL); /* so that a crash loses no line */
    two_open_cells();
    a_wall();
    a_pinch();
    marks_and_cuts();
    longest_logs();
    numbers();
    order_of_refusals();
    largest_floor();
    const uint8_t answers[] = {0, 1, 2, 3, 4, 6, 16, 17};
    return finish("replay", answers, sizeof answers);
}
