/* A record stream written from C, with the buffer and the map between guard bytes. The bytes of every record are
 * written down here; what a call may not write is compared byte for byte with what it was.
 */
#include "lent.h"
#include "lurfanzi.h"

_Static_assert(sizeof(lurfanzi_writer) == 16, "size of a writer");
_Static_assert(offsetof(lurfanzi_writer, at) == 0, "place of at");
_Static_assert(offsetof(lurfanzi_writer, due) == 8, "place of due");
_Static_assert(sizeof(lurfanzi_write_result) == 24, "size of the result");
_Static_assert(offsetof(lurfanzi_write_result, writer) == 0, "place of the writer");
_Static_assert(offsetof(lurfanzi_write_result, answer) == 16, "place of answer");
_Static_assert(LURFANZI_NO_ROOM == 18 && LURFANZI_OUT_OF_TURN == 20, "answers 18 and 20");

/* A stream under way: the writer, and what the calls have left in the buffer. */
enum { LONGEST = 4 + 31 * 31 + 1000 * 7, MOST_BUFFER = LONGEST + 16 };

typedef struct {
    lurfanzi_writer writer;
    size_t length;
    uint8_t bytes[MOST_BUFFER];
} stream;

static stream fresh(size_t length, uint8_t fill)
{
    stream s = {{0, 0}, length, {0}};
    memset(s.bytes, fill, length);
    return s;
}

/* After a call on the buffer: at answer 0 the record is in it and the writer past the record, else all is as it was. */
static void expect_record(
    const char *where, stream *s, const lent *buffer, lurfanzi_write_result r,
    uint8_t answer, const uint8_t *record, size_t size)
{
    if (answer == 0) {
        memcpy(s->bytes + s->writer.at, record, size);
        s->writer.at += size, s->writer.due += 1;
    }
    expect_answer(where, r.answer, answer);
    expect(where, "at", r.writer.at, s->writer.at);
    expect(where, "due", r.writer.due, s->writer.due);
    expect_guards(where, "the buffer", buffer);
    if (s->length != 0 && memcmp(buffer->p, s->bytes, s->length) != 0)
        fail(where, "the buffer", "is not the expected one");
}

typedef struct {
    uint32_t width, height;
    const uint8_t *map;
    size_t map_length;
} plan;

static plan make_plan(uint32_t width, uint32_t height, const uint8_t *map)
{
    return (plan){width, height, map, map_length(width, height)};
}

/* Writes a map; its record has the cells given, a byte each. */
static void put_map(const char *where, stream *s, plan f, uint8_t answer, const uint8_t *cells)
{
    uint8_t record[4 + 31 * 31] = {0x4D, 0x50, (uint8_t)f.width, (uint8_t)f.height};
    const size_t count = answer == 0 ? (size_t)f.width * f.height : 0;
    if (count != 0) memcpy(record + 4, cells, count);
    lent map = lend_copy(f.map, f.map_length), buffer = lend_copy(s->bytes, s->length);
    before_call(&map), before_call(&buffer);
    lurfanzi_write_result r =
        lurfanzi_write_map(s->writer, f.width, f.height, map.p, f.map_length, buffer.p, s->length);
    expect_read_only(where, "the map", &map);
    expect_record(where, s, &buffer, r, answer, record, 4 + count);
    give_back(&map), give_back(&buffer);
}

static void put_job(const char *where, stream *s, uint8_t neighbourhood, uint16_t a, uint16_t b, uint8_t answer)
{
    const uint8_t record[7] = {
        0x4A, 0x42, neighbourhood, (uint8_t)(a & 255), (uint8_t)(a >> 8), (uint8_t)(b & 255), (uint8_t)(b >> 8)};
    lent buffer = lend_copy(s->bytes, s->length);
    before_call(&buffer);
    lurfanzi_write_result r = lurfanzi_write_job(s->writer, neighbourhood, a, b, buffer.p, s->length);
    expect_record(where, s, &buffer, r, answer, record, sizeof record);
    give_back(&buffer);
}

static void expect_stream(const char *where, const stream *s, const uint8_t *wanted, size_t size)
{
    expect(where, "the bytes written", s->writer.at, size);
    if (s->writer.at == size && memcmp(s->bytes, wanted, size) != 0) fail(where, "the stream", "is not the worked one");
}

static const uint8_t open[2], none[31 * 31];

/* The rules' whole example, in a buffer that it fills. */
static void whole_example(void)
{
    static const uint8_t wanted[12] = {0x4D, 0x50, 1, 1, 0, 0x4A, 0x42, 4, 0, 0, 3, 0};
    const char *const where = "the whole example";
    for (unsigned fill = 0; fill < 256; fill += 51)
        for (size_t more = 0; more <= 6; more++) {
            stream s = fresh(sizeof wanted + more, (uint8_t)fill);
            put_job(where, &s, 4, 0, 3, LURFANZI_OUT_OF_TURN);
            put_map(where, &s, make_plan(1, 1, open), 0, none);
            put_job(where, &s, 4, 0, 3, 0);
            expect_stream(where, &s, wanted, sizeof wanted);
            expect(where, "due", s.writer.due, 2);
            put_job(where, &s, 8, 0, 3, LURFANZI_NO_ROOM);
            put_map(where, &s, make_plan(1, 1, open), LURFANZI_OUT_OF_TURN, NULL);
        }
}

/* The streams of examples/streams. The cells of the wall are 6 7 8 and 13 of 5 by 4. */
static void example_streams(void)
{
    static const uint8_t wall[45] = {
        0x4D, 0x50, 5, 4, 0, 0, 0, 0, 0, 0, 1, 1, 1, 0, 0, 0, 0, 1, 0, 0, 0, 0, 0, 0,
        0x4A, 0x42, 8, 0, 0, 29, 0, 0x4A, 0x42, 4, 15, 0, 5, 0, 0x4A, 0x42, 8, 0, 0, 30, 0};
    static const uint8_t map[3] = {64 | 128, 1 | 32, 0};
    stream s = fresh(64, 0x5A);
    put_map("the wall", &s, make_plan(5, 4, map), 0, wall + 4);
    put_job("the wall", &s, 8, 0, 29, 0);
    put_job("the wall", &s, 4, 15, 5, 0);
    put_job("the wall", &s, 8, 0, 30, 0);
    expect_stream("the wall", &s, wall, sizeof wall);
    static const uint8_t sixteen[34] = {
        0x4D, 0x50, 2, 1, 0, 0, 0x4A, 0x42, 4, 0, 0, 5, 0, 0x4A, 0x42, 8, 0, 0, 5, 0,
        0x4A, 0x42, 16, 0, 0, 5, 0, 0x4A, 0x42, 12, 0, 0, 5, 0};
    s = fresh(34, 0xFF);
    put_map("four neighbourhoods", &s, make_plan(2, 1, open), 0, none);
    const uint8_t neighbourhoods[] = {4, 8, 16, 12};
    for (int k = 0; k < 4; k++) put_job("four neighbourhoods", &s, neighbourhoods[k], 0, 5, 0);
    expect_stream("four neighbourhoods", &s, sixteen, sizeof sixteen);
}

/* Each cell alone, and all cells, on floors with every number of unused bits, in a buffer that the record fills. */
static void every_cell(void)
{
    static uint8_t cells[31 * 31], map[(31 * 31 + 7) / 8];
    const sides more[] = {{31, 31}, {31, 1}, {1, 31}, {30, 31}};
    for (size_t k = 0; k < ANY_SIDES + sizeof more / sizeof more[0]; k++) {
        const sides f = k < ANY_SIDES ? any_sides[k] : more[k - ANY_SIDES];
        if (f.width > 31 || f.height > 31) continue;
        const size_t count = (size_t)f.width * f.height;
        for (size_t c = 0; c <= count; c++) {
            memset(cells, c == count, count);
            if (c < count) cells[c] = 1;
            pack(cells, count, map);
            stream s = fresh(4 + count, 0x5A);
            put_map("a cell", &s, make_plan(f.width, f.height, map), 0, cells);
        }
    }
}

/* Any numbers of the right width; they mean nothing to the writer. */
static void any_jobs(void)
{
    static const uint16_t ends[] = {0, 1, 3, 4, 127, 128, 255, 256, 0x1234, 0x7FFF, 0x8000, 0xFF00, 65535};
    enum { ENDS = sizeof ends / sizeof ends[0] };
    for (unsigned neighbourhood = 0; neighbourhood < 256; neighbourhood++) {
        stream s = fresh(5 + 7 * ENDS, 0x5A);
        put_map("any job", &s, make_plan(1, 1, open), 0, none);
        for (size_t k = 0; k < ENDS; k++)
            put_job("any job", &s, (uint8_t)neighbourhood, ends[k], ends[(k + neighbourhood) % ENDS], 0);
        put_job("no room", &s, (uint8_t)neighbourhood, 0, 0, LURFANZI_NO_ROOM);
    }
}

/* The longest stream: the largest map and 1,000 jobs. Then no record is in turn, with and without room. */
static void longest_stream(void)
{
    static uint8_t cells[31 * 31], map[(31 * 31 + 7) / 8];
    const char *const where = "the longest stream";
    for (size_t c = 0; c < sizeof cells; c++) cells[c] = c % 3 == 0;
    pack(cells, sizeof cells, map);
    for (size_t more = 0; more <= 7; more += 7) {
        stream s = fresh(LONGEST + more, 0x5A);
        put_job(where, &s, 8, 0, 1023, LURFANZI_OUT_OF_TURN);
        put_map(where, &s, make_plan(31, 31, map), 0, cells);
        for (uint16_t k = 0; k < 1000; k++) {
            put_job(where, &s, 8, k, (uint16_t)(1023 - k), 0);
            if (k % 100 == 0) put_map(where, &s, make_plan(31, 31, map), LURFANZI_OUT_OF_TURN, NULL);
        }
        expect(where, "the bytes written", s.writer.at, 7965);
        expect(where, "due", s.writer.due, 1001);
        put_job("the 1,001st job", &s, 8, 0, 0, LURFANZI_OUT_OF_TURN);
        put_map("a second map", &s, make_plan(31, 31, map), LURFANZI_OUT_OF_TURN, NULL);
    }
}

/* A record that does not fit whole is not written at all, and one that does fit is still taken. */
static void rooms(void)
{
    for (size_t length = 0; length <= 16; length++) {
        stream s = fresh(length, 0xFF);
        put_map("four bytes of cells", &s, make_plan(2, 2, open), length < 8 ? LURFANZI_NO_ROOM : 0, none);
        if (length < 8) put_map("a smaller map", &s, make_plan(1, 1, open), length < 5 ? LURFANZI_NO_ROOM : 0, none);
        const uint8_t turn = s.writer.due == 0 ? LURFANZI_OUT_OF_TURN : length < 15 ? LURFANZI_NO_ROOM : 0;
        put_job("a job", &s, 8, 0, 8, turn);
    }
    stream s = fresh(11, 0xFF);
    put_map("the room for a job less one", &s, make_plan(1, 1, open), 0, none);
    put_job("the room for a job less one", &s, 8, 0, 3, LURFANZI_NO_ROOM);
}

/* Writers with numbers that no call leaves. Where the record is in turn and fits, it is written; sums do not wrap. */
static void any_writers(void)
{
    const size_t dues[] = {0, 1, 2, 999, 1000, 1001, 1002, 65536, (size_t)4294967296, (size_t)4294967296 + 1, SIZE_MAX};
    const size_t places[] = {
        0, 1, 4, 5, 6, 12, 13, 14, 19, 20, 21, 256, 65536, (size_t)4294967296, (size_t)4294967296 + 1,
        SIZE_MAX / 2, SIZE_MAX - 20, SIZE_MAX - 7, SIZE_MAX - 6, SIZE_MAX - 5, SIZE_MAX - 4, SIZE_MAX - 3, SIZE_MAX};
    for (size_t i = 0; i < sizeof dues / sizeof dues[0]; i++)
        for (size_t k = 0; k < sizeof places / sizeof places[0]; k++) {
            const size_t at = places[k], due = dues[i], room = at <= 20 ? 20 - at : 0;
            stream s = fresh(20, 0x5A);
            s.writer = (lurfanzi_writer){at, due};
            put_map(
                "a map by any writer", &s, make_plan(1, 1, open),
                due != 0 ? LURFANZI_OUT_OF_TURN : room < 5 ? LURFANZI_NO_ROOM : 0, none);
            s = fresh(20, 0x5A);
            s.writer = (lurfanzi_writer){at, due};
            put_job(
                "a job by any writer", &s, 8, 0, 3,
                due < 1 || due > 1000 ? LURFANZI_OUT_OF_TURN : room < 7 ? LURFANZI_NO_ROOM : 0);
        }
}

static void refused_maps(void)
{
    static const uint8_t longer[MOST_BYTES];
    const uint32_t bad[] = {0, 32, 33, 64, 127, 128, 256 + 2, 65536 + 2, 4294967295u};
    for (size_t k = 0; k < sizeof bad / sizeof bad[0]; k++) {
        stream s = fresh(MOST_BUFFER, 0x5A);
        /* Also where the map has the length of the floor with that side. */
        const size_t length = bad[k] <= 127 ? map_length(bad[k], 2) : 1;
        put_map("a bad width", &s, (plan){bad[k], 2, longer, length}, LURFANZI_BAD_SIZE, NULL);
        put_map("a bad height", &s, (plan){2, bad[k], longer, length}, LURFANZI_BAD_SIZE, NULL);
        put_map("two bad sides", &s, (plan){bad[k], bad[k], longer, length}, LURFANZI_BAD_SIZE, NULL);
    }
    for (size_t k = 0; k < ANY_SIDES; k++) {
        const sides f = any_sides[k];
        if (f.width > 31 || f.height > 31) continue;
        const size_t length = map_length(f.width, f.height);
        stream s = fresh(64, 0x5A);
        put_map("a short map", &s, (plan){f.width, f.height, longer, length - 1}, LURFANZI_BAD_MAP_LENGTH, NULL);
        put_map("a long map", &s, (plan){f.width, f.height, longer, length + 1}, LURFANZI_BAD_MAP_LENGTH, NULL);
        for (unsigned bit = first_unused(f); bit < 8; bit++) {
            uint8_t stray[8] = {0};
            stray[length - 1] = (uint8_t)(1u << bit);
            put_map("an unused bit", &s, make_plan(f.width, f.height, stray), LURFANZI_UNUSED_BIT, NULL);
        }
        put_map("the map after them", &s, make_plan(f.width, f.height, longer), 0, none);
    }
}

/* Of two faults of a map the one that comes first in this order is answered. */
static const uint8_t order[] = {1, 2, 3, LURFANZI_OUT_OF_TURN, LURFANZI_NO_ROOM};
enum { FAULTS = sizeof order };

static void spoil(stream *s, plan *f, uint8_t fault)
{
    static const uint8_t stray[2] = {16};
    if (fault == 1) f->width = 32;
    if (fault == 2) f->map_length = 2;
    if (fault == 3) f->map = stray;
    if (fault == LURFANZI_OUT_OF_TURN) s->writer.due = 1;
    if (fault == LURFANZI_NO_ROOM) s->writer.at = 13;
}

static void order_of_refusals(void)
{
    for (int first = 0; first < FAULTS; first++)
        for (int second = first; second < FAULTS; second++) {
            stream s = fresh(20, 0xFF);
            plan f = make_plan(2, 2, open);
            spoil(&s, &f, order[second]);
            spoil(&s, &f, order[first]);
            put_map("two faults", &s, f, order[first], NULL);
        }
    /* All five; and a job's two. */
    stream s = fresh(0, 0);
    plan f = make_plan(2, 2, open);
    for (int k = 0; k < FAULTS; k++) spoil(&s, &f, order[k]);
    put_map("all faults", &s, f, LURFANZI_BAD_SIZE, NULL);
    s.writer = (lurfanzi_writer){0, 0};
    put_job("two faults of a job", &s, 0, 65535, 65535, LURFANZI_OUT_OF_TURN);
    s.writer = (lurfanzi_writer){SIZE_MAX, 1001};
    put_job("two faults of a job", &s, 0, 65535, 65535, LURFANZI_OUT_OF_TURN);
}

int main(void)
{
    setbuf(stdout, NULL); /* so that a crash loses no line */
    whole_example();
    example_streams();
    every_cell();
    any_jobs();
    longest_stream();
    rooms();
    any_writers();
    refused_maps();
    order_of_refusals();
    const uint8_t answers[] = {0, 1, 2, 3, LURFANZI_NO_ROOM, LURFANZI_OUT_OF_TURN};
    return finish("writer", answers, sizeof answers);
}
