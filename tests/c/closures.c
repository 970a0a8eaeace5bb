/* Closures from C, with the 64 numbers of the table and both maps between guard bytes. The expected answers are worked
 * out by hand from the rules. A rectangle is written (first column, first row, columns, rows). On the floor of 3 by 2
 * cells the cells are 0 1 2 and 3 4 5 by rows, and cell 5 is blocked on the base map. The cells of an expected map are
 * written with a byte each, and packed; a map that is lent is written as it is, a bit to a cell.
 */
#include "lent.h"
#include "lurfanzi.h"

_Static_assert(sizeof(lurfanzi_post_result) == 8, "size of the result");
_Static_assert(offsetof(lurfanzi_post_result, slot) == 0, "place of slot");
_Static_assert(offsetof(lurfanzi_post_result, answer) == 4, "place of answer");
_Static_assert(LURFANZI_BAD_CLOSURE == 12 && LURFANZI_SLOTS_FULL == 13, "answers 12 and 13");
_Static_assert(LURFANZI_SLOT_EMPTY == 14, "answer 14");
_Static_assert(LURFANZI_SLOTS == 16 && LURFANZI_TABLE == 64, "size of a table");

#define MOST UINT32_C(4294967295)
#define HALF UINT32_C(2147483648)

typedef struct {
    uint32_t width, height;
    uint32_t slots[LURFANZI_TABLE]; /* what the calls have left there */
} table;

typedef struct {
    uint32_t column, row, columns, rows;
} rectangle;

/* The call has left the numbers as `wanted` has them. */
static void expect_slots(const char *where, const lent *s, const table *wanted)
{
    expect_guards(where, "the table", s);
    if (memcmp(s->p, wanted->slots, sizeof wanted->slots) != 0) fail(where, "the table", "is not the expected one");
}

/* Posts: at answer 0 the slot's four numbers are the rectangle and the others as they were, else all are. */
static void post(const char *where, table *t, rectangle r, uint8_t answer, uint32_t slot)
{
    lent s = lend_copy(t->slots, sizeof t->slots);
    before_call(&s);
    lurfanzi_post_result p = lurfanzi_post(t->width, t->height, s.p, r.column, r.row, r.columns, r.rows);
    expect_answer(where, p.answer, answer);
    expect(where, "the slot", p.slot, slot);
    if (answer == 0) memcpy(t->slots + 4 * slot, &r, sizeof r);
    expect_slots(where, &s, t);
    give_back(&s);
}

/* Strikes: at answer 0 the slot's four numbers are 0 and the others as they were, else all are. */
static void strike(const char *where, table *t, uint32_t slot, uint8_t answer)
{
    lent s = lend_copy(t->slots, sizeof t->slots);
    before_call(&s);
    expect_answer(where, lurfanzi_strike(t->width, t->height, s.p, slot), answer);
    if (answer == 0) memset(t->slots + 4 * slot, 0, sizeof(rectangle));
    expect_slots(where, &s, t);
    give_back(&s);
}

/* Writes the working map over slices of `length` bytes that hold anything; at a refusal they hold it still. At answer 0
 * every bit is that of `wanted`, a packed map, the unused ones too. */
static void working(
    const char *where, const table *t, const uint8_t *base, size_t base_length, size_t length,
    uint8_t answer, const uint8_t *wanted)
{
    const unsigned char fills[] = {0x00, 0x5A, 0xFF};
    for (size_t k = 0; k < sizeof fills; k++) {
        lent s = lend_copy(t->slots, sizeof t->slots), b = lend_copy(base, base_length), m = lend(length, fills[k]);
        before_call(&s), before_call(&b), before_call(&m);
        expect_answer(where, lurfanzi_working_map(t->width, t->height, s.p, b.p, base_length, m.p, length), answer);
        expect_read_only(where, "the table", &s);
        expect_read_only(where, "the base map", &b);
        expect_guards(where, "the map", &m);
        if (answer != 0) expect_untouched(where, "the map", &m);
        else if (memcmp(m.p, wanted, length) != 0) fail(where, "the map", "is not the expected one");
        give_back(&s), give_back(&b), give_back(&m);
    }
}

/* Cell 5 is blocked: bit 5 of one byte, of which bits 6 and 7 are unused. */
static const uint8_t base[1] = {32};
static const uint8_t base_cells[6] = {0, 0, 0, 0, 0, 1};

static void write_map(const char *where, const table *t, const uint8_t wanted[6])
{
    uint8_t map[1];
    pack(wanted, 6, map);
    working(where, t, base, 1, 1, 0, map);
}

/* Rectangles that are empty or leave the floor of 3 by 2 cells: 12, whatever the table holds. */
static void out_of_bounds(table *t)
{
    const rectangle bad[] = {
        /* empty; too wide and too high; right of the floor and below it */
        {0, 0, 0, 1}, {0, 0, 1, 0}, {0, 0, 0, 0}, {2, 0, 2, 1}, {0, 1, 1, 2}, {0, 0, 4, 1}, {0, 0, 1, 3},
        {3, 0, 1, 1}, {0, 2, 1, 1}, {3, 0, 0, 1}, {0, 2, 1, 0},
        /* good where cut down to 8 or 16 bits */
        {256, 0, 1, 1}, {0, 65536, 1, 1}, {0, 0, 257, 1}, {0, 0, 1, 65537},
        /* sums of 2^32 and more, which are small where cut down to 32 bits */
        {MOST, 0, 1, 1}, {0, MOST, 1, 1}, {1, 0, MOST, 1}, {0, 1, 1, MOST}, {MOST, 0, 2, 1}, {2, 0, MOST, 1},
        {HALF, 0, HALF, 1}, {0, 0, 65536, 65536}, {MOST, MOST, MOST, MOST},
    };
    for (size_t k = 0; k < sizeof bad / sizeof bad[0]; k++) post("out of bounds", t, bad[k], LURFANZI_BAD_CLOSURE, 0);
}

static void three_by_two(void)
{
    table t = {3, 2, {0}};
    const rectangle corner = {0, 0, 1, 1};
    write_map("nothing held", &t, base_cells);
    /* Slots 0 and 1: column 0, which is cells 0 and 3, and cell 2. */
    post("column 0", &t, (rectangle){0, 0, 1, 2}, 0, 0);
    post("cell 2", &t, (rectangle){2, 0, 1, 1}, 0, 1);
    write_map("two held", &t, (const uint8_t[]){1, 0, 1, 1, 0, 1});
    out_of_bounds(&t);
    post("the whole floor", &t, (rectangle){0, 0, 3, 2}, 0, 2);
    write_map("the whole floor", &t, (const uint8_t[]){1, 1, 1, 1, 1, 1});
    strike("slot 0", &t, 0, 0);
    strike("slot 0 again", &t, 0, LURFANZI_SLOT_EMPTY);
    const uint32_t none[] = {3, 15, 16, 17, 64, 256 + 1, 65536 + 1, HALF / 2 + 1, HALF + 1, MOST};
    for (size_t k = 0; k < sizeof none / sizeof none[0]; k++) strike("no closure", &t, none[k], LURFANZI_SLOT_EMPTY);
    /* The lowest free slot is 0 again. */
    post("cell 4", &t, (rectangle){1, 1, 1, 1}, 0, 0);
    strike("slot 2", &t, 2, 0);
    write_map("held after strikes", &t, (const uint8_t[]){0, 0, 1, 0, 1, 1});
    for (uint32_t slot = 2; slot < 16; slot++) post("filled", &t, corner, 0, slot);
    post("full", &t, corner, LURFANZI_SLOTS_FULL, 0);
    out_of_bounds(&t); /* 12 comes before 13 */
    strike("slot 15", &t, 15, 0);
    strike("slot 16", &t, 16, LURFANZI_SLOT_EMPTY);
    post("slot 15", &t, (rectangle){0, 1, 1, 1}, 0, 15);
    write_map("sixteen held", &t, (const uint8_t[]){1, 0, 1, 1, 1, 1});
    for (uint32_t slot = 0; slot < 16; slot++) strike("every slot", &t, slot, 0);
    write_map("all struck", &t, base_cells);
}

/* Refusals 2, 3 and 6 of the working map, in order. */
static void refused_maps(void)
{
    const table t = {3, 2, {0, 0, 3, 2}};
    const uint8_t bad[6] = {32 | 64, 0, 0, 0, 0, 1};
    const size_t lengths[] = {0, 2, 6};
    for (size_t k = 0; k < 3; k++) {
        working("a base map of another length", &t, bad, lengths[k], 1, LURFANZI_BAD_MAP_LENGTH, NULL);
        working("both of another length", &t, bad, lengths[k], lengths[k], LURFANZI_BAD_MAP_LENGTH, NULL);
        working("an unused bit, and a slice of another length", &t, bad, 1, lengths[k], LURFANZI_UNUSED_BIT, NULL);
        working("a slice of another length", &t, base, 1, lengths[k], LURFANZI_BAD_SLICE_LENGTH, NULL);
    }
    working("a slice longer by 256", &t, base, 1, 256 + 1, LURFANZI_BAD_SLICE_LENGTH, NULL);
    working("a slice longer by 65536", &t, base, 1, 65536 + 1, LURFANZI_BAD_SLICE_LENGTH, NULL);
    for (int byte = 64; byte < 256; byte++) {
        const uint8_t map[1] = {(uint8_t)byte};
        working("any byte with an unused bit", &t, map, 1, 1, LURFANZI_UNUSED_BIT, NULL);
    }
}

/* Floors with every number of unused bits. With nothing held the working map is the base map, and with the whole floor
 * held it has every cell's bit set: the unused bits are 0 in both. A base map with an unused bit set, or longer or
 * shorter by a byte, is refused. */
static void every_length(void)
{
    static uint8_t open[MOST_BYTES + 1], all[MOST_BYTES], some[MOST_BYTES], last_cell[MOST_BYTES];
    for (size_t k = 0; k < ANY_SIDES; k++) {
        const uint32_t w = any_sides[k].width, h = any_sides[k].height;
        const size_t length = map_length(w, h), last = length - 1;
        const unsigned unused = first_unused(any_sides[k]);
        const uint8_t used = (uint8_t)(0xFF >> (8 - unused));
        memset(all, 0xFF, sizeof all), memset(some, 0x96, sizeof some), memset(last_cell, 0, sizeof last_cell);
        all[last] &= used, some[last] &= used;
        last_cell[last] = (uint8_t)(1u << (unused - 1));
        const table none = {w, h, {0}}, whole = {w, h, {0, 0, w, h}}, one = {w, h, {w - 1, h - 1, 1, 1}};
        const table beyond = {w, h, {w - 1, h - 1, MOST, MOST}}, larger = {w, h, {0, 0, MOST, MOST}};
        working("nothing on an open floor", &none, open, length, length, 0, open);
        working("nothing on a blocked floor", &none, all, length, length, 0, all);
        working("nothing on any floor", &none, some, length, length, 0, some);
        working("the whole floor", &whole, open, length, length, 0, all);
        working("more than the floor", &larger, some, length, length, 0, all);
        working("the last cell", &one, open, length, length, 0, last_cell);
        working("the last cell and on", &beyond, open, length, length, 0, last_cell);
        for (unsigned bit = unused; bit < 8; bit++) {
            some[last] ^= (uint8_t)(1u << bit);
            working("an unused bit", &whole, some, length, length, LURFANZI_UNUSED_BIT, NULL);
            working("an unused bit, nothing held", &none, some, length, length + 1, LURFANZI_UNUSED_BIT, NULL);
            some[last] ^= (uint8_t)(1u << bit);
        }
        working("a byte more", &whole, open, length + 1, length + 1, LURFANZI_BAD_MAP_LENGTH, NULL);
        working("a byte less", &whole, all, length - 1, length - 1, LURFANZI_BAD_MAP_LENGTH, NULL);
        working("a slice with a byte more", &whole, all, length, length + 1, LURFANZI_BAD_SLICE_LENGTH, NULL);
        working("a slice with a byte less", &whole, all, length, length - 1, LURFANZI_BAD_SLICE_LENGTH, NULL);
    }
}

/* Bad sides: every call answers 1, before any other refusal. */
static void bad_sides(void)
{
    const uint32_t sides[] = {0, 128, 256 + 1, 65536 + 1, MOST};
    const uint8_t bad[1] = {2};
    for (size_t k = 0; k < 2 * (sizeof sides / sizeof sides[0]); k++) {
        table t = {1, 1, {0, 0, 1, 1}};
        *(k % 2 == 0 ? &t.width : &t.height) = sides[k / 2];
        post("a bad side", &t, (rectangle){0, 0, 1, 1}, LURFANZI_BAD_SIZE, 0);
        post("a bad side, and nothing", &t, (rectangle){0, 0, 0, 0}, LURFANZI_BAD_SIZE, 0);
        strike("a bad side", &t, 0, LURFANZI_BAD_SIZE);
        strike("a bad side, and no slot", &t, 16, LURFANZI_BAD_SIZE);
        working("a bad side", &t, base, 1, 1, LURFANZI_BAD_SIZE, NULL);
        working("a bad side, and all else", &t, bad, 1, 2, LURFANZI_BAD_SIZE, NULL);
        working("a bad side, and nothing", &t, NULL, 0, 0, LURFANZI_BAD_SIZE, NULL);
    }
}

static void largest_floor(void)
{
    static const uint8_t open[MOST_BYTES];
    static uint8_t cells[MOST_CELLS], wanted[MOST_BYTES];
    table t = {127, 127, {0}};
    post("the last cell", &t, (rectangle){126, 126, 1, 1}, 0, 0);
    post("right of the last cell", &t, (rectangle){127, 126, 1, 1}, LURFANZI_BAD_CLOSURE, 0);
    post("below the last cell", &t, (rectangle){126, 127, 1, 1}, LURFANZI_BAD_CLOSURE, 0);
    post("the first row", &t, (rectangle){0, 0, 127, 1}, 0, 1);
    cells[MOST_CELLS - 1] = 1;
    memset(cells, 1, 127);
    pack(cells, MOST_CELLS, wanted);
    expect("the largest floor", "the last byte", wanted[2016], 1);
    working("the largest floor", &t, open, sizeof open, sizeof open, 0, wanted);
    post("columns 3 to 121 of row 64", &t, (rectangle){3, 64, 119, 1}, 0, 2);
    memset(cells + 64 * 127 + 3, 1, 119);
    pack(cells, MOST_CELLS, wanted);
    working("columns 3 to 121 of row 64", &t, open, sizeof open, sizeof open, 0, wanted);
    post("the largest closure", &t, (rectangle){0, 0, 127, 127}, 0, 3);
    memset(cells, 1, sizeof cells);
    pack(cells, MOST_CELLS, wanted);
    working("the largest closure", &t, open, sizeof open, sizeof open, 0, wanted);
    strike("the last cell", &t, 0, 0);
    strike("the largest closure", &t, 3, 0);
}

/* Tables that no calls have made. A slot is free where it has 0 columns, whatever its other numbers are; a held one
 * covers the cells of the floor that lie in it. */
static void any_numbers(void)
{
    const rectangle cell = {1, 0, 1, 1};
    table t = {3, 2, {MOST, MOST, 0, MOST, 7, 7, 0, 7}};
    write_map("free slots that hold numbers", &t, base_cells);
    strike("a free slot that holds numbers", &t, 0, LURFANZI_SLOT_EMPTY);
    post("a free slot that holds numbers", &t, cell, 0, 0);
    post("the next of them", &t, cell, 0, 1);
    write_map("both held", &t, (const uint8_t[]){0, 1, 0, 0, 0, 1});

    /* Without rows, from cell 5 on, and column 1 and on below the floor. */
    t = (table){3, 2, {0, 0, 3, 0, 2, 1, MOST, MOST, 1, 0, 1, MOST}};
    write_map("closures that leave the floor", &t, (const uint8_t[]){0, 1, 0, 0, 1, 1});
    strike("a closure without rows", &t, 0, 0);
    strike("a closure that leaves the floor", &t, 2, 0);
    write_map("the part of one on the floor", &t, base_cells);
    post("the slots that were struck", &t, cell, 0, 0);
    post("the slots that were struck", &t, cell, 0, 2);

    /* Right of the floor, below it, and with sums of 2^32 and more. */
    t = (table){3, 2, {3, 0, 1, 2, 0, 2, 3, 1, MOST, 0, 2, 2, 0, MOST, 3, MOST, HALF, 0, HALF, 2}};
    write_map("closures off the floor", &t, base_cells);

    memset(t.slots, 0xFF, sizeof t.slots);
    write_map("all ones", &t, base_cells);
    post("all ones", &t, cell, LURFANZI_SLOTS_FULL, 0);
    for (uint32_t slot = 0; slot < 16; slot++) {
        strike("all ones", &t, slot, 0);
        post("all ones but one", &t, cell, 0, slot);
        strike("all ones but one", &t, slot, 0);
        memset(t.slots + 4 * slot, 0xFF, sizeof(rectangle));
    }
    /* The whole floor from a closure that is far larger. */
    t = (table){3, 2, {0, 0, MOST, MOST}};
    write_map("larger than the floor", &t, (const uint8_t[]){1, 1, 1, 1, 1, 1});
}

int main(void)
{
    setbuf(stdout, NULL); /* so that a crash loses no line */
    three_by_two();
    refused_maps();
    every_length();
    bad_sides();
    largest_floor();
    any_numbers();
    const uint8_t answers[] = {0, 1, 2, 3, 6, 12, 13, 14};
    return finish("closures", answers, sizeof answers);
}
