/* Lurfanzi: verified route planning for carts on a floor of cells. A map has a BIT TO A CELL: cell c, counted row by
 * row from the first, is bit c % 8, from the low end, of byte c / 8, and a set bit is a blocked cell. The unused high
 * bits of the last byte are 0. So a map of width by height cells has (width * height + 7) / 8 bytes, at most 2,017.
 * EVERY FUNCTION THAT TAKES A MAP TAKES IT PACKED LIKE THIS, lurfanzi_sight TOO; the base and working maps of the
 * closures are packed like this as well.
 *
 * Every function is total: any numbers and any bytes may be handed in. It ends, reads and writes nothing but the memory
 * it is lent, and answers with one of the numbers below. What each answer means, and what each lent number is
 * afterwards, is proved of the code for all inputs (crates/capi). The proofs do not cover this header; tests/c compares
 * it with the code.
 *
 * The floor. width and height are its sides in cells, 1 to 127. Cell c = i + j * width is the one in column i and row
 * j, between the corners (i, j) and (i + 1, j + 1), and map[c / 8] >> c % 8 & 1 is 1 where it is blocked. Every cell
 * outside the map is blocked. Vertices are the cell corners: the one in column x and row y has number
 * x + y * (width + 1), and there are V = (width + 1) * (height + 1) of them.
 *
 * Sight. A vertex is a pinch when exactly two of its four cells are blocked and they are diagonal to each other; no
 * vertex on the floor's edge is one. Two vertices see each other when the straight segment between them enters the
 * inside of no blocked cell, no unit step of it runs along a grid line between two blocked cells, and, where it is
 * longer than zero, it neither starts at a pinch, nor ends at one, nor passes through one. Going along one blocked cell
 * is allowed, and so is touching one at a corner that is no pinch. A vertex sees itself, a pinch too.
 *
 * Moves. The neighbourhood is the number of moves, 4, 8 or 16. A move goes along a cell side, across one cell or across
 * two cells, and costs:
 *
 * neighbourhood  a side  one cell  two cells
 * 4              408
 * 8              408     577
 * 16             1000    1414      2236
 *
 * So costs and sheets of one neighbourhood are as a rule false for another. The order of the moves of 16 is by angle,
 * (1, 0), (2, 1), (1, 1), (1, 2), (0, 1), (-1, 2), (-1, 1), (-2, 1), (-1, 0), (-2, -1), (-1, -1), (-1, -2), (0, -1),
 * (1, -2), (1, -1), (2, -1), in columns and rows; 4 and 8 have theirs in the same order. A move is open when both ends
 * are vertices of the floor and see each other. No cost of a cheapest walk passes 9,452,991 with 4 or 8, which is
 * 16,383 * 577, or 36,632,388 with 16, which is 16,383 * 2236.
 *
 * Memory. A slice is a pointer and the number of its elements. The pointer of a slice with elements must be valid for
 * all of them and aligned for their type; the pointer of a slice of length 0 may be anything, null included, and is
 * not used. A slice that a call writes may overlap no other slice of the call: a list must not be thinned onto itself,
 * nor a working map be written onto its base map, nor a sheet be mended in place. A table of closures is a pointer to
 * 64 numbers, valid for all of them and aligned; it may overlap no slice of its call. Numbers are 32 bits wide or a
 * size_t, so that none is truncated on its way in; only those of lurfanzi_write_job have the widths of its record.
 *
 * The library is built for x86-64. It uses the C library's memcpy and memset, no heap, no static memory and less than
 * 10 KiB of stack; calls at the same time are safe on different memory, and on the same memory where none of them
 * writes it.
 */
#ifndef LURFANZI_H
#define LURFANZI_H

#include <stddef.h>
#include <stdint.h>

#ifdef __cplusplus
extern "C" {
#endif

/* The number of this interface. It changes where a call would still compile, or still link from another language, and
 * mean something else: with 2 lurfanzi_finish and lurfanzi_check have no next slice, and with a header that has no such
 * number maps have a byte to a cell. A caller states the number that it was written for:
 *
 *     #if LURFANZI_INTERFACE != 3
 *     #error "written for packed maps and a sheet with next vertices"
 *     #endif
 */
#define LURFANZI_INTERFACE 3

/* The answers. A call gives the first refusal that applies, in the order in which its function lists them below. */
enum {
    LURFANZI_OK = 0,
    LURFANZI_BAD_SIZE = 1,          /* a side is not 1 to 127; for lurfanzi_write_map, not 1 to 31 */
    LURFANZI_BAD_MAP_LENGTH = 2,    /* the map has not width * height / 8 bytes, rounded up: at most 2,017 */
    LURFANZI_UNUSED_BIT = 3,        /* an unused bit of the map's last byte is set; there is none where 8 divides
                                       width * height */
    LURFANZI_BAD_NEIGHBOURHOOD = 4, /* the neighbourhood is not 4, 8 or 16 */
    LURFANZI_BAD_END = 5,           /* an end is not below V */
    LURFANZI_BAD_SLICE_LENGTH = 6,  /* a lent slice has another length than asked */
    LURFANZI_NO_ROUTE = 7,          /* no open walk joins the ends; from lurfanzi_check: a true no-route sheet */
    LURFANZI_TOO_MANY = 8,          /* the cheapest routes number more than 2^64 - 1 */
    LURFANZI_FALSE_SHEET = 9,       /* numbers handed in are not the true ones: the costs that lurfanzi_finish is
                                       given, the sheet that lurfanzi_check is asked about */
    LURFANZI_NOT_JOINED = 10,       /* n is 0 or above list_length, or one of the first n numbers is not below V or
                                       does not see the next */
    LURFANZI_PINCHED_END = 11,      /* an end is a pinch */
    LURFANZI_BAD_CLOSURE = 12,      /* the rectangle is empty or leaves the floor */
    LURFANZI_SLOTS_FULL = 13,       /* no slot is free */
    LURFANZI_SLOT_EMPTY = 14,       /* the slot is above 15 or free */
    LURFANZI_SIZES_DIFFER = 15,     /* two floors that are compared have not the same width and height */
    LURFANZI_LONG_LOG = 16,         /* a log has more than 16,384 bytes */
    LURFANZI_BAD_LOG_RECORD = 17,   /* a record of a log is cut short, has a wrong mark or is off the floor; what was
                                       read before it is answered */
    LURFANZI_NO_ROOM = 18,          /* a record does not fit whole in the room left in the buffer */
    LURFANZI_FALSE_CHOICE = 19,     /* the positions and the numbers of legs that lurfanzi_check_legs is asked about are
                                       not right */
    LURFANZI_OUT_OF_TURN = 20       /* a job record before the map record, a second map record, or the 1,001st job */
};

/* The sight question's own answers. Only LURFANZI_SIGHT_YES says that the way is clear. */
enum {
    LURFANZI_SIGHT_YES = 0,
    LURFANZI_SIGHT_NO = 100
};

/* What lurfanzi_obstacle finds in the way. */
enum {
    LURFANZI_BLOCKED_CELL = 101,
    LURFANZI_SHUT_STEP = 102,
    LURFANZI_PINCH = 103
};

/* The cost where no open walk joins two vertices; it stands in d and e. */
#define LURFANZI_UNREACHABLE UINT32_C(4294967295)

/* Do the vertices a and b see each other? THE MAP IS PACKED, A BIT TO A CELL, here as everywhere.
 *
 * Answers LURFANZI_SIGHT_YES or LURFANZI_SIGHT_NO, or refuses with 1, 2, 3 or 5, in this order. An end that is a pinch
 * is not refused. Writes nothing.
 */
uint8_t lurfanzi_sight(uint32_t width, uint32_t height, const uint8_t *map, size_t map_length, uint32_t a, uint32_t b);

typedef struct {
    uint32_t place;  /* the number of a cell or vertex; 0 where nothing is in the way and at a refusal */
    uint8_t answer;  /* 0, LURFANZI_BLOCKED_CELL, LURFANZI_SHUT_STEP, LURFANZI_PINCH, or a refusal: 1, 2, 3 or 5 */
} lurfanzi_obstacle_result;

/* What is in the way from vertex a to vertex b? For technicians, who ask why a point was kept; a drive that needs yes
 * or no asks lurfanzi_sight. Writes nothing.
 *
 * answer      place
 * 0           0             nothing is in the way; lurfanzi_sight answers LURFANZI_SIGHT_YES exactly then
 * 101         a cell        of the blocked cells that the segment enters, the one least far in columns from a, of
 *                           equals least far in rows: place is its number c
 * 102         a vertex      a step of a segment along a grid line is shut: the vertex where the first one begins, going
 *                           from a
 * 103         a vertex      no blocked cell is entered and no step is shut, anywhere on the segment: of the pinches
 *                           where it starts, where it ends and through which it passes, the nearest to a
 * 1, 2, 3, 5  0             refused, in this order; an end that is a pinch is not refused
 *
 * Asked from b to a it may name another cell, step or pinch; whether the way is clear stays the same.
 */
lurfanzi_obstacle_result lurfanzi_obstacle(
    uint32_t width, uint32_t height, const uint8_t *map, size_t map_length, uint32_t a, uint32_t b);

/* A job is planned in two calls: lurfanzi_costs fills d, the costs from its first end, and lurfanzi_finish does the
 * rest. The costs serve every job from that vertex with the same floor and neighbourhood, so that forty carts from one
 * dock need one call of the first and forty of the second.
 *
 * Fills d with the costs from vertex a.
 *
 * d           V costs from a; LURFANZI_UNREACHABLE where there is no walk, so at every pinch
 * work        4 * V numbers of working memory; what it holds at entry does not matter
 *
 * answer      d          work
 * 0           true       0
 * 1 to 6, 11  untouched  untouched
 *
 * Refuses with 1, 2, 3, 4, 5 for a, 11 for a, and 6 for d and work, in this order.
 */
uint8_t lurfanzi_costs(
    uint32_t width, uint32_t height, const uint8_t *map, size_t map_length, uint32_t neighbourhood, uint32_t a,
    uint32_t *d, size_t d_length, uint32_t *work, size_t work_length);

typedef struct {
    uint64_t total;  /* the number of cheapest routes */
    size_t points;   /* the number of vertices of the central route, its ends among them */
    uint32_t cost;   /* the cost of the central route */
    uint8_t answer;  /* 0, or a refusal: 1 to 9 or 11; the other members are 0 at a refusal */
} lurfanzi_plan_result;

/* Finishes the job from vertex a to vertex b: plans its central route and fills the rest of its sheet. From each vertex
 * the route takes, of the open moves that lead on along a cheapest route, the one to the vertex with the highest
 * f * back, of equals the first in the order of moves. With a = b it is that one vertex, at cost 0.
 *
 * A vertex is on the way where a cheapest route passes it, which is where f is not 0. The slice next has this choice
 * for each vertex on the way, so that a cart that is shoved to another one goes on from there: v, next[v],
 * next[next[v]] and so on reach b, at cost e[v]. From a they are the route. Off the way next is 0, which may be the
 * number of a next vertex too: only f[v] says whether v is on the way.
 *
 * d           V costs from a, as lurfanzi_costs leaves them. They are read, and never written: many jobs may be
 *             finished from one d, also by calls at the same time. They are tested, and not trusted: where any of them
 *             is not true the answer is 9, whoever made them.
 * e           V costs to b; LURFANZI_UNREACHABLE where there is no walk, so at every pinch
 * f, back     V counts of cheapest walks: f from a, back to b; 0 off the cheapest routes
 * route       V vertices: the points of the route, then 0
 * next        V vertices: at each vertex on the way other than b the next vertex, at b b itself, elsewhere 0
 * work        4 * V numbers of working memory; what it holds at entry does not matter
 *
 * answer      e          f, back    route, next  work
 * 0           true       true       true         0
 * 1 to 6, 11  untouched  untouched  untouched    untouched
 * 9           untouched  untouched  untouched    untouched
 * 7           0          0          0            0
 * 8           true       0          0            0
 *
 * Refuses with 1, 2, 3, 4, 5 for a or b, 11 for a or b, also where a = b, 6 for each of the seven slices, 9, 7 and 8,
 * in this order. A call is of good shape where none of 1 to 6, 9 and 11 applies: a d that is not true is answered with
 * 9 also where no walk joins the ends, and where the routes are too many.
 */
lurfanzi_plan_result lurfanzi_finish(
    uint32_t width, uint32_t height, const uint8_t *map, size_t map_length,
    uint32_t neighbourhood, uint32_t a, uint32_t b,
    const uint32_t *d, size_t d_length, uint32_t *e, size_t e_length, uint64_t *f, size_t f_length,
    uint64_t *back, size_t back_length, uint16_t *route, size_t route_length, uint16_t *next, size_t next_length,
    uint32_t *work, size_t work_length);

/* Checks a filled sheet from any planner, with n the number of its route's points. Writes nothing.
 *
 * answer
 * 0          exactly when every slice and n are the true route sheet: d as lurfanzi_costs leaves it, the rest as
 *            lurfanzi_finish does at answer 0
 * 7          exactly when they are the true no-route sheet: d as lurfanzi_costs leaves it, the rest as lurfanzi_finish
 *            does at answer 7, with n = 0
 * 9          every other sheet, also for an n above V, and every sheet of a job that lurfanzi_finish answers with 8
 *            from true costs
 * 1 to 6, 11 refused before these, in the order 1, 2, 3, 4, 5 for a or b, 11 for a or b, 6 for each of the six slices,
 *            which have V places; with 11 also where a = b
 */
uint8_t lurfanzi_check(
    uint32_t width, uint32_t height, const uint8_t *map, size_t map_length,
    uint32_t neighbourhood, uint32_t a, uint32_t b,
    const uint32_t *d, size_t d_length, const uint32_t *e, size_t e_length, const uint64_t *f, size_t f_length,
    const uint64_t *back, size_t back_length, const uint16_t *route, size_t route_length,
    const uint16_t *next, size_t next_length, size_t n);

typedef struct {
    size_t n;        /* the number of points of the true route, its ends among them; 0 at every answer but 0 */
    size_t d;        /* at how many places old_d and d differ; each of these six is 0 at every answer but 0 and 7 */
    size_t e;        /* at how many places old_e and e differ */
    size_t f;        /* the same of old_f and f */
    size_t back;     /* the same of old_back and back */
    size_t route;    /* the same of old_route and route */
    size_t next;     /* the same of old_next and next */
    uint8_t answer;  /* 0, 7, or a refusal: 1 to 6, 8 or 11 */
} lurfanzi_mend_result;

/* Mends a damaged sheet of the job from vertex a to vertex b: writes the true sheet into a second set of slices, and
 * counts for each slice at how many places the damaged one is not true.
 *
 * old_d, old_e, old_f,        V places each: the damaged sheet, read. Anything may stand there. How many points its
 * old_back, old_route,        route has is not asked for: the true number is answered.
 * old_next
 * d, e, f, back, route, next  V places each: the true sheet, d as lurfanzi_costs leaves it, the rest as
 *                             lurfanzi_finish does; what they hold at entry does not matter
 * work                        4 * V numbers of working memory; what it holds at entry does not matter
 *
 * answer      d          e          f, back, route, next  work       n     the six counts
 * 0           true       true       true                  0          true  of places that differ
 * 7           true       0          0                     0          0     of places that differ
 * 8           true       true       0                     0          0     0
 * 1 to 6, 11  untouched  untouched  untouched             untouched  0     0
 *
 * Refuses with 1, 2, 3, 4, 5 for a or b, 11 for a or b, also where a = b, 6 for each of the thirteen slices, the
 * damaged ones too, 7 and 8, in this order. At 0 and at 7 lurfanzi_check accepts the slices written, with n points: it
 * answers the same number. Then all six counts are 0 exactly when the damaged sheet has the true numbers at every
 * place. A job with the answer 8 has no true sheet.
 */
lurfanzi_mend_result lurfanzi_mend(
    uint32_t width, uint32_t height, const uint8_t *map, size_t map_length,
    uint32_t neighbourhood, uint32_t a, uint32_t b,
    const uint32_t *old_d, size_t old_d_length, const uint32_t *old_e, size_t old_e_length,
    const uint64_t *old_f, size_t old_f_length, const uint64_t *old_back, size_t old_back_length,
    const uint16_t *old_route, size_t old_route_length, const uint16_t *old_next, size_t old_next_length,
    uint32_t *d, size_t d_length, uint32_t *e, size_t e_length, uint64_t *f, size_t f_length,
    uint64_t *back, size_t back_length, uint16_t *route, size_t route_length, uint16_t *next, size_t next_length,
    uint32_t *work, size_t work_length);

typedef struct {
    size_t kept;     /* how many positions are kept; 0 at a refusal */
    uint8_t answer;  /* 0, or a refusal: 1, 2, 3, 6 or 10 */
} lurfanzi_thin_result;  /* of lurfanzi_thin and of lurfanzi_fewest_legs */

/* Thins the first n vertices of list to the positions that a cart needs. Position 0 is kept; after a kept position the
 * next is the last one before the first position that it does not see, or n - 1 where it sees all; so n - 1 is kept,
 * and each kept vertex sees the next. With n = 1 position 0 alone is kept. Vertices may stand in the list more than
 * once. A list with a pinch is joined only where all of its first n numbers are that pinch.
 *
 * list       at most 16,384 places; those past n are not read
 * out        as long as list: at answer 0 the kept positions in list, then 0; untouched at a refusal
 *
 * Refuses with 1, 2, 3, 6 where list has more than 16,384 places or out has another length than list, and 10, in this
 * order.
 */
lurfanzi_thin_result lurfanzi_thin(
    uint32_t width, uint32_t height, const uint8_t *map, size_t map_length,
    const uint16_t *list, size_t list_length, uint16_t *out, size_t out_length, size_t n);

/* A list may be thinned to fewer positions than lurfanzi_thin keeps. A choice from a position is a list of rising
 * positions that starts there and ends with n - 1, and of which each sees the next; its legs are one fewer than its
 * positions. A proposal has a choice from position 0 with the fewest legs, and for every position of the list the
 * fewest legs of any choice from there:
 *
 * kept       as long as list: the chosen positions, kept_count of them, then 0
 * legs       as long as list: the fewest legs from each of the first n positions, 0 at the last of them, then 0
 *
 * THE COST IS QUADRATIC AT WORST: both functions below go through all pairs of the n positions, and ask for sight
 * between many of them where the list winds through many halls. 16,384 positions have 134 million pairs.
 *
 * Checks a proposal from any optimiser. Writes nothing.
 *
 * answer
 * 0          exactly when the first kept_count numbers of kept start with 0, end with n - 1 and rise, and each sees the
 *            next; kept_count is legs[0] + 1; each of the first n numbers of legs is the fewest from its position; and
 *            every number of kept past the first kept_count, and of legs past the first n, is 0. Several kept lists may
 *            be right: each of them is accepted.
 * 19         every other proposal, also one whose kept_count is 0 or above kept_length
 * 1, 2, 3,   refused before these, in this order: 6 where list has more than 16,384 places, or kept or legs has another
 * 6, 10      length than list; 10 as for lurfanzi_thin. Places of list past n are not read.
 */
uint8_t lurfanzi_check_legs(
    uint32_t width, uint32_t height, const uint8_t *map, size_t map_length,
    const uint16_t *list, size_t list_length, size_t n,
    const uint16_t *kept, size_t kept_length, size_t kept_count, const uint16_t *legs, size_t legs_length);

/* Makes a proposal, which lurfanzi_check_legs always accepts with the number of kept positions answered: from each kept
 * position the next one is, of the positions that it sees and that have the fewest legs left, the farthest.
 *
 * kept, legs  as long as list: at answer 0 the proposal; untouched at a refusal
 *
 * Answers as lurfanzi_thin does, and refuses with 1, 2, 3, 6 where list has more than 16,384 places or kept or legs has
 * another length than list, and 10, in this order.
 */
lurfanzi_thin_result lurfanzi_fewest_legs(
    uint32_t width, uint32_t height, const uint8_t *map, size_t map_length, const uint16_t *list, size_t list_length,
    uint16_t *kept, size_t kept_length, uint16_t *legs, size_t legs_length, size_t n);

/* A cart's log holds a record of four bytes for each stop, one after the other and nothing else: 56 hex, 54 hex, and
 * the number of a vertex in 16 bits, the low byte first. Records are numbered from 1.
 */
typedef struct {
    size_t read;        /* how many records were read; a bad one is not counted */
    size_t unfollowed;  /* the first record that can't follow the one before it; 0 where each can */
    size_t bad;         /* the record that ended the reading with 17, read + 1; 0 where none did */
    uint32_t cost;      /* the cost driven: of all records, or of those before the one that can't follow */
    uint8_t cheapest;   /* 1 where the log has a record and neither fault, and cost is the least between its first and
                           its last vertex; else 0 */
    uint8_t answer;     /* 0, 17, or a refusal: 1, 2, 3, 4, 16 or 6; the other members are 0 at a refusal */
} lurfanzi_replay_result;

/* Replays a night log: what a cart drove, whether it could, and whether it could have been cheaper.
 *
 * A record follows the one before it where an open move of the neighbourhood leads from its vertex to this one, at the
 * move's cost, and where both are the same vertex: standing still costs 0. The first record follows at cost 0. A record
 * on a pinch can't follow, the first one too, nor by standing still there. From the first record that can't follow on
 * the cost stops growing, also by moves that are open, and the reading goes on.
 *
 * A record that is cut short, one to three bytes at the log's end, or has a wrong mark, or whose vertex is not below V,
 * is bad: the reading stops there, with 17, and the rest of the answer is kept. So a log may have both faults, a record
 * that can't follow and after it a bad one, and both are told. An empty log has neither: 0 records, cost 0.
 *
 * log         at most 16,384 bytes, which are 4,096 records; read
 * costs       V costs from the log's first vertex, as lurfanzi_costs leaves them in d, where the log has a record and
 *             neither fault; else 0
 * work        4 * V numbers of working memory; what it holds at entry does not matter
 *
 * answer      costs                                    work       read, unfollowed, bad, cost, cheapest
 * 0           true; 0 for an empty log and where a     0          as above, bad 0
 *             record can't follow
 * 17          0                                        0          as above, cheapest 0
 * 1 to 4,     untouched                                untouched  0
 * 16, 6
 *
 * Refuses with 1, 2, 3, 4, 16 for a log of more bytes, whatever they are, and 6 for costs and work, in this order. No
 * end is refused: a vertex that is off the floor is 17, one on a pinch is a record that can't follow.
 */
lurfanzi_replay_result lurfanzi_replay(
    uint32_t width, uint32_t height, const uint8_t *map, size_t map_length, uint32_t neighbourhood,
    const uint8_t *log, size_t log_length, uint32_t *costs, size_t costs_length, uint32_t *work, size_t work_length);

/* Two floors of the same sides are compared. The first, of width, height and map, is the floor before a change; the
 * second, of new_width, new_height and new_map, the floor after it. Both maps are read, and may be the same memory.
 * Whatever is wrong with the first floor is answered before all that is wrong with the second.
 */
typedef struct {
    size_t closed;   /* how many cells are open on the first floor and blocked on the second; 0 at a refusal */
    size_t opened;   /* how many cells are blocked on the first floor and open on the second; 0 at a refusal */
    uint8_t answer;  /* 0, or a refusal: 1, 2, 3, 15 or 6 */
} lurfanzi_changes_result;

/* What changed between two floors: lists the cells that are blocked on one of them and open on the other.
 *
 * cells      width * height numbers, not the packed map's length: at answer 0 the numbers of the differing cells,
 *            ascending, then 0; untouched at a refusal. There are closed + opened of them; 0 is a cell's number too,
 *            so that only the answer says how many are listed. A listed cell is closed where new_map has its bit set.
 *
 * Refuses with 1, 2, 3 for the first floor, 1, 2, 3 for the second, 15, and 6 for cells, in this order.
 */
lurfanzi_changes_result lurfanzi_changes(
    uint32_t width, uint32_t height, const uint8_t *map, size_t map_length,
    uint32_t new_width, uint32_t new_height, const uint8_t *new_map, size_t new_map_length,
    uint16_t *cells, size_t cells_length);

/* How the cost of a vertex changed from the first floor to the second: the bytes that lurfanzi_cost_changes writes. */
enum {
    LURFANZI_COST_EQUAL = 0,             /* the same on both, also where no walk leads there on either */
    LURFANZI_COST_FELL = 1,              /* less on the second floor */
    LURFANZI_COST_ROSE = 2,              /* more on the second floor */
    LURFANZI_COST_FROM_UNREACHABLE = 3,  /* a walk leads there on the second floor alone */
    LURFANZI_COST_TO_UNREACHABLE = 4     /* a walk leads there on the first floor alone */
};

/* What a change of the floor does to the costs from vertex a. Lists no cells and answers no counts: lurfanzi_changes
 * does.
 *
 * costs           V costs from a on the first floor, as lurfanzi_costs leaves them in d
 * new_costs       V costs from a on the second floor
 * changes         V bytes, one of the five numbers above for each vertex; all 0 where the floors are equal
 * work            4 * V numbers of working memory; what it holds at entry does not matter
 *
 * answer          costs, new_costs  changes    work
 * 0               true              true       0
 * 1 to 6, 11, 15  untouched         untouched  untouched
 *
 * Refuses with 1, 2, 3 for the first floor, 1, 2, 3 for the second, 15, 4, 5 for a, 11 where a is a pinch of either
 * floor, and 6 for each of the four slices, in this order. It takes about as long as two calls of lurfanzi_costs.
 */
uint8_t lurfanzi_cost_changes(
    uint32_t width, uint32_t height, const uint8_t *map, size_t map_length,
    uint32_t new_width, uint32_t new_height, const uint8_t *new_map, size_t new_map_length,
    uint32_t neighbourhood, uint32_t a, uint32_t *costs, size_t costs_length, uint32_t *new_costs,
    size_t new_costs_length, uint8_t *changes, size_t changes_length, uint32_t *work, size_t work_length);

/* Closures are rectangles of cells that are blocked for a time, as wet floors and parked beds. They stand in a table of
 * sixteen slots, 64 numbers that the caller lends to each call: slots[4 * k] to slots[4 * k + 3] are the first column,
 * the first row, the columns and the rows of slot k, which is free where its columns are 0. 64 zeros are the empty
 * table. A table is for one floor: give every call on it the same width and height.
 *
 * Any 64 numbers may stand in a table. A slot with columns 0 is free, whatever its other three numbers are. Any other
 * slot is held. No call makes a held slot whose rows are 0 or whose rectangle leaves the floor, but such a slot is not
 * free, can be struck, and covers the cells of the floor that lie in its rectangle. Sums of these numbers do not wrap.
 *
 * After any calls from 64 zeros the table holds what a plain map from slot to rectangle would.
 */
#define LURFANZI_SLOTS 16
#define LURFANZI_TABLE (4 * LURFANZI_SLOTS)

typedef struct {
    uint32_t slot;   /* the slot that the closure took, 0 to 15; 0 at a refusal */
    uint8_t answer;  /* 0, or a refusal: 1, 12 or 13 */
} lurfanzi_post_result;

/* Posts a closure of the given columns and rows, whose first cell is in the given column and row. It takes the lowest
 * free slot.
 *
 * answer     slots
 * 0          the four numbers of the slot answered are column, row, columns, rows; all others are untouched
 * 1, 12, 13  untouched; refused, in this order
 */
lurfanzi_post_result lurfanzi_post(
    uint32_t width, uint32_t height, uint32_t slots[LURFANZI_TABLE],
    uint32_t column, uint32_t row, uint32_t columns, uint32_t rows);

/* Strikes the closure in a slot.
 *
 * answer     slots
 * 0          the four numbers of that slot are 0; all others are untouched
 * 1, 14      untouched; refused, in this order
 */
uint8_t lurfanzi_strike(uint32_t width, uint32_t height, uint32_t slots[LURFANZI_TABLE], uint32_t slot);

/* Writes the working map: a cell is blocked where it is in the base map or where any closure that the table holds
 * covers it. The other functions take it as the floor's map.
 *
 * base       a map, packed; read
 * map        as long as base: at answer 0 the working map, packed, its unused bits 0; untouched at a refusal
 *
 * Answers 0, or refuses with 1, with 2 or 3 for the base map, or with 6 where map_length is not base_length, in this
 * order. The table is read, and no refusal depends on it.
 */
uint8_t lurfanzi_working_map(
    uint32_t width, uint32_t height, const uint32_t slots[LURFANZI_TABLE],
    const uint8_t *base, size_t base_length, uint8_t *map, size_t map_length);

/* The program reads a record stream: one map record, then up to 1,000 job records, for a floor of at most 31 by 31
 * cells.
 *
 * map record     4D 50 hex, width, height, and A BYTE TO A CELL, 0 open and 1 blocked: 4 + width * height bytes
 * job record     4A 42 hex, neighbourhood, and a and b in 16 bits each, the low byte first: 7 bytes
 *
 * A stream is made in a buffer that the caller lends, a record with each call, and a writer says how far it is; the
 * longest has 7,965 bytes. {0, 0} is a fresh writer. Each call takes the writer as the last call left it, and all of
 * them take one buffer, of one length, that nobody else writes in between. Then
 *
 *     once the map is in, reading the first `at` bytes of the buffer gives the same floor and the same jobs;
 *     with room enough, writing what was read of a stream before any bad record gives the same bytes.
 *
 * A writer is plain data: any numbers may stand in it, and a call does with them what is said below.
 */
typedef struct {
    size_t at;   /* where the next record begins: how many bytes are written */
    size_t due;  /* the number of the next record: 0 the map, 1 to 1,000 a job */
} lurfanzi_writer;

typedef struct {
    lurfanzi_writer writer;  /* at answer 0 moved on past the record; at a refusal the writer handed in */
    uint8_t answer;          /* 0, or a refusal: 1, 2, 3, 20 or 18 */
} lurfanzi_write_result;

/* Writes the map record of a floor. The map is packed, a bit to a cell, as everywhere; the record has a byte to a cell.
 *
 * answer           writer                            buffer
 * 0                at + 4 + width * height, due + 1  the record from writer.at on; all before and past it untouched
 * 1, 2, 3, 20, 18  as handed in                      untouched
 *
 * Refuses with 1 where a side is not 1 to 31, 2, 3, 20 where writer.due is not 0, and 18 where fewer than
 * 4 + width * height bytes are left from writer.at on, in this order.
 */
lurfanzi_write_result lurfanzi_write_map(
    lurfanzi_writer writer, uint32_t width, uint32_t height, const uint8_t *map, size_t map_length,
    uint8_t *buffer, size_t buffer_length);

/* Writes a job record. Any numbers are taken: the program says, job by job, whether there is such a neighbourhood and
 * whether the floor has such vertices. C silently truncates a wider number before the call.
 *
 * answer           writer                            buffer
 * 0                at + 7, due + 1                   the record from writer.at on; all before and past it untouched
 * 20, 18           as handed in                      untouched
 *
 * Refuses with 20 where writer.due is not 1 to 1,000, and 18 where fewer than 7 bytes are left from writer.at on, in
 * this order.
 */
lurfanzi_write_result lurfanzi_write_job(
    lurfanzi_writer writer, uint8_t neighbourhood, uint16_t a, uint16_t b, uint8_t *buffer, size_t buffer_length);

#ifdef __cplusplus
}
#endif

#endif
