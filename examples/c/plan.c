/* Plans two jobs from one dock round a wall, then round a closure that is posted on the floor and struck again. The
 * costs from the dock are computed once for each map. Each sheet is checked, each route thinned to the vertices that a
 * cart needs, and a cart that is shoved to another vertex on the way goes on from there. Last the jobs are planned for
 * a cart that steers finely, with sixteen moves. */
#include <inttypes.h>
#include <stdio.h>
#include <string.h>
#include "lurfanzi.h"

#if LURFANZI_INTERFACE != 3
#error "written for packed maps and a sheet with next vertices"
#endif

enum { WIDTH = 7, HEIGHT = 5, COLUMNS = WIDTH + 1, VERTICES = COLUMNS * (HEIGHT + 1) };
enum { CELLS = WIDTH * HEIGHT, MAP_BYTES = (CELLS + 7) / 8 };

/* The cells of the base map, a byte each. */
static const uint8_t cells[CELLS] = {
    0, 0, 0, 0, 0, 0, 0,
    0, 0, 0, 1, 0, 0, 0,
    0, 0, 0, 1, 0, 0, 0,
    0, 0, 0, 1, 0, 0, 0,
    0, 0, 0, 1, 0, 0, 0,
};

/* The base map; the closures, with no slot held; and the working map. */
static uint8_t base[MAP_BYTES];
static uint32_t slots[LURFANZI_TABLE];
static uint8_t map[MAP_BYTES];

/* The sheet, the working memory, and the kept positions. What they hold before a call does not matter. */
static uint32_t d[VERTICES], e[VERTICES], work[4 * VERTICES];
static uint64_t f[VERTICES], back[VERTICES];
static uint16_t route[VERTICES], next[VERTICES], kept[VERTICES];

/* Packs cells, given with a byte each, 0 open, into a map of (count + 7) / 8 bytes: cell c is bit c % 8, from the low
 * end, of byte c / 8, and the unused bits are 0. */
static void pack(const uint8_t *from, size_t count, uint8_t *to)
{
    memset(to, 0, (count + 7) / 8);
    for (size_t c = 0; c < count; c++)
        if (from[c] != 0) to[c / 8] |= (uint8_t)(1u << c % 8);
}

static uint32_t vertex(uint32_t x, uint32_t y)
{
    return x + y * COLUMNS;
}

static void print_vertex(uint32_t v)
{
    printf(" (%" PRIu32 ",%" PRIu32 ")", v % COLUMNS, v / COLUMNS);
}

/* Says what is in the way from one vertex to another. Returns whether the question was not refused. */
static int show_obstacle(uint32_t a, uint32_t b)
{
    lurfanzi_obstacle_result found = lurfanzi_obstacle(WIDTH, HEIGHT, map, sizeof map, a, b);
    printf("from");
    print_vertex(a);
    printf(" to");
    print_vertex(b);
    switch (found.answer) {
    case LURFANZI_SIGHT_YES:
        printf(": the way is clear\n");
        return 1;
    case LURFANZI_BLOCKED_CELL:
        printf(": cell (%" PRIu32 ",%" PRIu32 ") is blocked\n", found.place % WIDTH, found.place / WIDTH);
        return 1;
    case LURFANZI_SHUT_STEP:
        printf(": shut from");
        print_vertex(found.place);
        printf(" on\n");
        return 1;
    case LURFANZI_PINCH:
        printf(": pinched at");
        print_vertex(found.place);
        printf("\n");
        return 1;
    default:
        printf(": refused %d\n", found.answer);
        return 0;
    }
}

/* Finishes the job from vertex a to vertex b from the costs in d. */
static lurfanzi_plan_result finish_job(uint32_t neighbourhood, uint32_t a, uint32_t b)
{
    return lurfanzi_finish(
        WIDTH, HEIGHT, map, sizeof map, neighbourhood, a, b,
        d, VERTICES, e, VERTICES, f, VERTICES, back, VERTICES, route, VERTICES, next, VERTICES, work, 4 * VERTICES);
}

/* Says where a cart that was shoved to vertex v goes on. Off the way, where f is 0, it needs a job of its own. */
static void show_shoved(uint32_t v, uint32_t b)
{
    printf("shoved to");
    print_vertex(v);
    if (f[v] == 0) {
        printf(": not on the way\n");
        return;
    }
    printf(": on to");
    while (v != b) {
        v = next[v];
        print_vertex(v);
    }
    printf("\n");
}

/* Finishes a job, checks the sheet and thins the route. On the way to b a cart is shoved to vertex v. Returns whether
 * all three calls answered 0. */
static int show_job(uint32_t neighbourhood, uint32_t a, uint32_t b, uint32_t v)
{
    lurfanzi_plan_result plan = finish_job(neighbourhood, a, b);
    printf("to");
    print_vertex(b);
    if (plan.answer != LURFANZI_OK) {
        printf(": refused %d\n", plan.answer);
        return 0;
    }
    printf(": cost %" PRIu32 ", cheapest routes %" PRIu64 ", points %zu\n", plan.cost, plan.total, plan.points);
    printf("route:");
    for (size_t k = 0; k < plan.points; k++) print_vertex(route[k]);
    printf("\n");

    uint8_t verdict = lurfanzi_check(
        WIDTH, HEIGHT, map, sizeof map, neighbourhood, a, b,
        d, VERTICES, e, VERTICES, f, VERTICES, back, VERTICES, route, VERTICES, next, VERTICES, plan.points);
    printf("the checker answers %d\n", verdict);

    lurfanzi_thin_result thin =
        lurfanzi_thin(WIDTH, HEIGHT, map, sizeof map, route, VERTICES, kept, VERTICES, plan.points);
    printf("kept:");
    for (size_t k = 0; k < thin.kept; k++) print_vertex(route[kept[k]]);
    printf("\n");
    show_shoved(v, b);
    return verdict == LURFANZI_OK && thin.answer == LURFANZI_OK;
}

/* Plans two jobs from one dock. The costs from the dock are computed once. */
static int show_jobs(uint32_t neighbourhood, uint32_t dock, uint32_t b, uint32_t c)
{
    uint8_t answer = lurfanzi_costs(
        WIDTH, HEIGHT, map, sizeof map, neighbourhood, dock, d, VERTICES, work, 4 * VERTICES);
    return answer == LURFANZI_OK && show_job(neighbourhood, dock, b, vertex(4, 2)) &&
           show_job(neighbourhood, dock, c, vertex(5, 0));
}

/* Writes the working map. Returns whether it was not refused. */
static int draw_map(void)
{
    return lurfanzi_working_map(WIDTH, HEIGHT, slots, base, sizeof base, map, sizeof map) == LURFANZI_OK;
}

int main(void)
{
    const uint32_t dock = vertex(0, 4), b = vertex(7, 5), c = vertex(7, 0), corner = vertex(4, 1);

    pack(cells, CELLS, base);
    if (!draw_map() || !show_obstacle(dock, b) || !show_jobs(8, dock, b, c)) return 1;

    /* A wet floor of 2 by 2 cells, from column 4 and row 1 on. */
    lurfanzi_post_result posted = lurfanzi_post(WIDTH, HEIGHT, slots, 4, 1, 2, 2);
    if (posted.answer != LURFANZI_OK) return 1;
    printf("posted in slot %" PRIu32 "\n", posted.slot);
    if (!draw_map() || !show_obstacle(corner, b)) return 1;
    printf("from the costs of the map before: answer %d\n", finish_job(8, dock, b).answer);
    if (!show_jobs(8, dock, b, c)) return 1;

    if (lurfanzi_strike(WIDTH, HEIGHT, slots, posted.slot) != LURFANZI_OK) return 1;
    printf("struck slot %" PRIu32 "\n", posted.slot);
    if (!draw_map() || !show_obstacle(corner, b) || !show_jobs(8, dock, b, c)) return 1;

    /* Sixteen moves have costs of their own, so the costs from the dock are computed again. */
    printf("with sixteen moves, from the costs of eight: answer %d\n", finish_job(16, dock, b).answer);
    if (!show_jobs(16, dock, b, c)) return 1;
    return 0;
}
