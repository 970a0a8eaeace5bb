//! Neighbourhood 16 (rule 3.1): known answers, and what the program has of it by other methods.

use crate::boundary;
use crate::count;
use crate::floor::Floor;
use crate::graph::{self, Graph, NEIGHBOURHOODS};
use crate::layouts::{self, KINDS};
use crate::natural::{binomial, Natural};
use crate::random::Random;
use crate::self_checks::{all_floors, is_pinched};
use crate::sheet::{Request, Sheet, Solver, NO_WALK};
use crate::sight::Point;
use crate::thin;
use crate::vectors::{check, finish_from, no_route_sheet, plan, refusal, route, sheet_of, Planned, Tally};

/// Numbers beside 16, and beside the sums and doubles of good ones, that are refused with 4.
pub const REFUSED: [u64; 5] = [12, 15, 17, 24, 32];

pub fn run(tally: &mut Tally) {
    worked_floors(tally);
    blocked_floors(tally);
    refused_numbers(tally);
    costs_of_another_neighbourhood(tally);
    beside_blocked_cells(tally);
    ties_by_angle(tally);
    large_totals(tally);
    the_table(tally);
    open_moves_by_cells(tally);
    open_floors_by_formula(tally);
    distances_on_random_floors(tally);
}

/// Floor e costs 2236 and has total 1. Beside it a and h, and three cells in a row and two rows of them, where the
/// second of two equals is a new move and where the first is.
fn worked_floors(tally: &mut Tally) {
    let (d, ends) = ([0, 1000, 1000, 1414], [1, 0, 0, 1]);
    let a = sheet_of(&d, &[1414, 1000, 1000, 0], &ends, &ends, &[0, 3], &[3, 0, 0, 3]);
    whole_sheet(tally, "a", &Floor::open(1, 1), (0, 3), (1414, 1), a);
    let (d, ends) = ([0, 1000, 2000, 1000, 1414, 2236], [1, 0, 0, 0, 0, 1]);
    let e = sheet_of(&d, &[2236, 1414, 1000, 2000, 1000, 0], &ends, &ends, &[0, 5], &[5, 0, 0, 0, 0, 5]);
    let planned = whole_sheet(tally, "e", &Floor::open(2, 1), (0, 5), (2236, 1), e);
    tally.equal("request 8, e kept", thin::kept_positions(&Floor::open(2, 1), planned.points()), vec![0, 1]);
    let d = [0, 1000, 2000, 1000, 1414, 2236, 2000, 2236, 2828];
    let points = [1, 0, 0, 0, 1, 0, 0, 0, 1];
    let h = sheet_of(&d, &turned(&d), &points, &points, &[0, 4, 8], &[4, 0, 0, 0, 8, 0, 0, 0, 8]);
    whole_sheet(tally, "h", &Floor::open(2, 2), (0, 8), (2828, 1), h);
    let d = [0, 1000, 2000, 3000, 1000, 1414, 2236, 3236];
    let f = [1, 1, 0, 0, 0, 0, 1, 2];
    let row = sheet_of(&d, &turned(&d), &f, &turned(&f), &[0, 1, 7], &[1, 7, 0, 0, 0, 0, 7, 7]);
    whole_sheet(tally, "three cells in a row", &Floor::open(3, 1), (0, 7), (3236, 2), row);
    let d = [0, 1000, 2000, 3000, 1000, 1414, 2236, 3236, 2000, 2236, 2828, 3650];
    let f = [1, 0, 0, 0, 0, 1, 1, 0, 0, 0, 0, 2];
    let next = [6, 0, 0, 0, 0, 11, 11, 0, 0, 0, 0, 11];
    let rows = sheet_of(&d, &turned(&d), &f, &turned(&f), &[0, 6, 11], &next);
    whole_sheet(tally, "two rows of three cells", &Floor::open(3, 2), (0, 11), (3650, 2), rows);
}

/// The list from its other end: on an open floor, from corner to corner, e is d so, and b is f.
fn turned<T: Copy>(numbers: &[T]) -> Vec<T> {
    numbers.iter().rev().copied().collect()
}

/// Plans the job, which has a route, and checks it, every number of its sheet, and what the checker says of it.
fn whole_sheet(
    tally: &mut Tally, name: &str, floor: &Floor, (start, goal): (u64, u64), (cost, total): (u64, u64), sheet: Sheet,
) -> Planned {
    let planned = plan(floor, 16, start, goal);
    tally.equal(&format!("request 8, {name}"), planned.answer, route(cost, total, sheet.n));
    tally.equal(&format!("request 8, {name} sheet"), &planned.sheet, &sheet);
    tally.equal(&format!("request 8, {name} checked"), check(floor, 16, start, goal, &sheet), 0);
    for other in [4, 8] {
        let answer = check(floor, other, start, goal, &sheet);
        tally.equal(&format!("request 8, {name} checked with {other}"), answer, 9);
    }
    planned
}

/// Floors c, d, f and g. The move from 0 to 5 of f enters cell 1; in g all that leads on from cell 1 enters a blocked
/// cell or ends at the pinch.
fn blocked_floors(tally: &mut Tally) {
    let blocked = Floor::new(1, 1, vec![1]);
    let d = plan(&blocked, 16, 0, 0);
    tally.equal("request 8, d", (d.answer, d.points()), (route(0, 1, 1), &[0][..]));
    let f = [0, 1000, NO_WALK, 1000, 1414, NO_WALK];
    let g = [NO_WALK, 1000, 0, NO_WALK, NO_WALK, 1000, NO_WALK, NO_WALK, NO_WALK];
    let floors = [
        ("c", blocked, 0, 3, &[0, NO_WALK, NO_WALK, NO_WALK][..]),
        ("f", Floor::new(2, 1, vec![0, 1]), 0, 5, &f[..]),
        ("g", Floor::new(2, 2, vec![1, 0, 0, 1]), 2, 6, &g[..]),
    ];
    for (name, floor, start, goal, d) in floors {
        let planned = plan(&floor, 16, start, goal);
        tally.equal(&format!("request 8, {name}"), planned.answer, refusal(7));
        tally.equal(&format!("request 8, {name} sheet"), &planned.sheet, &no_route_sheet(d));
        tally.equal(&format!("request 8, {name} checked"), check(&floor, 16, start, goal, &planned.sheet), 7);
    }
}

/// Refusal 4 lets 4, 8 and 16 through, and nothing else.
fn refused_numbers(tally: &mut Tally) {
    let floor = Floor::open(2, 1);
    for number in (0..=300).chain([65_540, 65_552, (1 << 31) + 16, (1 << 32) - 1]) {
        let refused = number != 4 && number != 8 && number != 16;
        let fault = Request { neighbourhood: number, start: 0, goal: 5 }.fault(&floor);
        tally.equal("request 8, 4", fault, if refused { Some(4) } else { None });
    }
    let sheet = plan(&floor, 16, 0, 5).sheet;
    for number in REFUSED {
        tally.equal("request 8, 4, planned", plan(&floor, number, 0, 5).answer, refusal(4));
        tally.equal("request 8, 4, checked", check(&floor, number, 0, 5, &sheet), 4);
    }
}

/// On floor a the costs of one neighbourhood are false for another; on floor c, where no vertex is reached, they are
/// the same.
fn costs_of_another_neighbourhood(tally: &mut Tally) {
    let (a, c) = (Floor::open(1, 1), Floor::new(1, 1, vec![1]));
    for filled in NEIGHBOURHOODS {
        for neighbourhood in NEIGHBOURHOODS {
            let job = Request { neighbourhood, start: 0, goal: 3 };
            let answer = |floor: &Floor| finish_from(floor, job, &plan(floor, filled, 0, 3).sheet.d, 4).answer;
            let expected = if filled == neighbourhood { 0 } else { 9 };
            tally.equal("request 8, the costs of another", (answer(&a), answer(&c)), (expected, 7));
        }
    }
}

/// Costs beside blocked cells, on floors of 3 by 2 cells whose vertices are 0 to 3, 4 to 7 and 8 to 11 by rows.
fn beside_blocked_cells(tally: &mut Tally) {
    const M: u32 = NO_WALK;
    let floors: [(&str, &[usize], u64, [u32; 12]); 4] = [
        // From 0 to 6 the move enters cell 1; 5 and then 6 is the way, at 2414.
        ("past a cell", &[1], 0, [0, 1000, 3414, 3828, 1000, 1414, 2414, 3414, 2000, 2236, 2828, 3650]),
        // Cells 1 and 3 touch at vertex 5, the pinch; the moves from 0 to 6 and to 9 enter one of them each.
        ("across a corner", &[1, 3], 0, [0, 1000, M, M, 1000, M, M, M, M, M, M, M]),
        // Cells 0 and 4 touch at vertex 5; the move from 1 to 7 passes beside it, that from 1 to 10 enters cell 4.
        ("beside a corner", &[0, 4], 1, [M, 0, 1000, 2000, M, M, 1414, 2236, M, M, 2414, 2828]),
        // The move from 0 to 6 enters cells 0 and 1, which are open, but cells 2 and 4 touch at its end.
        ("to a pinch", &[2, 4], 0, [0, 1000, 2000, M, 1000, 1414, M, M, 2000, 2236, M, M]),
    ];
    for (name, blocked, start, d) in floors {
        let floor = Floor::with_blocked(3, 2, blocked);
        let costs = Solver::new(floor).costs(16, start as usize);
        tally.equal(&format!("request 8, {name}"), &costs[..], &d);
    }
    let past = plan(&Floor::with_blocked(3, 2, &[1]), 16, 0, 6);
    tally.equal("request 8, round a cell", (past.answer, past.points()), (route(2414, 1, 3), &[0, 5, 6][..]));
    let pinched = plan(&Floor::with_blocked(3, 2, &[2, 4]), 16, 0, 6);
    tally.equal("request 8, an end that is a pinch", pinched.answer, refusal(11));
    // On 4 by 2 cells, cells 2 and 5 touch at the end of the move from 0, which another to 14 would go on from.
    let through = plan(&Floor::with_blocked(4, 2, &[2, 5]), 16, 0, 14);
    tally.equal("request 8, through a pinch", through.answer, refusal(7));
    // On 4 by 3 cells from (1, 1) to (3, 2): each end is a corner of one blocked cell, and no pinch.
    let corners = plan(&Floor::with_blocked(4, 3, &[0, 11]), 16, 6, 13);
    tally.equal("request 8, corners", (corners.answer, corners.points()), (route(2236, 1, 2), &[6, 13][..]));
}

fn common_divisor(a: i64, b: i64) -> i64 {
    if b == 0 { a } else { common_divisor(b, a % b) }
}

/// All steps of at most two columns and two rows that pass no vertex, by their angle from (1, 0).
fn steps_by_angle() -> Vec<Point> {
    let steps = (-2..=2i64).flat_map(|dx| (-2..=2i64).map(move |dy| (dx, dy)));
    let mut steps: Vec<Point> = steps.filter(|&(dx, dy)| common_divisor(dx.abs(), dy.abs()) == 1).collect();
    let angle = |(dx, dy): Point| (dy as f64).atan2(dx as f64).rem_euclid(std::f64::consts::TAU);
    steps.sort_by(|&a, &b| angle(a).total_cmp(&angle(b)));
    steps
}

/// The whole part of 1000 times the length.
fn thousandths(dx: i64, dy: i64) -> u64 {
    let squared = (1_000_000 * (dx * dx + dy * dy)) as u64;
    (1000..3000).rev().find(|cost| cost * cost <= squared).unwrap_or(0)
}

/// From the middle of an open floor to the sum of two neighbouring moves: two routes, by the one first or by the other.
/// The central one is by that which comes first from (1, 0) on.
fn ties_by_angle(tally: &mut Tally) {
    let floor = Floor::open(6, 6);
    let steps = steps_by_angle();
    let at = |dx: i64, dy: i64| floor.vertex(3 + dx, 3 + dy).unwrap_or(0);
    for k in 0..steps.len() {
        let (one, other) = (steps[k], steps[(k + 1) % steps.len()]);
        let goal = at(one.0 + other.0, one.1 + other.1);
        let first = if k + 1 < steps.len() { one } else { other };
        let planned = plan(&floor, 16, at(0, 0) as u64, goal as u64);
        let cost = thousandths(one.0, one.1) + thousandths(other.0, other.1);
        tally.equal("request 8, a tie", planned.answer, route(cost, 2, 3));
        let points = [at(0, 0), at(first.0, first.1), goal].map(|v| v as u16);
        tally.equal("request 8, a tie by angle", planned.points(), &points);
    }
}

/// As floors j and k. From corner to corner of 100 by 33 cells go 33 new moves and 34 cardinal ones in any order, of
/// 100 by 67 cells as many new and 34 diagonal ones, of 102 by 34 cells 34 of each.
fn large_totals(tally: &mut Tally) {
    let corners = |width: u64, height: u64| plan(&Floor::open(width, height), 16, 0, (width + 1) * (height + 1) - 1);
    let (wide, square) = (corners(100, 33), corners(100, 67));
    let total = 14_226_520_737_620_288_370;
    tally.equal("request 8, 100x33", wide.answer, route(33 * 2236 + 34 * 1000, total, 68));
    tally.equal("request 8, 100x67", square.answer, route(33 * 2236 + 34 * 1414, total, 68));
    let over = corners(102, 34);
    tally.equal("request 8, 102x34", over.answer, refusal(8));
    let (d, e) = (over.sheet.d.clone(), over.sheet.e.clone());
    tally.equal("request 8, 102x34 d and e", (d[103 * 35 - 1], e[0]), (34 * 3236, 34 * 3236));
    tally.holds("request 8, 102x34 sheet", over.sheet == Sheet { d, e, ..Sheet::zeros(103 * 35) });
    let k = plan(&Floor::open(127, 127), 16, 0, 130);
    tally.equal("request 8, k", (k.answer, k.points()), (route(2236, 1, 2), &[0, 130][..]));
    tally.equal("request 8, k far distance", k.sheet.d[16_383], 127 * 1414);
    tally.equal("request 8, k on the way", k.sheet.f.iter().filter(|&&count| count > 0).count(), 2);
    for (halls, answer) in [(3, 0), (63, 0), (64, 8)] {
        let case = boundary::doubling_of_sixteen(halls);
        let found = plan(&case.floor, 16, case.start, case.goal).answer;
        let total = if answer == 0 { 1 << halls } else { 0 };
        tally.equal("request 8, 2^k", (found.answer, found.total), (answer, total));
    }
}

/// The table is that of the steps by angle, each with its length for its cost; it is the eight moves and between each
/// two their sum, and the smaller neighbourhoods keep its order.
fn the_table(tally: &mut Tally) {
    let moves = |neighbourhood| graph::moves_of(neighbourhood);
    let offsets = |neighbourhood| moves(neighbourhood).iter().map(|m| (m.dx, m.dy)).collect::<Vec<Point>>();
    tally.equal("request 8, order of angle", offsets(16), steps_by_angle());
    tally.holds("request 8, costs", moves(16).iter().all(|m| m.cost == thousandths(m.dx, m.dy)));
    let eight = offsets(8);
    let sum = |k: usize| (eight[k].0 + eight[(k + 1) % 8].0, eight[k].1 + eight[(k + 1) % 8].1);
    tally.equal("request 8, sums", offsets(16), (0..8).flat_map(|k| [eight[k], sum(k)]).collect());
    tally.equal("request 8, the first of 16", offsets(16)[..5].to_vec(), vec![(1, 0), (2, 1), (1, 1), (1, 2), (0, 1)]);
    let cardinal = |m: &graph::Move| m.dx == 0 || m.dy == 0;
    tally.equal("request 8, 4 in 8", moves(4), moves(8).into_iter().filter(cardinal).collect());
    tally.holds("request 8, 8", moves(8).iter().all(|m| m.cost == if cardinal(m) { 408 } else { 577 }));
    tally.equal("request 8, moves", NEIGHBOURHOODS.map(|number| moves(number).len() as u64), NEIGHBOURHOODS);
    tally.equal("request 8, the most a cost can be", 16_383 * thousandths(2, 1), 36_632_388);
}

/// Whether a move is open by the cells between its ends: of a cardinal move one of the two beside it is open, of any
/// other all in the rectangle of its ends are; and neither end is a pinch.
fn is_open(floor: &Floor, (x, y): Point, (dx, dy): Point) -> bool {
    let cells_open = if dx == 0 || dy == 0 {
        let (i, j) = (x.min(x + dx), y.min(y + dy));
        !floor.is_blocked(i, j) || !floor.is_blocked(i - dy.abs(), j - dx.abs())
    } else {
        let columns = x.min(x + dx)..x.max(x + dx);
        let mut rows = y.min(y + dy)..y.max(y + dy);
        rows.all(|j| columns.clone().all(|i| !floor.is_blocked(i, j)))
    };
    cells_open && !is_pinched(floor, (x, y)) && !is_pinched(floor, (x + dx, y + dy))
}

/// The edges of a graph of 16, with their order and costs, are the steps by angle that are open by their cells and end
/// on the floor.
fn edges_agree(floor: &Floor) -> bool {
    let graph = Graph::of_floor(floor, 16);
    let on_floor = |(x, y): Point| x >= 0 && y >= 0 && x <= floor.width as i64 && y <= floor.height as i64;
    let steps = steps_by_angle();
    (0..floor.vertex_count()).all(|v| {
        let (x, y) = floor.point(v);
        let open = steps.iter().filter(|&&(dx, dy)| on_floor((x + dx, y + dy)) && is_open(floor, (x, y), (dx, dy)));
        let ends = open.map(|&(dx, dy)| (floor.vertex(x + dx, y + dy), thousandths(dx, dy)));
        ends.eq(graph.edges[v].iter().map(|edge| (Some(edge.to), edge.cost)))
    })
}

fn open_moves_by_cells(tally: &mut Tally) {
    for (width, height) in [(1, 1), (2, 1), (1, 2), (2, 2), (3, 2), (2, 3), (3, 3)] {
        let all = all_floors(width, height).all(|floor| edges_agree(&floor));
        tally.holds("request 8, open moves of all small floors", all);
    }
    let mut random = Random::new(9);
    for kind in KINDS {
        tally.holds("request 8, open moves", edges_agree(&layouts::make(kind, &mut random, 13, 11)));
    }
}

/// How many moves of two neighbouring kinds, and their costs, make up a way of so many columns and rows.
fn made_up(dx: i64, dy: i64) -> [(u64, u64); 2] {
    let (long, short) = (dx.abs().max(dy.abs()) as u64, dx.abs().min(dy.abs()) as u64);
    if 2 * short <= long {
        [(long - 2 * short, 1000), (short, 2236)]
    } else {
        [(long - short, 2236), (2 * short - long, 1414)]
    }
}

/// On an open floor the cheapest walks take the two moves between whose angles the goal lies, in any order: costs and
/// counts from every vertex, and no move leaves the floor.
fn open_floors_by_formula(tally: &mut Tally) {
    for (width, height) in (1..=6).flat_map(|width| (1..=6).map(move |height| (width, height))) {
        let floor = Floor::open(width, height);
        let graph = Graph::of_floor(&floor, 16);
        let reversed = graph.reversed();
        for start in 0..graph.size() {
            let distances = graph::distances(&graph, start);
            let counts = count::by_sums(&reversed, &distances, start);
            let agrees = |v: usize| {
                let ((x0, y0), (x, y)) = (floor.point(start), floor.point(v));
                let [one, other] = made_up(x - x0, y - y0);
                let walks = binomial((one.0 + other.0) as u32, one.0 as u32);
                distances[v] == Some(one.0 * one.1 + other.0 * other.1) && counts[v] == walks
            };
            tally.holds("request 8, an open floor", (0..graph.size()).all(agrees));
        }
    }
    tally.equal("request 8, 67 choose 33", binomial(67, 33), Natural::from_u64(14_226_520_737_620_288_370));
}

/// By whole rounds over all edges.
fn distances_on_random_floors(tally: &mut Tally) {
    let mut random = Random::new(10);
    for kind in KINDS {
        for (width, height) in [(9, 8), (30, 3), (4, 25), (20, 17)] {
            let graph = Graph::of_floor(&layouts::make(kind, &mut random, width, height), 16);
            let start = random.index(graph.size());
            let by_rounds = graph::distances_by_rounds(&graph, start);
            tally.holds("request 8, distances by rounds", graph::distances(&graph, start) == by_rounds);
        }
    }
}
