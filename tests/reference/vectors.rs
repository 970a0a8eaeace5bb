//! Known answers: the worked floors of docs/RULES.md, section 18, and the worked numbers of the source documents 000,
//! 002 and 003, each with its place there.

use crate::closures::{Rectangle, Table};
use crate::floor::Floor;
use crate::mend;
use crate::natural::{binomial, Natural};
use crate::packed::{self, PackedFloor};
use crate::sheet::{self, Handed, Lent, PlanAnswer, Request, Sheet, Solver, NO_WALK};
use crate::sight::{self, Obstacle};
use crate::{boundary, changes, legs, program, replay, self_checks, sixteen, stream, thin, writer};

/// Counts what holds and prints what does not.
pub struct Tally {
    passed: u64,
    failed: u64,
}

impl Tally {
    pub fn holds(&mut self, name: &str, condition: bool) {
        if condition {
            self.passed += 1;
        } else {
            self.failed += 1;
            println!("failed: {name}");
        }
    }

    pub fn equal<T: PartialEq + std::fmt::Debug>(&mut self, name: &str, found: T, expected: T) {
        if found != expected {
            println!("{name}: found {found:?}, expected {expected:?}");
        }
        self.holds(name, found == expected);
    }
}

/// Runs everything; whether all of it holds.
pub fn run() -> bool {
    let mut tally = Tally { passed: 0, failed: 0 };
    small_floors(&mut tally);
    small_sight(&mut tally);
    named_obstacles(&mut tally);
    posted_closures(&mut tally);
    packed_maps(&mut tally);
    costs_handed_in(&mut tally);
    next_vertices(&mut tally);
    pinched_ends(&mut tally);
    pinches_on_segments(&mut tally);
    large_totals(&mut tally);
    totals_at_the_boundary(&mut tally);
    bad_shapes(&mut tally);
    source_000_numbers(&mut tally);
    source_000_patterns(&mut tally);
    source_002_sight(&mut tally);
    source_003(&mut tally);
    programs(&mut tally);
    sixteen::run(&mut tally);
    mend::run(&mut tally);
    replay::run(&mut tally);
    changes::run(&mut tally);
    writer::run(&mut tally);
    legs::run(&mut tally);
    self_checks::run(&mut tally);
    println!("reference: {} answers hold, {} do not", tally.passed, tally.failed);
    tally.failed == 0
}

/// What a plan answers and leaves, with the working slice.
pub struct Planned {
    pub answer: PlanAnswer,
    pub sheet: Sheet,
    pub work: Vec<u32>,
}

/// Plans by both operations, with slices of the good length that hold 9 at each place.
pub fn plan(floor: &Floor, neighbourhood: u64, start: u64, goal: u64) -> Planned {
    let size = if floor.shape_fault().is_none() { floor.vertex_count() } else { 4 };
    let (cost, count, point) = (vec![9; size], vec![9; size], vec![9; size]);
    let mut s = Sheet { d: cost.clone(), e: cost, f: count.clone(), b: count, route: point.clone(), next: point, n: 0 };
    let mut solver = Solver::new(floor.clone());
    let (mut work, mut other_work) = (vec![9; 4 * size], vec![9; 4 * size]);
    let first = sheet::costs(&mut solver, neighbourhood, start, &mut s.d, &mut other_work);
    assert!(other_work.iter().all(|&x| x == if first == 0 { 0 } else { 9 }), "the first operation's working slice");
    let Sheet { d, e, f, b, route, next, .. } = &mut s;
    let lent = Lent { e, f, b, route, next, work: &mut work };
    let answer = sheet::finish(&mut solver, Request { neighbourhood, start, goal }, d, lent);
    s.n = answer.n;
    Planned { answer, sheet: s, work }
}

/// What the planner's second operation answers from these costs, with a route slice of the given length.
pub fn finish_from(floor: &Floor, request: Request, d: &[u32], length: usize) -> PlanAnswer {
    finish_lent(floor, request, d, [length, floor.vertex_count()])
}

/// The same, with slices for route and next of the given lengths; the lent slices are untouched at 1 to 6 and at 9.
fn finish_lent(floor: &Floor, request: Request, d: &[u32], lengths: [usize; 2]) -> PlanAnswer {
    let size = floor.vertex_count();
    let [route, next] = lengths.map(|length| vec![9; length]);
    let before = Sheet { route, next, ..Sheet::zeros(size) };
    let (mut s, mut work) = (before.clone(), vec![9; 4 * size]);
    let Sheet { e, f, b, route, next, .. } = &mut s;
    let lent = Lent { e, f, b, route, next, work: &mut work };
    let answer = sheet::finish(&mut Solver::new(floor.clone()), request, d, lent);
    let untouched = s == before && work == vec![9; 4 * size];
    assert_eq!(untouched, !matches!(answer.answer, 0 | 7 | 8), "what the second operation leaves");
    answer
}

pub fn check(floor: &Floor, neighbourhood: u64, start: u64, goal: u64, s: &Sheet) -> u8 {
    let handed = Handed { d: &s.d, e: &s.e, f: &s.f, b: &s.b, route: &s.route, next: &s.next, n: s.n };
    sheet::check(&mut Solver::new(floor.clone()), Request { neighbourhood, start, goal }, &handed)
}

impl Planned {
    pub fn points(&self) -> &[u16] {
        &self.sheet.route[..self.answer.n as usize]
    }

    fn traversal_count(&self, vertex: usize) -> Natural {
        Natural::from_u64(self.sheet.f[vertex]).mul(&Natural::from_u64(self.sheet.b[vertex]))
    }
}

pub fn route(cost: u64, total: u64, n: u64) -> PlanAnswer {
    PlanAnswer { answer: 0, cost, total, n }
}

pub fn refusal(answer: u8) -> PlanAnswer {
    PlanAnswer { answer, cost: 0, total: 0, n: 0 }
}

pub fn sheet_of(d: &[u32], e: &[u32], f: &[u64], b: &[u64], points: &[u16], next: &[u16]) -> Sheet {
    let mut route = points.to_vec();
    route.resize(d.len(), 0);
    let (d, e, f, b, next) = (d.to_vec(), e.to_vec(), f.to_vec(), b.to_vec(), next.to_vec());
    Sheet { d, e, f, b, route, next, n: points.len() as u64 }
}

/// The sheet of a job that no walk joins.
pub fn no_route_sheet(d: &[u32]) -> Sheet {
    Sheet { d: d.to_vec(), ..Sheet::zeros(d.len()) }
}

/// Rules 7.1 and 7.4, on floors e, f and j: jobs from one start share its costs, and any other costs give 9, after 6
/// and before 7 and 8.
fn costs_handed_in(tally: &mut Tally) {
    let (open, wall) = (Floor::open(2, 1), Floor::new(2, 1, vec![0, 1]));
    let job = |neighbourhood, start, goal| Request { neighbourhood, start, goal };
    let d = plan(&open, 8, 0, 5).sheet.d;
    tally.equal("costs of e", d.clone(), vec![0, 408, 816, 408, 577, 985]);
    tally.equal("e, to 5", finish_from(&open, job(8, 0, 5), &d, 6), route(985, 2, 3));
    tally.equal("e, to 4", finish_from(&open, job(8, 0, 4), &d, 6), route(577, 1, 2));
    tally.equal("e, to 0", finish_from(&open, job(8, 0, 0), &d, 6), route(0, 1, 1));
    tally.equal("another start", finish_from(&open, job(8, 1, 5), &d, 6), refusal(9));
    tally.equal("another neighbourhood", finish_from(&open, job(4, 0, 5), &d, 6), refusal(9));
    tally.equal("another floor", finish_from(&wall, job(8, 0, 5), &d, 6), refusal(9));
    tally.equal("6 before 9", finish_from(&wall, job(8, 0, 5), &d, 5), refusal(6));
    tally.equal("d too short", finish_from(&open, job(8, 0, 5), &d[..5], 6), refusal(6));
    tally.equal("5 before 6", finish_from(&open, job(8, 0, 6), &d[..5], 6), refusal(5));
    tally.equal("4 before 5", finish_from(&open, job(5, 0, 6), &d[..5], 6), refusal(4));
    let mut walled = plan(&wall, 8, 0, 5).sheet.d;
    tally.equal("costs of f", walled.clone(), vec![0, 408, NO_WALK, 408, 577, NO_WALK]);
    tally.equal("f", finish_from(&wall, job(8, 0, 5), &walled, 6), refusal(7));
    walled[5] -= 1;
    tally.equal("9 before 7", finish_from(&wall, job(8, 0, 5), &walled, 6), refusal(9));
    let many = Floor::open(34, 34);
    let mut far = plan(&many, 4, 0, 1).sheet.d;
    tally.equal("j", finish_from(&many, job(4, 0, 1224), &far, 1225), refusal(8));
    far[0] = 1;
    tally.equal("9 before 8", finish_from(&many, job(4, 0, 1224), &far, 1225), refusal(9));
}

/// Rule 5.3, on worked floors: at each vertex on the way the next by the central rule, at the goal the goal, elsewhere
/// 0. On the floor of three cells in a row the traversal counts of 2 and 5 are equal, where f is 1 and 2.
fn next_vertices(tally: &mut Tally) {
    let (open, shut) = (Floor::open(2, 1), Floor::new(2, 1, vec![0, 1]));
    let g = Floor::new(2, 2, vec![1, 0, 0, 1]);
    let jobs: [(&str, &Floor, u64, u64, u64, &[u16]); 10] = [
        ("d", &Floor::new(1, 1, vec![1]), 8, 0, 0, &[0, 0, 0, 0]),
        ("equal ends", &open, 8, 4, 4, &[0, 0, 0, 0, 4, 0]),
        ("e", &open, 8, 0, 5, &[1, 5, 0, 0, 5, 5]),
        ("e, from 5 to 0", &open, 8, 5, 0, &[0, 0, 0, 0, 0, 4]),
        ("f", &shut, 8, 0, 5, &[0; 6]),
        ("f, the open cell", &shut, 4, 0, 4, &[1, 4, 0, 4, 4, 0]),
        ("g", &g, 8, 2, 6, &[0; 9]),
        ("g, round the pinch", &g, 4, 1, 5, &[0, 2, 5, 0, 0, 5, 0, 0, 0]),
        ("h", &Floor::open(2, 2), 4, 0, 8, &[1, 4, 5, 4, 5, 8, 7, 8, 8]),
        ("three cells in a row", &Floor::open(3, 1), 4, 0, 7, &[1, 2, 6, 7, 5, 6, 7, 7]),
    ];
    for (name, floor, neighbourhood, start, goal, next) in jobs {
        let planned = plan(floor, neighbourhood, start, goal);
        tally.equal(&format!("request 7, {name}"), &planned.sheet.next[..], next);
        let answer = check(floor, neighbourhood, start, goal, &planned.sheet);
        tally.equal(&format!("request 7, {name}, checked"), answer, planned.answer.answer);
    }
    let (job, d) = (Request { neighbourhood: 8, start: 0, goal: 5 }, [0, 408, 816, 408, 577, 985]);
    for length in [0, 5, 7] {
        tally.equal("request 7, 6", finish_lent(&open, job, &d, [6, length]), refusal(6));
        tally.equal("request 7, 6 before 9", finish_lent(&open, job, &[0; 6], [6, length]), refusal(6));
        let next = vec![0; length];
        tally.equal("request 7, 6, checked", check(&open, 8, 0, 5, &Sheet { next, ..Sheet::zeros(6) }), 6);
    }
}

/// Floors a to h of docs/RULES.md, section 18.
fn small_floors(tally: &mut Tally) {
    let a = plan(&Floor::open(1, 1), 8, 0, 3);
    tally.equal("a", a.answer, route(577, 1, 2));
    let (d, e) = ([0, 408, 408, 577], [577, 408, 408, 0]);
    let sheet = sheet_of(&d, &e, &[1, 0, 0, 1], &[1, 0, 0, 1], &[0, 3], &[3, 0, 0, 3]);
    tally.equal("a sheet", a.sheet, sheet);
    tally.equal("a work", a.work, vec![0; 16]);
    let b = plan(&Floor::open(1, 1), 4, 0, 3);
    tally.equal("b", b.answer, route(816, 2, 3));
    let (d, e) = ([0, 408, 408, 816], [816, 408, 408, 0]);
    let sheet = sheet_of(&d, &e, &[1, 1, 1, 2], &[2, 1, 1, 1], &[0, 1, 3], &[1, 3, 3, 3]);
    tally.equal("b sheet", b.sheet.clone(), sheet);
    tally.equal("b kept", thin::kept_positions(&Floor::open(1, 1), b.points()), vec![0, 2]);
    blocked_floors(tally);
    let e = plan(&Floor::open(2, 1), 8, 0, 5);
    tally.equal("e", e.answer, route(985, 2, 3));
    tally.equal("e route", e.points(), &[0, 1, 5]);
    tally.equal("e kept", thin::kept_positions(&Floor::open(2, 1), e.points()), vec![0, 2]);
    let h = plan(&Floor::open(2, 2), 4, 0, 8);
    tally.equal("h", h.answer, route(1632, 6, 5));
    tally.equal("h traversal count", h.traversal_count(4), Natural::from_u64(4));
    tally.equal("h route", h.points(), &[0, 1, 4, 5, 8]);
}

/// Floors c, d and f, and the sheets that they leave.
fn blocked_floors(tally: &mut Tally) {
    let blocked = Floor::new(1, 1, vec![1]);
    let c = plan(&blocked, 8, 0, 3);
    tally.equal("c", c.answer, refusal(7));
    tally.equal("c sheet", c.sheet, no_route_sheet(&[0, NO_WALK, NO_WALK, NO_WALK]));
    tally.equal("c work", c.work, vec![0; 16]);
    let d = plan(&blocked, 8, 0, 0);
    tally.equal("d", d.answer, route(0, 1, 1));
    tally.equal("d route", d.points(), &[0]);
    let half = Floor::new(2, 1, vec![0, 1]);
    let f = plan(&half, 8, 0, 5);
    tally.equal("f", f.answer, refusal(7));
    let costs = [0, 408, NO_WALK, 408, 577, NO_WALK];
    tally.equal("f sheet", f.sheet.clone(), no_route_sheet(&costs));
    tally.equal("f checked", check(&half, 8, 0, 5, &f.sheet), 7);
    // 4 is the only pinch, so that no move joins the two open cells.
    let touching = Floor::new(2, 2, vec![1, 0, 0, 1]);
    let pinches: Vec<usize> = (0..9).filter(|&v| sight::is_pinch(&touching, touching.point(v))).collect();
    tally.equal("g pinches", pinches, vec![4]);
    let g = plan(&touching, 8, 2, 6);
    tally.equal("g", g.answer, refusal(7));
    let costs = [NO_WALK, 408, 0, NO_WALK, NO_WALK, 408, NO_WALK, NO_WALK, NO_WALK];
    tally.equal("g sheet", g.sheet.clone(), no_route_sheet(&costs));
    tally.equal("g checked", check(&touching, 8, 2, 6, &g.sheet), 7);
}

/// Rule 6.5, on floor g: an end that is a pinch is refused after 5, before 6 and 9, equal ends included, by both of the
/// planner's operations and by the checker.
fn pinched_ends(tally: &mut Tally) {
    let floor = Floor::new(2, 2, vec![1, 0, 0, 1]);
    let jobs = [(8, 2, 4, 11), (8, 4, 2, 11), (4, 4, 4, 11), (8, 4, 9, 5), (8, 9, 4, 5), (5, 4, 4, 4)];
    for (neighbourhood, start, goal, answer) in jobs {
        let name = format!("request 5, {neighbourhood}, {start} to {goal}");
        let planned = plan(&floor, neighbourhood, start, goal);
        tally.equal(&name, planned.answer, refusal(answer));
        tally.holds(&name, planned.sheet.e.iter().chain(&planned.work).all(|&x| x == 9));
        tally.equal(&name, check(&floor, neighbourhood, start, goal, &planned.sheet), answer);
    }
    let to_pinch = Request { neighbourhood: 8, start: 2, goal: 4 };
    let costs = [NO_WALK, 408, 0, NO_WALK, NO_WALK, 408, NO_WALK, NO_WALK, NO_WALK];
    tally.equal("11 from true costs", finish_from(&floor, to_pinch, &costs, 9), refusal(11));
    tally.equal("11 before 9", finish_from(&floor, to_pinch, &[0; 9], 9), refusal(11));
    tally.equal("11 before 6", finish_from(&floor, to_pinch, &costs, 8), refusal(11));
    tally.equal("11 before 6 of the check", check(&floor, 8, 4, 2, &Sheet::zeros(8)), 11);
    let mut lent = ([9; 8], [9; 36]);
    let answer = sheet::costs(&mut Solver::new(floor), 8, 4, &mut lent.0, &mut lent.1);
    tally.equal("11 before 6 of the costs", (answer, lent), (11, ([9; 8], [9; 36])));
}

/// Floor i.
fn small_sight(tally: &mut Tally) {
    let mut entered = Vec::new();
    for j in 0..2 {
        for i in 0..3 {
            if sight::enters_cell((0, 0), (3, 2), i, j) {
                entered.push((i, j));
            }
        }
    }
    tally.equal("i", entered, vec![(0, 0), (1, 0), (1, 1), (2, 1)]);
}

/// Rules 2.8 and 2.9, on floors i, f and g: from (0, 0) to (3, 2) cells 0, 1, 4 and 5 are entered.
fn named_obstacles(tally: &mut Tally) {
    let cell = |number| Ok(Obstacle::Cell(number));
    let step = |number| Ok(Obstacle::Step(number));
    let pinch = |number| Ok(Obstacle::Pinch(number));
    let clear = Ok(Obstacle::Clear);
    let i = |blocked: &[usize]| {
        let mut floor = Floor::open(3, 2);
        blocked.iter().for_each(|&c| floor.cells[c] = 1);
        floor
    };
    let (f, g) = (Floor::new(2, 1, vec![0, 1]), Floor::new(2, 2, vec![1, 0, 0, 1]));
    let questions = [
        (i(&[1, 5]), 0, 11, cell(1)),
        (i(&[1, 5]), 11, 0, cell(5)),
        (i(&[1, 4]), 0, 11, cell(1)),
        (i(&[1, 4]), 11, 0, cell(4)),
        (i(&[2, 3]), 0, 11, clear),
        (i(&[2, 3]), 11, 0, clear),
        (f.clone(), 0, 2, step(1)),
        (f.clone(), 2, 0, step(2)),
        (f.clone(), 0, 6, Err(5)),
        (g.clone(), 0, 8, cell(0)),
        (g.clone(), 8, 0, cell(3)),
        (g.clone(), 2, 6, pinch(4)),
        (g.clone(), 6, 2, pinch(4)),
        (g.clone(), 2, 4, pinch(4)),
        (g.clone(), 4, 2, pinch(4)),
        (g.clone(), 1, 7, pinch(4)),
        (g.clone(), 4, 4, clear),
        (g.clone(), 0, 6, step(0)),
        (g.clone(), 6, 0, step(3)),
        (g, 0, 0, clear),
    ];
    for (floor, from, to, answer) in questions {
        tally.equal("request 2", sight::obstacle_question(&floor, from, to), answer);
        tally.equal("yes or no", sight::question(&floor, from, to), answer.map(|found| found == Obstacle::Clear));
    }
}

/// Rules 2.4 to 2.8. On a floor of 4 by 4 cells with 1, 6, 9 and 14 blocked the pinches are 7, 12 and 17, at (2, 1),
/// (2, 2) and (2, 3); on floors of 6 by 3 cells with 2 and 9 blocked vertex 10 is one, at (3, 1).
fn pinches_on_segments(tally: &mut Tally) {
    let floor = |width: u64, height: u64, blocked: &[usize]| {
        let mut floor = Floor::open(width, height);
        blocked.iter().for_each(|&c| floor.cells[c] = 1);
        floor
    };
    let upright = floor(4, 4, &[1, 6, 9, 14]);
    let slanted = floor(6, 3, &[2, 9]);
    let (cell, step, pinch) = (Obstacle::Cell, Obstacle::Step, Obstacle::Pinch);
    let questions = [
        // All three on a column line: the nearest is named.
        (upright.clone(), 2, 22, pinch(7)),
        (upright.clone(), 22, 2, pinch(17)),
        (upright.clone(), 12, 22, pinch(12)),
        // Along a row line, and the part of it before the pinch.
        (upright.clone(), 5, 9, pinch(7)),
        (upright.clone(), 5, 6, Obstacle::Clear),
        (upright, 9, 6, pinch(7)),
        // Strictly inside a slanted segment, from (5, 0) to (1, 2) and from (4, 0) to (2, 2).
        (slanted.clone(), 5, 15, pinch(10)),
        (slanted.clone(), 15, 5, pinch(10)),
        (slanted.clone(), 4, 16, pinch(10)),
        // From (6, 0) to (0, 2), with cell 7 blocked behind the pinch: the cell is named from both ends.
        (floor(6, 3, &[2, 9, 7]), 6, 14, cell(7)),
        (floor(6, 3, &[2, 9, 7]), 14, 6, cell(7)),
        // On the row line through the pinch a shut step from (5, 1) to (6, 1).
        (floor(6, 3, &[2, 9, 5, 11]), 7, 13, step(12)),
        (floor(6, 3, &[2, 9, 5, 11]), 13, 7, step(13)),
        (floor(6, 3, &[2, 9, 5, 11]), 7, 12, pinch(10)),
        // On the pinch's row line beyond it; past the pinch, from (5, 0) to (2, 2).
        (slanted.clone(), 11, 13, Obstacle::Clear),
        (slanted, 5, 16, cell(9)),
    ];
    for (floor, from, to, answer) in questions {
        tally.equal("request 5", sight::obstacle_question(&floor, from, to), Ok(answer));
        let joined = thin::thin(&floor, &[from as u16, to as u16], &mut [9; 2], 2);
        tally.equal("request 5, thinning", joined, if answer == Obstacle::Clear { (0, 2) } else { (10, 0) });
    }
    let g = Floor::new(2, 2, vec![1, 0, 0, 1]);
    tally.equal("a pinch three times", thin::thin(&g, &[4, 4, 4], &mut [9; 3], 3), (0, 2));
    tally.equal("a pinch and another vertex", thin::thin(&g, &[4, 4, 5], &mut [9; 3], 3), (10, 0));
}

/// Section 11, on a floor of 3 by 2 cells with cell 5 blocked.
fn posted_closures(tally: &mut Tally) {
    let base = Floor::new(3, 2, vec![0, 0, 0, 0, 0, 1]);
    let mut table = Table::empty();
    let rectangle = |column, row, columns, rows| Rectangle { column, row, columns, rows };
    let map = |table: &Table| table.working_cells(&base);
    tally.equal("request 1, empty", map(&table), Ok(vec![0, 0, 0, 0, 0, 1]));
    tally.equal("request 1, column 0", table.post(3, 2, rectangle(0, 0, 1, 2)), Ok(0));
    tally.equal("request 1, cell 2", table.post(3, 2, rectangle(2, 0, 1, 1)), Ok(1));
    tally.equal("request 1, two held", map(&table), Ok(vec![1, 0, 1, 1, 0, 1]));
    for bad in [(0, 0, 0, 1), (0, 0, 1, 0), (2, 0, 2, 1), (0, 1, 1, 2), (u32::MAX, 0, 1, 1), (0, 1, 1, u32::MAX)] {
        let (column, row, columns, rows) = bad;
        tally.equal("request 1, 12", table.post(3, 2, rectangle(column, row, columns, rows)), Err(12));
    }
    tally.equal("request 1, strike", table.strike(3, 2, 0), Ok(()));
    tally.equal("request 1, strike again", table.strike(3, 2, 0), Err(14));
    tally.equal("request 1, strike 16", table.strike(3, 2, 16), Err(14));
    tally.equal("request 1, lowest free", table.post(3, 2, rectangle(1, 1, 1, 1)), Ok(0));
    tally.equal("request 1, after a strike", map(&table), Ok(vec![0, 0, 1, 0, 1, 1]));
    for slot in 2..16 {
        tally.equal("request 1, filled", table.post(3, 2, rectangle(0, 0, 1, 1)), Ok(slot));
    }
    tally.equal("request 1, 13", table.post(3, 2, rectangle(0, 0, 1, 1)), Err(13));
    tally.equal("request 1, 12 before 13", table.post(3, 2, rectangle(3, 0, 1, 1)), Err(12));
    tally.equal("request 1, 1 before 12", table.post(0, 2, rectangle(0, 0, 0, 0)), Err(1));
    tally.equal("request 1, 1 before 14", table.strike(3, 128, 16), Err(1));
    for length in [0, 2] {
        let mut working = vec![9; length];
        tally.equal("request 1, 6", packed::working_map(&table, &PackedFloor::of(&base), &mut working), Err(6));
        tally.equal("request 1, 6, untouched", working, vec![9; length]);
    }
}

/// Rules 1.6 and 1.7: cell c in byte c/8, at bit c mod 8 from the low end, the unused high bits 0.
fn packed_maps(tally: &mut Tally) {
    let map = |width: u64, height: u64, blocked: &[usize]| {
        let mut floor = Floor::open(width, height);
        blocked.iter().for_each(|&c| floor.cells[c] = 1);
        PackedFloor::of(&floor).map
    };
    tally.equal("floor c", map(1, 1, &[0]), vec![1]);
    tally.equal("floor f", map(2, 1, &[1]), vec![2]);
    tally.equal("floor g", map(2, 2, &[0, 3]), vec![9]);
    tally.equal("eight cells", map(4, 2, &[0, 7]), vec![129]);
    tally.equal("nine cells", map(3, 3, &[7, 8]), vec![128, 1]);
    tally.equal("the last of sixteen", map(16, 1, &[15]), vec![0, 128]);
    tally.equal("cell 10 of 3 by 5", map(3, 5, &[10]), vec![0, 4]);
    tally.equal("all of 3 by 5", map(3, 5, &(0..15).collect::<Vec<_>>()), vec![255, 127]);
    let fault = |width, height, map: &[u8]| PackedFloor::new(width, height, map.to_vec()).fault();
    let refused = [
        (fault(2, 2, &[9]), None),
        (fault(2, 2, &[15]), None),
        (fault(2, 2, &[16]), Some(3)),
        (fault(2, 2, &[128]), Some(3)),
        (fault(4, 2, &[255]), None),
        (fault(3, 3, &[255, 1]), None),
        (fault(3, 3, &[0, 2]), Some(3)),
        (fault(2, 2, &[]), Some(2)),
        (fault(2, 2, &[255, 0]), Some(2)),
        (fault(2, 2, &[1, 0, 0, 1]), Some(2)),
        (fault(4, 2, &[0, 0]), Some(2)),
        (fault(3, 3, &[0]), Some(2)),
        (fault(3, 3, &[0, 0, 0]), Some(2)),
        (fault(0, 2, &[1]), Some(1)),
        (fault(128, 128, &[0; 2048]), Some(1)),
        (fault(127, 127, &[0; 2016]), Some(2)),
        (fault(127, 127, &[0; 2017]), None),
        (fault(127, 127, &[0; 2018]), Some(2)),
        (fault(127, 127, &[255; 2017]), Some(3)),
    ];
    for (k, (found, expected)) in refused.into_iter().enumerate() {
        tally.equal(&format!("request 6, map {k}"), found, expected);
    }
    packed_closures(tally);
}

/// The working map's unused bits are 0, and its base map is refused as a floor's is.
fn packed_closures(tally: &mut Tally) {
    let mut table = Table::empty();
    let working = |table: &Table, base: &[u8], length: usize| {
        let mut working = vec![255; length];
        packed::working_map(table, &PackedFloor::new(3, 3, base.to_vec()), &mut working).map(|()| working)
    };
    tally.equal("request 6, empty", working(&table, &[16, 1], 2), Ok(vec![16, 1]));
    tally.equal("request 6, row 2", table.post(3, 3, Rectangle { column: 0, row: 2, columns: 3, rows: 1 }), Ok(0));
    tally.equal("request 6, one held", working(&table, &[16, 0], 2), Ok(vec![208, 1]));
    tally.equal("request 6, all", table.post(3, 3, Rectangle { column: 0, row: 0, columns: 3, rows: 3 }), Ok(1));
    tally.equal("request 6, all held", working(&table, &[0, 0], 2), Ok(vec![255, 1]));
    tally.equal("request 6, 3", working(&table, &[0, 2], 2), Err(3));
    tally.equal("request 6, 3 before 6", working(&table, &[0, 128], 3), Err(3));
    tally.equal("request 6, 2 before 3", working(&table, &[0, 2, 0], 3), Err(2));
    tally.equal("request 6, 6", working(&table, &[0, 1], 9), Err(6));
}

/// Floors j and k.
fn large_totals(tally: &mut Tally) {
    let total = plan(&Floor::open(33, 34), 4, 0, 34 * 35 - 1).answer.total;
    tally.equal("j 33x34", total, 14_226_520_737_620_288_370);
    tally.equal("j 33x34 as a binomial", Natural::from_u64(total), binomial(67, 33));
    let over = plan(&Floor::open(34, 34), 4, 0, 35 * 35 - 1);
    tally.equal("j 34x34", over.answer, refusal(8));
    let zero = |values: &[u64]| values.iter().all(|&x| x == 0);
    let points = over.sheet.route.iter().chain(&over.sheet.next);
    let left = zero(&over.sheet.f) && zero(&over.sheet.b) && points.clone().all(|&v| v == 0);
    tally.holds("j 34x34 leaves f, b, route and next 0", left);
    tally.holds("j 34x34 leaves the working slice 0", over.work.iter().all(|&x| x == 0));
    tally.equal("j 34x34 d", over.sheet.d[35 * 35 - 1], 68 * 408);
    tally.equal("j 34x34 e", over.sheet.e[0], 68 * 408);
    tally.equal("j 34x34 checked", check(&Floor::open(34, 34), 4, 0, 35 * 35 - 1, &over.sheet), 9);
    let k = plan(&Floor::open(127, 127), 4, 0, 1);
    tally.equal("k", k.answer, route(408, 1, 2));
    tally.equal("k far distance", k.sheet.d[16_383], 254 * 408);
    tally.holds("k far count", binomial(254, 127).to_u64().is_none());
    tally.equal("k on the way", k.sheet.f.iter().filter(|&&count| count > 0).count(), 2);
    tally.holds("k next", k.sheet.next[..2] == [1, 1] && k.sheet.next[2..].iter().all(|&v| v == 0));
}

/// Totals of 2^63, 2^64 - 1, 2^64 and above.
fn totals_at_the_boundary(tally: &mut Tally) {
    let answer = |case: boundary::Case| plan(&case.floor, 4, case.start, case.goal).answer;
    tally.equal("2^63", answer(boundary::doubling(63)).total, 1 << 63);
    tally.equal("2^64", answer(boundary::doubling(64)), refusal(8));
    let largest = answer(boundary::product(16));
    tally.equal("2^64 - 1", (largest.answer, largest.total), (0, u64::MAX));
    tally.equal("above 2^64", answer(boundary::product(17)), refusal(8));
}

/// Floors l, and the order of the refusals.
fn bad_shapes(tally: &mut Tally) {
    for (width, height) in [(0, 1), (1, 0), (128, 1), (1, 128)] {
        tally.equal("l sizes", plan(&Floor::open(width, height), 4, 0, 0).answer, refusal(1));
    }
    for map in [vec![], vec![0; 2], vec![0; 4]] {
        let floor = PackedFloor::new(2, 2, map).floor();
        tally.equal("l map length", plan(&floor, 4, 0, 0).answer, refusal(2));
    }
    let open = Floor::open(3, 2);
    tally.equal("l end V - 1", plan(&open, 8, 0, 11).answer.answer, 0);
    let refused = plan(&open, 8, 0, 12);
    tally.equal("l end V", refused.answer, refusal(5));
    tally.holds("l untouched", refused.sheet.e.iter().chain(&refused.work).all(|&x| x == 9));
    let refused = plan(&open, 8, 12, 0);
    tally.equal("l start V", refused.answer, refusal(5));
    tally.holds("l untouched", refused.sheet.d.iter().chain(&refused.work).all(|&x| x == 9));
    let stray = PackedFloor::new(1, 1, vec![2]).floor();
    tally.equal("unused bit", plan(&stray, 5, 9, 9).answer, refusal(3));
    tally.equal("unused bit, checked", check(&stray, 5, 9, 9, &Sheet::zeros(3)), 3);
    tally.equal("unused bit, thinned", thin::thin(&stray, &[9], &mut [], 0), (3, 0));
    tally.equal("unused bit, sight", sight::question(&stray, 9, 9), Err(3));
    tally.equal("neighbourhood before ends", plan(&open, 5, 12, 12).answer, refusal(4));
    tally.equal("slice length", check(&open, 8, 0, 11, &Sheet::zeros(11)), 6);
    tally.equal("thinning no list", thin::thin(&open, &[], &mut [], 0), (10, 0));
    tally.equal("thinning other length", thin::thin(&open, &[0, 1], &mut [0], 2), (6, 0));
    tally.equal("thinning one point", thin::thin(&open, &[5], &mut [7], 1), (0, 1));
    tally.equal("sight refusals", sight::question(&open, 12, 0), Err(5));
}

/// Total of an open floor from its first vertex to its last.
fn open_answer(width: u64, height: u64, neighbourhood: u64) -> PlanAnswer {
    let floor = Floor::open(width, height);
    plan(&floor, neighbourhood, 0, floor.vertex_count() as u64 - 1).answer
}

/// Numbers given in the text of document 000.
fn source_000_numbers(tally: &mut Tally) {
    // Section 2.3: "To get from [0; 0] to [6; 3] using the 8-neighborhood ... one
    // needs three of each"; equation (8) then counts 6!/(3! 3!) = 20 orders.
    tally.equal("000 2.3", open_answer(6, 3, 8), route(3 * 408 + 3 * 577, 20, 7));
    // Section 3.1: "there are 70 shortest grid paths between the top of the triangle
    // in Figure 5 and the vertex in the middle of the bottom row": row 8, middle.
    tally.equal("000 3.1, neighbourhood 8", open_answer(8, 4, 8).total, 70);
    tally.equal("000 3.1, neighbourhood 4", open_answer(4, 4, 4).total, 70);
    // Section 3.2: lengths 408 and 577, whose quotient is close to the root of 2.
    tally.holds("000 3.2", 577u64 * 577 == 2 * 408 * 408 + 1);
    // Section 4.2, Figure 18: from [0; 0] to [64; 32] at a grid spacing of 32, then
    // halved: s by s/2 moves. Section 4.2: n!/(k! (n - k)!) ways to [n; k].
    let totals: [u64; 6] = [2, 6, 70, 12_870, 601_080_390, 1_832_624_140_942_590_534];
    for (k, total) in totals.into_iter().enumerate() {
        let side = 2 << k;
        let cost = side / 2 * (408 + 577);
        tally.equal("000 4.2, Figure 18", open_answer(side, side / 2, 8), route(cost, total, side + 1));
        let formula = binomial(side as u32, side as u32 / 2);
        tally.equal("000 4.2, the formula", formula.decimal(), total.to_string());
    }
}

/// Patterns of counts described in document 000.
fn source_000_patterns(tally: &mut Tally) {
    pascal_rows(tally);
    pascal_around_a_square(tally);
    mirrored_counts(tally);
}

/// Section 3.1, Figure 5: the top rows of Pascal's triangle, down to the row with 70.
fn pascal_rows(tally: &mut Tally) {
    let floor = Floor::open(8, 8);
    for n in 0..=8u32 {
        for k in 0..=n {
            let count = plan(&floor, 8, 0, u64::from(k * 9 + n)).answer.total;
            tally.equal("000 3.1, rows, neighbourhood 8", Natural::from_u64(count), binomial(n, k));
            let count = plan(&floor, 4, 0, u64::from(k * 9 + n - k)).answer.total;
            tally.equal("000 3.1, rows, neighbourhood 4", Natural::from_u64(count), binomial(n, k));
        }
    }
}

/// Section 4.1, Figure 10: outward counts on an 8-neighbor grid form 8 copies of
/// Pascal's triangle; equation (8) gives each. The same with 4 copies for 4.
fn pascal_around_a_square(tally: &mut Tally) {
    let floor = Floor::open(10, 10);
    let mut solver = Solver::new(floor.clone());
    let centre = floor.vertex(5, 5).unwrap();
    for vertex in 0..floor.vertex_count() {
        let (x, y) = floor.point(vertex);
        let (dx, dy) = (x.abs_diff(5) as u32, y.abs_diff(5) as u32);
        let mut total = |neighbourhood| match &*solver.truth(neighbourhood, centre, vertex) {
            sheet::Truth::Route { total, .. } => Natural::from_u64(*total),
            _ => Natural::zero(),
        };
        tally.equal("000 4.1, Figure 10", total(8), binomial(dx.max(dy), dx.min(dy)));
        tally.equal("000 4.1, neighbourhood 4", total(4), binomial(dx + dy, dx));
    }
}

/// Section 4.2: from A n!/(k! (n - k)!) ways to [n; k], from B the same with N - n
/// and K - k; and Section 3.1, Figure 6d: the counts from B are those from A,
/// flipped across both axes.
fn mirrored_counts(tally: &mut Tally) {
    let (width, height) = (16, 8);
    let floor = Floor::open(width, height);
    let last = floor.vertex_count() - 1;
    let planned = plan(&floor, 8, 0, last as u64);
    for vertex in 0..=last {
        let (n, k) = floor.point(vertex);
        let (n, k) = (n as u32, k as u32);
        let on_the_way = k <= n && n - k <= 8;
        let from_start = if on_the_way { binomial(n, k) } else { Natural::zero() };
        let to_goal = if on_the_way { binomial(16 - n, 8 - k) } else { Natural::zero() };
        tally.equal("000 4.2, from A", Natural::from_u64(planned.sheet.f[vertex]), from_start);
        tally.equal("000 4.2, from B", Natural::from_u64(planned.sheet.b[vertex]), to_goal);
        tally.equal("000 3.1, flipped", planned.sheet.b[vertex], planned.sheet.f[last - vertex]);
    }
    for (n, &vertex) in planned.points().iter().enumerate() {
        let column = (0..=last).filter(|&v| floor.point(v).0 == n as i64);
        let highest = column.map(|v| planned.traversal_count(v)).max();
        tally.equal("000 3.1, Figure 6f", Some(planned.traversal_count(vertex.into())), highest);
    }
}

/// Document 002, "Path planning problem and notation": not through the interior of blocked cells, not between blocked
/// cells that share an edge. It lets a path between diagonally touching blocked cells, which rule 2.6 does not.
fn source_002_sight(tally: &mut Tally) {
    let touching = Floor::new(2, 2, vec![1, 0, 0, 1]);
    tally.holds("request 5, between touching cells", !sight::sees(&touching, (2, 0), (0, 2)));
    tally.holds("002 through the interior", !sight::sees(&touching, (0, 0), (2, 2)));
    let wall = Floor::new(2, 3, vec![0, 0, 1, 1, 0, 0]);
    tally.holds("002 between cells with a shared edge", !sight::sees(&wall, (1, 0), (1, 3)));
    tally.holds("002 along one blocked cell", sight::sees(&Floor::new(2, 2, vec![1, 0, 0, 0]), (1, 0), (1, 2)));
    tally.holds("outside is blocked", !sight::sees(&touching, (0, 0), (0, 1)));
    tally.holds("a vertex sees itself", sight::sees(&Floor::new(1, 1, vec![1]), (1, 1), (1, 1)));
}

/// Open rectangles given by corner and size, everything else blocked.
fn carved(width: u64, height: u64, open: &[(u64, u64, u64, u64)]) -> Floor {
    let mut floor = Floor::new(width, height, vec![1; (width * height) as usize]);
    for &(left, top, columns, rows) in open {
        for j in top..top + rows {
            for i in left..left + columns {
                floor.cells[(j * width + i) as usize] = 0;
            }
        }
    }
    floor
}

/// Document 003. Its figures are not in the text: the last two floors are made to
/// have the numbers that the text gives.
fn source_003(tally: &mut Tally) {
    // "Pascal's Triangle": "exactly 6 shortest grid paths from the top cell of the
    // triangle to that bottom middle cell", the fifth row.
    tally.equal("003 six paths, neighbourhood 4", open_answer(2, 2, 4).total, 6);
    tally.equal("003 six paths, neighbourhood 8", open_answer(4, 2, 8).total, 6);
    // "The Ugly Path Problem": 400 shortest paths of 15 moves, 4 directions.
    let squares = carved(4, 9, &[(0, 0, 4, 3), (3, 3, 1, 3), (0, 6, 4, 3)]);
    let goal = squares.vertex(0, 9).unwrap() as u64;
    tally.equal("003 400 paths", plan(&squares, 4, 0, goal).answer, route(15 * 408, 400, 16));
    // "Pathfinding by Counting": 12 paths from A and 20 from B make 12 times 20 = 240.
    let chain = carved(12, 5, &[(0, 0, 12, 1), (11, 1, 1, 1), (8, 2, 4, 3)]);
    let planned = plan(&chain, 4, 0, chain.vertex(8, 5).unwrap() as u64);
    let middle = chain.vertex(11, 1).unwrap();
    tally.equal("003 12 from A", planned.sheet.f[middle], 12);
    tally.equal("003 20 from B", planned.sheet.b[middle], 20);
    tally.equal("003 240 paths", planned.traversal_count(middle), Natural::from_u64(240));
}

/// Section 16: the program.
fn programs(tally: &mut Tally) {
    let example = "job 1: cost 816 routes 2 points 3 kept 2\nat 0 3\n";
    let bytes = [0x4D, 0x50, 1, 1, 0, 0x4A, 0x42, 4, 0, 0, 3, 0];
    tally.equal("program example", program::run(&bytes), example.to_string());
    let bytes = [0x4D, 0x50, 2, 1, 0, 0, 0x4A, 0x42, 0x10, 0, 0, 5, 0];
    let case_e = "job 1: cost 2236 routes 1 points 2 kept 2\nat 0 5\n";
    tally.equal("program, e with 16", program::run(&bytes), case_e.to_string());
    let with_4 = "cost 1224 routes 3 points 4 kept 2\nat 0 5";
    let with_8 = "cost 985 routes 2 points 3 kept 2\nat 0 5";
    let with_16 = "cost 2236 routes 1 points 2 kept 2\nat 0 5";
    let with_none = "refused 4";
    let alone = "cost 0 routes 1 points 1 kept 1\nat 0";
    // The lines of jobs from a number on.
    let jobs = |first: usize, texts: &[&str]| -> String {
        texts.iter().zip(first..).map(|(text, number)| format!("job {number}: {text}\n")).collect()
    };
    let e_in_turn = jobs(1, &[with_4, with_8, with_16, with_16, with_8, with_4, with_16, with_4]);
    let e_refused = jobs(9, &[with_none, with_none, with_16, with_none, with_none, with_none]);
    let expected = [
        example,
        "bad record at 0\n",
        "",
        "bad record at 0\n",
        "bad record at 0\n",
        &format!("{example}bad record at 12\n"),
        &format!("{example}bad record at 12\n"),
        "bad record at 0\n",
        &format!("{example}bad record at 12\n"),
        &format!("{example}bad record at 12\n"),
        "bad record at 0\n",
        "bad record at 0\n",
        "bad record at 0\n",
        "bad record at 0\n",
        "job 1: cost 17887 routes 1 points 32 kept 2\nat 0 1023\njob 2: refused 5\n",
        "job 1: refused 4\njob 2: refused 5\njob 3: refused 5\njob 4: cost 0 routes 1 points 1 kept 1\nat 2\n",
        // Rule 6.5: 4, then 5 for either end, then 11.
        "job 1: refused 7\njob 2: refused 11\njob 3: refused 11\njob 4: refused 11\njob 5: refused 5\n\
         job 6: refused 5\njob 7: refused 4\njob 8: cost 408 routes 1 points 2 kept 2\nat 2 5\n",
        // Floor e with 16; e with each in turn, and 4 for what is none; c, and d on its floor; a pinch.
        case_e,
        &(e_in_turn + &e_refused),
        &(jobs(1, &["refused 7"; 8]) + &jobs(9, &[alone; 8])),
        "job 1: refused 7\njob 2: refused 11\n",
    ];
    let streams = stream::short_streams();
    tally.equal("short streams", streams.len(), expected.len());
    for (k, (bytes, text)) in streams.iter().zip(expected).enumerate() {
        tally.equal(&format!("short stream {k}"), program::run(bytes), text.to_string());
    }
    long_program(tally);
}

fn long_program(tally: &mut Tally) {
    let text = program::run(&stream::long_stream());
    for refusal in [4, 5, 7, 8] {
        let ending = format!("refused {refusal}");
        tally.holds("long stream refusals", text.lines().any(|line| line.ends_with(&ending)));
    }
    let jobs = text.lines().filter(|line| line.starts_with("job ")).count();
    tally.equal("long stream jobs", jobs, 1000);
    let last = format!("bad record at {}", 4 + 31 * 31 + 1000 * 7);
    tally.equal("long stream end", text.lines().last(), Some(last.as_str()));
}
