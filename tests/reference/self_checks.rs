//! Checks of this program against itself by other methods.

use crate::closures::{Rectangle, Table};
use crate::floor::Floor;
use crate::flow_checks;
use crate::graph::{self, Graph, NEIGHBOURHOODS};
use crate::layouts::{self, KINDS};
use crate::mend_checks;
use crate::natural::Natural;
use crate::packed::{self, PackedFloor};
use crate::random::Random;
use crate::replay::{self, Replayed};
use crate::sheet::{self, Handed, Request, Sheet, Solver, Truth, NO_WALK};
use crate::sight::{self, Obstacle, Point};
use crate::sixteen::REFUSED;
use crate::vectors::{self, Tally};
use crate::{answers, change_checks, count, format, jobs, legs_checks, thin, writer_checks};
use std::collections::{BTreeMap, BTreeSet};

pub fn run(tally: &mut Tally) {
    naturals(tally);
    clipping(tally);
    obstacles(tally);
    closures(tally);
    packing(tally);
    tiny_floors(tally);
    next_walks(tally);
    flow_checks::run(tally);
    checker_on_damage(tally);
    mend_checks::run(tally);
    costs_by_local_law(tally);
    thinning(tally);
    streams(tally);
    let stream = jobs::make(6, 30, false);
    streams_of_maps(tally, &stream);
    streams_of_next(tally, &stream);
    replays(tally);
    change_checks::run(tally);
    writer_checks::run(tally);
    legs_checks::run(tally);
}

fn naturals(tally: &mut Tally) {
    let two_64 = Natural::from_u64(u64::MAX).add(&Natural::from_u64(1));
    tally.equal("2^64", two_64.decimal(), "18446744073709551616".to_string());
    tally.equal("2^64 as u64", two_64.to_u64(), None);
    tally.equal("2^64 - 1 as u64", Natural::from_u64(u64::MAX).to_u64(), Some(u64::MAX));
    let square = two_64.mul(&two_64);
    tally.equal("2^128", square.decimal(), "340282366920938463463374607431768211456".to_string());
    let mixed = [0, 1, 7, u32::MAX as u64, 1 << 32, u64::MAX - 5];
    for x in mixed {
        for y in mixed {
            let product = Natural::from_u64(x).mul(&Natural::from_u64(y)).decimal();
            tally.equal("product", product, (x as u128 * y as u128).to_string());
            let sum = Natural::from_u64(x).add(&Natural::from_u64(y)).decimal();
            tally.equal("sum", sum, (x as u128 + y as u128).to_string());
            tally.holds("order", Natural::from_u64(x).cmp(&Natural::from_u64(y)) == x.cmp(&y));
        }
    }
}

/// Whether the segment enters the cell by rule 2.2: the cell lies within the segment's bounds, and corners of it lie on
/// both sides of the line.
fn enters_by_corners(from: (i64, i64), to: (i64, i64), i: i64, j: i64) -> bool {
    let ((x0, y0), (x1, y1)) = (from, to);
    let within = x0.min(x1) <= i && i < x0.max(x1) && y0.min(y1) <= j && j < y0.max(y1);
    let corners = [(i, j), (i + 1, j), (i, j + 1), (i + 1, j + 1)];
    let side = |(p, q): (i64, i64)| (x1 - x0) * (q - y0) - (y1 - y0) * (p - x0);
    within && corners.iter().any(|&c| side(c) > 0) && corners.iter().any(|&c| side(c) < 0)
}

/// Clipping and the corner rule agree for all segments in a box, and beyond it.
fn clipping(tally: &mut Tally) {
    let points: Vec<(i64, i64)> = (0..=6).flat_map(|y| (0..=7).map(move |x| (x, y))).collect();
    let mut agree = true;
    for &from in &points {
        for &to in &points {
            for j in -1..=6 {
                for i in -1..=7 {
                    agree &= sight::enters_cell(from, to, i, j) == enters_by_corners(from, to, i, j);
                }
            }
        }
    }
    tally.holds("clipping agrees with the corner rule", agree);
}

/// What is in the way, by the order in which one meets it: of the blocked cells that
/// the corner rule has entered, the one whose inside is reached first.
fn first_on_the_way(floor: &Floor, from: Point, to: Point) -> Option<Point> {
    let (dx, dy) = ((to.0 - from.0).abs(), (to.1 - from.1).abs());
    let lines = |at: i64, first: i64, last: i64| if first < last { at - first } else { first - at - 1 };
    // the share of the segment before the cell, times dx * dy
    let before = |&(i, j): &Point| (lines(i, from.0, to.0) * dy).max(lines(j, from.1, to.1) * dx);
    let cells = (0..floor.height as i64).flat_map(|j| (0..floor.width as i64).map(move |i| (i, j)));
    let met = cells.filter(|&(i, j)| floor.is_blocked(i, j) && enters_by_corners(from, to, i, j));
    met.min_by_key(before)
}

/// Whether one diagonal pair of the four cells at a point is blocked and the other open.
pub fn is_pinched(floor: &Floor, (x, y): Point) -> bool {
    let [nw, ne, sw, se] = [(x - 1, y - 1), (x, y - 1), (x - 1, y), (x, y)].map(|(i, j)| floor.is_blocked(i, j));
    nw == se && ne == sw && nw != ne
}

/// The pinch on a segment that is nearest to its first end, among all vertices: those
/// within the segment's bounds and on its line. None where the segment is one point.
fn nearest_pinch(floor: &Floor, from: Point, to: Point) -> Option<Point> {
    let within = |at: i64, a: i64, b: i64| a.min(b) <= at && at <= a.max(b);
    let on_line = |(p, q): Point| (to.0 - from.0) * (q - from.1) == (to.1 - from.1) * (p - from.0);
    let passed = |&(p, q): &Point| within(p, from.0, to.0) && within(q, from.1, to.1) && on_line((p, q));
    let points = (0..floor.vertex_count()).map(|v| floor.point(v)).filter(|&at| from != to && is_pinched(floor, at));
    points.filter(passed).min_by_key(|&(p, q)| (p - from.0).pow(2) + (q - from.1).pow(2))
}

/// The first vertex where a step of a segment along a grid line is shut, step by step.
fn first_shut_step(floor: &Floor, from: Point, to: Point) -> Option<Point> {
    let (dx, dy) = ((to.0 - from.0).signum(), (to.1 - from.1).signum());
    let mut at = from;
    while (dx == 0 || dy == 0) && at != to {
        let (i, j) = (at.0 + dx.min(0), at.1 + dy.min(0));
        if floor.is_blocked(i, j) && floor.is_blocked(i - dy.abs(), j - dx.abs()) {
            return Some(at);
        }
        at = (at.0 + dx, at.1 + dy);
    }
    None
}

/// What is in the way is the first cell on the way, or else the first shut step, or else
/// the nearest pinch; and nothing is in the way exactly where sight says so.
fn obstacles_agree(floor: &Floor) -> bool {
    let points: Vec<Point> = (0..floor.vertex_count()).map(|v| floor.point(v)).collect();
    points.iter().flat_map(|&a| points.iter().map(move |&b| (a, b))).all(|(a, b)| {
        let cell = |(i, j): Point| Obstacle::Cell(j as u64 * floor.width + i as u64);
        let vertex = |(x, y): Point| floor.vertex(x, y).map_or(u64::MAX, |v| v as u64);
        let met = first_on_the_way(floor, a, b).map(cell);
        let shut = first_shut_step(floor, a, b).map(|at| Obstacle::Step(vertex(at)));
        let pinch = nearest_pinch(floor, a, b).map(|at| Obstacle::Pinch(vertex(at)));
        let found = sight::obstacle(floor, a, b);
        found == met.or(shut).or(pinch).unwrap_or(Obstacle::Clear)
            && sight::sees(floor, a, b) == (found == Obstacle::Clear)
    })
}

fn obstacles(tally: &mut Tally) {
    let mut random = Random::new(3);
    for kind in KINDS {
        for _ in 0..4 {
            let floor = layouts::make(kind, &mut random, 7, 5);
            tally.holds("obstacles by the order on the way", obstacles_agree(&floor));
        }
    }
    let all_agree = all_floors(3, 3).all(|floor| obstacles_agree(&floor));
    tally.holds("obstacles of all floors of 3 by 3 cells", all_agree);
}

/// Calls in a row from the empty table, compared with a plain map from slot to rectangle; the
/// working map by painting its rectangles one after the other.
fn closures(tally: &mut Tally) {
    let mut random = Random::new(4);
    let base = layouts::make(KINDS[2], &mut random, 5, 4);
    let (mut table, mut plain) = (Table::empty(), BTreeMap::new());
    for _ in 0..600 {
        if random.percent(60) {
            let [column, row, columns, rows] = [5, 4, 3, 3].map(|most| random.below(most + 1) as u32);
            let rectangle = Rectangle { column, row, columns, rows };
            let leaves = column + columns > 5 || row + rows > 4;
            let expected = match (0..16).find(|slot| !plain.contains_key(slot)) {
                _ if columns * rows == 0 || leaves => Err(12),
                None => Err(13),
                Some(slot) => {
                    plain.insert(slot, rectangle);
                    Ok(slot)
                }
            };
            tally.equal("post", table.post(5, 4, rectangle), expected);
        } else {
            let slot = random.below(18) as u32;
            tally.equal("strike", table.strike(5, 4, slot), plain.remove(&slot).map(|_| ()).ok_or(14));
        }
        tally.holds("the table is the plain map", table.held() == plain);
        let mut painted = base.cells.clone();
        for r in plain.values() {
            for j in r.row..r.row + r.rows {
                painted[(j * 5 + r.column) as usize..][..r.columns as usize].fill(1);
            }
        }
        tally.holds("cells of the working map", table.working_cells(&base).as_ref() == Ok(&painted));
        let mut working = vec![255; 3];
        let written = packed::working_map(&table, &PackedFloor::of(&base), &mut working);
        tally.equal("working map", written, Ok(()));
        tally.holds("bits of the working map", PackedFloor::new(5, 4, working).floor().cells == painted);
    }
}

/// A map is a number, its first byte the lowest, and cell c counts 2^c in it: 3 applies from 2^(W·H) on. A floor is
/// read back from its map, and every map without a fault from its floor.
fn packing(tally: &mut Tally) {
    let number = |map: &[u8]| map.iter().rev().fold(0, |high, &byte| 256 * high + u32::from(byte));
    for (width, height) in [(1, 1), (7, 1), (4, 2), (3, 3), (2, 5), (1, 11), (12, 1), (13, 1), (2, 7), (5, 3), (4, 4)] {
        let cells = width * height;
        let mut agree = true;
        for (bits, floor) in (0..).zip(all_floors(width, height)) {
            let map = PackedFloor::of(&floor).map;
            agree &= number(&map) == bits && map.len() as u64 == (cells + 7) / 8;
            agree &= PackedFloor::new(width, height, map).floor().cells == floor.cells;
        }
        tally.holds("a map as a number", agree);
        let length = (cells as usize).div_ceil(8);
        let refused = (0..1u32 << (8 * length)).step_by(if length == 1 { 1 } else { 37 }).all(|bits| {
            let map = bits.to_le_bytes()[..length].to_vec();
            let packed = PackedFloor::new(width, height, map.clone());
            let fault = if bits >> cells == 0 { None } else { Some(3) };
            packed.fault() == fault && (fault.is_some() || PackedFloor::of(&packed.floor()).map == map)
        });
        tally.holds("3 from 2^(W·H) on", refused);
    }
    let mut random = Random::new(6);
    for kind in KINDS {
        let floor = layouts::make(kind, &mut random, 127, 127);
        let map = PackedFloor::of(&floor).map;
        tally.equal("the largest map", map.len(), 2017);
        let bit = |c: usize| map[c / 8] & (1 << (c % 8)) != 0;
        tally.holds("the bits of the largest map", (0..127 * 127).all(|c| bit(c) == (floor.cells[c] == 1)));
        tally.equal("the last byte of the largest map", map[2016], floor.cells[127 * 127 - 1]);
    }
}

/// All floors of a size, one for each set of blocked cells.
pub fn all_floors(width: u64, height: u64) -> impl Iterator<Item = Floor> {
    let cells = width * height;
    (0..1u32 << cells).map(move |bits| {
        Floor::new(width, height, (0..cells).map(|c| (bits >> c & 1) as u8).collect())
    })
}

/// On every tiny floor: distances by two methods, counts by sums and by listing, sight
/// both ways, and the checker accepts exactly what the planner leaves.
fn tiny_floors(tally: &mut Tally) {
    for (width, height) in [(1, 1), (2, 1), (1, 3), (2, 2), (3, 2)] {
        for floor in all_floors(width, height) {
            for neighbourhood in NEIGHBOURHOODS {
                tiny_graph(tally, &floor, neighbourhood);
                tiny_jobs(tally, &floor, neighbourhood);
            }
            let size = floor.vertex_count();
            let even = (0..size).all(|u| {
                (0..size).all(|v| sight::vertices_see(&floor, u, v) == sight::vertices_see(&floor, v, u))
            });
            tally.holds("sight is symmetric", even);
        }
    }
}

fn tiny_graph(tally: &mut Tally, floor: &Floor, neighbourhood: u64) {
    let graph = Graph::of_floor(floor, neighbourhood);
    let reversed = graph.reversed();
    for source in 0..graph.size() {
        let distances = graph::distances(&graph, source);
        tally.holds("distances by rounds", distances == graph::distances_by_rounds(&graph, source));
        let counts = count::by_sums(&reversed, &distances, source);
        let listed = count::assert_listing_agrees(&graph, &distances, &counts, source);
        tally.holds("counts by listing", listed);
    }
}

fn tiny_jobs(tally: &mut Tally, floor: &Floor, neighbourhood: u64) {
    let size = floor.vertex_count() as u64;
    for (start, goal) in (0..size).flat_map(|start| (0..size).map(move |goal| (start, goal))) {
        let planned = vectors::plan(floor, neighbourhood, start, goal);
        let answer = vectors::check(floor, neighbourhood, start, goal, &planned.sheet);
        tally.holds("the checker takes the planner's sheet", answer == planned.answer.answer);
        let is_end = [start, goal].iter().any(|&end| is_pinched(floor, floor.point(end as usize)));
        tally.holds("11 where an end is a pinch", is_end == (answer == 11));
        next_by_listing(tally, floor, Request { neighbourhood, start, goal }, &planned.sheet);
        let left = if is_end { 9 } else { 0 };
        tally.holds("the working slice is 0, or untouched at 11", planned.work.iter().all(|&x| x == left));
    }
}

/// Every walk of this cost from a vertex to the goal, move by move.
pub fn walks_of_cost(graph: &Graph, goal: usize, cost: u64, walk: &mut Vec<usize>, found: &mut Vec<Vec<usize>>) {
    let at = walk[walk.len() - 1];
    if cost == 0 && at == goal {
        found.push(walk.clone());
    }
    for edge in graph.edges[at].iter().filter(|edge| edge.cost <= cost) {
        walk.push(edge.to);
        walks_of_cost(graph, goal, cost - edge.cost, walk, found);
        walk.pop();
    }
}

/// The next vertices from the list of all cheapest routes: of the vertices that follow in one of them, that which most
/// of them pass, of equals the first in move order. 0 in a job without a route or of bad shape.
fn next_by_listing(tally: &mut Tally, floor: &Floor, request: Request, sheet: &Sheet) {
    let graph = Graph::of_floor(floor, request.neighbourhood);
    let (start, goal) = (request.start as usize, request.goal as usize);
    if sheet.n == 0 {
        return;
    }
    let mut routes = Vec::new();
    walks_of_cost(&graph, goal, sheet.d[goal].into(), &mut vec![start], &mut routes);
    let passes = |v: usize| routes.iter().filter(|route| route.contains(&v)).count();
    let follows = |v: usize, w: usize| routes.iter().any(|route| route.windows(2).any(|pair| pair == [v, w]));
    let next = |v: usize| {
        let choices = graph.edges[v].iter().map(|edge| edge.to).filter(|&w| follows(v, w));
        let best = choices.rev().max_by_key(|&w| passes(w)).unwrap_or(0);
        if v == goal { goal } else { best }
    };
    tally.holds("next vertices by listing", (0..graph.size()).all(|v| usize::from(sheet.next[v]) == next(v)));
}

/// From every vertex on the way the walk through the next vertices takes open moves and reaches the goal at the cost
/// left; from the start it is the route. Off the way the next vertices are 0.
fn next_walks_hold(solver: &mut Solver, request: Request, sheet: &Sheet) -> bool {
    let graphs = solver.graphs(request.neighbourhood);
    let goal = request.goal as usize;
    let move_cost = |from: usize, to: usize| graphs.0.edges[from].iter().find(|edge| edge.to == to).map(|e| e.cost);
    let walk = |from: usize| {
        let (mut points, mut at, mut cost) = (vec![from as u16], from, 0);
        while at != goal && points.len() <= sheet.next.len() {
            let to = usize::from(sheet.next[at]);
            let Some(step) = move_cost(at, to) else { return None };
            (at, cost) = (to, cost + step);
            points.push(to as u16);
        }
        (at == goal).then_some((points, cost))
    };
    let cost = u64::from(sheet.d[goal]);
    let on_way = |v: usize| u64::from(sheet.d[v]) + u64::from(sheet.e[v]) == cost;
    let each = |v: usize| match walk(v) {
        Some((_, driven)) if on_way(v) => driven == u64::from(sheet.e[v]),
        _ => !on_way(v) && sheet.next[v] == 0,
    };
    let points = walk(request.start as usize).map(|(points, _)| points);
    usize::from(sheet.next[goal]) == goal
        && (0..sheet.next.len()).all(each)
        && points.as_deref() == Some(&sheet.route[..sheet.n as usize])
}

fn next_walks(tally: &mut Tally) {
    let mut random = Random::new(8);
    for kind in KINDS {
        for (width, height) in [(5, 4), (13, 9), (40, 3), (24, 24)] {
            let mut solver = Solver::new(layouts::make(kind, &mut random, width, height));
            let size = solver.floor.vertex_count();
            for _ in 0..12 {
                let (start, goal) = (random.index(size), random.index(size));
                let neighbourhood = random.pick(&NEIGHBOURHOODS);
                let request = Request { neighbourhood, start: start as u64, goal: goal as u64 };
                let truth = solver.truth(neighbourhood, start, goal);
                let holds = match &*truth {
                    Truth::Route { sheet, .. } => next_walks_hold(&mut solver, request, sheet),
                    Truth::NoRoute { sheet } | Truth::TooMany { sheet } => sheet.next.iter().all(|&v| v == 0),
                };
                tally.holds("walks through the next vertices", holds);
            }
        }
    }
}

/// Every single place of a sheet matters to the checker.
fn checker_on_damage(tally: &mut Tally) {
    let floor = Floor::new(3, 2, vec![0, 0, 0, 1, 0, 0]);
    for neighbourhood in [8, 16] {
        let planned = vectors::plan(&floor, neighbourhood, 0, 11);
        for place in 0..floor.vertex_count() {
            let mut damaged = vec![planned.sheet.clone(); 6];
            damaged[0].d[place] ^= 1;
            damaged[1].e[place] ^= 1;
            damaged[2].f[place] ^= 1;
            damaged[3].b[place] ^= 1;
            damaged[4].route[place] ^= 1;
            damaged[5].next[place] ^= 1;
            for sheet in &damaged {
                tally.equal("damage", vectors::check(&floor, neighbourhood, 0, 11, sheet), 9);
            }
        }
        let mut solver = Solver::new(floor.clone());
        let request = Request { neighbourhood, start: 0, goal: 11 };
        tally.holds("every other number at a place of next", other_next_refused(&mut solver, request, &planned.sheet));
        let more = sheet::Sheet { n: planned.sheet.n + 1, ..planned.sheet };
        tally.equal("another n", vectors::check(&floor, neighbourhood, 0, 11, &more), 9);
    }
}

/// Whether the true sheet is refused with any other number at any place of next.
fn other_next_refused(solver: &mut Solver, request: Request, sheet: &Sheet) -> bool {
    let (mut s, mut refused) = (sheet.clone(), true);
    for place in 0..s.next.len() {
        let old = s.next[place];
        for value in (0..=u16::MAX).filter(|&value| value != old) {
            s.next[place] = value;
            let handed = Handed { d: &s.d, e: &s.e, f: &s.f, b: &s.b, route: &s.route, next: &s.next, n: s.n };
            refused &= sheet::check(solver, request, &handed) == 9;
        }
        s.next[place] = old;
    }
    refused
}

/// Whether costs obey the local law: 0 at the start, and at every other vertex the least of the neighbours' costs, each
/// with its move's cost added.
fn obeys_local_law(reversed: &Graph, start: usize, d: &[u32]) -> bool {
    let law = |v: usize| {
        let through = |u: usize, cost: u64| if d[u] == NO_WALK { NO_WALK.into() } else { u64::from(d[u]) + cost };
        let least = reversed.edges[v].iter().map(|edge| through(edge.to, edge.cost)).min();
        u64::from(d[v]) == if v == start { 0 } else { least.unwrap_or(NO_WALK.into()) }
    };
    (0..d.len()).all(law)
}

/// The costs from a start are the only ones that obey the local law, and the only ones from which a job is finished:
/// all lists of a few numbers are tried on small floors.
fn costs_by_local_law(tally: &mut Tally) {
    let numbers = [0, 407, 408, 577, 816, 985, NO_WALK - 1, NO_WALK];
    let of_sixteen = [0, 999, 1000, 1414, 2000, 2236, NO_WALK - 1, NO_WALK];
    let floors = [(1, vec![0]), (1, vec![1]), (2, vec![0, 0]), (2, vec![1, 0])];
    for (width, cells) in floors {
        let floor = Floor::new(width, 1, cells);
        for neighbourhood in NEIGHBOURHOODS {
            let numbers = if neighbourhood == 16 { of_sixteen } else { numbers };
            let mut solver = Solver::new(floor.clone());
            let reversed = &solver.graphs(neighbourhood).1;
            let truth = solver.costs(neighbourhood, 1);
            for k in 0..numbers.len().pow(truth.len() as u32) {
                let digit = |place: usize| numbers[k / numbers.len().pow(place as u32) % numbers.len()];
                let d: Vec<u32> = (0..truth.len()).map(digit).collect();
                let holds = obeys_local_law(reversed, 1, &d) == (d == *truth);
                if !holds || d == *truth {
                    tally.holds("the local law of costs", holds);
                }
            }
        }
    }
    let floor = Floor::new(3, 2, vec![0, 0, 0, 1, 0, 0]);
    for neighbourhood in [8, 16] {
        let truth = vectors::plan(&floor, neighbourhood, 0, 11).sheet.d;
        for place in 0..floor.vertex_count() {
            let mut d = truth.clone();
            d[place] ^= 1;
            let request = Request { neighbourhood, start: 0, goal: 11 };
            tally.equal("damaged costs", vectors::finish_from(&floor, request, &d, 12).answer, 9);
        }
    }
}

/// Kept positions see each other in turn, and a position past the next kept one
/// is unseen. Lists with repeats and turns back are thinned too.
fn thinning(tally: &mut Tally) {
    let floor = Floor::new(3, 3, vec![0, 0, 0, 0, 1, 0, 0, 0, 0]);
    let lists: [&[u16]; 5] =
        [&[0, 1, 2, 3, 7, 11, 15], &[0, 0, 0], &[0, 3, 0, 3, 15, 12], &[5], &[0, 4, 8, 12, 13, 14, 15, 11, 7, 3]];
    for list in lists {
        let mut output = vec![77; list.len()];
        let (answer, kept) = thin::thin(&floor, list, &mut output, list.len() as u64);
        tally.equal("thinning answer", answer, 0);
        let kept: Vec<usize> = output[..kept as usize].iter().map(|&position| position.into()).collect();
        tally.holds("kept ends", kept[0] == 0 && kept[kept.len() - 1] == list.len() - 1);
        let sees = |i: usize, k: usize| sight::vertices_see(&floor, list[i].into(), list[k].into());
        for pair in kept.windows(2) {
            let clear = (pair[0]..=pair[1]).all(|k| sees(pair[0], k));
            let farthest = pair[1] == list.len() - 1 || !sees(pair[0], pair[1] + 1);
            tally.holds("kept positions", clear && farthest);
        }
    }
    let mut output = vec![77; 7];
    thin::thin(&floor, lists[0], &mut output, 7);
    tally.equal("thinning round a corner", output, vec![0, 4, 6, 0, 0, 0, 0]);
    tally.equal("unseen neighbours", thin::thin(&floor, &[0, 15], &mut [5, 5], 2), (10, 0));
}

/// A replay byte by byte, on the floor itself: a record is read as its bytes come, a move is a length that the
/// neighbourhood has and a sight, and the least cost is by rounds over all edges.
fn replay_by_bytes(floor: &Floor, neighbourhood: u64, log: &[u8]) -> Replayed {
    let count = floor.vertex_count() as u64;
    let mut told = Replayed { answer: 0, read: 0, cost: 0, unfollowed: 0, bad: 0, cheapest: false };
    let (mut ends, mut record): (Option<(usize, usize)>, Vec<u8>) = (None, Vec::new());
    for (place, &byte) in log.iter().enumerate() {
        record.push(byte);
        let number = || u64::from(record[2]) + 256 * u64::from(record[3]);
        let is_bad = match record.len() {
            1 => byte != b'V',
            2 => byte != b'T',
            4 => number() >= count,
            _ => false,
        };
        if is_bad || (place + 1 == log.len() && record.len() < 4) {
            return Replayed { answer: 17, bad: told.read + 1, ..told };
        }
        if record.len() < 4 {
            continue;
        }
        let to = number() as usize;
        let (first, from) = ends.unwrap_or((to, to));
        let (p, q) = (floor.point(from), floor.point(to));
        let squared = (p.0 - q.0).pow(2) + (p.1 - q.1).pow(2);
        let cost = match (neighbourhood, squared) {
            (_, 0) => Some(0),
            (4 | 8, 1) => Some(408),
            (8, 2) => Some(577),
            (16, 1) => Some(1000),
            (16, 2) => Some(1414),
            (16, 5) => Some(2236),
            _ => None,
        };
        let cost = cost.filter(|_| sight::sees(floor, p, q) && !is_pinched(floor, q));
        told.read += 1;
        match cost {
            Some(cost) if told.unfollowed == 0 => told.cost += cost,
            None if told.unfollowed == 0 => told.unfollowed = told.read,
            _ => {}
        }
        ends = Some((first, to));
        record.clear();
    }
    if let (Some((first, last)), 0) = (ends, told.unfollowed) {
        let least = graph::distances_by_rounds(&Graph::of_floor(floor, neighbourhood), first);
        told.cheapest = least[last] == Some(told.cost);
    }
    told
}

/// Logs of random walks with rests, strays and changed bytes, by both methods. No drive is cheaper than the cheapest,
/// and the costs are those from the first record exactly where there is no fault.
fn replays(tally: &mut Tally) {
    let mut random = Random::new(9);
    let mut kinds = BTreeSet::new();
    for kind in KINDS {
        for (width, height) in [(2, 2), (5, 4), (9, 7)] {
            let floor = layouts::make(kind, &mut random, width, height);
            let count = floor.vertex_count();
            let mut solver = Solver::new(floor.clone());
            for k in 0..60 {
                let neighbourhood = NEIGHBOURHOODS[k % 3];
                let log = any_log(&mut random, &solver.graphs(neighbourhood).0);
                let (mut costs, mut work) = (vec![9; count], vec![9; 4 * count]);
                let told = replay::replay(&mut solver, neighbourhood, &log, &mut costs, &mut work);
                tally.equal("a replay by bytes", told, replay_by_bytes(&floor, neighbourhood, &log));
                tally.holds("the working slice of a replay", work.iter().all(|&number| number == 0));
                let faultless = told.read > 0 && told.unfollowed == 0 && told.bad == 0;
                let stop = |record: usize| usize::from(log[4 * record + 2]) + 256 * usize::from(log[4 * record + 3]);
                let wanted = if faultless { solver.costs(neighbourhood, stop(0)).to_vec() } else { vec![0; count] };
                tally.holds("the costs of a replay", costs == wanted);
                if faultless {
                    let least = u64::from(costs[stop(told.read as usize - 1)]);
                    tally.holds("no drive is too cheap", least <= told.cost && told.cheapest == (least == told.cost));
                }
                kinds.insert((neighbourhood, told.unfollowed > 0, told.bad > 0, told.cheapest));
            }
        }
    }
    // With each neighbourhood no fault, cheapest and not; one of the two faults; and both.
    tally.equal("kinds of logs", kinds.len(), 15);
}

/// A walk by open moves that now and then rests or goes astray, and as bytes now and then a changed one or a cut.
fn any_log(random: &mut Random, graph: &Graph) -> Vec<u8> {
    let mut stops = vec![random.index(graph.size()) as u16];
    let strays = random.pick(&[0, 0, 4, 20]);
    for place in 0..random.index(12) {
        let from = stops[place];
        let edges = &graph.edges[usize::from(from)];
        let is_stray = random.percent(strays);
        let stays = edges.is_empty() || random.percent(20);
        stops.push(match (is_stray, stays) {
            (true, _) => random.index(graph.size()) as u16,
            (_, true) => from,
            _ => edges[random.index(edges.len())].to as u16,
        });
    }
    let mut log = replay::log_of(&stops);
    match random.below(6) {
        0 => {
            let place = random.index(log.len());
            log[place] ^= 1 << random.below(8);
        }
        1 => log.truncate(random.index(log.len())),
        _ => {}
    }
    log
}

/// The logs of a stream: with each neighbourhood every answer, both faults and each alone, at the first record and
/// later; cheapest logs and dearer ones; cuts of each length; lengths of each slice off by one; the longest logs.
fn streams_of_logs(tally: &mut Tally, stream: &[u8], text: &str) {
    let (mut input, mut seen, mut size) = (stream, BTreeSet::new(), 0);
    for line in text.lines() {
        let Some(record) = format::Record::read(&mut input) else { break };
        let words = record.words;
        if record.operation == format::FLOOR {
            size = i64::from(words[0]).saturating_add(1).saturating_mul(i64::from(words[1]).saturating_add(1));
        }
        if record.operation != format::REPLAY {
            continue;
        }
        let numbers: Vec<u64> = line.split(' ').skip(1).map(|word| word.parse().unwrap_or(u64::MAX)).collect();
        let [answer, read, cost, unfollowed, bad, cheapest, ..] = numbers[..] else { continue };
        let mut see = |what: &str| _ = seen.insert((words[0], what.to_string()));
        see(&format!("answer {answer}"));
        let off = (i64::from(words[2]) - size, i64::from(words[3]) - 4 * size);
        if answer == 6 {
            see(&format!("lengths off by {off:?}"));
        }
        if answer == 16 || answer == 6 || (answer == 17 && bad == 4096) || (answer == 0 && read == 4096) {
            see(&format!("answer {answer}, a log of {} bytes", words[1]));
        }
        if !matches!(answer, 0 | 17) {
            continue;
        }
        let at = |number: u64| match number {
            0 => "none",
            1 => "first",
            _ if number == read => "last",
            _ => "later",
        };
        see(&format!("unfollowed {}, bad {}", at(unfollowed), at(bad.min(2))));
        see(&format!("cheapest {cheapest}, a cost: {}, a log: {}", cost > 0, read > 0));
        if bad > 0 && u64::from(words[1]) < 4 * bad {
            see(&format!("cut to {} bytes", words[1] % 4));
        }
    }
    let faults = [
        "unfollowed none, bad none", "unfollowed first, bad none", "unfollowed later, bad none",
        "unfollowed last, bad none", "unfollowed none, bad first", "unfollowed none, bad later",
        "unfollowed first, bad later", "unfollowed later, bad later", "unfollowed last, bad later",
    ];
    let others = [
        "cheapest 1, a cost: true, a log: true", "cheapest 1, a cost: false, a log: true",
        "cheapest 0, a cost: true, a log: true", "cheapest 0, a cost: false, a log: false",
        "cut to 1 bytes", "cut to 2 bytes", "cut to 3 bytes", "answer 16, a log of 16385 bytes",
        "lengths off by (-1, 0)", "lengths off by (1, 0)", "lengths off by (0, -1)", "lengths off by (0, 1)",
        "answer 0, a log of 16384 bytes",
    ];
    let answers = [0, 1, 2, 3, 6, 16, 17].map(|answer| format!("answer {answer}"));
    let all = faults.into_iter().chain(others).map(str::to_string).chain(answers);
    for what in all {
        for neighbourhood in [4, 8, 16] {
            let has = seen.contains(&(neighbourhood, what.clone()));
            tally.holds(&format!("logs with {neighbourhood}: {what}"), has);
        }
    }
    for neighbourhood in [5, 256, u32::MAX] {
        let refused = seen.contains(&(neighbourhood, "answer 4".to_string()));
        tally.holds(&format!("logs with {neighbourhood}: answer 4"), refused);
    }
}

/// A short job stream has every answer in it, and is read to its end.
fn streams(tally: &mut Tally) {
    let stream = jobs::make(5, 120, true);
    let text = answers::run(&stream).unwrap_or_default();
    tally.holds("a stream ends", text.ends_with("\nend\n"));
    streams_of_neighbourhoods(tally, &stream, &text);
    mend_checks::streams(tally, &stream, &text);
    streams_of_logs(tally, &stream, &text);
    change_checks::streams(tally, &stream, &text);
    writer_checks::streams(tally, &stream, &text);
    legs_checks::streams(tally, &stream, &text);
    let has = |start: &str| text.lines().any(|line| format!("{line} ").starts_with(start));
    for answer in [0, 1, 2, 3, 4, 5, 6, 11] {
        tally.holds(&format!("costs answers {answer}"), has(&format!("costs {answer} ")));
    }
    for answer in [0, 1, 2, 3, 4, 5, 6, 7, 8, 9, 11] {
        tally.holds(&format!("finish answers {answer}"), has(&format!("finish {answer} ")));
    }
    for answer in [0, 1, 2, 3, 4, 5, 6, 7, 9, 11] {
        tally.holds(&format!("check answers {answer}"), has(&format!("check {answer} ")));
    }
    for answer in [0, 1, 2, 3, 6, 10] {
        tally.holds(&format!("thin answers {answer}"), has(&format!("thin {answer} ")));
    }
    for answer in [0, 1, 12, 13] {
        tally.holds(&format!("post answers {answer}"), has(&format!("post {answer} ")));
    }
    for answer in [0, 1, 14] {
        tally.holds(&format!("strike answers {answer}"), has(&format!("strike {answer} ")));
    }
    for answer in [0, 1, 2, 3, 6] {
        tally.holds(&format!("working answers {answer}"), has(&format!("working {answer} ")));
    }
    let obstacles: String = text.lines().filter_map(|line| line.strip_prefix("obstacle ")).collect();
    for answer in [" y", " c", " s", " p", " 1 ", " 2 ", " 3 ", " 5 "] {
        tally.holds(&format!("obstacle answers{answer}"), obstacles.contains(answer));
    }
    let sights: String = text.lines().filter_map(|line| line.strip_prefix("sight ")).collect();
    for answer in ['y', 'n', '1', '2', '3', '5'] {
        tally.holds(&format!("sight answers {answer}"), sights.contains(answer));
    }
}

/// The neighbourhoods of a stream: every answer of each of them, refusals of numbers that are none, and costs of one
/// handed in for another, with the same start: for each pair false ones, and, where little is reached, true ones.
fn streams_of_neighbourhoods(tally: &mut Tally, stream: &[u8], text: &str) {
    let mut input = stream;
    let (mut answered, mut handed, mut filled) = (BTreeSet::new(), BTreeSet::new(), None);
    for line in text.lines() {
        let Some(record) = format::Record::read(&mut input) else { break };
        let (operation, neighbourhood, start) = (record.operation, record.words[0], record.words[1]);
        let answer = line.split(' ').nth(1).and_then(|word| word.parse::<u8>().ok());
        if [format::COSTS, format::FINISH, format::CHECK].contains(&operation) {
            answered.insert((operation, neighbourhood, answer));
        }
        match (operation, filled) {
            (format::COSTS, _) => filled = (answer == Some(0)).then_some((neighbourhood, start)),
            (format::FINISH, Some((of, from))) if from == start && record.payload.is_empty() => {
                handed.insert((of, neighbourhood, answer == Some(9)));
            }
            (format::LOAD | format::FLOOR, _) => filled = None,
            _ => {}
        }
    }
    let own: [(u8, &[u8]); 3] = [
        (format::COSTS, &[0, 1, 2, 3, 5, 6, 11]),
        (format::FINISH, &[0, 1, 2, 3, 5, 6, 7, 8, 9, 11]),
        (format::CHECK, &[0, 1, 2, 3, 5, 6, 7, 9, 11]),
    ];
    for neighbourhood in NEIGHBOURHOODS.map(|number| number as u32) {
        for (operation, answers) in own {
            for &answer in answers {
                let has = answered.contains(&(operation, neighbourhood, Some(answer)));
                tally.holds(&format!("neighbourhood {neighbourhood}, operation {operation}, answer {answer}"), has);
            }
        }
        for other in NEIGHBOURHOODS.map(|number| number as u32).into_iter().filter(|&other| other != neighbourhood) {
            for is_false in [true, false] {
                let has = handed.contains(&(neighbourhood, other, is_false));
                tally.holds(&format!("costs of {neighbourhood} for {other}, false: {is_false}"), has);
            }
        }
    }
    for number in REFUSED.map(|number| number as u32) {
        let all = own.iter().all(|&(operation, _)| answered.contains(&(operation, number, Some(4))));
        tally.holds(&format!("neighbourhood {number} refused"), all);
    }
}

/// The maps of a stream: for each W·H modulo 8 good ones, each unused bit alone, and lengths off by one either way; as
/// floors and as base maps of closures.
fn streams_of_maps(tally: &mut Tally, stream: &[u8]) {
    let mut input = stream;
    let (mut floors, mut bases): (Vec<PackedFloor>, Vec<PackedFloor>) = (Vec::new(), Vec::new());
    while let Some(record) = format::Record::read(&mut input) {
        if record.operation == format::FLOOR {
            floors.push(PackedFloor::new(record.words[0].into(), record.words[1].into(), record.payload));
        } else if record.operation == format::WORKING && record.words[2] == 1 {
            let floor = &floors[floors.len() - 1];
            bases.push(PackedFloor::new(floor.width, floor.height, record.payload));
        }
    }
    for maps in [floors, bases] {
        for left in 0..8 {
            let those: Vec<&PackedFloor> = maps.iter().filter(|map| map.width * map.height % 8 == left).collect();
            let good = |map: &PackedFloor| (map.width * map.height).div_ceil(8) as usize;
            let has = |condition: &dyn Fn(&PackedFloor) -> bool| those.iter().any(|map| condition(map));
            tally.holds("a good map", has(&|map| map.fault().is_none()));
            tally.holds("a byte less", has(&|map| map.fault() == Some(2) && map.map.len() + 1 == good(map)));
            tally.holds("a byte more", has(&|map| map.fault() == Some(2) && map.map.len() == good(map) + 1));
            for bit in (left..8).filter(|_| left > 0) {
                let set = |map: &PackedFloor| map.map[good(map) - 1] >> left;
                tally.holds("an unused bit", has(&|map| map.fault() == Some(3) && set(map) == 1 << (bit - left)));
            }
        }
    }
}

/// The next vertices of a stream: on floors with few vertices each place with each other vertex, and lengths off by
/// one, of the second operation and of the checker.
fn streams_of_next(tally: &mut Tally, stream: &[u8]) {
    let mut input = stream;
    let (mut floor, mut size) = (0, 0);
    let mut changed: BTreeMap<(usize, u64, [u32; 3]), BTreeSet<(usize, u64)>> = BTreeMap::new();
    let mut lengths = BTreeSet::new();
    while let Some(record) = format::Record::read(&mut input) {
        let words = record.words;
        let off = i64::from(words[8]) - i64::from(words[3]);
        let others_good = words[4..8].iter().all(|&length| length == words[3]);
        match record.operation {
            format::FLOOR => (floor, size) = (floor + 1, u64::from(words[0] + 1) * u64::from(words[1] + 1)),
            format::FINISH | format::CHECK if others_good && off != 0 => {
                lengths.insert((record.operation, off.signum() * off.abs().min(2)));
            }
            format::CHECK => {
                let damages = format::damages_from_bytes(&record.payload);
                let [damage] = damages[..] else { continue };
                if damage.slice == 5 && damage.value < size {
                    let job = (floor, size, [words[0], words[1], words[2]]);
                    changed.entry(job).or_default().insert((damage.place, damage.value));
                }
            }
            _ => {}
        }
    }
    let whole = changed.iter().filter(|((_, size, _), places)| places.len() as u64 == size * (size - 1)).count();
    tally.holds("each place with each other vertex", whole >= 20);
    for off in [-1, 1] {
        tally.holds("next of another length, planned", lengths.contains(&(format::FINISH, off)));
        tally.holds("next of another length, checked", lengths.contains(&(format::CHECK, off)));
    }
}
