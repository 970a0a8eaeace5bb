//! Compares the programs with each other: same answers, same slices. A program that does not have a neighbourhood
//! refuses it, and the others are compared.

use crate::copied_sight::Sight;
use crate::floors::{Case, Kind, Random, KINDS, SIDES};
use crate::legs;
use crate::lurfanzi::{check_legs, fewest_legs, log_of, pack, Floor, Job, UNREACHABLE};
use crate::lurfanzi::{CostChange, Differences, Mended, Plan, Proposal, Refusal, Replay, Verdict};
use crate::programs::{Operation, Program, Slices, LIBRARY, PROGRAMS, TEXTBOOK};
use std::num::NonZeroUsize;

const NEIGHBOURHOODS: [u32; 3] = [4, 8, 16];

/// What the textbook program makes of a job.
struct Truth {
    planned: Result<Plan, Refusal>,
    slices: Slices,
    verdict: Verdict,
    kept: Vec<u16>,
}

impl Truth {
    fn points(&self) -> usize {
        self.planned.map_or(0, |plan| plan.points)
    }
}

fn truth_of(floor: Floor, job: Job) -> Truth {
    let mut slices = Slices::new(floor.vertices(), 0);
    let planned = slices.plan(&TEXTBOOK, floor, job);
    let verdict = match planned {
        Ok(_) => Verdict::Route,
        Err(Refusal::NoRoute) => Verdict::NoRoute,
        Err(_) => Verdict::FalseSheet,
    };
    let mut kept = vec![0; slices.route.len()];
    let points = planned.map_or(0, |plan| plan.points);
    _ = (TEXTBOOK.thin)(floor, &slices.route, &mut kept, points);
    Truth { planned, slices, verdict, kept }
}

/// What a program answers where this refusal is due: 4 where it does not have the neighbourhood.
fn due(program: &Program, operation: Operation, job: Job, refusal: Refusal) -> Refusal {
    if program.has(operation, job.neighbourhood) { refusal } else { Refusal::BadNeighbourhood }
}

fn agree_on(program: &Program, floor: Floor, job: Job, truth: &Truth, random: &mut Random) {
    if program.has(Operation::Plan, job.neighbourhood) {
        agree_on_plan(program, floor, job, truth, random);
        agree_on_costs(program, floor, job, truth, random);
    } else {
        agree_on_refused_moves(program, floor, job, random);
    }
    if program.has(Operation::Check, job.neighbourhood) {
        agree_on_check(program, floor, job, truth, random);
        agree_on_next(program, floor, job, truth, random);
    } else {
        let refused = (program.check)(floor, job, truth.slices.sheet(truth.points()));
        assert_eq!(refused, Err(Refusal::BadNeighbourhood), "check: {}", program.name);
    }
    agree_on_thinning(program, floor, truth);
}

/// The library's replay of the central route: as cheap as can be, and it leaves the costs from the start.
fn agree_on_replay(floor: Floor, job: Job, truth: &Truth, random: &mut Random) {
    let mut slices = Slices::new(floor.vertices(), random.below(256) as u8);
    let points = truth.points().min(4096);
    let told = slices.replay(floor, job, &log_of(&truth.slices.route[..points]));
    let cost = truth.slices.d.get(usize::from(truth.slices.route[points.saturating_sub(1)])).map_or(0, |&cost| cost);
    let wanted = match points {
        0 => Replay::default(),
        _ => Replay { read: points, cost, cheapest: true, ..Replay::default() },
    };
    assert_eq!(told, Ok(wanted), "replay");
    assert!(slices.d == if points > 0 { truth.slices.d.clone() } else { vec![0; slices.d.len()] }, "replay: the costs");
    assert!(slices.work.iter().all(|&number| number == 0), "replay: the working slice");
}

/// The library's comparison of the floor with itself and with one that has another map, beside the costs on both.
fn agree_on_cost_changes(floor: Floor, job: Job, truth: &Truth, random: &mut Random) {
    let map = random_map(floor.width as usize, floor.height as usize, random);
    for after in [floor, Floor { map: &map, ..floor }] {
        let mut slices = Slices::new(floor.vertices(), random.below(256) as u8);
        let (before, mut changes) = (slices.clone(), vec![9; floor.vertices()]);
        let told = slices.cost_changes(floor, after, job, &mut changes);
        if is_pinch(after, job.a) {
            assert_eq!(told, Err(Refusal::PinchedEnd), "cost changes: a pinched start");
            assert!(slices == before && changes.iter().all(|&byte| byte == 9), "cost changes: a pinched start");
            continue;
        }
        let mut there = Slices::new(floor.vertices(), 0);
        assert_eq!((told, there.costs(&TEXTBOOK, after, job)), (Ok(()), Ok(())), "cost changes");
        let change = |(&was, &is): (&u32, &u32)| match (was, is) {
            _ if was == is => CostChange::Equal,
            (UNREACHABLE, _) => CostChange::FromUnreachable,
            (_, UNREACHABLE) => CostChange::ToUnreachable,
            _ => if is < was { CostChange::Fell } else { CostChange::Rose },
        };
        let wanted: Vec<u8> = truth.slices.d.iter().zip(&there.d).map(|both| change(both) as u8).collect();
        assert!(slices.d == truth.slices.d && slices.e == there.d, "cost changes: the costs");
        assert_eq!(changes, wanted, "cost changes: the bytes");
        assert!(slices.work.iter().all(|&number| number == 0), "cost changes: the working slice");
    }
}

/// The library mends a sheet with some numbers altered, and counts the places where it differs from the true one.
fn agree_on_mending(floor: Floor, job: Job, truth: &Truth, random: &mut Random) {
    fn count<T: PartialEq>(one: &[T], other: &[T]) -> usize {
        one.iter().zip(other).filter(|(a, b)| a != b).count()
    }
    let (whole, mut damaged) = (&truth.slices, truth.slices.clone());
    for _ in 0..random.below(20) {
        alter(&mut damaged, random);
    }
    let damage = Differences {
        d: count(&damaged.d, &whole.d),
        e: count(&damaged.e, &whole.e),
        f: count(&damaged.f, &whole.f),
        back: count(&damaged.back, &whole.back),
        route: count(&damaged.route, &whole.route),
        next: count(&damaged.next, &whole.next),
    };
    let mut slices = Slices::new(floor.vertices(), random.below(256) as u8);
    let wanted = match truth.planned {
        Ok(_) | Err(Refusal::NoRoute) => Ok(Mended { points: NonZeroUsize::new(truth.points()), damage }),
        Err(refusal) => Err(refusal),
    };
    assert_eq!(slices.mend(floor, job, damaged.sheet(random.below(9))), wanted, "mend");
    assert!(slices == *whole, "mend: the slices");
}

/// The fewest legs from each position of a joined list, by a look at all pairs.
fn legs_by_definition(floor: Floor, list: &[u16]) -> Vec<u16> {
    let mut legs = vec![0; list.len()];
    for i in (0..list.len() - 1).rev() {
        let is_leg = |&j: &usize| sees_by_definition(floor, list[i].into(), list[j].into());
        legs[i] = (i + 1..list.len()).filter(is_leg).map(|j| legs[j] + 1).min().expect("the next is seen");
    }
    legs
}

/// A random joined list: the library's proposal, the copy's, and the verdict of both on it and with a number altered.
fn agree_on_legs(floor: Floor, random: &mut Random) {
    let mut list = vec![random.below(floor.vertices()) as u16];
    for _ in 0..40 {
        let (last, v) = (list[list.len() - 1], random.below(floor.vertices()) as u16);
        if (TEXTBOOK.sight)(floor, last.into(), v.into()) == Ok(true) {
            list.push(v);
        }
    }
    let n = list.len();
    let sees = |i: usize, j: usize| Sight::new(floor).sees(list[i], list[j]);
    let (mut kept, mut legs, mut own) = (vec![9; n], vec![9; n], (vec![9; n], vec![9; n]));
    let count = fewest_legs(floor, &list, &mut kept, &mut legs, n).expect("a joined list");
    assert_eq!(legs::propose(sees, &list, &mut own.0, &mut own.1, n), count, "legs: how many are kept");
    assert_eq!((&kept, &legs), (&own.0, &own.1), "legs: the copy's proposal");
    assert_eq!(legs, legs_by_definition(floor, &list), "legs: by definition");
    for by in 0..4 {
        legs[random.below(n)] += by;
        let proposal = Proposal { kept: &kept, count, legs: &legs };
        assert_eq!(check_legs(floor, &list, n, proposal), Ok(by == 0), "legs: checked");
        assert_eq!(legs::check(sees, &list, n, proposal), by == 0, "legs: checked by the copy");
    }
}

fn agree_on_plan(program: &Program, floor: Floor, job: Job, truth: &Truth, random: &mut Random) {
    let name = program.name;
    let mut slices = Slices::new(floor.vertices(), random.below(256) as u8);
    assert_eq!(slices.plan(program, floor, job), truth.planned, "plan: {name}");
    assert!(slices == truth.slices, "plan: the slices of {name}");
    slices.next.pop();
    let before = slices.clone();
    assert_eq!(slices.finish(program, floor, job), Err(Refusal::BadSliceLength), "finish: a short next, {name}");
    assert!(slices == before, "finish: a short next, the slices of {name}");
}

/// A planner that does not have the neighbourhood refuses the job, and leaves all slices as they were.
fn agree_on_refused_moves(program: &Program, floor: Floor, job: Job, random: &mut Random) {
    let name = program.name;
    let before = Slices::new(floor.vertices(), random.below(256) as u8);
    let mut slices = before.clone();
    let refusal = Refusal::BadNeighbourhood;
    assert_eq!(slices.plan(program, floor, job), Err(refusal), "plan: refused moves, {name}");
    assert_eq!(slices.costs(program, floor, job), Err(refusal), "costs: refused moves, {name}");
    assert_eq!(slices.finish(program, floor, job), Err(refusal), "finish: refused moves, {name}");
    assert!(slices == before, "refused moves: the slices of {name}");
}

/// The checker on the true sheet, on another number of points, and on sheets with one number changed.
fn agree_on_check(program: &Program, floor: Floor, job: Job, truth: &Truth, random: &mut Random) {
    let (name, slices, points) = (program.name, &truth.slices, truth.points());
    assert_eq!((program.check)(floor, job, slices.sheet(points)), Ok(truth.verdict), "check: {name}");
    assert_eq!((program.check)(floor, job, slices.sheet(points + 1)), Ok(Verdict::FalseSheet), "check: n, {name}");
    for _ in 0..8 {
        let mut altered = slices.clone();
        alter(&mut altered, random);
        let verdict = (program.check)(floor, job, altered.sheet(points));
        assert_eq!(verdict, Ok(Verdict::FalseSheet), "check: altered, {name}");
    }
}

fn agree_on_thinning(program: &Program, floor: Floor, truth: &Truth) {
    let (name, route, points) = (program.name, &truth.slices.route, truth.points());
    let mut kept = vec![9; route.len()];
    let count = (program.thin)(floor, route, &mut kept, points);
    if points > 0 {
        assert_eq!(kept, truth.kept, "thin: {name}");
        assert_eq!(count, (TEXTBOOK.thin)(floor, route, &mut kept, points), "thin: {name}");
    } else {
        assert_eq!(count, Err(Refusal::NotJoined), "thin: {name}");
    }
}

/// The costs, the rest of the job from them, and costs that are not true, which leave all else as it was.
fn agree_on_costs(program: &Program, floor: Floor, job: Job, truth: &Truth, random: &mut Random) {
    let name = program.name;
    let mut slices = Slices::new(floor.vertices(), random.below(256) as u8);
    assert_eq!(slices.costs(program, floor, job), Ok(()), "costs: {name}");
    assert!(slices.d == truth.slices.d && slices.work == truth.slices.work, "costs: the slices of {name}");
    assert_eq!(slices.finish(program, floor, job), truth.planned, "finish: {name}");
    assert!(slices == truth.slices, "finish: the slices of {name}");
    for _ in 0..4 {
        let v = random.below(slices.d.len());
        let mut altered = slices.clone();
        altered.d[v] = altered.d[v].wrapping_add(STEPS[random.below(STEPS.len())]);
        let before = altered.clone();
        assert_eq!(altered.finish(program, floor, job), Err(Refusal::FalseCosts), "finish: altered, {name}");
        assert!(altered == before, "finish: altered, the slices of {name}");
    }
}

/// The sheet with another next vertex: a neighbour in each direction, 0 or an end, at any place and at the ends; and
/// with a short next.
fn agree_on_next(program: &Program, floor: Floor, job: Job, truth: &Truth, random: &mut Random) {
    let (slices, points) = (&truth.slices, truth.points());
    let (columns, length) = (floor.width as usize + 1, slices.next.len());
    let mut altered = slices.clone();
    let places = [job.a as usize, job.b as usize, random.below(length), random.below(length), random.below(length)];
    for v in places {
        let near = [1, columns + 1, columns, columns - 1];
        let far = [columns + 2, 2 * columns + 1, 2 * columns - 1, columns.wrapping_sub(2)];
        let beside = near.into_iter().chain(far).flat_map(|by| [v.wrapping_add(by), v.wrapping_sub(by)]);
        let others = beside.chain([v, 0, job.a as usize, job.b as usize]).map(|w| w as u16);
        for w in others.filter(|&w| w != slices.next[v]) {
            altered.next[v] = w;
            let verdict = (program.check)(floor, job, altered.sheet(points));
            assert_eq!(verdict, Ok(Verdict::FalseSheet), "check: another next vertex, {}", program.name);
        }
        altered.next[v] = slices.next[v];
    }
    altered.next.pop();
    let refused = (program.check)(floor, job, altered.sheet(points));
    assert_eq!(refused, Err(Refusal::BadSliceLength), "check: a short next, {}", program.name);
}

/// By how much a cost is changed.
const STEPS: [u32; 9] = [1, 408, 577, 1000, 1414, 2236, 0x4000_0000, 0x8000_0000, u32::MAX];

/// Changes one number of the sheet.
fn alter(slices: &mut Slices, random: &mut Random) {
    let v = random.below(slices.d.len());
    let by = STEPS[random.below(STEPS.len())];
    match random.below(6) {
        0 => slices.d[v] = slices.d[v].wrapping_add(by),
        1 => slices.e[v] = slices.e[v].wrapping_add(by),
        2 => slices.f[v] ^= 1 << random.below(64),
        3 => slices.back[v] ^= 1 << random.below(64),
        4 => slices.route[v] ^= 1 << random.below(16),
        _ => slices.next[v] ^= 1 << random.below(16),
    }
}

/// All vertex pairs of small floors, some of large ones, and lists of any vertices.
fn agree_on_sight(program: &Program, floor: Floor, random: &mut Random) {
    let vertices = floor.vertices();
    for _ in 0..vertices.min(200) {
        let (a, b) = (random.below(vertices + 1) as u32, random.below(vertices) as u32);
        let seen = (TEXTBOOK.sight)(floor, a, b);
        assert_eq!((program.sight)(floor, a, b), seen, "sight: {} from {a} to {b}", program.name);
    }
    let list: Vec<u16> = (0..8).map(|_| random.below(vertices) as u16).collect();
    let (mut kept, mut wanted) = ([7; 8], [7; 8]);
    let count = (TEXTBOOK.thin)(floor, &list, &mut wanted, 8);
    assert_eq!((program.thin)(floor, &list, &mut kept, 8), count, "thin: {}", program.name);
    assert_eq!(kept, wanted, "thin: {}", program.name);
}

fn agree_on_copied_sight(floor: Floor, random: &mut Random) {
    for _ in 0..200 {
        let [a, b] = [(); 2].map(|()| random.below(floor.vertices()) as u16);
        let seen = (TEXTBOOK.sight)(floor, a.into(), b.into());
        assert_eq!(Ok(Sight::new(floor).sees(a, b)), seen, "sight: the copy from {a} to {b}");
    }
}

fn all_agree_on(floor: Floor, job: Job, truth: &Truth, random: &mut Random) {
    for program in &PROGRAMS {
        agree_on(program, floor, job, truth, random);
        agree_on_sight(program, floor, random);
    }
    agree_on_replay(floor, job, truth, random);
    agree_on_cost_changes(floor, job, truth, random);
    agree_on_mending(floor, job, truth, random);
}

fn is_blocked(floor: Floor, i: i32, j: i32) -> bool {
    let (width, height) = (floor.width as i32, floor.height as i32);
    let inside = 0 <= i && i < width && 0 <= j && j < height;
    let cell = j * width + i;
    !inside || floor.map[(cell / 8) as usize] & 1 << (cell % 8) != 0
}

fn point(floor: Floor, v: u32) -> (i32, i32) {
    let columns = floor.width + 1;
    ((v % columns) as i32, (v / columns) as i32)
}

/// Exactly two of the four cells at a vertex are blocked, and they are diagonal to each other.
fn is_pinch(floor: Floor, v: u32) -> bool {
    let (x, y) = point(floor, v);
    let cells = [(x - 1, y - 1), (x, y - 1), (x, y), (x - 1, y)].map(|(i, j)| is_blocked(floor, i, j));
    cells == [true, false, true, false] || cells == [false, true, false, true]
}

/// Sight as its definition has it, cell by cell and vertex by vertex.
fn sees_by_definition(floor: Floor, a: u32, b: u32) -> bool {
    let blocked = |i: i32, j: i32| is_blocked(floor, i, j);
    let ((x0, y0), (x1, y1)) = (point(floor, a), point(floor, b));
    let (columns, rows) = (x0.min(x1)..x0.max(x1), y0.min(y1)..y0.max(y1));
    let side = |p: i32, q: i32| (x1 - x0) * (q - y0) - (y1 - y0) * (p - x0);
    let enters = |i: i32, j: i32| {
        let sides = [side(i, j), side(i + 1, j), side(i, j + 1), side(i + 1, j + 1)];
        sides.iter().any(|&side| side > 0) && sides.iter().any(|&side| side < 0)
    };
    let entered = rows.clone().any(|j| columns.clone().any(|i| blocked(i, j) && enters(i, j)));
    let shut_row = y0 == y1 && columns.clone().any(|i| blocked(i, y0 - 1) && blocked(i, y0));
    let shut_column = x0 == x1 && rows.clone().any(|j| blocked(x0 - 1, j) && blocked(x0, j));
    let passed = |v: u32| {
        let (p, q) = point(floor, v);
        let within = x0.min(x1) <= p && p <= x0.max(x1) && y0.min(y1) <= q && q <= y0.max(y1);
        within && side(p, q) == 0
    };
    let pinched = a != b && (0..floor.vertices() as u32).any(|v| is_pinch(floor, v) && passed(v));
    !entered && !shut_row && !shut_column && !pinched
}

/// The moves of a neighbourhood, by columns and rows, and their costs. Neighbourhood 16 has between each two of the
/// eight moves their sum.
fn moves_by_definition(neighbourhood: u32) -> Vec<(i32, i32, u32)> {
    let eight = [(1, 0), (1, 1), (0, 1), (-1, 1), (-1, 0), (-1, -1), (0, -1), (1, -1)];
    let cost_of_16 = |x: i32, y: i32| [0, 1000, 1414, 0, 0, 2236][(x * x + y * y) as usize];
    let with_sum = |k: usize| {
        let ((x, y), (p, q)) = (eight[k], eight[(k + 1) % 8]);
        [(x, y, cost_of_16(x, y)), (x + p, y + q, cost_of_16(x + p, y + q))]
    };
    match neighbourhood {
        4 => eight.iter().step_by(2).map(|&(x, y)| (x, y, 408)).collect(),
        8 => eight.iter().map(|&(x, y)| (x, y, if x * y == 0 { 408 } else { 577 })).collect(),
        _ => (0..8).flat_map(with_sum).collect(),
    }
}

/// The open moves of every vertex as the definition has them: the far ends and the costs.
fn open_moves(floor: Floor, neighbourhood: u32) -> Vec<Vec<(usize, u32)>> {
    let moves = moves_by_definition(neighbourhood);
    let open_from = |v: u32| {
        let (x, y) = point(floor, v);
        let end = |&(dx, dy, cost): &(i32, i32, u32)| {
            let (p, q) = (x + dx, y + dy);
            let on_floor = 0 <= p && p <= floor.width as i32 && 0 <= q && q <= floor.height as i32;
            let w = on_floor.then_some((q * (floor.width as i32 + 1) + p) as u32)?;
            sees_by_definition(floor, v, w).then_some((w as usize, cost))
        };
        moves.iter().filter_map(end).collect()
    };
    (0..floor.vertices() as u32).map(open_from).collect()
}

/// Costs from one end, by trying all moves until none makes anything cheaper.
fn costs_by_definition(moves: &[Vec<(usize, u32)>], from: usize) -> Vec<u32> {
    let mut costs = vec![UNREACHABLE; moves.len()];
    costs[from] = 0;
    let mut cheaper = true;
    while cheaper {
        cheaper = false;
        for (u, &(w, cost)) in moves.iter().enumerate().flat_map(|(u, moves)| moves.iter().map(move |to| (u, to))) {
            if costs[u] != UNREACHABLE && costs[u] + cost < costs[w] {
                costs[w] = costs[u] + cost;
                cheaper = true;
            }
        }
    }
    costs
}

/// The textbook program's plan against the definitions: costs, counts, next vertices and the totals.
fn agree_by_definition(floor: Floor, job: Job, truth: &Truth) {
    let moves = open_moves(floor, job.neighbourhood);
    let (a, b) = (job.a as usize, job.b as usize);
    let (d, e) = (costs_by_definition(&moves, a), costs_by_definition(&moves, b));
    let slices = &truth.slices;
    assert_eq!(slices.d, d, "plan: d by definition");
    if d[b] == UNREACHABLE {
        assert_eq!(truth.planned, Err(Refusal::NoRoute), "plan: by definition");
        return;
    }
    let mut way: Vec<usize> = (0..d.len()).filter(|&v| d[v] != UNREACHABLE && d[v] + e[v] == d[b]).collect();
    way.sort_by_key(|&v| d[v]);
    let (mut f, mut back, mut next) = (vec![0; d.len()], vec![0; d.len()], vec![0; d.len()]);
    (f[a], back[b], next[b]) = (1, 1, job.b as u16);
    for &u in &way {
        for &(w, _) in moves[u].iter().filter(|&&(w, cost)| d[u] + cost == d[w] && d[w] + e[w] == d[b]) {
            f[w] += f[u];
        }
    }
    for &u in way.iter().rev().filter(|&&u| u != b) {
        let ahead = || moves[u].iter().filter(|&&(w, cost)| e[w] + cost == e[u]).map(|&(w, _)| w);
        back[u] = ahead().map(|w| back[w]).sum();
        let most = ahead().map(|w| f[w] * back[w]).max();
        next[u] = ahead().find(|&w| Some(f[w] * back[w]) == most).map_or(0, |w| w as u16);
    }
    let plan = truth.planned.map(|plan| (plan.cost, plan.total));
    assert_eq!(plan, Ok((d[b], f[b])), "plan: by definition");
    assert!(slices.e == e && slices.f == f && slices.back == back && slices.next == next, "plan: by definition");
}

/// Every program refuses a job with a pinch for an end, and leaves all slices as they were. A pinch sees itself alone.
fn agree_on_pinched_end(floor: Floor, job: Job, random: &mut Random) {
    let pinch = if is_pinch(floor, job.a) { job.a } else { job.b };
    for program in &PROGRAMS {
        let name = program.name;
        let refusal = due(program, Operation::Plan, job, Refusal::PinchedEnd);
        let before = Slices::new(floor.vertices(), random.below(256) as u8);
        let mut slices = before.clone();
        if is_pinch(floor, job.a) {
            assert_eq!(slices.plan(program, floor, job), Err(refusal), "plan: a pinched end, {name}");
            assert_eq!(slices.costs(program, floor, job), Err(refusal), "costs: a pinched end, {name}");
        }
        assert_eq!(slices.finish(program, floor, job), Err(refusal), "finish: a pinched end, {name}");
        assert!(slices == before, "a pinched end: the slices of {name}");
        let refusal = due(program, Operation::Check, job, Refusal::PinchedEnd);
        assert_eq!((program.check)(floor, job, slices.sheet(1)), Err(refusal), "check: a pinched end, {name}");
        let mut list = [pinch as u16; 4];
        list[3] = 0;
        let mut kept = [9; 4];
        assert_eq!((program.thin)(floor, &list, &mut kept, 4), Err(Refusal::NotJoined), "thin: a pinch, {name}");
        assert_eq!((program.thin)(floor, &list, &mut kept, 3), Ok(2), "thin: a pinch again, {name}");
        assert_eq!(kept, [0, 2, 0, 0], "thin: a pinch again, {name}");
        assert_eq!((program.sight)(floor, pinch, 0), Ok(false), "sight: a pinch, {name}");
        assert_eq!((program.sight)(floor, pinch, pinch), Ok(true), "sight: a pinch, {name}");
    }
}

/// Cells blocked at random; or, on an open floor, in pairs that touch at a corner.
fn random_map(width: usize, height: usize, random: &mut Random) -> Vec<u8> {
    let share = [0, 2, 10, 30, 50][random.below(5)];
    if random.below(3) > 0 || width == 1 || height == 1 {
        return pack(&(0..width * height).map(|_| u8::from(random.below(100) < share)).collect::<Vec<u8>>());
    }
    let mut cells = vec![0; width * height];
    for _ in 0..width * height * share / 200 + 1 {
        let (cell, falling) = (random.below(height - 1) * width + random.below(width - 1), random.below(2));
        cells[cell + 1 - falling] = 1;
        cells[cell + width + falling] = 1;
    }
    pack(&cells)
}

/// Every program refuses the map, and leaves all slices as they were.
fn agree_on_refused_map(floor: Floor, job: Job, refusal: Refusal) {
    for program in &PROGRAMS {
        let name = program.name;
        let before = Slices::new(floor.vertices(), 7);
        let mut slices = before.clone();
        assert_eq!(slices.plan(program, floor, job), Err(refusal), "plan: a map, {name}");
        assert_eq!(slices.costs(program, floor, job), Err(refusal), "costs: a map, {name}");
        assert_eq!(slices.finish(program, floor, job), Err(refusal), "finish: a map, {name}");
        assert!(slices == before, "a map: the slices of {name}");
        assert_eq!((program.check)(floor, job, slices.sheet(1)), Err(refusal), "check: a map, {name}");
        assert_eq!((program.thin)(floor, &[0], &mut [9], 1), Err(refusal), "thin: a map, {name}");
        assert_eq!((program.sight)(floor, 0, 0), Err(refusal), "sight: a map, {name}");
    }
}

/// The floor's map with each unused bit set, and longer or shorter by a byte.
fn agree_on_bad_maps(floor: Floor, job: Job) {
    let (cells, length) = (floor.width as usize * floor.height as usize, floor.map.len());
    for bit in cells..8 * length {
        let mut map = floor.map.to_vec();
        map[bit / 8] |= 1 << (bit % 8);
        agree_on_refused_map(Floor { map: &map, ..floor }, job, Refusal::UnusedBit);
    }
    let longer = [floor.map, &[0]].concat();
    agree_on_refused_map(Floor { map: &longer, ..floor }, job, Refusal::BadMapLength);
    agree_on_refused_map(Floor { map: &floor.map[1..], ..floor }, job, Refusal::BadMapLength);
}

/// A vertex that is no pinch; the corners of a floor never are one.
fn any_end(floor: Floor, random: &mut Random) -> u32 {
    let v = random.below(floor.vertices()) as u32;
    if is_pinch(floor, v) { any_end(floor, random) } else { v }
}

/// One random floor of any sides, with any ends: answers 0, 7, 8 and 11 all occur.
fn agree_on_random_floor(random: &mut Random) {
    let limits = [(3, 3), (8, 8), (40, 40), (127, 4), (4, 127)][random.below(5)];
    let (width, height) = (1 + random.below(limits.0), 1 + random.below(limits.1));
    let map = random_map(width, height, random);
    let floor = Floor { width: width as u32, height: height as u32, map: &map };
    let (a, b) = (any_end(floor, random), any_end(floor, random));
    let job = Job { neighbourhood: NEIGHBOURHOODS[random.below(3)], a, b };
    if let Some(pinch) = (0..floor.vertices() as u32).find(|&v| is_pinch(floor, v)) {
        for ends in [(a, pinch), (pinch, b), (pinch, pinch)] {
            agree_on_pinched_end(floor, Job { a: ends.0, b: ends.1, ..job }, random);
        }
    }
    agree_on_bad_maps(floor, job);
    assert_eq!((TEXTBOOK.sight)(floor, a, b), Ok(sees_by_definition(floor, a, b)), "sight: textbook");
    agree_on_copied_sight(floor, random);
    agree_on_legs(floor, random);
    let truth = truth_of(floor, job);
    if floor.vertices() <= 81 {
        agree_by_definition(floor, job, &truth);
    }
    all_agree_on(floor, job, &truth, random);
}

/// A pinch anywhere on a long grid line, from every vertex of the line to its right end and back: what is before it is
/// not seen from behind.
fn agree_on_long_line(width: usize) {
    for x in 1..width {
        let mut cells = vec![0; 2 * width];
        (cells[x - 1], cells[width + x]) = (1, 1);
        let map = pack(&cells);
        let floor = Floor { width: width as u32, height: 2, map: &map };
        let vertex = |column: usize| (width + 1 + column) as u32;
        for (program, from) in PROGRAMS.iter().flat_map(|program| (0..width).map(move |from| (program, from))) {
            let seen = Ok(from > x);
            assert_eq!((program.sight)(floor, vertex(from), vertex(width)), seen, "sight: a line, {}", program.name);
            assert_eq!((program.sight)(floor, vertex(width), vertex(from)), seen, "sight: a line, {}", program.name);
        }
    }
}

pub fn agree_on_case(case: &Case) {
    let mut random = Random::new(1);
    let truth = truth_of(case.floor(), case.job);
    assert!(truth.planned.is_ok(), "the job has a route");
    all_agree_on(case.floor(), case.job, &truth, &mut random);
    let shut = case.without_route();
    let shut_truth = truth_of(shut.floor(), shut.job);
    assert_eq!(shut_truth.planned, Err(Refusal::NoRoute));
    all_agree_on(shut.floor(), shut.job, &shut_truth, &mut random);
}

/// Plans, costs and checks alone: with all that `agree_on_case` asks, the larger floors take long.
fn agree_on_larger_case(case: &Case) {
    let mut random = Random::new(1);
    let (floor, job) = (case.floor(), case.job);
    let truth = truth_of(floor, job);
    assert!(truth.planned.is_ok(), "the job has a route");
    for program in &PROGRAMS {
        if program.has(Operation::Plan, job.neighbourhood) {
            agree_on_plan(program, floor, job, &truth, &mut random);
            agree_on_costs(program, floor, job, &truth, &mut random);
        }
        if program.has(Operation::Check, job.neighbourhood) {
            agree_on_check(program, floor, job, &truth, &mut random);
        }
        agree_on_thinning(program, floor, &truth);
    }
}

/// The programs agree on the benchmark's floors, on jobs with too many routes, and on random floors.
pub fn agree(floors: usize) {
    if !LIBRARY.has(Operation::Plan, 16) {
        eprintln!("bench: the library has not neighbourhood 16; with it the other programs are held to each other");
    }
    let mut random = Random::new(2);
    for _ in 0..floors {
        agree_on_random_floor(&mut random);
    }
    agree_on_long_line(127);
    for (kind, neighbourhood) in KINDS.into_iter().flat_map(|kind| NEIGHBOURHOODS.map(|moves| (kind, moves))) {
        agree_on_case(&Case::new(kind, SIDES[0], neighbourhood));
        SIDES[1..].iter().for_each(|&side| agree_on_larger_case(&Case::new(kind, side, neighbourhood)));
    }
    // From a corner to the farthest one, and to vertices between two directions of moves.
    let open = Case::new(Kind::Open, 127, 4);
    for (neighbourhood, x, y) in [(4, 127, 127), (8, 127, 63), (16, 126, 84)] {
        let job = Job { neighbourhood, a: 0, b: y * 128 + x };
        let truth = truth_of(open.floor(), job);
        assert_eq!(truth.planned, Err(Refusal::TooMany));
        all_agree_on(open.floor(), job, &truth, &mut random);
    }
}
