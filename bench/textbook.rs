//! The textbook program: each operation in its plain form, with the containers of the standard library.
//!
//! Costs by Dijkstra's method with a binary heap, from each end; counts in order of distance; sight by the method of
//! Theta* with whole numbers.

use crate::lurfanzi::{Floor, Job, Plan, Refusal, Sheet, SheetMut, Verdict, UNREACHABLE};
use crate::shape;
use std::cmp::Reverse;
use std::collections::BinaryHeap;

const MOVES: [(i32, i32, u32); 8] =
    [(1, 0, 408), (1, 1, 577), (0, 1, 408), (-1, 1, 577), (-1, 0, 408), (-1, -1, 577), (0, -1, 408), (1, -1, 577)];

const MOVES_OF_16: [(i32, i32, u32); 16] = [
    (1, 0, 1000), (2, 1, 2236), (1, 1, 1414), (1, 2, 2236), (0, 1, 1000), (-1, 2, 2236), (-1, 1, 1414), (-2, 1, 2236),
    (-1, 0, 1000), (-2, -1, 2236), (-1, -1, 1414), (-1, -2, 2236), (0, -1, 1000), (1, -2, 2236), (1, -1, 1414),
    (2, -1, 2236),
];

#[derive(Clone, Copy)]
struct Grid<'a> {
    width: i32,
    height: i32,
    map: &'a [u8],
    moves: &'static [(i32, i32, u32)],
    step: usize,
}

impl<'a> Grid<'a> {
    fn new(floor: Floor<'a>, neighbourhood: u32) -> Grid<'a> {
        let moves = if neighbourhood == 16 { &MOVES_OF_16[..] } else { &MOVES[..] };
        let step = if neighbourhood == 4 { 2 } else { 1 };
        Grid { width: floor.width as i32, height: floor.height as i32, map: floor.map, moves, step }
    }

    fn vertices(&self) -> usize {
        ((self.width + 1) * (self.height + 1)) as usize
    }

    fn point(&self, v: usize) -> (i32, i32) {
        (v as i32 % (self.width + 1), v as i32 / (self.width + 1))
    }

    fn is_blocked(&self, i: i32, j: i32) -> bool {
        let inside = 0 <= i && i < self.width && 0 <= j && j < self.height;
        !inside || shape::cell(self.map, (j * self.width + i) as usize) != 0
    }

    /// Whether exactly two of the four cells at a vertex are blocked, and they are diagonal to each other.
    fn is_pinch(&self, x: i32, y: i32) -> bool {
        let (left, right) = (self.is_blocked(x - 1, y - 1), self.is_blocked(x, y - 1));
        left != right && self.is_blocked(x - 1, y) == right && self.is_blocked(x, y) == left
    }

    /// Whether a move between vertices that are no pinches is open.
    fn is_open(&self, x: i32, y: i32, dx: i32, dy: i32) -> bool {
        let (i, j) = (x + dx.min(0), y + dy.min(0));
        if dy == 0 {
            !(self.is_blocked(i, y - 1) && self.is_blocked(i, y))
        } else if dx == 0 {
            !(self.is_blocked(x - 1, j) && self.is_blocked(x, j))
        } else if dx.abs() == 2 {
            !self.is_blocked(i, j) && !self.is_blocked(i + 1, j)
        } else if dy.abs() == 2 {
            !self.is_blocked(i, j) && !self.is_blocked(i, j + 1)
        } else {
            !self.is_blocked(i, j)
        }
    }

    /// The far ends and costs of the open moves from a vertex, in move order.
    fn moves(&self, v: usize) -> impl Iterator<Item = (usize, u32)> + 'a {
        let grid = *self;
        let (x, y) = grid.point(v);
        let moves = if grid.is_pinch(x, y) { &[] } else { grid.moves };
        moves.iter().step_by(grid.step).filter_map(move |&(dx, dy, cost)| {
            let on_floor = 0 <= x + dx && x + dx <= grid.width && 0 <= y + dy && y + dy <= grid.height;
            let open = on_floor && grid.is_open(x, y, dx, dy) && !grid.is_pinch(x + dx, y + dy);
            open.then(|| (((y + dy) * (grid.width + 1) + x + dx) as usize, cost))
        })
    }

    fn distances(&self, from: usize, d: &mut [u32]) {
        d.fill(UNREACHABLE);
        d[from] = 0;
        let mut heap = BinaryHeap::from([Reverse((0, from))]);
        while let Some(Reverse((cost, u))) = heap.pop() {
            if cost > d[u] {
                continue;
            }
            for (w, length) in self.moves(u) {
                if cost + length < d[w] {
                    d[w] = cost + length;
                    heap.push(Reverse((cost + length, w)));
                }
            }
        }
    }

    /// The sum of the counts of the neighbours before v, none above 64 bits.
    fn sum(&self, v: usize, d: &[u32], count: &[u64]) -> Option<u64> {
        let before = self.moves(v).filter(|&(u, cost)| d[u] != UNREACHABLE && d[u] + cost == d[v]);
        before.map(|(u, _)| count[u]).try_fold(0u64, u64::checked_add)
    }

    fn sees(&self, a: usize, b: usize) -> bool {
        let ((x0, y0), (x1, y1)) = (self.point(a), self.point(b));
        if (x1 - x0).abs() >= (y1 - y0).abs() {
            sees_along((x0, y0), (x1, y1), |i, j| self.is_blocked(i, j), |x, y| self.is_pinch(x, y))
        } else {
            sees_along((y0, x0), (y1, x1), |j, i| self.is_blocked(i, j), |y, x| self.is_pinch(x, y))
        }
    }
}

/// Theta*'s line of sight, with x as the longer side; where f is 0 the segment is at a vertex.
fn sees_along(
    (mut x, mut y): (i32, i32), (x1, y1): (i32, i32),
    is_blocked: impl Fn(i32, i32) -> bool, is_pinch: impl Fn(i32, i32) -> bool,
) -> bool {
    if x != x1 && is_pinch(x, y) {
        return false;
    }
    let (dx, dy) = ((x1 - x).abs(), (y1 - y).abs());
    let (step_x, step_y) = (if x1 < x { -1 } else { 1 }, if y1 < y { -1 } else { 1 });
    let (cell_x, cell_y) = ((step_x - 1) / 2, (step_y - 1) / 2);
    let mut f = 0;
    while x != x1 {
        f += dy;
        if f >= dx {
            if is_blocked(x + cell_x, y + cell_y) {
                return false;
            }
            y += step_y;
            f -= dx;
        }
        if f != 0 && is_blocked(x + cell_x, y + cell_y) {
            return false;
        }
        if dy == 0 && is_blocked(x + cell_x, y) && is_blocked(x + cell_x, y - 1) {
            return false;
        }
        x += step_x;
        if f == 0 && is_pinch(x, y) {
            return false;
        }
    }
    true
}

/// The cost of a vertex, and the number of cheapest walks to it where it fits in 64 bits.
pub struct Reach {
    pub cost: u32,
    pub count: Option<u64>,
}

/// What the vertex `a` reaches, and how.
pub fn reached(floor: Floor, neighbourhood: u32, a: u32) -> Vec<Reach> {
    let grid = Grid::new(floor, neighbourhood);
    let mut d = vec![0; grid.vertices()];
    grid.distances(a as usize, &mut d);
    let mut order: Vec<usize> = (0..d.len()).collect();
    order.sort_by_key(|&v| d[v]);
    let mut reach: Vec<Reach> = d.iter().map(|&cost| Reach { cost, count: Some(0) }).collect();
    for v in order.into_iter().filter(|&v| d[v] != UNREACHABLE) {
        let before = grid.moves(v).filter(|&(u, cost)| d[u] != UNREACHABLE && d[u] + cost == d[v]);
        let sum = before.map(|(u, _)| reach[u].count).try_fold(0u64, |sum, count| sum.checked_add(count?));
        reach[v].count = if v == a as usize { Some(1) } else { sum };
    }
    reach
}

pub fn sight(floor: Floor, a: u32, b: u32) -> Result<bool, Refusal> {
    shape::of_floor(floor)?;
    shape::of_end(floor, a)?;
    shape::of_end(floor, b)?;
    Ok(Grid::new(floor, 8).sees(a as usize, b as usize))
}

pub fn plan(floor: Floor, job: Job, d: &mut [u32], sheet: &mut SheetMut, work: &mut [u32]) -> Result<Plan, Refusal> {
    shape::of_job(floor, job, sheet.read(d, 0))?;
    shape::of_work(floor, work)?;
    Grid::new(floor, job.neighbourhood).distances(job.a as usize, d);
    rest(floor, job, d, sheet, work)
}

pub fn costs(floor: Floor, neighbourhood: u32, a: u32, d: &mut [u32], work: &mut [u32]) -> Result<(), Refusal> {
    shape::of_costs(floor, neighbourhood, a, d, work)?;
    Grid::new(floor, neighbourhood).distances(a as usize, d);
    work.fill(0);
    Ok(())
}

/// Works the costs out anew and compares, then does the rest.
pub fn finish(floor: Floor, job: Job, d: &[u32], sheet: &mut SheetMut, work: &mut [u32]) -> Result<Plan, Refusal> {
    shape::of_job(floor, job, sheet.read(d, 0))?;
    shape::of_work(floor, work)?;
    let mut own = vec![0; d.len()];
    Grid::new(floor, job.neighbourhood).distances(job.a as usize, &mut own);
    if own != d {
        return Err(Refusal::FalseCosts);
    }
    rest(floor, job, d, sheet, work)
}

/// The rest of a sheet from the true costs from its first end.
fn rest(floor: Floor, job: Job, d: &[u32], sheet: &mut SheetMut, work: &mut [u32]) -> Result<Plan, Refusal> {
    let grid = Grid::new(floor, job.neighbourhood);
    work.fill(0);
    let planned = fill(grid, job.a as usize, job.b as usize, d, sheet);
    if planned.is_err() {
        sheet.f.fill(0);
        sheet.back.fill(0);
        sheet.route.fill(0);
        sheet.next.fill(0);
    }
    planned
}

fn fill(grid: Grid, a: usize, b: usize, d: &[u32], sheet: &mut SheetMut) -> Result<Plan, Refusal> {
    let cost = d[b];
    if cost == UNREACHABLE {
        sheet.e.fill(0);
        return Err(Refusal::NoRoute);
    }
    grid.distances(b, sheet.e);
    let e = &*sheet.e;
    let on_way = |v: usize| d[v] != UNREACHABLE && e[v] != UNREACHABLE && d[v] + e[v] == cost;
    let mut way: Vec<usize> = (0..d.len()).filter(|&v| on_way(v)).collect();
    way.sort_by_key(|&v| d[v]);

    sheet.f.fill(0);
    for &v in &way {
        sheet.f[v] = if v == a { 1 } else { grid.sum(v, d, sheet.f).ok_or(Refusal::TooMany)? };
    }
    sheet.back.fill(0);
    for &v in way.iter().rev() {
        sheet.back[v] = if v == b { 1 } else { grid.sum(v, e, sheet.back).ok_or(Refusal::TooMany)? };
    }

    sheet.next.fill(0);
    sheet.next[b] = b as u16;
    for &u in way.iter().filter(|&&u| u != b) {
        let mut best = (0, b);
        for (w, length) in grid.moves(u) {
            let count = sheet.f[w] * sheet.back[w];
            if d[u] + length == d[w] && count > best.0 {
                best = (count, w);
            }
        }
        sheet.next[u] = best.1 as u16;
    }

    let mut route = vec![a];
    let mut u = a;
    while u != b {
        u = sheet.next[u].into();
        route.push(u);
    }
    sheet.route.fill(0);
    for (place, &v) in sheet.route.iter_mut().zip(&route) {
        *place = v as u16;
    }
    Ok(Plan { cost, total: sheet.f[b], points: route.len() })
}

/// Plans anew and compares.
pub fn check(floor: Floor, job: Job, sheet: Sheet) -> Result<Verdict, Refusal> {
    shape::of_job(floor, job, sheet)?;
    let length = sheet.d.len();
    let (mut d, mut e, mut f) = (vec![0; length], vec![0; length], vec![0; length]);
    let (mut back, mut route, mut next) = (vec![0; length], vec![0; length], vec![0; length]);
    let mut own = SheetMut { e: &mut e, f: &mut f, back: &mut back, route: &mut route, next: &mut next };
    let planned = plan(floor, job, &mut d, &mut own, &mut vec![0; 4 * length]);
    let points = planned.map_or(0, |plan| plan.points);
    let same = sheet.points == points
        && sheet.d == d
        && sheet.e == e
        && sheet.f == f
        && sheet.back == back
        && sheet.route == route
        && sheet.next == next;
    Ok(match planned {
        Ok(_) if same => Verdict::Route,
        Err(Refusal::NoRoute) if same => Verdict::NoRoute,
        _ => Verdict::FalseSheet,
    })
}

pub fn thin(floor: Floor, list: &[u16], out: &mut [u16], n: usize) -> Result<usize, Refusal> {
    shape::of_floor(floor)?;
    shape::of_lists(list, out)?;
    let grid = Grid::new(floor, 8);
    let used = list.get(..n).filter(|used| !used.is_empty()).ok_or(Refusal::NotJoined)?;
    let sees = |i: usize, k: usize| grid.sees(used[i].into(), used[k].into());
    let on_floor = used.iter().all(|&v| usize::from(v) < grid.vertices());
    if !on_floor || !(1..n).all(|k| sees(k - 1, k)) {
        return Err(Refusal::NotJoined);
    }
    let mut kept = vec![0];
    let mut i = 0;
    while i < n - 1 {
        i = (i + 1..n).find(|&k| !sees(i, k)).unwrap_or(n) - 1;
        kept.push(i);
    }
    out.fill(0);
    for (place, &position) in out.iter_mut().zip(&kept) {
        *place = position as u16;
    }
    Ok(kept.len())
}
