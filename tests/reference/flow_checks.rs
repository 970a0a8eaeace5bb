//! The flow through the vertices on the way, from walks that are listed one by one: at each vertex the traversal count
//! is the sum over the moves out and the sum over the moves in.

use crate::count::{self, Listed};
use crate::floor::Floor;
use crate::graph::{self, Edge, Graph, NEIGHBOURHOODS};
use crate::layouts::{self, KINDS};
use crate::random::Random;
use crate::self_checks::{all_floors, is_pinched, walks_of_cost};
use crate::sheet::{Sheet, Solver, Truth};
use crate::vectors::Tally;
use std::collections::BTreeSet;

/// Walks listed from one vertex at most.
const BUDGET: u64 = 200_000;

/// Every job of all floors of these sizes, and of some larger ones whose walks can be listed; of floors with more walks
/// the sheets alone.
pub fn run(tally: &mut Tally) {
    let mut seen = BTreeSet::new();
    for (width, height) in [(1, 1), (2, 1), (1, 3), (2, 2), (3, 2)] {
        for floor in all_floors(width, height) {
            let holds = NEIGHBOURHOODS.into_iter().all(|number| listed_jobs_hold(&floor, number, &mut seen));
            tally.holds("the flow of all floors of a size", holds);
        }
    }
    let mut random = Random::new(13);
    for (kind, neighbourhood) in KINDS.iter().flat_map(|&kind| NEIGHBOURHOODS.map(|number| (kind, number))) {
        let floor = layouts::make(kind, &mut random, 3, 3);
        tally.holds("the flow of a floor", listed_jobs_hold(&floor, neighbourhood, &mut seen));
    }
    for neighbourhood in NEIGHBOURHOODS {
        let kinds = ["some moves out", "some moves in", "one vertex", "moves that do not lead on", "moves off the way"];
        for what in kinds {
            tally.holds(&format!("flow with {neighbourhood}: {what}"), seen.contains(&(neighbourhood, what)));
        }
    }
    large_sheets(tally, &mut random);
}

/// The planner's sheets of larger floors, among them the highest totals.
fn large_sheets(tally: &mut Tally, random: &mut Random) {
    let mut floors: Vec<Floor> = KINDS.iter().map(|&kind| layouts::make(kind, random, 24, 17)).collect();
    floors.extend([Floor::open(33, 34), Floor::open(67, 33), Floor::open(100, 33)]);
    for floor in floors {
        let last = floor.vertex_count() - 1;
        let mut solver = Solver::new(floor);
        for neighbourhood in NEIGHBOURHOODS {
            let graph = &solver.graphs(neighbourhood).0;
            for (start, goal) in [(0, last), (random.index(last), random.index(last))] {
                if let Truth::Route { sheet, total, .. } = &*solver.truth(neighbourhood, start, goal) {
                    let flow = Flow::of_sheet(graph, start, goal, sheet);
                    tally.holds("the flow of a sheet", flow.holds((*total).into(), &mut BTreeSet::new(), 0));
                }
            }
        }
    }
}

/// The costs and counts of one job: at each vertex those from the start and those to the goal; None where no walk is.
struct Flow<'a> {
    graph: &'a Graph,
    start: usize,
    goal: usize,
    before: Vec<Option<Listed>>,
    after: Vec<Option<Listed>>,
}

impl Flow<'_> {
    fn of_sheet<'a>(graph: &'a Graph, start: usize, goal: usize, sheet: &Sheet) -> Flow<'a> {
        let side = |costs: &[u32], counts: &[u64]| {
            let listed = costs.iter().zip(counts).map(|(&cost, &walks)| Listed { cost: cost.into(), walks });
            listed.map(|listed| (listed.walks > 0).then_some(listed)).collect()
        };
        Flow { graph, start, goal, before: side(&sheet.d, &sheet.f), after: side(&sheet.e, &sheet.b) }
    }

    fn cost(&self) -> Option<u64> {
        self.before[self.goal].map(|listed| listed.cost)
    }

    fn on_the_way(&self, vertex: usize) -> bool {
        match (self.before[vertex], self.after[vertex]) {
            (Some(before), Some(after)) => Some(before.cost + after.cost) == self.cost(),
            _ => false,
        }
    }

    fn f(&self, vertex: usize) -> u128 {
        self.before[vertex].map_or(0, |listed| listed.walks.into())
    }

    fn b(&self, vertex: usize) -> u128 {
        self.after[vertex].map_or(0, |listed| listed.walks.into())
    }

    /// Whether the far end's cost from the start is that of u plus the move's.
    fn is_cheapest(&self, u: usize, edge: &Edge) -> bool {
        match (self.before[u], self.before[edge.to]) {
            (Some(near), Some(far)) => near.cost + edge.cost == far.cost,
            _ => false,
        }
    }

    /// The ends w of the open moves from u to a w on the way with d(w) = d(u) plus the move's cost.
    fn leads_on(&self, u: usize) -> Vec<usize> {
        let ends = self.graph.edges[u].iter().filter(|edge| self.is_cheapest(u, edge)).map(|edge| edge.to);
        ends.filter(|&w| self.on_the_way(w)).collect()
    }

    /// Whether the sums hold at every vertex on the way; notes which kinds of them were met.
    fn holds(&self, total: u128, seen: &mut BTreeSet<(u64, &'static str)>, neighbourhood: u64) -> bool {
        let way: Vec<usize> = (0..self.graph.size()).filter(|&v| self.on_the_way(v)).collect();
        let moves: Vec<(usize, usize)> =
            way.iter().flat_map(|&u| self.leads_on(u).into_iter().map(move |w| (u, w))).collect();
        let through = |v: usize| self.f(v) * self.b(v);
        let mut see = |what| _ = seen.insert((neighbourhood, what));
        if self.start == self.goal {
            see("one vertex");
        }
        let each = |&v: &usize| {
            let out: Vec<u128> = moves.iter().filter(|&&(u, _)| u == v).map(|&(u, w)| self.f(u) * self.b(w)).collect();
            let into: Vec<u128> = moves.iter().filter(|&&(_, w)| w == v).map(|&(u, w)| self.f(u) * self.b(w)).collect();
            if out.len() > 1 {
                see("some moves out");
            }
            if into.len() > 1 {
                see("some moves in");
            }
            let edges = &self.graph.edges[v];
            if v != self.goal && edges.iter().any(|edge| self.on_the_way(edge.to) && !moves.contains(&(v, edge.to))) {
                see("moves that do not lead on");
            }
            if edges.iter().any(|edge| self.is_cheapest(v, edge) && !self.on_the_way(edge.to)) {
                see("moves off the way");
            }
            let is_end = v == self.start || v == self.goal;
            (v == self.goal || (!out.is_empty() && through(v) == out.iter().sum()))
                && (v == self.start || through(v) == into.iter().sum())
                && (!is_end || through(v) == total)
        };
        way.contains(&self.start) && way.contains(&self.goal) && way.iter().all(each)
    }
}

/// Every job of a floor that answers 0: costs and counts are those of the walks listed from each vertex, and the sheet
/// has them. The traversal count is how many of the listed cheapest routes pass the vertex, and the product for a move
/// how many of them take it.
fn listed_jobs_hold(floor: &Floor, neighbourhood: u64, seen: &mut BTreeSet<(u64, &'static str)>) -> bool {
    let graph = Graph::of_floor(floor, neighbourhood);
    let size = graph.size();
    let listed_from = |source: usize| {
        let farthest = graph::distances_by_rounds(&graph, source).into_iter().flatten().max().unwrap_or(0);
        count::by_listing(&graph, source, farthest, BUDGET).expect("more walks than the budget")
    };
    let listed: Vec<Vec<Option<Listed>>> = (0..size).map(listed_from).collect();
    let mut solver = Solver::new(floor.clone());
    let is_end = |v: usize| !is_pinched(floor, floor.point(v));
    let ends = (0..size).flat_map(|start| (0..size).map(move |goal| (start, goal)));
    ends.filter(|&(start, goal)| is_end(start) && is_end(goal)).all(|(start, goal)| {
        let Some(Listed { cost, walks }) = listed[start][goal] else { return true };
        let (before, after) = (listed[start].clone(), listed.iter().map(|from| from[goal]).collect());
        let flow = Flow { graph: &graph, start, goal, before, after };
        let mut routes = Vec::new();
        walks_of_cost(&graph, goal, cost, &mut vec![start], &mut routes);
        let Truth::Route { sheet, total, .. } = &*solver.truth(neighbourhood, start, goal) else { return false };
        *total == walks
            && routes.len() as u64 == walks
            && flow.holds(walks.into(), seen, neighbourhood)
            && (0..size).all(|v| flow.agrees(v, &routes, sheet))
    })
}

impl Flow<'_> {
    /// Whether the listed routes pass the vertex and take its moves as often as the counts say, and the sheet has the
    /// counts.
    fn agrees(&self, v: usize, routes: &[Vec<usize>], sheet: &Sheet) -> bool {
        let passes = routes.iter().filter(|route| route.contains(&v)).count() as u128;
        let takes = |w: usize| {
            routes.iter().filter(|route| route.windows(2).any(|pair| pair == [v, w])).count() as u128
        };
        if !self.on_the_way(v) {
            return passes == 0 && (sheet.f[v], sheet.b[v]) == (0, 0);
        }
        let moves = self.leads_on(v);
        let product = |w: usize| if moves.contains(&w) { self.f(v) * self.b(w) } else { 0 };
        (u128::from(sheet.f[v]), u128::from(sheet.b[v])) == (self.f(v), self.b(v))
            && passes == self.f(v) * self.b(v)
            && (0..self.graph.size()).all(|w| takes(w) == product(w))
    }
}
