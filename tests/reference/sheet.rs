//! The true sheets of a job, and from them the planner's two operations and the checker.

use crate::count;
use crate::floor::Floor;
use crate::graph::{self, Distances, Edge, Graph, NEIGHBOURHOODS};
use crate::legs::Choices;
use crate::natural::Natural;
use crate::sight;
use std::cmp::Reverse;
use std::collections::BTreeMap;
use std::rc::Rc;

/// The cost written where no walk joins two vertices.
pub const NO_WALK: u32 = u32::MAX;

/// Distances, counts, route and next vertices of a job; n is the number of route points.
#[derive(Clone, Debug, PartialEq, Eq)]
pub struct Sheet {
    pub d: Vec<u32>,
    pub e: Vec<u32>,
    pub f: Vec<u64>,
    pub b: Vec<u64>,
    pub route: Vec<u16>,
    pub next: Vec<u16>,
    pub n: u64,
}

impl Sheet {
    pub fn zeros(size: usize) -> Sheet {
        let (costs, counts, points) = (vec![0; size], vec![0; size], vec![0; size]);
        Sheet { d: costs.clone(), e: costs, f: counts.clone(), b: counts, route: points.clone(), next: points, n: 0 }
    }
}

/// What is true of a job of good shape.
pub enum Truth {
    Route { sheet: Sheet, cost: u64, total: u64 },
    NoRoute { sheet: Sheet },
    /// Holds d and e, the rest 0.
    TooMany { sheet: Sheet },
}

impl Truth {
    /// The sheet that the job leaves.
    pub fn sheet(&self) -> &Sheet {
        match self {
            Truth::Route { sheet, .. } | Truth::NoRoute { sheet } | Truth::TooMany { sheet } => sheet,
        }
    }
}

/// A floor with what has been computed for it.
pub struct Solver {
    pub floor: Floor,
    graphs: BTreeMap<u64, Rc<(Graph, Graph)>>,
    costs: BTreeMap<(u64, usize), Rc<Vec<u32>>>,
    truths: BTreeMap<(u64, usize, usize), Rc<Truth>>,
    choices: BTreeMap<Vec<u16>, Rc<Choices>>,
}

impl Solver {
    pub fn new(floor: Floor) -> Solver {
        let (graphs, costs, truths) = (BTreeMap::new(), BTreeMap::new(), BTreeMap::new());
        Solver { floor, graphs, costs, truths, choices: BTreeMap::new() }
    }

    /// The graph of open moves, and the same with its edges turned round.
    pub fn graphs(&mut self, neighbourhood: u64) -> Rc<(Graph, Graph)> {
        let floor = &self.floor;
        let made = self.graphs.entry(neighbourhood).or_insert_with(|| {
            let graph = Graph::of_floor(floor, neighbourhood);
            let reversed = graph.reversed();
            Rc::new((graph, reversed))
        });
        Rc::clone(made)
    }

    /// The costs from a vertex, as a sheet has them.
    pub fn costs(&mut self, neighbourhood: u64, start: usize) -> Rc<Vec<u32>> {
        let key = (neighbourhood, start);
        if !self.costs.contains_key(&key) {
            let distances = graph::distances(&self.graphs(neighbourhood).0, start);
            self.costs.insert(key, Rc::new(written_distances(&distances)));
        }
        Rc::clone(&self.costs[&key])
    }

    /// The truth of a job of good shape.
    pub fn truth(&mut self, neighbourhood: u64, start: usize, goal: usize) -> Rc<Truth> {
        let key = (neighbourhood, start, goal);
        if !self.truths.contains_key(&key) {
            let graphs = self.graphs(neighbourhood);
            self.truths.insert(key, Rc::new(solve(&graphs.0, &graphs.1, start, goal)));
        }
        Rc::clone(&self.truths[&key])
    }

    /// The choices of positions of a joined list.
    pub fn choices(&mut self, list: &[u16]) -> Rc<Choices> {
        if !self.choices.contains_key(list) {
            self.choices.insert(list.to_vec(), Rc::new(Choices::of(&self.floor, list)));
        }
        Rc::clone(&self.choices[list])
    }
}

/// The truth of a job on a graph of moves, which is given turned round too.
pub fn solve(graph: &Graph, reversed: &Graph, start: usize, goal: usize) -> Truth {
    Job { graph, reversed, start, goal }.solve()
}

struct Job<'a> {
    graph: &'a Graph,
    reversed: &'a Graph,
    start: usize,
    goal: usize,
}

/// All of a job's distances and counts, unbounded and at every vertex.
struct Measures {
    from_start: Distances,
    to_goal: Distances,
    walks_from_start: Vec<Natural>,
    walks_to_goal: Vec<Natural>,
    cost: u64,
}

impl Measures {
    fn on_the_way(&self, vertex: usize) -> bool {
        match (self.from_start[vertex], self.to_goal[vertex]) {
            (Some(before), Some(after)) => before + after == self.cost,
            _ => false,
        }
    }

    fn traversal_count(&self, vertex: usize) -> Natural {
        self.walks_from_start[vertex].mul(&self.walks_to_goal[vertex])
    }

    /// The counts of the vertices on the way, 0 elsewhere.
    fn written(&self, counts: &[Natural]) -> Vec<u64> {
        let value = |v: usize| if self.on_the_way(v) { counts[v].to_u64().expect("above the total") } else { 0 };
        (0..counts.len()).map(value).collect()
    }
}

fn written_distances(distances: &Distances) -> Vec<u32> {
    distances.iter().map(|d| d.map_or(NO_WALK, |cost| cost as u32)).collect()
}

impl Job<'_> {
    fn solve(&self) -> Truth {
        let from_start = graph::distances(self.graph, self.start);
        let mut sheet = Sheet::zeros(self.graph.size());
        sheet.d = written_distances(&from_start);
        let Some(cost) = from_start[self.goal] else { return Truth::NoRoute { sheet } };
        let measures = self.measure(from_start, cost);
        sheet.e = written_distances(&measures.to_goal);
        let Some(total) = measures.walks_from_start[self.goal].to_u64() else { return Truth::TooMany { sheet } };
        self.finish(&measures, &mut sheet);
        Truth::Route { sheet, cost, total }
    }

    fn measure(&self, from_start: Distances, cost: u64) -> Measures {
        let to_goal = graph::distances(self.reversed, self.goal);
        let walks_from_start = count::by_sums(self.reversed, &from_start, self.start);
        let walks_to_goal = count::by_sums(self.graph, &to_goal, self.goal);
        if self.graph.size() <= 9 {
            count::assert_listing_agrees(self.graph, &from_start, &walks_from_start, self.start);
            count::assert_listing_agrees(self.reversed, &to_goal, &walks_to_goal, self.goal);
        }
        assert_eq!(walks_from_start[self.goal], walks_to_goal[self.start]);
        Measures { from_start, to_goal, walks_from_start, walks_to_goal, cost }
    }

    fn finish(&self, measures: &Measures, sheet: &mut Sheet) {
        sheet.f = measures.written(&measures.walks_from_start);
        sheet.b = measures.written(&measures.walks_to_goal);
        let route = self.central_route(measures);
        sheet.n = route.len() as u64;
        for (place, &vertex) in sheet.route.iter_mut().zip(&route) {
            *place = vertex as u16;
        }
        sheet.next = (0..self.graph.size()).map(|v| self.next_vertex(measures, v) as u16).collect();
    }

    /// Where a cart at the vertex goes: from the goal to itself, from another vertex on the way to the end of the move
    /// that leaves so much less to the goal and has the highest traversal count, of equals the first move; else 0.
    fn next_vertex(&self, measures: &Measures, vertex: usize) -> usize {
        if vertex == self.goal || !measures.on_the_way(vertex) {
            return if vertex == self.goal { vertex } else { 0 };
        }
        let nearer = |edge: &Edge| measures.to_goal[edge.to].map(|left| left + edge.cost) == measures.to_goal[vertex];
        let choices = self.graph.edges[vertex].iter().enumerate().filter(|(_, edge)| nearer(edge));
        let best = choices.max_by_key(|&(place, edge)| (measures.traversal_count(edge.to), Reverse(place)));
        best.expect("a vertex before the goal has a move towards it").1.to
    }

    fn central_route(&self, measures: &Measures) -> Vec<usize> {
        let mut route = vec![self.start];
        while *route.last().unwrap() != self.goal {
            route.push(self.central_successor(measures, *route.last().unwrap()));
        }
        route
    }

    /// Of the successors on the way the one with the highest traversal count,
    /// of equals the first in move order.
    fn central_successor(&self, measures: &Measures, from: usize) -> usize {
        let mut best: Option<(Natural, usize)> = None;
        for edge in &self.graph.edges[from] {
            let through = measures.from_start[from].map(|start| start + edge.cost);
            if through != measures.from_start[edge.to] || !measures.on_the_way(edge.to) {
                continue;
            }
            let count = measures.traversal_count(edge.to);
            if best.as_ref().is_none_or(|(highest, _)| count > *highest) {
                best = Some((count, edge.to));
            }
        }
        best.expect("a vertex on the way before the goal has a successor").1
    }
}

/// Neighbourhood and ends, as handed in.
#[derive(Clone, Copy, Debug)]
pub struct Request {
    pub neighbourhood: u64,
    pub start: u64,
    pub goal: u64,
}

impl Request {
    /// Refusal 1 to 5, the first that applies, and then 11.
    pub fn fault(&self, floor: &Floor) -> Option<u8> {
        if let Some(fault) = floor.shape_fault() {
            return Some(fault);
        }
        if !NEIGHBOURHOODS.contains(&self.neighbourhood) {
            return Some(4);
        }
        let count = floor.vertex_count() as u64;
        if self.start >= count || self.goal >= count {
            return Some(5);
        }
        let ends = [self.start, self.goal].map(|end| floor.point(end as usize));
        ends.into_iter().any(|end| sight::is_pinch(floor, end)).then_some(11)
    }
}

/// The slices lent to the planner's second operation, to be written.
pub struct Lent<'a> {
    pub e: &'a mut [u32],
    pub f: &'a mut [u64],
    pub b: &'a mut [u64],
    pub route: &'a mut [u16],
    pub next: &'a mut [u16],
    pub work: &'a mut [u32],
}

impl Lent<'_> {
    fn lengths_are_good(&self, count: usize) -> bool {
        let sheet = [self.e.len(), self.f.len(), self.b.len(), self.route.len(), self.next.len()];
        sheet.iter().all(|&length| length == count) && self.work.len() == 4 * count
    }

    fn take(&mut self, sheet: &Sheet) {
        self.e.copy_from_slice(&sheet.e);
        self.f.copy_from_slice(&sheet.f);
        self.b.copy_from_slice(&sheet.b);
        self.route.copy_from_slice(&sheet.route);
        self.next.copy_from_slice(&sheet.next);
        self.work.fill(0);
    }
}

#[derive(Clone, Copy, Debug, PartialEq, Eq)]
pub struct PlanAnswer {
    pub answer: u8,
    pub cost: u64,
    pub total: u64,
    pub n: u64,
}

impl PlanAnswer {
    fn refusal(answer: u8) -> PlanAnswer {
        PlanAnswer { answer, cost: 0, total: 0, n: 0 }
    }
}

/// The planner's first operation: 1 to 5, 11, 6, or 0, which leaves the costs from the start and a working slice of 0.
pub fn costs(solver: &mut Solver, neighbourhood: u64, start: u64, d: &mut [u32], work: &mut [u32]) -> u8 {
    if let Some(fault) = (Request { neighbourhood, start, goal: start }).fault(&solver.floor) {
        return fault;
    }
    let count = solver.floor.vertex_count();
    if d.len() != count || work.len() != 4 * count {
        return 6;
    }
    d.copy_from_slice(&solver.costs(neighbourhood, start as usize));
    work.fill(0);
    0
}

/// The planner's second operation: 1 to 5, 11, 6, 9 for a d that is not the costs from the start, and then 7, 8 or 0,
/// with what each leaves in the lent slices.
pub fn finish(solver: &mut Solver, request: Request, d: &[u32], mut lent: Lent) -> PlanAnswer {
    if let Some(fault) = request.fault(&solver.floor) {
        return PlanAnswer::refusal(fault);
    }
    let count = solver.floor.vertex_count();
    if d.len() != count || !lent.lengths_are_good(count) {
        return PlanAnswer::refusal(6);
    }
    if *d != **solver.costs(request.neighbourhood, request.start as usize) {
        return PlanAnswer::refusal(9);
    }
    let truth = solver.truth(request.neighbourhood, request.start as usize, request.goal as usize);
    match &*truth {
        Truth::Route { sheet, cost, total } => {
            lent.take(sheet);
            PlanAnswer { answer: 0, cost: *cost, total: *total, n: sheet.n }
        }
        Truth::NoRoute { sheet } => {
            lent.take(sheet);
            PlanAnswer::refusal(7)
        }
        Truth::TooMany { sheet } => {
            lent.take(sheet);
            PlanAnswer::refusal(8)
        }
    }
}

/// The slices handed to the checker.
pub struct Handed<'a> {
    pub d: &'a [u32],
    pub e: &'a [u32],
    pub f: &'a [u64],
    pub b: &'a [u64],
    pub route: &'a [u16],
    pub next: &'a [u16],
    pub n: u64,
}

impl Handed<'_> {
    fn lengths_are_good(&self, count: usize) -> bool {
        let costs_and_counts = [self.d.len(), self.e.len(), self.f.len(), self.b.len()];
        costs_and_counts.iter().chain(&[self.route.len(), self.next.len()]).all(|&length| length == count)
    }

    fn is(&self, sheet: &Sheet) -> bool {
        self.n == sheet.n
            && self.d == sheet.d
            && self.e == sheet.e
            && self.f == sheet.f
            && self.b == sheet.b
            && self.route == sheet.route
            && self.next == sheet.next
    }
}

/// The checker: 1 to 5, 11, 6, then 0, 7 or 9.
pub fn check(solver: &mut Solver, request: Request, handed: &Handed) -> u8 {
    if let Some(fault) = request.fault(&solver.floor) {
        return fault;
    }
    if !handed.lengths_are_good(solver.floor.vertex_count()) {
        return 6;
    }
    let truth = solver.truth(request.neighbourhood, request.start as usize, request.goal as usize);
    match &*truth {
        Truth::Route { sheet, .. } if handed.is(sheet) => 0,
        Truth::NoRoute { sheet } if handed.is(sheet) => 7,
        _ => 9,
    }
}
