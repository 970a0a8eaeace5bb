//! The part of a job stream with costs that are not the true ones.

use crate::format::Damage;
use crate::graph;
use crate::jobs::{good_lengths, Lengths, Maker};
use crate::neighbourhood_jobs::other_neighbourhoods;
use crate::sheet::{Request, NO_WALK};

/// What `false_places` changes of the costs from a start.
#[derive(Clone, Copy)]
enum FalseCost {
    Start,
    FirstVertex,
    LastVertex,
    RowEnd,
    AnyVertex,
    Goal,
    AlmostUnreached,
    ReachedFromNowhere,
    Swapped,
    Cluster,
    /// What all moves but those of the highest cost give, where these give less.
    WithoutLongMoves,
    /// What a move gives that is shut.
    ByAShutMove,
}

const FALSE_COSTS: [FalseCost; 12] = [
    FalseCost::Start,
    FalseCost::FirstVertex,
    FalseCost::LastVertex,
    FalseCost::RowEnd,
    FalseCost::AnyVertex,
    FalseCost::Goal,
    FalseCost::AlmostUnreached,
    FalseCost::ReachedFromNowhere,
    FalseCost::Swapped,
    FalseCost::Cluster,
    FalseCost::WithoutLongMoves,
    FalseCost::ByAShutMove,
];

/// Costs handed in: those from the request's start stand in d, some of them changed.
impl Maker {
    /// The job finished from false costs, other jobs from these costs, and faults of shape with costs that are false.
    pub fn false_costs(&mut self, request: Request) {
        self.use_given();
        let good = good_lengths(self.count());
        for kind in FALSE_COSTS {
            if self.is_large() && self.random.percent(60) {
                continue;
            }
            let places = self.false_places(kind, request);
            if !places.is_empty() {
                self.finish_from(request, good, &places);
            }
        }
        for other in self.other_jobs(request) {
            self.finish_from(other, good, &[]);
        }
        let places = self.false_places(FalseCost::AnyVertex, request);
        let lengths = self.bad_lengths(7);
        self.finish_from(request, lengths, &places);
        let bad = self.bad_request();
        self.finish_from(bad, good, &places);
        self.use_given();
    }

    fn finish_from(&mut self, request: Request, lengths: Lengths, places: &[Damage]) {
        let seed = self.random.next() as u32;
        self.finish_record(request, lengths, seed, places);
    }

    /// Another goal, for which these costs are true; and another start or neighbourhood.
    fn other_jobs(&mut self, request: Request) -> Vec<Request> {
        let count = self.count() as u64;
        let near = self.near(request.start as usize) as u64;
        let (goal, start) = (self.random.below(count), self.random.below(count));
        let mut jobs = vec![
            Request { goal, ..request },
            Request { goal: request.start, ..request },
            Request { start: request.goal, goal: request.start, ..request },
            Request { start: near, ..request },
            Request { start, ..request },
        ];
        let others = other_neighbourhoods(request.neighbourhood);
        jobs.extend(others.map(|neighbourhood| Request { neighbourhood, ..request }));
        jobs
    }

    /// Changes of the costs from the request's start; none where the floor has no such place.
    fn false_places(&mut self, kind: FalseCost, request: Request) -> Vec<Damage> {
        let d = self.solver.costs(request.neighbourhood, request.start as usize);
        let (start, goal) = (request.start as usize, request.goal as usize);
        let columns = self.solver.floor.width as usize + 1;
        let any = self.random.index(d.len());
        let unreached: Vec<usize> = (0..d.len()).filter(|&v| d[v] == NO_WALK).collect();
        let changes = match kind {
            FalseCost::Start => vec![(start, self.random.pick(&[1, 408, 1000, NO_WALK - 1, NO_WALK]))],
            FalseCost::FirstVertex => vec![(0, self.one_off(d[0]))],
            FalseCost::LastVertex => vec![(d.len() - 1, self.one_off(d[d.len() - 1]))],
            FalseCost::RowEnd => {
                let place = any / columns * columns + columns - 1;
                vec![(place, self.one_off(d[place]))]
            }
            FalseCost::AnyVertex => vec![(any, self.other_cost(d[any]))],
            FalseCost::Goal if d[goal] == NO_WALK => {
                vec![(goal, self.random.pick(&[408, 577, 1000, 2236, 9_452_991, 36_632_388]))]
            }
            FalseCost::Goal => vec![(goal, NO_WALK)],
            FalseCost::AlmostUnreached | FalseCost::ReachedFromNowhere if unreached.is_empty() => Vec::new(),
            FalseCost::AlmostUnreached => vec![(self.random.pick(&unreached), NO_WALK - 1)],
            FalseCost::ReachedFromNowhere => vec![(self.random.pick(&unreached), 0)],
            FalseCost::Swapped => {
                let other = self.random.index(d.len());
                vec![(any, d[other]), (other, d[any])]
            }
            FalseCost::Cluster => {
                let places = [any; 4].map(|centre| self.near(centre));
                let least = if request.neighbourhood == 16 { 1000 } else { 408 };
                places.map(|place| (place, d[place].wrapping_sub(least))).to_vec()
            }
            FalseCost::WithoutLongMoves => {
                let changes = self.costs_without_long_moves(request, &d);
                self.one_of(changes)
            }
            FalseCost::ByAShutMove => {
                let changes = self.costs_by_shut_moves(request, &d);
                self.one_of(changes)
            }
        };
        changes.into_iter().map(|(place, cost)| Damage { slice: 0, place, value: cost.into() }).collect()
    }

    /// One of the changes, where there is any.
    fn one_of(&mut self, changes: Vec<(usize, u32)>) -> Vec<(usize, u32)> {
        if changes.is_empty() { changes } else { vec![self.random.pick(&changes)] }
    }

    /// Places that the longest moves alone give their cost, with what the others give. Where there are any, those from
    /// which no move gives another place its cost.
    fn costs_without_long_moves(&mut self, request: Request, d: &[u32]) -> Vec<(usize, u32)> {
        let graphs = self.solver.graphs(request.neighbourhood);
        let longest = graph::moves_of(request.neighbourhood).iter().map(|m| m.cost).max();
        let by = |u: usize, cost: u64| if d[u] == NO_WALK { NO_WALK } else { d[u] + cost as u32 };
        let others = |v: usize| graphs.1.edges[v].iter().filter(|edge| Some(edge.cost) != longest);
        let least = |v: usize| others(v).map(|edge| by(edge.to, edge.cost)).min().unwrap_or(NO_WALK);
        let places = (0..d.len()).filter(|&v| v != request.start as usize && d[v] != NO_WALK);
        let changes: Vec<(usize, u32)> = places.map(|v| (v, least(v))).filter(|&(v, cost)| cost != d[v]).collect();
        let is_last = |v: usize| graphs.0.edges[v].iter().all(|edge| d[edge.to] != by(v, edge.cost));
        let last: Vec<(usize, u32)> = changes.iter().copied().filter(|&(v, _)| is_last(v)).collect();
        if last.is_empty() { changes } else { last }
    }

    /// Places to which a move leads that is shut, with the cost that it would give, which is less.
    fn costs_by_shut_moves(&mut self, request: Request, d: &[u32]) -> Vec<(usize, u32)> {
        let graphs = self.solver.graphs(request.neighbourhood);
        let floor = &self.solver.floor;
        let mut changes = Vec::new();
        for u in (0..d.len()).filter(|&u| d[u] != NO_WALK) {
            let (x, y) = floor.point(u);
            for m in graph::moves_of(request.neighbourhood) {
                let Some(v) = floor.vertex(x + m.dx, y + m.dy) else { continue };
                let (cost, is_open) = (d[u] + m.cost as u32, graphs.0.edges[u].iter().any(|edge| edge.to == v));
                if !is_open && cost < d[v] {
                    changes.push((v, cost));
                }
            }
        }
        changes
    }

    /// One more or one less.
    fn one_off(&mut self, cost: u32) -> u32 {
        self.random.pick(&[cost.wrapping_add(1), cost.wrapping_sub(1)])
    }

    /// A bit turned over, no cost, no walk, or any number.
    fn other_cost(&mut self, cost: u32) -> u32 {
        let choices = [cost ^ (1 << self.random.below(32)), 0, NO_WALK, self.random.next() as u32];
        self.random.pick(&choices)
    }
}
