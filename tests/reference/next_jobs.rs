//! The part of a job stream about next vertices: each place of them changed, and sheets with next vertices by another
//! rule.

use crate::format::{self, Damage};
use crate::graph::{Edge, Graph};
use crate::jobs::{good_lengths, Lengths, Maker};
use crate::sheet::{Request, Sheet, Truth};

/// The number of the slice in a change.
const NEXT: usize = 5;

/// Vertices up to this many have every other vertex put at every place.
const SMALL: usize = 16;

/// Vertices above this make a floor too large for whole sheets by other rules.
const LOADED: usize = 120;

/// What `changed_next` puts at a place.
#[derive(Clone, Copy)]
enum Change {
    /// Another vertex through which as many cheapest routes run.
    EqualNeighbour,
    /// Another vertex on the way, with fewer routes through it.
    LesserNeighbour,
    /// A neighbour that is not on the way.
    NeighbourOff,
    /// The vertex before, the vertex itself, or the one after the next.
    OnTheWalk,
    /// 0 or the goal on the way.
    ZeroOrGoal,
    /// 0, the start or a neighbour at the goal.
    AtTheGoal,
    /// A neighbour, the vertex itself or the goal where 0 belongs.
    OffTheWay,
    /// No vertex of the floor.
    NoVertex,
    /// A bit turned over.
    Bit,
}

const CHANGES: [Change; 9] = [
    Change::EqualNeighbour,
    Change::LesserNeighbour,
    Change::NeighbourOff,
    Change::OnTheWalk,
    Change::ZeroOrGoal,
    Change::AtTheGoal,
    Change::OffTheWay,
    Change::NoVertex,
    Change::Bit,
];

/// A rule for next vertices that is not the central one.
#[derive(Clone, Copy)]
enum Rule {
    /// By f alone, by b alone, or by the first move that leads on.
    ForwardCounts,
    BackwardCounts,
    FirstMove,
    /// The central rule, but of equals the last.
    LastOfEquals,
}

const RULES: [Rule; 4] = [Rule::ForwardCounts, Rule::BackwardCounts, Rule::FirstMove, Rule::LastOfEquals];

/// Single places: the request's true sheet stands in the buffers.
impl Maker {
    pub fn next_checks(&mut self, request: Request, sheet: &Sheet) {
        self.use_pushed();
        let count = self.count();
        for length in [count - 1, count + 1] {
            if let Some(lengths) = next_lengths(count, length) {
                self.check_record(request, lengths, None, &[]);
            }
        }
        if count <= SMALL {
            self.every_other_vertex(request, sheet);
        }
        for change in CHANGES {
            if let Some(damage) = self.changed_next(change, request, sheet) {
                self.check_record(request, good_lengths(count), None, &[damage]);
            }
        }
        self.use_pushed();
    }

    /// The second operation from true costs, with next one place short and one place long, or empty.
    pub fn next_of_other_lengths(&mut self, request: Request) {
        self.use_pushed();
        let count = self.count();
        for length in [count - 1, count + 1, 0] {
            let seed = self.random.next() as u32;
            if let Some(lengths) = next_lengths(count, length) {
                self.finish_record(request, lengths, seed, &[]);
            }
        }
        self.use_pushed();
    }

    /// Each vertex, and some numbers that are none, at each place where another number is true.
    fn every_other_vertex(&mut self, request: Request, sheet: &Sheet) {
        let count = self.count();
        for place in 0..count {
            let old = u64::from(sheet.next[place]);
            let values = (0..=count as u64).chain([old + 256, old + 32_768, 65_535]);
            for value in values.filter(|&value| value != old) {
                self.check_record(request, good_lengths(count), None, &[Damage { slice: NEXT, place, value }]);
            }
        }
    }

    /// One of the places where the change can be made, changed; None where there is no such place.
    fn changed_next(&mut self, change: Change, request: Request, sheet: &Sheet) -> Option<Damage> {
        let mut found = Vec::new();
        for place in 0..self.count() {
            let numbers = self.other_numbers(change, request, sheet, place);
            found.extend(numbers.into_iter().map(|number| (place, number)));
        }
        found.retain(|&(place, number)| number != usize::from(sheet.next[place]));
        if found.is_empty() {
            return None;
        }
        let (place, number) = self.random.pick(&found);
        Some(Damage { slice: NEXT, place, value: number as u64 })
    }

    fn other_numbers(&mut self, change: Change, request: Request, sheet: &Sheet, place: usize) -> Vec<usize> {
        let (start, goal) = (request.start as usize, request.goal as usize);
        let graphs = self.solver.graphs(request.neighbourhood);
        let neighbours = || graphs.0.edges[place].iter().map(|edge| edge.to);
        let through = |v: usize| u128::from(sheet.f[v]) * u128::from(sheet.b[v]);
        let next = usize::from(sheet.next[place]);
        let on_way = sheet.f[place] > 0;
        let before_goal = on_way && place != goal;
        let leads_on = |v: usize| sheet.f[v] > 0 && sheet.d[v] > sheet.d[place];
        match change {
            Change::EqualNeighbour if before_goal => {
                neighbours().filter(|&v| leads_on(v) && through(v) == through(next)).collect()
            }
            Change::LesserNeighbour if before_goal => {
                neighbours().filter(|&v| leads_on(v) && through(v) < through(next)).collect()
            }
            Change::NeighbourOff if before_goal => neighbours().filter(|&v| sheet.f[v] == 0).collect(),
            Change::OnTheWalk if before_goal => {
                let before = neighbours().filter(|&v| usize::from(sheet.next[v]) == place);
                before.chain([place, usize::from(sheet.next[next])]).collect()
            }
            Change::ZeroOrGoal if before_goal => vec![0, goal],
            Change::AtTheGoal if place == goal => neighbours().chain([0, start]).collect(),
            Change::OffTheWay if !on_way => neighbours().chain([place, goal, 1]).collect(),
            Change::NoVertex => vec![self.count(), self.count() + 1, 65_535],
            Change::Bit => (0..16).map(|bit| next ^ 1 << bit).collect(),
            _ => Vec::new(),
        }
    }
}

/// Good lengths but for next; None where they are good.
fn next_lengths(count: usize, length: usize) -> Option<Lengths> {
    let mut lengths = good_lengths(count);
    lengths[NEXT] = length.min(format::SHEET_ROOM);
    (lengths[NEXT] != count).then_some(lengths)
}

/// Whole sheets, for floors with few vertices.
impl Maker {
    pub fn sheets_by_other_rules(&mut self) {
        self.use_pushed();
        if self.count() <= LOADED {
            let request = self.any_request();
            let truth = self.solver.truth(request.neighbourhood, request.start as usize, request.goal as usize);
            if let Truth::Route { sheet, .. } = &*truth {
                for other in self.other_sheets(request, sheet) {
                    self.load_record(&other);
                    self.check_record(request, good_lengths(self.count()), None, &[]);
                }
            }
        }
        self.use_pushed();
    }

    fn other_sheets(&mut self, request: Request, sheet: &Sheet) -> Vec<Sheet> {
        let mut sheets: Vec<Sheet> = RULES.iter().map(|&rule| self.by_rule(rule, request, sheet)).collect();
        // As the true one, but for the goal, for the vertices beside the route, and for those off the way.
        let (goal, graphs) = (request.goal as usize, self.solver.graphs(request.neighbourhood));
        let points = &sheet.route[..sheet.n as usize];
        let with = |number: &dyn Fn(usize) -> u16| {
            let next = (0..sheet.next.len()).map(number).collect();
            Sheet { next, ..sheet.clone() }
        };
        sheets.push(with(&|v| if v == goal { 0 } else { sheet.next[v] }));
        sheets.push(with(&|v| if points.contains(&(v as u16)) { sheet.next[v] } else { 0 }));
        sheets.push(with(&|v| if sheet.f[v] > 0 { sheet.next[v] } else { goal as u16 }));
        sheets.push(with(&|v| if sheet.f[v] > 0 { sheet.next[v] } else { towards(&graphs.0, sheet, v) }));
        sheets.push(with(&|_| 0));
        sheets
    }

    /// The next vertices by the rule, and the route as the walk through them.
    fn by_rule(&mut self, rule: Rule, request: Request, sheet: &Sheet) -> Sheet {
        let graphs = self.solver.graphs(request.neighbourhood);
        let goal = request.goal as usize;
        let mut made = sheet.clone();
        for v in (0..sheet.f.len()).filter(|&v| sheet.f[v] > 0 && v != goal) {
            let leads_on = |to: usize, cost: u64| u64::from(sheet.d[v]) + cost == u64::from(sheet.d[to]);
            let choices = graphs.0.edges[v].iter().filter(|edge| sheet.f[edge.to] > 0 && leads_on(edge.to, edge.cost));
            // The last of the highest, so that the first of equals needs the order turned round.
            let choices: Vec<usize> = choices.map(|edge| edge.to).collect();
            let best = match rule {
                Rule::ForwardCounts => choices.iter().rev().max_by_key(|&&w| sheet.f[w]),
                Rule::BackwardCounts => choices.iter().rev().max_by_key(|&&w| sheet.b[w]),
                Rule::FirstMove => choices.first(),
                Rule::LastOfEquals => choices.iter().max_by_key(|&&w| u128::from(sheet.f[w]) * u128::from(sheet.b[w])),
            };
            made.next[v] = best.map_or(0, |&w| w as u16);
        }
        let (mut points, mut at) = (vec![request.start as u16], request.start as usize);
        while at != goal {
            at = usize::from(made.next[at]);
            points.push(at as u16);
        }
        made.n = points.len() as u64;
        points.resize(sheet.route.len(), 0);
        made.route = points;
        made
    }
}

/// The first neighbour that is nearer to the goal by a move's cost; 0 where none is.
fn towards(graph: &Graph, sheet: &Sheet, vertex: usize) -> u16 {
    let nearer = |edge: &&Edge| u64::from(sheet.e[edge.to]) + edge.cost == u64::from(sheet.e[vertex]);
    graph.edges[vertex].iter().find(nearer).map_or(0, |edge| edge.to as u16)
}
