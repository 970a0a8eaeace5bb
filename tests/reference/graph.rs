//! The graph of open moves, and distances by relaxation to a fixpoint.

use crate::floor::Floor;
use crate::sight;
use std::collections::VecDeque;

/// The neighbourhoods that are not refused.
pub const NEIGHBOURHOODS: [u64; 3] = [4, 8, 16];

#[derive(Clone, Copy, Debug, PartialEq, Eq)]
pub struct Move {
    pub dx: i64,
    pub dy: i64,
    pub cost: u64,
}

/// Clockwise from (1, 0) with y downward: the eight moves to the vertices around, and between each two neighbours of
/// them their sum.
const OFFSETS: [(i64, i64); 16] = [
    (1, 0), (2, 1), (1, 1), (1, 2), (0, 1), (-1, 2), (-1, 1), (-2, 1),
    (-1, 0), (-2, -1), (-1, -1), (-1, -2), (0, -1), (1, -2), (1, -1), (2, -1),
];

/// The cost of a move by its squared length; None where the neighbourhood has no such move.
fn move_cost(neighbourhood: u64, squared_length: i64) -> Option<u64> {
    match (neighbourhood, squared_length) {
        (4 | 8, 1) => Some(408),
        (8, 2) => Some(577),
        (16, 1) => Some(1000),
        (16, 2) => Some(1414),
        (16, 5) => Some(2236),
        _ => None,
    }
}

/// The moves of a neighbourhood, in order.
pub fn moves_of(neighbourhood: u64) -> Vec<Move> {
    let cost = |dx: i64, dy: i64| move_cost(neighbourhood, dx * dx + dy * dy);
    OFFSETS.iter().filter_map(|&(dx, dy)| cost(dx, dy).map(|cost| Move { dx, dy, cost })).collect()
}

#[derive(Clone, Copy)]
pub struct Edge {
    pub to: usize,
    pub cost: u64,
}

/// Edges by their start vertex, in move order.
pub struct Graph {
    pub edges: Vec<Vec<Edge>>,
}

impl Graph {
    pub fn of_floor(floor: &Floor, neighbourhood: u64) -> Graph {
        let is_open = |from: usize, to: usize, _: Move| sight::vertices_see(floor, from, to);
        Graph::of_moves(floor, &moves_of(neighbourhood), is_open)
    }

    /// The moves with both ends on the floor that pass a test.
    pub fn of_moves(floor: &Floor, moves: &[Move], is_open: impl Fn(usize, usize, Move) -> bool) -> Graph {
        let edges_of = |from: usize| {
            let (x, y) = floor.point(from);
            let ends = moves.iter().filter_map(|&m| floor.vertex(x + m.dx, y + m.dy).map(|to| (to, m)));
            ends.filter(|&(to, m)| is_open(from, to, m)).map(|(to, m)| Edge { to, cost: m.cost }).collect()
        };
        Graph { edges: (0..floor.vertex_count()).map(edges_of).collect() }
    }

    /// Every edge turned round.
    pub fn reversed(&self) -> Graph {
        let mut edges = vec![Vec::new(); self.edges.len()];
        for (from, list) in self.edges.iter().enumerate() {
            for edge in list {
                edges[edge.to].push(Edge { to: from, cost: edge.cost });
            }
        }
        Graph { edges }
    }

    pub fn size(&self) -> usize {
        self.edges.len()
    }
}

/// Distance from a source to every vertex; None where no walk joins them.
pub type Distances = Vec<Option<u64>>;

/// Whether the edge gives its far end a lesser distance; if so, stores it.
fn relax(distances: &mut Distances, from: usize, edge: Edge) -> bool {
    let Some(start) = distances[from] else { return false };
    let through = start + edge.cost;
    let improves = distances[edge.to].is_none_or(|known| through < known);
    if improves {
        distances[edge.to] = Some(through);
    }
    improves
}

/// Relaxation of the edges of a list of changed vertices, until it is empty.
pub fn distances(graph: &Graph, source: usize) -> Distances {
    let mut distances = vec![None; graph.size()];
    let mut waiting = vec![false; graph.size()];
    let mut changed = VecDeque::from([source]);
    distances[source] = Some(0);
    while let Some(from) = changed.pop_front() {
        waiting[from] = false;
        for &edge in &graph.edges[from] {
            if relax(&mut distances, from, edge) && !waiting[edge.to] {
                waiting[edge.to] = true;
                changed.push_back(edge.to);
            }
        }
    }
    assert!(!relax_all(graph, &mut distances.clone()), "the distances are no fixpoint");
    distances
}

/// One round over every edge; whether any distance fell.
fn relax_all(graph: &Graph, distances: &mut Distances) -> bool {
    let mut any = false;
    for from in 0..graph.size() {
        for &edge in &graph.edges[from] {
            any |= relax(distances, from, edge);
        }
    }
    any
}

/// Distances by whole rounds over all edges, for comparison on small floors.
pub fn distances_by_rounds(graph: &Graph, source: usize) -> Distances {
    let mut distances = vec![None; graph.size()];
    distances[source] = Some(0);
    while relax_all(graph, &mut distances) {}
    distances
}
