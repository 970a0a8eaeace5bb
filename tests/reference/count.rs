//! Path counts: by sums in unbounded integers, and by listing walks.

use crate::graph::{Distances, Graph};
use crate::natural::Natural;

/// For each vertex the number of cheapest walks from the source; 0 where
/// there is no walk. `reversed` has the graph's edges turned round.
pub fn by_sums(reversed: &Graph, distances: &Distances, source: usize) -> Vec<Natural> {
    let mut order: Vec<usize> = (0..reversed.size()).filter(|&v| distances[v].is_some()).collect();
    order.sort_by_key(|&v| distances[v]);
    let mut counts = vec![Natural::zero(); reversed.size()];
    counts[source] = Natural::from_u64(1);
    for &vertex in order.iter().filter(|&&v| v != source) {
        counts[vertex] = sum_of_predecessors(reversed, distances, &counts, vertex);
    }
    counts
}

fn sum_of_predecessors(reversed: &Graph, distances: &Distances, counts: &[Natural], vertex: usize) -> Natural {
    let mut sum = Natural::zero();
    for edge in &reversed.edges[vertex] {
        let through = distances[edge.to].map(|start| start + edge.cost);
        if through.is_some() && through == distances[vertex] {
            sum = sum.add(&counts[edge.to]);
        }
    }
    sum
}

/// The least cost among the listed walks to a vertex, and how many have it.
#[derive(Clone, Copy, Debug, PartialEq, Eq)]
pub struct Listed {
    pub cost: u64,
    pub walks: u64,
}

struct Lister<'a> {
    graph: &'a Graph,
    limit: u64,
    budget: u64,
    found: Vec<Option<Listed>>,
}

impl Lister<'_> {
    /// Lists all walks that go on from the vertex; false when the budget ends.
    fn extend(&mut self, vertex: usize, cost: u64) -> bool {
        if self.budget == 0 {
            return false;
        }
        self.budget -= 1;
        self.record(vertex, cost);
        let graph = self.graph;
        let within = |c: u64| cost + c <= self.limit;
        let next: Vec<_> = graph.edges[vertex].iter().filter(|edge| within(edge.cost)).collect();
        next.iter().all(|edge| self.extend(edge.to, cost + edge.cost))
    }

    fn record(&mut self, vertex: usize, cost: u64) {
        let entry = &mut self.found[vertex];
        match entry {
            Some(known) if known.cost < cost => {}
            Some(known) if known.cost == cost => known.walks += 1,
            _ => *entry = Some(Listed { cost, walks: 1 }),
        }
    }
}

/// Lists every walk from the source of cost at most `limit`, one by one.
/// None when there are more than `budget`.
pub fn by_listing(graph: &Graph, source: usize, limit: u64, budget: u64) -> Option<Vec<Option<Listed>>> {
    let mut lister = Lister { graph, limit, budget, found: vec![None; graph.size()] };
    lister.extend(source, 0).then_some(lister.found)
}

/// Asserts that listing gives the same distances and counts, where the list is
/// within the budget. Says whether it was.
pub fn assert_listing_agrees(graph: &Graph, distances: &Distances, counts: &[Natural], source: usize) -> bool {
    let limit = distances.iter().flatten().max().copied().unwrap_or(0);
    let Some(listed) = by_listing(graph, source, limit, 50_000) else { return false };
    for vertex in 0..graph.size() {
        assert_eq!(listed[vertex].map(|l| l.cost), distances[vertex], "distance of vertex {vertex}");
        let walks = listed[vertex].map_or(0, |l| l.walks);
        assert_eq!(Natural::from_u64(walks), counts[vertex], "count of vertex {vertex}");
    }
    true
}
