//! The part of a job stream about neighbourhoods: floors for 16, numbers that are refused, and sheets over moves that
//! are not the neighbourhood's.

use crate::boundary;
use crate::floor::Floor;
use crate::graph::{self, Graph, Move, NEIGHBOURHOODS};
use crate::jobs::{good_lengths, request, Maker};
use crate::sheet::{self, Request};
use crate::sight;
use crate::sixteen::REFUSED;

/// Vertices above this make a floor too large for whole sheets over other moves.
const LOADED: usize = 120;

/// Moves that are not those of 16, or not as they are.
#[derive(Clone, Copy)]
enum Moves {
    /// The eight moves alone, at their costs in 16.
    Eight,
    /// The new moves with all that is in their way, or with the pinches at their ends.
    Unseen,
    Pinched,
    /// A new move at the cost of the two that it is the sum of.
    Dear,
    /// The eight moves before the new ones, or all of them the other way round: other choices among equals.
    NewLast,
    Backward,
}

const MOVES: [Moves; 6] =
    [Moves::Eight, Moves::Unseen, Moves::Pinched, Moves::Dear, Moves::NewLast, Moves::Backward];

fn is_new(m: &Move) -> bool {
    m.dx.abs() + m.dy.abs() == 3
}

/// The graph of 16 made wrong.
fn other_graph(floor: &Floor, kind: Moves) -> Graph {
    let mut moves = graph::moves_of(16);
    match kind {
        Moves::Eight => moves.retain(|m| !is_new(m)),
        Moves::Dear => moves.iter_mut().filter(|m| is_new(m)).for_each(|m| m.cost = 2414),
        Moves::NewLast => moves.sort_by_key(is_new),
        Moves::Backward => moves.reverse(),
        Moves::Unseen | Moves::Pinched => {}
    }
    Graph::of_moves(floor, &moves, |from, to, m| {
        let is_clear = sight::is_unblocked(floor, floor.point(from), floor.point(to));
        match kind {
            Moves::Unseen if is_new(&m) => true,
            Moves::Pinched if is_new(&m) => is_clear,
            _ => sight::vertices_see(floor, from, to),
        }
    })
}

/// The neighbourhoods but one.
pub fn other_neighbourhoods(neighbourhood: u64) -> impl Iterator<Item = u64> {
    NEIGHBOURHOODS.into_iter().filter(move |&other| other != neighbourhood)
}

/// On 6 by 6 cells the middle vertex, and the sums of two neighbouring moves from there: of the two routes the central
/// one is by the move that comes first.
fn sums_from_the_middle() -> Vec<(u64, u64)> {
    let moves = graph::moves_of(16);
    let after = moves.iter().skip(1).chain(&moves[..1]);
    let sums = moves.iter().zip(after).map(|(one, other)| (one.dx + other.dx, one.dy + other.dy));
    sums.map(|(dx, dy)| (24, (24 + 7 * dy + dx) as u64)).collect()
}

/// Floors that are in every stream beside those of any count, with requests for 16.
pub fn floors_of_sixteen() -> Vec<(Floor, Vec<Request>)> {
    let jobs = |ends: &[(u64, u64)]| ends.iter().map(|&(start, goal)| request(16, start, goal)).collect::<Vec<_>>();
    let mut floors = vec![
        (Floor::open(6, 6), jobs(&sums_from_the_middle())),
        // The moves from the first of each pair that leave the floor by one column end, by number, at the second.
        (Floor::open(5, 4), jobs(&[(10, 18), (19, 11), (11, 24), (18, 5)])),
        // Past a blocked cell, each way through its row and its column.
        (Floor::with_blocked(3, 2, &[1]), jobs(&[(0, 6), (6, 0)])),
        (Floor::with_blocked(5, 5, &[12]), jobs(&[(14, 22), (13, 21), (8, 21), (9, 20), (16, 20)])),
        // Across and beside the corner of two blocked cells, to it, and touching a corner of one.
        (Floor::with_blocked(3, 2, &[1, 3]), jobs(&[(0, 11), (6, 9)])),
        (Floor::with_blocked(3, 2, &[0, 4]), jobs(&[(1, 7), (1, 10)])),
        (Floor::with_blocked(3, 2, &[2, 4]), jobs(&[(0, 9), (0, 11)])),
        (Floor::with_blocked(4, 4, &[5, 10]), jobs(&[(5, 19), (1, 23), (3, 21), (15, 9)])),
        (Floor::with_blocked(4, 4, &[6, 9]), jobs(&[(5, 19), (1, 23), (3, 21), (15, 9)])),
        (Floor::with_blocked(4, 3, &[0, 11]), jobs(&[(6, 13), (13, 6)])),
        // Totals of 67 over 33, and of 68 over 34, which is above 2^64 - 1; so is that of 8.
        (Floor::open(100, 33), jobs(&[(0, 101 * 34 - 1)])),
        (Floor::open(102, 34), vec![request(16, 0, 103 * 35 - 1), request(8, 0, 103 * 35 - 1)]),
    ];
    for case in [63, 64].map(boundary::doubling_of_sixteen) {
        floors.push((case.floor, jobs(&[(case.start, case.goal)])));
    }
    floors
}

impl Maker {
    /// The request with a neighbourhood that is refused.
    pub fn refused(&mut self, request: Request) -> Request {
        self.use_steered();
        let neighbourhood = self.random.pick(&REFUSED);
        self.use_steered();
        Request { neighbourhood, ..request }
    }

    /// For each kind of other moves a job of 16 whose sheet they change, if one is found soon: that sheet checked, and
    /// the job finished from its costs.
    pub fn sheets_over_other_moves(&mut self) {
        if self.count() > LOADED {
            return;
        }
        self.use_steered();
        for kind in MOVES {
            let graph = other_graph(&self.solver.floor, kind);
            let reversed = graph.reversed();
            for _ in 0..4 {
                let request = self.any_request_of(16);
                let (start, goal) = (request.start as usize, request.goal as usize);
                let (truth, other) = (self.solver.truth(16, start, goal), sheet::solve(&graph, &reversed, start, goal));
                let other = other.sheet();
                if other != truth.sheet() {
                    self.load_record(other);
                    self.check_record(request, good_lengths(self.count()), None, &[]);
                    self.finish_record(request, good_lengths(self.count()), other.d[0], &[]);
                    break;
                }
            }
        }
        self.use_steered();
    }
}
