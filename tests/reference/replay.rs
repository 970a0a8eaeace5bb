//! The replay of a night log, in three passes: from bytes to stops, from stops to legs, from legs to the answer. The
//! known answers are worked by hand.

use crate::floor::Floor;
use crate::graph::{Graph, NEIGHBOURHOODS};
use crate::sheet::{Solver, NO_WALK};
use crate::sight;
use crate::vectors::Tally;

/// A log above this many bytes is refused.
pub const LONGEST: usize = 16_384;

/// The answer's number and values; a record's number is 0 where there is no such record.
#[derive(Clone, Copy, Debug, PartialEq, Eq)]
pub struct Replayed {
    pub answer: u8,
    pub read: u64,
    pub cost: u64,
    pub unfollowed: u64,
    pub bad: u64,
    pub cheapest: bool,
}

impl Replayed {
    fn refusal(answer: u8) -> Replayed {
        Replayed { answer, read: 0, cost: 0, unfollowed: 0, bad: 0, cheapest: false }
    }
}

/// The log of some stops.
pub fn log_of(stops: &[u16]) -> Vec<u8> {
    let record = |&stop: &u16| [b'V', b'T', (stop % 256) as u8, (stop / 256) as u8];
    stops.iter().flat_map(record).collect()
}

/// The stops before the first bad record, and whether there is one.
fn stops_of(log: &[u8], count: usize) -> (Vec<usize>, bool) {
    let mut stops = Vec::new();
    for piece in log.chunks(4) {
        match *piece {
            [0x56, 0x54, low, high] if 256 * usize::from(high) + usize::from(low) < count => {
                stops.push(256 * usize::from(high) + usize::from(low));
            }
            _ => return (stops, true),
        }
    }
    (stops, false)
}

/// What each stop costs after the one before; none where it cannot follow.
fn legs(floor: &Floor, graph: &Graph, stops: &[usize]) -> Vec<Option<u64>> {
    let leg = |from: usize, to: usize| match from == to {
        true => Some(0),
        false => graph.edges[from].iter().find(|edge| edge.to == to).map(|edge| edge.cost),
    };
    let mut legs: Vec<Option<u64>> = stops.first().map(|_| Some(0)).into_iter().collect();
    legs.extend(stops.windows(2).map(|pair| leg(pair[0], pair[1])));
    for (cost, _) in legs.iter_mut().zip(stops).filter(|(_, &stop)| sight::is_pinch(floor, floor.point(stop))) {
        *cost = None;
    }
    legs
}

/// Refusal 1 to 4, 16 and then 6, the first that applies.
fn fault(floor: &Floor, neighbourhood: u64, log: usize, lengths: [usize; 2]) -> Option<u8> {
    if floor.shape_fault().is_some() {
        return floor.shape_fault();
    }
    let count = floor.vertex_count();
    let is_none = !NEIGHBOURHOODS.contains(&neighbourhood);
    let faults = [(is_none, 4), (log > LONGEST, 16), (lengths != [count, 4 * count], 6)];
    faults.into_iter().find(|(applies, _)| *applies).map(|(_, number)| number)
}

/// Replays a log. Both slices are untouched at a refusal but 17.
pub fn replay(
    solver: &mut Solver, neighbourhood: u64, log: &[u8], costs: &mut [u32], work: &mut [u32],
) -> Replayed {
    if let Some(number) = fault(&solver.floor, neighbourhood, log.len(), [costs.len(), work.len()]) {
        return Replayed::refusal(number);
    }
    let (stops, broken) = stops_of(log, costs.len());
    let graphs = solver.graphs(neighbourhood);
    let legs = legs(&solver.floor, &graphs.0, &stops);
    let followed: Vec<u64> = legs.iter().map_while(|&leg| leg).collect();
    let (read, cost) = (stops.len() as u64, followed.iter().sum());
    let unfollowed = if followed.len() < legs.len() { followed.len() as u64 + 1 } else { 0 };
    work.fill(0);
    costs.fill(0);
    let mut cheapest = false;
    if let (&[first, ..], &[.., last], false, 0) = (&stops[..], &stops[..], broken, unfollowed) {
        costs.copy_from_slice(&solver.costs(neighbourhood, first));
        cheapest = u64::from(costs[last]) == cost;
    }
    let (answer, bad) = if broken { (17, read + 1) } else { (0, 0) };
    Replayed { answer, read, cost, unfollowed, bad, cheapest }
}

/// Replays over slices of the good lengths that hold 9 at each place: the answer and the costs.
fn replayed(floor: &Floor, neighbourhood: u64, log: &[u8]) -> (Replayed, Vec<u32>) {
    let count = floor.vertex_count();
    let (mut costs, mut work) = (vec![9; count], vec![9; 4 * count]);
    let answer = replay(&mut Solver::new(floor.clone()), neighbourhood, log, &mut costs, &mut work);
    let untouched = ![0, 17].contains(&answer.answer);
    assert!(work.iter().all(|&number| number == if untouched { 9 } else { 0 }), "the working slice of a replay");
    (answer, costs)
}

/// A faultless log's answer.
fn driven(read: u64, cost: u64, cheapest: bool) -> Replayed {
    Replayed { answer: 0, read, cost, unfollowed: 0, bad: 0, cheapest }
}

/// The answer of a log with a fault, and costs of 0.
fn faulty(count: usize, read: u64, cost: u64, unfollowed: u64, bad: u64) -> (Replayed, Vec<u32>) {
    let answer = if bad == 0 { 0 } else { 17 };
    (Replayed { answer, read, cost, unfollowed, bad, cheapest: false }, vec![0; count])
}

pub fn run(tally: &mut Tally) {
    faultless(tally);
    unfollowed(tally);
    broken(tally);
    refused(tally);
}

/// On two open cells: vertices 0 1 2 above 3 4 5.
fn faultless(tally: &mut Tally) {
    let floor = Floor::open(2, 1);
    let from_0 = [[0, 408, 816, 408, 816, 1224], [0, 408, 816, 408, 577, 985], [0, 1000, 2000, 1000, 1414, 2236]];
    let from_4 = [[816, 408, 816, 408, 0, 408], [577, 408, 577, 408, 0, 408], [1414, 1000, 1414, 1000, 0, 1000]];
    // The costs with 4, 8 and 16 moves; none where there is no such move.
    let logs: [(&[u16], [Option<(u64, bool)>; 3]); 8] = [
        (&[0], [Some((0, true)); 3]),
        (&[0, 0, 0], [Some((0, true)); 3]),
        (&[0, 1, 2, 5], [Some((1224, true)), Some((1224, false)), Some((3000, false))]),
        (&[0, 4, 5], [None, Some((985, true)), Some((2414, false))]),
        (&[0, 1, 1, 5], [None, Some((985, true)), Some((2414, false))]),
        (&[0, 5], [None, None, Some((2236, true))]),
        (&[0, 1, 0], [Some((816, false)), Some((816, false)), Some((2000, false))]),
        (&[0, 3, 4, 1, 2], [Some((1632, false)), Some((1632, false)), Some((4000, false))]),
    ];
    for (stops, answers) in logs {
        for ((neighbourhood, answer), costs) in NEIGHBOURHOODS.into_iter().zip(answers).zip(from_0) {
            if let Some((cost, cheapest)) = answer {
                let wanted = (driven(stops.len() as u64, cost, cheapest), costs.to_vec());
                tally.equal("a faultless log", replayed(&floor, neighbourhood, &log_of(stops)), wanted);
            }
        }
    }
    for (neighbourhood, costs) in NEIGHBOURHOODS.into_iter().zip(from_4) {
        tally.equal("one record", replayed(&floor, neighbourhood, &log_of(&[4])), (driven(1, 0, true), costs.to_vec()));
        tally.equal("an empty log", replayed(&floor, neighbourhood, &[]), (driven(0, 0, false), vec![0; 6]));
    }
    // Forth and back again and again: 4,095 moves along a side.
    let to_and_fro: Vec<u16> = (0..4096).map(|k| k % 2).collect();
    for (neighbourhood, side) in [(4, 408), (8, 408), (16, 1000)] {
        let (answer, _) = replayed(&floor, neighbourhood, &log_of(&to_and_fro));
        tally.equal("the longest log", answer, driven(4096, 4095 * side, false));
    }
    // The reached part of a floor with its second cell blocked.
    let shut = Floor::new(2, 1, vec![0, 1]);
    let wanted = (driven(3, 816, false), vec![0, 408, NO_WALK, 408, 577, NO_WALK]);
    tally.equal("unreached vertices", replayed(&shut, 8, &log_of(&[0, 3, 4])), wanted);
}

fn unfollowed(tally: &mut Tally) {
    let (open, shut, row) = (Floor::open(2, 1), Floor::new(2, 1, vec![0, 1]), Floor::open(3, 1));
    // Vertex 4 is a pinch, in the middle of 0 1 2, 3 4 5 and 6 7 8.
    let touching = Floor::new(2, 2, vec![1, 0, 0, 1]);
    let logs: [(&Floor, u64, &[u16], u64, u64); 14] = [
        (&open, 4, &[0, 4], 0, 2),
        (&open, 8, &[0, 2], 0, 2),
        (&open, 16, &[0, 2], 0, 2),
        (&open, 8, &[0, 1, 3, 5], 985, 4),
        // By number one more, and no move: from the end of a row to the start of the next.
        (&row, 4, &[2, 3, 4], 408, 3),
        (&row, 16, &[2, 3, 4], 1000, 3),
        // Open moves after the first fault add nothing, and a second fault is not told.
        (&open, 4, &[0, 1, 5, 4, 3, 2, 1], 408, 3),
        // Between blocked cells, and across one.
        (&shut, 4, &[0, 1, 2, 1, 0], 408, 3),
        (&shut, 8, &[0, 1, 5], 408, 3),
        (&shut, 16, &[0, 5], 0, 2),
        // Pinches: the first record, one later, standing still on one, and past one.
        (&touching, 8, &[4], 0, 1),
        (&touching, 16, &[4, 4, 5], 0, 1),
        (&touching, 4, &[1, 2, 5, 4, 4, 5, 5], 816, 4),
        (&touching, 8, &[1, 5, 7], 577, 3),
    ];
    for (floor, neighbourhood, stops, cost, number) in logs {
        let wanted = faulty(floor.vertex_count(), stops.len() as u64, cost, number, 0);
        tally.equal("a record that cannot follow", replayed(floor, neighbourhood, &log_of(stops)), wanted);
    }
}

fn broken(tally: &mut Tally) {
    let floor = Floor::open(2, 1);
    let touching = Floor::new(2, 2, vec![1, 0, 0, 1]);
    let good = log_of(&[0, 1, 2, 5]);
    // Each byte of the marks, and vertices off the floor, at each record.
    for record in 0..4u64 {
        let (at, cost) = (4 * record as usize, 408 * record.saturating_sub(1));
        let changes = [(0, 0x54), (0, 0x57), (0, 0), (1, 0x56), (1, 0x55), (1, 0), (2, 6), (2, 255), (3, 1), (3, 255)];
        for (place, value) in changes {
            let mut log = good.clone();
            log[at + place] = value;
            tally.equal("a bad record", replayed(&floor, 8, &log), faulty(6, record, cost, 0, record + 1));
        }
        for left in 1..4 {
            tally.equal("cut short", replayed(&floor, 8, &good[..at + left]), faulty(6, record, cost, 0, record + 1));
        }
        tally.equal("not cut short", replayed(&floor, 8, &good[..at + 4]).0.answer, 0);
    }
    // Big-endian numbers are off the floor; so is V, and 65,535.
    tally.equal("big-endian", replayed(&floor, 8, &[0x56, 0x54, 0, 1]), faulty(6, 0, 0, 0, 1));
    for (stops, wanted) in [([0, 1, 6, 2], faulty(6, 2, 408, 0, 3)), ([65_535, 0, 0, 0], faulty(6, 0, 0, 0, 1))] {
        tally.equal("off the floor", replayed(&floor, 4, &log_of(&stops)), wanted);
    }
    // Both faults, and one past the bad record, which is not read.
    tally.equal("both", replayed(&floor, 8, &log_of(&[0, 1, 3, 5, 4, 6, 0])), faulty(6, 5, 985, 4, 6));
    tally.equal("both, next to each other", replayed(&floor, 4, &log_of(&[0, 5, 6])), faulty(6, 2, 0, 2, 3));
    tally.equal("a fault past the bad record", replayed(&floor, 4, &log_of(&[0, 1, 6, 5])), faulty(6, 2, 408, 0, 3));
    tally.equal("a pinch and a cut", replayed(&touching, 8, &log_of(&[4, 5])[..6]), faulty(9, 1, 0, 1, 2));
    let longest = [log_of(&[0; 4095]), vec![0x56, 0x54, 0]].concat();
    tally.equal("16,383 bytes", replayed(&floor, 8, &longest), faulty(6, 4095, 0, 0, 4096));
}

fn refused(tally: &mut Tally) {
    let (open, stray) = (Floor::open(2, 1), Floor { fault: Some(3), ..Floor::open(2, 1) });
    let bad = [0; 16_385];
    let faults: [(&Floor, u64, usize, [usize; 2], u8); 14] = [
        (&Floor::open(0, 1), 5, 16_385, [5, 24], 1),
        (&Floor::open(128, 1), 8, 4, [258, 1032], 1),
        (&Floor::new(2, 1, vec![0]), 5, 16_385, [5, 24], 2),
        (&stray, 5, 16_385, [5, 24], 3),
        (&open, 5, 16_385, [5, 24], 4),
        (&open, 12, 4, [6, 24], 4),
        (&open, 8, 16_385, [5, 24], 16),
        (&open, 8, 16_385, [6, 24], 16),
        (&open, 8, 16_384, [5, 24], 6),
        (&open, 8, 0, [7, 24], 6),
        (&open, 8, 4, [6, 23], 6),
        (&open, 8, 4, [6, 25], 6),
        (&open, 8, 4, [0, 0], 6),
        (&open, 8, 16_384, [6, 24], 17),
    ];
    for (floor, neighbourhood, length, lengths, number) in faults {
        let [mut costs, mut work] = lengths.map(|length| vec![9; length]);
        let answer = replay(&mut Solver::new(floor.clone()), neighbourhood, &bad[..length], &mut costs, &mut work);
        let bad_record = Replayed { bad: 1, ..Replayed::refusal(17) };
        tally.equal("a refused log", answer, if number == 17 { bad_record } else { Replayed::refusal(number) });
        let left = if number == 17 { 0 } else { 9 };
        tally.holds("what a refusal leaves", costs.iter().chain(&work).all(|&number| number == left));
    }
}
