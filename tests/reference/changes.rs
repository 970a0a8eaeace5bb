//! What changed between two floors: the differing cells by sets of cell numbers, and the costs from one start on both
//! floors. The known answers are worked by hand.

use crate::floor::Floor;
use crate::sheet::{Request, Solver, NO_WALK};
use crate::vectors::Tally;
use std::cmp::Ordering;
use std::collections::BTreeSet;

/// The answer's number, and how many cells closed and how many opened; both are 0 at a refusal.
#[derive(Clone, Copy, Debug, PartialEq, Eq)]
pub struct Changed {
    pub answer: u8,
    pub closed: u64,
    pub opened: u64,
}

impl Changed {
    fn refusal(answer: u8) -> Changed {
        Changed { answer, closed: 0, opened: 0 }
    }
}

/// The slices lent to the report: the costs on the first floor and on the second, the changes, the working slice.
pub struct Lent<'a> {
    pub before: &'a mut [u32],
    pub after: &'a mut [u32],
    pub changes: &'a mut [u8],
    pub work: &'a mut [u32],
}

/// Refusal 1, 2 or 3 of the first floor, then of the second, and then 15.
fn fault(first: &Floor, second: &Floor) -> Option<u8> {
    let sizes = [first, second].map(|floor| (floor.width, floor.height));
    first.shape_fault().or_else(|| second.shape_fault()).or_else(|| (sizes[0] != sizes[1]).then_some(15))
}

/// The numbers of the blocked cells.
fn blocked(floor: &Floor) -> BTreeSet<u16> {
    (0..).zip(&floor.cells).filter(|(_, &cell)| cell == 1).map(|(number, _)| number).collect()
}

/// Compares two floors, the first being the one before. Refusals 1 to 3, 15 and 6 leave the slice.
pub fn changes(first: &Floor, second: &Floor, cells: &mut [u16]) -> Changed {
    if let Some(number) = fault(first, second) {
        return Changed::refusal(number);
    }
    if cells.len() != first.cells.len() {
        return Changed::refusal(6);
    }
    let (before, after) = (blocked(first), blocked(second));
    cells.fill(0);
    for (place, &cell) in cells.iter_mut().zip(before.symmetric_difference(&after)) {
        *place = cell;
    }
    let (closed, opened) = (after.difference(&before).count() as u64, before.difference(&after).count() as u64);
    Changed { answer: 0, closed, opened }
}

/// 0 for an equal cost, 1 for one that fell, 2 for one that rose, 3 for one that came and 4 for one that went.
pub fn change(before: u32, after: u32) -> u8 {
    let walk = |cost: u32| (cost != NO_WALK).then_some(cost);
    match (walk(before), walk(after)) {
        (None, None) => 0,
        (None, Some(_)) => 3,
        (Some(_), None) => 4,
        (Some(before), Some(after)) => match after.cmp(&before) {
            Ordering::Equal => 0,
            Ordering::Less => 1,
            Ordering::Greater => 2,
        },
    }
}

/// The second report: the answer's number. Refusals 1 to 3, 15, 4, 5, 11 and 6 leave all slices.
pub fn report(first: &mut Solver, second: &mut Solver, neighbourhood: u64, start: u64, lent: Lent) -> u8 {
    if let Some(number) = fault(&first.floor, &second.floor) {
        return number;
    }
    let request = Request { neighbourhood, start, goal: start };
    if let Some(number) = request.fault(&first.floor).or_else(|| request.fault(&second.floor)) {
        return number;
    }
    let count = first.floor.vertex_count();
    let lengths = [lent.before.len(), lent.after.len(), lent.changes.len(), lent.work.len()];
    if lengths != [count, count, count, 4 * count] {
        return 6;
    }
    lent.before.copy_from_slice(&first.costs(neighbourhood, start as usize));
    lent.after.copy_from_slice(&second.costs(neighbourhood, start as usize));
    for (place, (&before, &after)) in lent.changes.iter_mut().zip(lent.before.iter().zip(lent.after.iter())) {
        *place = change(before, after);
    }
    lent.work.fill(0);
    0
}

pub fn run(tally: &mut Tally) {
    cells(tally);
    refused_cells(tally);
    costs(tally);
    refused_reports(tally);
}

/// Compares with a slice of a length that holds 9 at each place.
fn compared(first: &Floor, second: &Floor, length: usize) -> (Changed, Vec<u16>) {
    let mut cells = vec![9; length];
    (changes(first, second, &mut cells), cells)
}

/// On floors of 1 by 1, 2 by 1, 2 by 2 and 3 by 3 cells. Cell 0 is listed as the padding is.
fn cells(tally: &mut Tally) {
    let floors: [(u64, &[u8], &[u8], u64, u64, &[u16]); 9] = [
        (1, &[0], &[1], 1, 0, &[0]),
        (1, &[1], &[0], 0, 1, &[0]),
        (1, &[1], &[1], 0, 0, &[0]),
        (2, &[0, 0], &[0, 1], 1, 0, &[1, 0]),
        (2, &[0, 1], &[1, 0], 1, 1, &[0, 1]),
        (2, &[1, 0, 0, 1], &[0, 1, 1, 0], 2, 2, &[0, 1, 2, 3]),
        (2, &[1, 0, 0, 1], &[1, 0, 1, 0], 1, 1, &[2, 3, 0, 0]),
        (2, &[1, 1, 1, 1], &[0, 1, 0, 0], 0, 3, &[0, 2, 3, 0]),
        (3, &[0, 1, 1, 0, 0, 1, 1, 0, 0], &[0, 1, 0, 1, 0, 1, 1, 1, 1], 3, 1, &[2, 3, 7, 8, 0, 0, 0, 0, 0]),
    ];
    for (width, before, after, closed, opened, listed) in floors {
        let floor = |cells: &[u8]| Floor::new(width, cells.len() as u64 / width, cells.to_vec());
        let wanted = (Changed { answer: 0, closed, opened }, listed.to_vec());
        tally.equal("request 10, cells", compared(&floor(before), &floor(after), before.len()), wanted);
    }
    let (open, shut) = (Floor::open(127, 127), Floor::new(127, 127, vec![1; 127 * 127]));
    let (told, listed) = compared(&open, &shut, 127 * 127);
    tally.equal("request 10, every cell closed", told, Changed { answer: 0, closed: 16_129, opened: 0 });
    tally.holds("request 10, every cell listed", listed.iter().copied().eq(0..16_129));
}

/// A floor with refusal 3.
fn stray(width: u64, height: u64) -> Floor {
    Floor { fault: Some(3), ..Floor::open(width, height) }
}

fn refused_cells(tally: &mut Tally) {
    let good = Floor::open(3, 2);
    let (side, short) = (Floor::open(0, 2), Floor { fault: Some(2), ..Floor::open(3, 2) });
    let faults: [(&Floor, &Floor, usize, u8); 15] = [
        (&side, &stray(3, 2), 5, 1),
        (&short, &side, 5, 2),
        (&stray(3, 2), &side, 5, 3),
        (&stray(5, 1), &short, 6, 3),
        (&good, &side, 5, 1),
        (&good, &short, 5, 2),
        (&good, &stray(3, 2), 5, 3),
        // 3 of the second floor before 15, and 15 before 6.
        (&good, &stray(2, 3), 5, 3),
        (&good, &Floor::open(2, 3), 5, 15),
        (&good, &Floor::open(2, 3), 6, 15),
        (&Floor::open(127, 1), &Floor::open(1, 127), 127, 15),
        (&good, &Floor::open(3, 1), 6, 15),
        (&good, &good, 5, 6),
        (&good, &good, 7, 6),
        // The map's bytes.
        (&good, &good, 1, 6),
    ];
    for (first, second, length, number) in faults {
        let wanted = (Changed::refusal(number), vec![9; length]);
        tally.equal("request 10, refused cells", compared(first, second, length), wanted);
    }
}

/// The report with slices of the good lengths that hold 9: the costs on both floors, and the changes.
fn reported(first: &Floor, second: &Floor, neighbourhood: u64, start: u64) -> (Vec<u32>, Vec<u32>, Vec<u8>) {
    let count = first.vertex_count();
    let (mut before, mut after, mut changes, mut work) =
        (vec![9; count], vec![9; count], vec![9; count], vec![9; 4 * count]);
    let lent = Lent { before: &mut before, after: &mut after, changes: &mut changes, work: &mut work };
    let mut solvers = [first, second].map(|floor| Solver::new(floor.clone()));
    let [one, other] = &mut solvers;
    assert_eq!(report(one, other, neighbourhood, start, lent), 0, "a report of good shape");
    assert!(work.iter().all(|&number| number == 0), "the working slice of a report");
    (before, after, changes)
}

/// Each pair of floors both ways: the changes that are 1 and 2, and 3 and 4, change places.
fn costs(tally: &mut Tally) {
    const M: u32 = NO_WALK;
    let floor = |cells: &[u8]| Floor::new(2, cells.len() as u64 / 2, cells.to_vec());
    let shut = [0, 408, M, 408, 577, M];
    let two = [408, 0, 408, 577, 408, 577, 985, 816, 985];
    let pairs: [(&[u8], &[u8], u64, u64, &[u32], &[u32], &[u8]); 8] = [
        (&[0, 0], &[0, 1], 8, 0, &[0, 408, 816, 408, 577, 985], &shut, &[0, 0, 4, 0, 0, 4]),
        (&[0, 0], &[0, 1], 16, 0, &[0, 1000, 2000, 1000, 1414, 2236], &[0, 1000, M, 1000, 1414, M],
            &[0, 0, 4, 0, 0, 4]),
        (&[0, 1], &[0, 1], 8, 0, &shut, &shut, &[0; 6]),
        // Vertices 2 and 5 are in reach on neither floor.
        (&[0, 1], &[1, 1], 4, 0, &[0, 408, M, 408, 816, M], &[0, M, M, M, M, M], &[0, 4, 0, 4, 4, 0]),
        // On two by two cells, with the first cell closed: 0 is out of reach, and 3 by way of 4.
        (&[0; 4], &[1, 0, 0, 0], 8, 1, &two, &[M, 0, 408, 816, 408, 577, 985, 816, 985], &[4, 0, 0, 2, 0, 0, 0, 0, 0]),
        (&[0; 4], &[1, 0, 0, 0], 4, 1, &[408, 0, 408, 816, 408, 816, 1224, 816, 1224],
            &[M, 0, 408, 816, 408, 816, 1224, 816, 1224], &[4, 0, 0, 0, 0, 0, 0, 0, 0]),
        // Every move from 0 goes along the first cell or enters it.
        (&[0; 4], &[1, 0, 0, 0], 16, 0, &[0, 1000, 2000, 1000, 1414, 2236, 2000, 2236, 2828],
            &[0, M, M, M, M, M, M, M, M], &[0, 4, 4, 4, 4, 4, 4, 4, 4]),
        // A cell is closed, and 4 is no pinch any more: it comes into reach.
        (&[1, 0, 0, 1], &[1, 1, 0, 1], 8, 6, &[M, M, M, 408, M, M, 0, 408, M], &[M, M, M, 408, 577, M, 0, 408, M],
            &[0, 0, 0, 0, 3, 0, 0, 0, 0]),
    ];
    for (one, other, neighbourhood, start, before, after, changes) in pairs {
        let (one, other) = (floor(one), floor(other));
        let wanted = (before.to_vec(), after.to_vec(), changes.to_vec());
        tally.equal("request 10, costs", reported(&one, &other, neighbourhood, start), wanted);
        let turned = changes.iter().map(|&change| [0, 2, 1, 4, 3][usize::from(change)]).collect();
        let wanted = (after.to_vec(), before.to_vec(), turned);
        tally.equal("request 10, costs, turned round", reported(&other, &one, neighbourhood, start), wanted);
    }
}

fn refused_reports(tally: &mut Tally) {
    let (open, touching) = (Floor::open(2, 2), Floor::new(2, 2, vec![1, 0, 0, 1]));
    let good = [9, 9, 9, 36];
    let bad = [8, 9, 9, 36];
    let faults: [(&Floor, &Floor, u64, u64, [usize; 4], u8); 24] = [
        (&Floor::open(128, 2), &stray(2, 2), 5, 9, bad, 1),
        (&stray(2, 2), &Floor::open(0, 2), 5, 9, bad, 3),
        (&open, &Floor::open(2, 0), 5, 9, bad, 1),
        (&open, &Floor { fault: Some(2), ..Floor::open(2, 1) }, 5, 9, bad, 2),
        (&open, &stray(2, 1), 5, 9, bad, 3),
        (&open, &Floor::open(2, 1), 5, 9, bad, 15),
        (&open, &Floor::open(4, 1), 8, 0, good, 15),
        (&open, &touching, 5, 9, bad, 4),
        (&open, &touching, 12, 4, good, 4),
        (&open, &touching, 8, 9, bad, 5),
        (&touching, &open, 16, 65_535, good, 5),
        // A start that is a pinch of the second floor, of the first, of both; with nothing else, and before 6.
        (&open, &touching, 8, 4, good, 11),
        (&touching, &open, 4, 4, good, 11),
        (&touching, &touching, 16, 4, good, 11),
        (&open, &touching, 8, 4, bad, 11),
        (&touching, &open, 8, 4, bad, 11),
        (&open, &open, 8, 4, bad, 6),
        (&open, &open, 8, 4, [10, 9, 9, 36], 6),
        (&open, &open, 8, 4, [9, 8, 9, 36], 6),
        (&open, &open, 8, 4, [9, 10, 9, 36], 6),
        (&open, &open, 8, 4, [9, 9, 8, 36], 6),
        (&open, &open, 8, 4, [9, 9, 10, 36], 6),
        (&open, &open, 8, 4, [9, 9, 9, 35], 6),
        (&open, &open, 8, 4, [9, 9, 9, 37], 6),
    ];
    for (first, second, neighbourhood, start, lengths, number) in faults {
        let [mut before, mut after, mut work] = [lengths[0], lengths[1], lengths[3]].map(|length| vec![9; length]);
        let mut changes = vec![9; lengths[2]];
        let mut solvers = [first, second].map(|floor| Solver::new(floor.clone()));
        let [one, other] = &mut solvers;
        let lent = Lent { before: &mut before, after: &mut after, changes: &mut changes, work: &mut work };
        tally.equal("request 10, a refused report", report(one, other, neighbourhood, start, lent), number);
        let untouched = before.iter().chain(&after).chain(&work).all(|&x| x == 9) && changes.iter().all(|&x| x == 9);
        tally.holds("request 10, what a refused report leaves", untouched);
    }
}
