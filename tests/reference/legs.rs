//! Fewest stops: a table that says of all pairs of a list's vertices whether they see each other, and from it, from the
//! last position back, the fewest legs to the last. The known answers are worked by hand.

use crate::floor::Floor;
use crate::sheet::Solver;
use crate::thin;
use crate::vectors::Tally;
use std::collections::BTreeMap;

/// A list slice with more places is refused.
pub const LONGEST: usize = 16_384;

/// The rising choices of a joined list of positions, each seeing the next.
pub struct Choices {
    /// For each position the place of its vertex in the table.
    vertices: Vec<usize>,
    seen: Vec<Vec<bool>>,
    /// For each position the fewest legs from there to the last.
    pub fewest: Vec<u16>,
}

impl Choices {
    pub fn of(floor: &Floor, list: &[u16]) -> Choices {
        let places: BTreeMap<u16, usize> = list.iter().map(|&vertex| (vertex, 0)).collect();
        let places: BTreeMap<u16, usize> = places.into_keys().zip(0..).collect();
        let row = |&from: &u16| places.keys().map(|&to| thin::sees(floor, from, to)).collect();
        let seen: Vec<Vec<bool>> = places.keys().map(row).collect();
        let vertices = list.iter().map(|vertex| places[vertex]).collect();
        let mut choices = Choices { vertices, seen, fewest: Vec::new() };
        choices.fewest = choices.by_number_of_legs();
        choices
    }

    /// Whether a leg leads from one position to a later one.
    pub fn is_leg(&self, from: usize, to: usize) -> bool {
        from < to && to < self.vertices.len() && self.seen[self.vertices[from]][self.vertices[to]]
    }

    /// First the last position, which needs no leg; then those from which a leg leads there, which need one; then, of
    /// those left, the ones from which a leg leads to one of these; and so on.
    fn by_number_of_legs(&self) -> Vec<u16> {
        let count = self.vertices.len();
        let mut fewest = vec![0; count];
        let mut left: Vec<usize> = (0..count - 1).collect();
        let (mut reached, mut legs) = (vec![count - 1], 0);
        while !left.is_empty() {
            legs += 1;
            let (next, others) = left.iter().partition(|&&from| reached.iter().rev().any(|&to| self.is_leg(from, to)));
            (reached, left) = (next, others);
            assert!(!reached.is_empty(), "each position of a joined list sees the next");
            reached.iter().for_each(|&position| fewest[position] = legs);
        }
        fewest
    }

    /// The positions to which a leg from this one leads and which have one leg fewer left.
    pub fn next(&self, from: usize) -> Vec<usize> {
        let later = from + 1..self.fewest.len();
        later.filter(|&to| self.fewest[to] + 1 == self.fewest[from] && self.is_leg(from, to)).collect()
    }

    /// The kept positions where each goes to the farthest of its `next`.
    pub fn farthest(&self) -> Vec<u16> {
        let (mut kept, mut at) = (vec![0], 0);
        while let Some(&to) = self.next(at).last() {
            kept.push(to as u16);
            at = to;
        }
        kept
    }

    /// Whether these positions and numbers, of the whole slices, are a true choice with its numbers.
    fn accepts(&self, kept: &[u16], count: u64, legs: &[u16]) -> bool {
        if count == 0 || count > kept.len() as u64 {
            return false;
        }
        let (positions, past) = kept.split_at(count as usize);
        let (numbers, after) = legs.split_at(self.fewest.len());
        let last = self.fewest.len() - 1;
        let ends = positions[0] == 0 && usize::from(positions[positions.len() - 1]) == last;
        let clear = positions.windows(2).all(|pair| self.is_leg(pair[0].into(), pair[1].into()));
        let zeros = past.iter().chain(after).all(|&number| number == 0);
        ends && clear && zeros && numbers == self.fewest && positions.len() - 1 == usize::from(numbers[0])
    }
}

/// Refusal 1, 2, 3, 6 or 10, the first that applies.
fn fault(floor: &Floor, list: &[u16], n: u64, lengths: [usize; 2]) -> Option<u8> {
    let is_long = list.len() > LONGEST || lengths != [list.len(); 2];
    let bad_length = || is_long.then_some(6);
    let unjoined = || (!thin::is_joined(floor, list, n)).then_some(10);
    floor.shape_fault().or_else(bad_length).or_else(unjoined)
}

/// Judges kept positions and numbers from outside: 0, or refusal 1, 2, 3, 6, 10 or 19.
pub fn check(solver: &mut Solver, list: &[u16], n: u64, kept: &[u16], count: u64, legs: &[u16]) -> u8 {
    if let Some(number) = fault(&solver.floor, list, n, [kept.len(), legs.len()]) {
        return number;
    }
    let choices = solver.choices(&list[..n as usize]);
    if choices.accepts(kept, count, legs) { 0 } else { 19 }
}

/// Proposes kept positions and numbers: the answer, and how many are kept. Refusals 1, 2, 3, 6 and 10 leave both
/// slices.
pub fn propose(solver: &mut Solver, list: &[u16], kept: &mut [u16], legs: &mut [u16], n: u64) -> (u8, u64) {
    if let Some(number) = fault(&solver.floor, list, n, [kept.len(), legs.len()]) {
        return (number, 0);
    }
    let choices = solver.choices(&list[..n as usize]);
    let positions = choices.farthest();
    kept.fill(0);
    legs.fill(0);
    kept[..positions.len()].copy_from_slice(&positions);
    legs[..choices.fewest.len()].copy_from_slice(&choices.fewest);
    (0, positions.len() as u64)
}

pub fn run(tally: &mut Tally) {
    proposed(tally);
    right_choices(tally);
    false_choices(tally);
    refused(tally);
}

/// Three by three cells with the middle one blocked: vertices 0 to 3, 4 to 7, 8 to 11 and 12 to 15 by rows. From 0 the
/// whole first row and 7 are seen, and neither 11 nor 15; 15 is seen from 2, 3, 7 and 11, and not from 1.
fn ring() -> Floor {
    Floor::with_blocked(3, 3, &[4])
}

const ROUND: [u16; 7] = [0, 1, 2, 3, 7, 11, 15];

/// What is proposed for the whole list, in slices with two places more that hold 9.
fn propose_for(floor: &Floor, list: &[u16]) -> (Vec<u16>, Vec<u16>) {
    let longer = [list, &[65_535; 2]].concat();
    let (mut kept, mut legs) = (vec![9; longer.len()], vec![9; longer.len()]);
    let mut solver = Solver::new(floor.clone());
    let (answer, count) = propose(&mut solver, &longer, &mut kept, &mut legs, list.len() as u64);
    let is_zero = |numbers: &[u16]| numbers.iter().all(|&number| number == 0);
    assert!(answer == 0 && is_zero(&kept[count as usize..]) && is_zero(&legs[list.len()..]), "a proposal");
    assert_eq!(check(&mut solver, &longer, list.len() as u64, &kept, count, &legs), 0, "a proposal is accepted");
    (kept[..count as usize].to_vec(), legs[..list.len()].to_vec())
}

fn proposed(tally: &mut Tally) {
    // Vertex 10 is a pinch, on the straight line from 5 to 15.
    let pinched = Floor::with_blocked(6, 3, &[2, 9]);
    let touching = Floor::new(2, 2, vec![1, 0, 0, 1]);
    let lists: [(&str, &Floor, &[u16], &[u16], &[u16]); 11] = [
        ("round a corner", &ring(), &ROUND, &[0, 4, 6], &[2, 2, 1, 1, 1, 1, 0]),
        // The way leads out of sight and back: later positions need more legs than earlier ones.
        ("there and back", &ring(), &[0, 3, 15, 3, 0, 1], &[0, 5], &[1, 1, 2, 1, 1, 0]),
        ("back to a corner", &ring(), &[15, 3, 0, 3, 15], &[0, 4], &[1, 1, 2, 1, 0]),
        ("all round", &ring(), &[0, 3, 15, 12, 0], &[0, 4], &[1, 1, 2, 1, 0]),
        ("one point", &ring(), &[5], &[0], &[0]),
        ("two points", &ring(), &[0, 3], &[0, 1], &[1, 0]),
        ("one vertex again and again", &ring(), &[5, 5, 5, 5], &[0, 3], &[1, 1, 1, 0]),
        ("a vertex twice", &ring(), &[0, 3, 3, 15], &[0, 2, 3], &[2, 1, 1, 0]),
        ("round a pinch", &pinched, &[5, 19, 15], &[0, 1, 2], &[2, 1, 0]),
        ("round a pinch and back", &pinched, &[5, 19, 15, 19, 5], &[0, 4], &[1, 1, 2, 1, 0]),
        ("on a pinch", &touching, &[4, 4, 4], &[0, 2], &[1, 1, 0]),
    ];
    for (name, floor, list, kept, legs) in lists {
        let wanted = (kept.to_vec(), legs.to_vec());
        tally.equal(&format!("request 12, {name}"), propose_for(floor, list), wanted);
    }
    // The thinner stops where sight fails first.
    let kept = thin::kept_positions(&ring(), &[0, 3, 15, 3, 0, 1]);
    tally.equal("request 12, thinned there and back", kept, vec![0, 1, 5]);
    let row: Vec<u16> = (0..128).collect();
    let (kept, legs) = propose_for(&Floor::open(127, 127), &row);
    tally.equal("request 12, one leg", (kept, legs), (vec![0, 127], [vec![1; 127], vec![0]].concat()));
}

/// The answer for a list with kept positions and numbers, in slices with places more that are 0.
fn judged(floor: &Floor, list: &[u16], kept: &[u16], legs: &[u16]) -> u8 {
    let length = list.len().max(kept.len()).max(legs.len()) + 1;
    let padded = |numbers: &[u16]| [numbers, &vec![0; length - numbers.len()]].concat();
    let mut solver = Solver::new(floor.clone());
    check(&mut solver, &padded(list), list.len() as u64, &padded(kept), kept.len() as u64, &padded(legs))
}

/// Each of several lists of as few legs is accepted.
fn right_choices(tally: &mut Tally) {
    let legs = [2, 2, 1, 1, 1, 1, 0];
    for kept in [[0, 2, 6], [0, 3, 6], [0, 4, 6]] {
        tally.equal("request 12, right", judged(&ring(), &ROUND, &kept, &legs), 0);
    }
    for kept in [[0, 1, 3], [0, 2, 3]] {
        tally.equal("request 12, right, twice", judged(&ring(), &[0, 3, 3, 15], &kept, &[2, 1, 1, 0]), 0);
    }
    tally.equal("request 12, right, one point", judged(&ring(), &[5], &[0], &[0]), 0);
}

fn false_choices(tally: &mut Tally) {
    let legs = [2, 2, 1, 1, 1, 1, 0];
    let kept: [&[u16]; 15] = [
        // A leg too many; its numbers are those of the fewest.
        &[0, 1, 2, 6], &[0, 4, 5, 6], &[0, 1, 2, 3, 4, 5, 6],
        // Out of sight: 0 and 11, 0 and 15, 1 and 15.
        &[0, 5, 6], &[0, 6], &[0, 1, 6],
        // Not from 0, not to the last, not rising, past the last.
        &[2, 4, 6], &[1, 6], &[0, 2, 5], &[0, 4, 4], &[4, 0, 6], &[0, 0, 6], &[0, 3, 65_535], &[0, 4, 7], &[0],
    ];
    for kept in kept {
        tally.equal("request 12, false kept positions", judged(&ring(), &ROUND, kept, &legs), 19);
    }
    // Numbers that go with a list of one leg more.
    tally.equal("request 12, a leg more", judged(&ring(), &ROUND, &[0, 1, 2, 6], &[3, 2, 1, 1, 1, 1, 0]), 19);
    tally.equal("request 12, none fewer", judged(&ring(), &ROUND, &[0, 2, 5, 6], &[3, 3, 2, 2, 2, 1, 0]), 19);
    tally.equal("request 12, no legs", judged(&ring(), &ROUND, &[], &legs), 19);
    tally.equal("request 12, nothing", judged(&ring(), &ROUND, &[], &[0; 7]), 19);
    for place in 0..7 {
        for number in [legs[place].wrapping_sub(1), legs[place] + 1, 65_535, legs[place] ^ 256] {
            let mut other = legs;
            other[place] = number;
            tally.equal("request 12, a false number", judged(&ring(), &ROUND, &[0, 4, 6], &other), 19);
        }
    }
    // Places past the kept count and past n.
    let mut solver = Solver::new(ring());
    let (list, kept, legs) = ([0, 3, 15, 9, 9], [0, 1, 2, 0, 0], [2, 1, 0, 0, 0]);
    tally.equal("request 12, zeros", check(&mut solver, &list, 3, &kept, 3, &legs), 0);
    for place in 3..5 {
        for number in [1, 2, 4, 65_535] {
            let (mut other_kept, mut other_legs) = (kept, legs);
            other_kept[place] = number;
            other_legs[place] = number;
            tally.equal("request 12, past the kept", check(&mut solver, &list, 3, &other_kept, 3, &legs), 19);
            tally.equal("request 12, past n", check(&mut solver, &list, 3, &kept, 3, &other_legs), 19);
        }
    }
    for count in [0, 1, 2, 4, 5, 6, 65_539, u64::MAX] {
        tally.equal("request 12, another count", check(&mut solver, &list, 3, &kept, count, &legs), 19);
    }
}

fn refused(tally: &mut Tally) {
    let (good, stray) = (ring(), Floor { fault: Some(3), ..ring() });
    let joined = vec![0, 3, 15];
    let long = vec![5; LONGEST + 1];
    let faults: [(&Floor, &[u16], u64, [usize; 2], u8); 15] = [
        (&Floor::open(0, 3), &joined, 9, [2, 3], 1),
        (&Floor { fault: Some(2), ..ring() }, &joined, 9, [2, 3], 2),
        (&stray, &joined, 9, [2, 3], 3),
        (&good, &joined, 9, [2, 3], 6),
        (&good, &joined, 3, [3, 2], 6),
        (&good, &joined, 3, [4, 3], 6),
        (&good, &joined, 3, [3, 4], 6),
        (&good, &joined, 3, [4, 4], 6),
        (&good, &long, 1, [LONGEST + 1; 2], 6),
        (&good, &[], 0, [0, 0], 10),
        (&good, &joined, 0, [3, 3], 10),
        (&good, &joined, 4, [3, 3], 10),
        (&good, &joined, u64::MAX, [3, 3], 10),
        (&good, &[0, 15, 3], 3, [3, 3], 10),
        (&good, &[0, 16, 3], 2, [3, 3], 10),
    ];
    for (floor, list, n, lengths, number) in faults {
        let [mut kept, mut legs] = lengths.map(|length| vec![9; length]);
        let mut solver = Solver::new(floor.clone());
        tally.equal("request 12, refused, judged", check(&mut solver, list, n, &kept, 1, &legs), number);
        let answer = propose(&mut solver, list, &mut kept, &mut legs, n);
        tally.equal("request 12, refused, proposed", answer, (number, 0));
        tally.holds("request 12, untouched", kept.iter().chain(&legs).all(|&place| place == 9));
    }
    let (mut kept, mut legs) = (vec![9; LONGEST], vec![9; LONGEST]);
    let answer = propose(&mut Solver::new(ring()), &long[1..], &mut kept, &mut legs, LONGEST as u64);
    tally.equal("request 12, the longest list", (answer, kept[1], legs[0]), ((0, 2), 16_383, 1));
    // The numbers past the first n of a list are not read.
    let answer = propose(&mut Solver::new(ring()), &[0, 16, 3], &mut [9; 3], &mut [9; 3], 1);
    tally.equal("request 12, past n", answer, (0, 1));
}
