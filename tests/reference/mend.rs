//! Mending: the true sheet of a job, written into a second set of slices, and at how many places of each slice a sheet
//! that is handed in differs from it.

use crate::floor::Floor;
use crate::format::{self, Damage, Digest};
use crate::jobs::{good_lengths, Lengths};
use crate::packed::PackedFloor;
use crate::sheet::{Handed, Request, Sheet, Solver, Truth, NO_WALK};
use crate::vectors::{self, Tally};

/// The second set of slices, whose n is no part of it and stays 0, and the working slice.
#[derive(Clone, Debug, PartialEq, Eq)]
pub struct Second {
    pub sheet: Sheet,
    pub work: Vec<u32>,
}

impl Second {
    /// Slices of these lengths that hold the pattern of a seed.
    pub fn patterned([d, e, f, b, route, next, work]: Lengths, seed: u32) -> Second {
        let costs = |length: usize| (0..length).map(|place| format::pattern(seed, place) as u32).collect();
        let counts = |length: usize| (0..length).map(|place| format::pattern(seed, place)).collect();
        let points = |length: usize| (0..length).map(|place| format::pattern(seed, place) as u16).collect();
        let (d, e, f, b) = (costs(d), costs(e), counts(f), counts(b));
        Second { sheet: Sheet { d, e, f, b, route: points(route), next: points(next), n: 0 }, work: costs(work) }
    }

    fn lengths(&self) -> Lengths {
        let Sheet { d, e, f, b, route, next, .. } = &self.sheet;
        [d.len(), e.len(), f.len(), b.len(), route.len(), next.len(), self.work.len()]
    }

    /// Of each slice, the working slice last.
    pub fn digests(&self) -> [u64; 7] {
        let Sheet { d, e, f, b, route, next, .. } = &self.sheet;
        let costs = |slice: &[u32]| Digest::of(slice.iter().copied());
        let points = |slice: &[u16]| Digest::of(slice.iter().map(|&vertex| vertex.into()));
        let [d, e, work] = [d, e, &self.work].map(|slice| costs(slice));
        let [route, next] = [route, next].map(|slice| points(slice));
        [d, e, Digest::of_wide(f), Digest::of_wide(b), route, next, work]
    }
}

/// The number, n, and for d, e, f, b, route and next at how many places the two sheets differ.
#[derive(Clone, Copy, Debug, PartialEq, Eq)]
pub struct Mended {
    pub answer: u8,
    pub n: u64,
    pub differing: [u64; 6],
}

impl Mended {
    pub fn refusal(answer: u8) -> Mended {
        Mended { answer, n: 0, differing: [0; 6] }
    }
}

fn differing<T: PartialEq>(old: &[T], new: &[T]) -> u64 {
    old.iter().zip(new).filter(|(old, new)| old != new).count() as u64
}

/// 1 to 5, 11, 6, then 7, 8 or 0, with what each leaves in the second set. The n handed in is not read.
pub fn mend(solver: &mut Solver, request: Request, old: &Handed, second: &mut Second) -> Mended {
    if let Some(fault) = request.fault(&solver.floor) {
        return Mended::refusal(fault);
    }
    let good = good_lengths(solver.floor.vertex_count());
    let lengths = [old.d.len(), old.e.len(), old.f.len(), old.b.len(), old.route.len(), old.next.len()];
    if lengths != good[..6] || second.lengths() != good {
        return Mended::refusal(6);
    }
    let truth = solver.truth(request.neighbourhood, request.start as usize, request.goal as usize);
    let sheet = truth.sheet();
    second.sheet = Sheet { n: 0, ..sheet.clone() };
    second.work.fill(0);
    let differing = [
        differing(old.d, &sheet.d),
        differing(old.e, &sheet.e),
        differing(old.f, &sheet.f),
        differing(old.b, &sheet.b),
        differing(old.route, &sheet.route),
        differing(old.next, &sheet.next),
    ];
    match &*truth {
        Truth::Route { .. } => Mended { answer: 0, n: sheet.n, differing },
        Truth::NoRoute { .. } => Mended { answer: 7, n: 0, differing },
        Truth::TooMany { .. } => Mended::refusal(8),
    }
}

/// The payload of a record: the lengths of the slices handed in, and the changes made to them.
pub fn payload_of(lengths: [usize; 6], damages: &[Damage]) -> Vec<u8> {
    let mut bytes: Vec<u8> = lengths.iter().flat_map(|&length| (length as u32).to_le_bytes()).collect();
    bytes.extend(format::damages_to_bytes(damages));
    bytes
}

pub fn from_payload(payload: &[u8]) -> ([usize; 6], Vec<Damage>) {
    let (front, changes) = payload.split_at(24);
    let mut lengths = [0; 6];
    for (length, bytes) in lengths.iter_mut().zip(front.chunks_exact(4)) {
        *length = u32::from_le_bytes(bytes.try_into().unwrap()) as usize;
    }
    (lengths, format::damages_from_bytes(changes))
}

/// A sheet as it is handed in.
pub fn handed(s: &Sheet) -> Handed<'_> {
    Handed { d: &s.d, e: &s.e, f: &s.f, b: &s.b, route: &s.route, next: &s.next, n: s.n }
}

/// What mending answers and leaves, from slices of good lengths that hold a pattern.
pub fn mended(floor: &Floor, request: Request, old: &Sheet) -> (Mended, Second) {
    let mut second = Second::patterned(good_lengths(floor.vertex_count()), 9);
    let told = mend(&mut Solver::new(floor.clone()), request, &handed(old), &mut second);
    (told, second)
}

/// Known answers, worked by hand: of each row of numbers the places are counted where it is not the row above it.
pub fn run(tally: &mut Tally) {
    damaged_squares(tally);
    from_eight_to_sixteen(tally);
    turned_bits(tally);
    refused(tally);
}

const M: u32 = NO_WALK;

fn job(neighbourhood: u64, start: u64, goal: u64) -> Request {
    Request { neighbourhood, start, goal }
}

fn told(answer: u8, n: u64, differing: [u64; 6]) -> Mended {
    Mended { answer, n, differing }
}

/// Floors a to d, each mended from another's sheet.
fn damaged_squares(tally: &mut Tally) {
    let (open, blocked) = (Floor::open(1, 1), Floor::new(1, 1, vec![1]));
    let zeros = Sheet::zeros(4);
    let (a_d, a_e, b_d, b_e) = ([0, 408, 408, 577], [577, 408, 408, 0], [0, 408, 408, 816], [816, 408, 408, 0]);
    let a = vectors::sheet_of(&a_d, &a_e, &[1, 0, 0, 1], &[1, 0, 0, 1], &[0, 3], &[3, 0, 0, 3]);
    let b = vectors::sheet_of(&b_d, &b_e, &[1, 1, 1, 2], &[2, 1, 1, 1], &[0, 1, 3], &[1, 3, 3, 3]);
    let c = vectors::no_route_sheet(&[0, M, M, M]);
    let d = vectors::sheet_of(&[0, M, M, M], &[0, M, M, M], &[1, 0, 0, 0], &[1, 0, 0, 0], &[0], &[0, 0, 0, 0]);
    let cases = [
        ("a from zeros", &open, job(8, 0, 3), &zeros, &a, told(0, 2, [3, 3, 2, 2, 1, 2])),
        ("a from a", &open, job(8, 0, 3), &a, &a, told(0, 2, [0; 6])),
        ("b from a", &open, job(4, 0, 3), &a, &b, told(0, 3, [1, 1, 3, 3, 2, 3])),
        ("a from b", &open, job(8, 0, 3), &b, &a, told(0, 2, [1, 1, 3, 3, 2, 3])),
        ("c from a", &blocked, job(8, 0, 3), &a, &c, told(7, 0, [3, 3, 2, 2, 1, 2])),
        ("c from b", &blocked, job(4, 0, 3), &b, &c, told(7, 0, [3, 3, 4, 4, 2, 4])),
        ("c from c", &blocked, job(16, 0, 3), &c, &c, told(7, 0, [0; 6])),
        ("d from c", &blocked, job(8, 0, 0), &c, &d, told(0, 1, [0, 3, 1, 1, 0, 0])),
        ("d from b", &blocked, job(4, 0, 0), &b, &d, told(0, 1, [3, 4, 3, 4, 2, 4])),
    ];
    for (name, floor, request, old, new, wanted) in cases {
        let (answer, second) = mended(floor, request, old);
        tally.equal(&format!("mended, {name}"), answer, wanted);
        tally.equal(&format!("mended, {name}, left"), second.sheet, Sheet { n: 0, ..new.clone() });
        tally.equal(&format!("mended, {name}, working slice"), second.work, vec![0; 16]);
    }
}

/// Floor e: its sheet with 8 handed in with 16, and the other way round.
fn from_eight_to_sixteen(tally: &mut Tally) {
    let floor = Floor::open(2, 1);
    let with_8 = vectors::sheet_of(
        &[0, 408, 816, 408, 577, 985],
        &[985, 577, 408, 816, 408, 0],
        &[1, 1, 0, 0, 1, 2],
        &[2, 1, 0, 0, 1, 1],
        &[0, 1, 5],
        &[1, 5, 0, 0, 5, 5],
    );
    let with_16 = vectors::sheet_of(
        &[0, 1000, 2000, 1000, 1414, 2236],
        &[2236, 1414, 1000, 2000, 1000, 0],
        &[1, 0, 0, 0, 0, 1],
        &[1, 0, 0, 0, 0, 1],
        &[0, 5],
        &[5, 0, 0, 0, 0, 5],
    );
    for (number, old, new, n) in [(16, &with_8, &with_16, 2), (8, &with_16, &with_8, 3)] {
        let (answer, second) = mended(&floor, job(number, 0, 5), old);
        tally.equal("mended, e", answer, told(0, n, [5, 5, 3, 3, 2, 3]));
        tally.equal("mended, e, left", second.sheet, Sheet { n: 0, ..new.clone() });
    }
}

/// One bit of each slice of b's sheet, the lowest and the highest, and an n that is not read.
fn turned_bits(tally: &mut Tally) {
    let floor = Floor::open(1, 1);
    let sheet = vectors::plan(&floor, 4, 0, 3).sheet;
    for place in 0..4 {
        for high in [false, true] {
            let mut turned = vec![Sheet { n: 77, ..sheet.clone() }; 6];
            turned[0].d[place] ^= if high { 1 << 31 } else { 1 };
            turned[1].e[place] ^= if high { 1 << 31 } else { 1 };
            turned[2].f[place] ^= if high { 1 << 63 } else { 1 };
            turned[3].b[place] ^= if high { 1 << 63 } else { 1 };
            turned[4].route[place] ^= if high { 1 << 15 } else { 1 };
            turned[5].next[place] ^= if high { 1 << 15 } else { 1 };
            for (slice, old) in turned.iter().enumerate() {
                let mut differing = [0; 6];
                differing[slice] = 1;
                tally.equal("mended, one bit", mended(&floor, job(4, 0, 3), old).0, told(0, 3, differing));
            }
        }
    }
}

/// 8 leaves d and e; the others nothing, in the order 1 to 5, 11, 6, 7, 8.
fn refused(tally: &mut Tally) {
    let (floor, request) = (Floor::open(34, 34), job(4, 0, 35 * 35 - 1));
    let (answer, second) = mended(&floor, request, &Sheet::zeros(35 * 35));
    tally.equal("mended, j", answer, told(8, 0, [0; 6]));
    let Sheet { d, e, .. } = &second.sheet;
    let steps = |v: usize| (v % 35 + v / 35) as u32;
    tally.holds("mended, j, d", (0..35 * 35).all(|v| d[v] == 408 * steps(v)));
    tally.holds("mended, j, e", (0..35 * 35).all(|v| e[v] == 408 * (68 - steps(v))));
    let rest = Sheet { d: vec![0; 35 * 35], e: vec![0; 35 * 35], ..second.sheet.clone() };
    tally.holds("mended, j, the rest", rest == Sheet::zeros(35 * 35) && second.work.iter().all(|&x| x == 0));
    // The floor of g, of whose vertices 4 is a pinch, and no walk joins 2 to 6.
    let touching = Floor::new(2, 2, vec![1, 0, 0, 1]);
    let cases = [
        (Floor::open(0, 1), job(5, 9, 9), 1),
        (PackedFloor::new(2, 2, vec![0; 2]).floor(), job(5, 9, 9), 2),
        (PackedFloor::new(2, 2, vec![16]).floor(), job(5, 9, 9), 3),
        (touching.clone(), job(5, 9, 4), 4),
        (touching.clone(), job(8, 9, 4), 5),
        (touching.clone(), job(16, 4, 9), 5),
        (touching.clone(), job(4, 4, 4), 11),
        (touching.clone(), job(16, 2, 4), 11),
        (touching.clone(), job(8, 2, 6), 6),
        (Floor::open(2, 2), job(8, 0, 8), 6),
    ];
    for (floor, request, wanted) in cases {
        for wrong in 0..13 {
            let (mut lengths, mut old) = (good_lengths(9), [9; 6]);
            if wrong < 7 { lengths[wrong] -= 1 } else { old[wrong - 7] += 1 }
            let before = Second::patterned(lengths, 5);
            let mut after = before.clone();
            let [d, e, f, b, route, next] = old;
            let (d, e, f, b) = (vec![7; d], vec![7; e], vec![7; f], vec![7; b]);
            let sheet = Sheet { d, e, f, b, route: vec![7; route], next: vec![7; next], n: 7 };
            let answer = mend(&mut Solver::new(floor.clone()), request, &handed(&sheet), &mut after);
            tally.equal("mended, a refusal", answer, told(wanted, 0, [0; 6]));
            tally.holds("mended, a refusal leaves all", before == after);
        }
    }
}
