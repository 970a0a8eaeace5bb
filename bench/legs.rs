//! Fewest legs over long lists: the library's checker and proposer beside the same loops in Rust, and how many pairs of
//! positions are asked for sight.

use crate::copied_sight::Sight;
use crate::floors::{Case, Kind, Random};
use crate::lurfanzi::{check_legs, fewest_legs, pack, Floor, Proposal};
use crate::tuned_sight;
use std::hint::black_box;
use std::time::Instant;

const SIDE: usize = 127;
const COLUMNS: usize = SIDE + 1;
const POSITIONS: usize = COLUMNS * COLUMNS;

/// A joined list on a floor of 127 by 127 cells.
struct List {
    name: &'static str,
    map: Vec<u8>,
    list: Vec<u16>,
}

impl List {
    fn floor(&self) -> Floor<'_> {
        floor_of(&self.map)
    }
}

fn floor_of(map: &[u8]) -> Floor<'_> {
    Floor { width: SIDE as u32, height: SIDE as u32, map }
}

fn sees(floor: Floor, a: usize, b: usize) -> bool {
    tuned_sight::sight(floor, a as u32, b as u32) == Ok(true)
}

/// The map mirrored at the diagonal.
fn turned(map: &[u8]) -> Vec<u8> {
    let bit = |c: usize| map[c / 8] >> (c % 8) & 1;
    pack(&(0..SIDE * SIDE).map(|c| bit(c % SIDE * SIDE + c / SIDE)).collect::<Vec<u8>>())
}

/// Every vertex, row by row, to and fro.
fn rows() -> Vec<u16> {
    let vertex = |k: usize| {
        let (x, y) = (k % COLUMNS, k / COLUMNS);
        y * COLUMNS + if y % 2 == 0 { x } else { SIDE - x }
    };
    (0..POSITIONS).map(|k| vertex(k) as u16).collect()
}

/// Every vertex of the serpentine's halls, from side to side of each hall, along it and on to the next.
fn halls() -> Vec<u16> {
    let pair = |k: usize| {
        let (hall, step) = (k / COLUMNS, k % COLUMNS);
        let x = if hall % 2 == 0 { step } else { SIDE - step };
        let (upper, lower) = (2 * hall * COLUMNS + x, (2 * hall + 1) * COLUMNS + x);
        // The first and the last step of a hall go down, towards the next.
        if step % 2 == 0 || step == SIDE { [upper, lower] } else { [lower, upper] }
    };
    (0..POSITIONS / 2).flat_map(pair).map(|v| v as u16).collect()
}

/// A walk by unit moves, which goes on in one direction and takes another at random once in `stride` steps, or where
/// the way is shut.
fn walk(floor: Floor, stride: usize) -> Vec<u16> {
    let mut random = Random::new(stride as u64);
    let step = |v: usize, (dx, dy): (usize, usize)| {
        let (x, y) = (v % COLUMNS + dx, v / COLUMNS + dy);
        let on_floor = (1..=COLUMNS).contains(&x) && (1..=COLUMNS).contains(&y) && (dx, dy) != (1, 1);
        on_floor.then(|| (y - 1) * COLUMNS + x - 1).filter(|&w| sees(floor, v, w))
    };
    let is_shut_in = |v: usize| (0..9).all(|k| step(v, (k % 3, k / 3)).is_none());
    let mut v = POSITIONS / 2;
    while is_shut_in(v) {
        v += 1;
    }
    let (mut list, mut direction) = (vec![v as u16], (2, 1));
    while list.len() < POSITIONS {
        if random.below(stride) == 0 {
            direction = (random.below(3), random.below(3));
        }
        match step(v, direction) {
            Some(w) => {
                v = w;
                list.push(v as u16);
            }
            None => direction = (random.below(3), random.below(3)),
        }
    }
    list
}

/// Cells blocked at random, so many of a hundred.
fn random_map(percent: usize) -> Vec<u8> {
    let mut random = Random::new(percent as u64);
    pack(&(0..SIDE * SIDE).map(|_| u8::from(random.below(100) < percent)).collect::<Vec<u8>>())
}

fn lists() -> Vec<List> {
    let [serpentine, ward] = [Kind::Serpentine, Kind::Ward].map(|kind| Case::new(kind, SIDE, 8).map);
    let turn = |v: u16| (usize::from(v) % COLUMNS * COLUMNS + usize::from(v) / COLUMNS) as u16;
    let mut lists = vec![
        List { name: "open", map: pack(&[0; SIDE * SIDE]), list: rows() },
        List { name: "upright-halls", map: turned(&serpentine), list: halls().into_iter().map(turn).collect() },
        List { name: "halls", map: serpentine, list: halls() },
        List { name: "ward", list: walk(floor_of(&ward), 6), map: ward },
    ];
    let random = [("random-10", 10, 6), ("random-25", 25, 6), ("random-40", 40, 6), ("random-10-straight", 10, 30)];
    for (name, percent, stride) in random {
        let map = random_map(percent);
        lists.push(List { name, list: walk(floor_of(&map), stride), map });
    }
    lists
}

// ---- The same loops as the library's, with the sight question handed in. ----

/// Two vertices are near: they are at most 24 columns apart, and their numbers differ by at most 24 rows of vertices.
fn is_near(a: u16, b: u16) -> bool {
    let column = |v: u16| usize::from(v) % COLUMNS;
    usize::from(a.abs_diff(b)) <= 24 * COLUMNS && column(a).abs_diff(column(b)) <= 24
}

/// The least of `cap` and the numbers of the later positions that position i sees. It sees the next. A near position
/// with one leg fewer left is sought first.
fn least_ahead(
    sees: &mut impl FnMut(usize, usize) -> bool, list: &[u16], legs: &[u16], n: usize, i: usize, cap: u16,
) -> u16 {
    let mut least = cap.min(legs[i + 1]);
    if (i + 2..n).any(|j| legs[j] + 1 == least && is_near(list[i], list[j]) && sees(i, j)) {
        least -= 1;
    }
    for j in i + 2..n {
        if legs[j] < least && sees(i, j) {
            least = legs[j];
        }
    }
    least
}

fn is_joined(sees: &mut impl FnMut(usize, usize) -> bool, list: &[u16], n: usize) -> bool {
    list[..n].iter().all(|&v| usize::from(v) < POSITIONS) && (1..n).all(|k| sees(k - 1, k))
}

pub fn check(mut sees: impl FnMut(usize, usize) -> bool, list: &[u16], n: usize, proposal: Proposal) -> bool {
    let Proposal { kept, count, legs } = proposal;
    if !is_joined(&mut sees, list, n) || count == 0 || kept.len() < count {
        return false;
    }
    let is_leg = |pair: &[u16]| pair[0] < pair[1] && usize::from(pair[1]) < n && sees(pair[0].into(), pair[1].into());
    let ends = kept[0] == 0 && usize::from(kept[count - 1]) + 1 == n && usize::from(legs[0]) + 1 == count;
    if !ends || !kept[..count].windows(2).all(is_leg) {
        return false;
    }
    if kept[count..].iter().chain(&legs[n..]).any(|&number| number != 0) {
        return false;
    }
    legs[n - 1] == 0 && (0..n - 1).rev().all(|i| least_ahead(&mut sees, list, legs, n, i, legs[i]) + 1 == legs[i])
}

pub fn propose(
    mut sees: impl FnMut(usize, usize) -> bool, list: &[u16], kept: &mut [u16], legs: &mut [u16], n: usize,
) -> usize {
    if !is_joined(&mut sees, list, n) {
        return 0;
    }
    legs.fill(0);
    for i in (0..n - 1).rev() {
        legs[i] = least_ahead(&mut sees, list, legs, n, i, n as u16) + 1;
    }
    kept.fill(0);
    let (mut i, mut count) = (0, 1);
    while i + 1 < n {
        i = (i + 1..n).rev().find(|&j| legs[i] == legs[j] + 1 && sees(i, j)).unwrap_or(n - 1);
        kept[count] = i as u16;
        count += 1;
    }
    count
}

// ---- Both programs, and the table. ----

#[derive(Clone, Copy, PartialEq, Eq)]
enum Operation {
    Check,
    Propose,
}

const OPERATIONS: [(&str, Operation); 2] = [("check", Operation::Check), ("propose", Operation::Propose)];

/// A list, its proposal, and memory for another.
struct Bench<'a> {
    list: &'a List,
    n: usize,
    count: usize,
    kept: Vec<u16>,
    legs: Vec<u16>,
    own_kept: Vec<u16>,
    own_legs: Vec<u16>,
}

impl<'a> Bench<'a> {
    /// The first n positions of a list, which are a joined list too.
    fn new(list: &'a List, n: usize) -> Bench<'a> {
        let length = list.list.len();
        let (mut kept, mut legs) = (vec![9; length], vec![9; length]);
        let count = fewest_legs(list.floor(), &list.list, &mut kept, &mut legs, n).expect("a joined list");
        Bench { list, n, count, kept, legs, own_kept: vec![9; length], own_legs: vec![9; length] }
    }

    /// One run of the library or of the copy.
    fn run(&mut self, library: bool, operation: Operation) {
        let (floor, list, n) = black_box((self.list.floor(), &self.list.list[..], self.n));
        let proposal = Proposal { kept: &self.kept, count: self.count, legs: &self.legs };
        let (kept, legs, sight) = (&mut self.own_kept, &mut self.own_legs, Sight::new(floor));
        let sees = |i: usize, j: usize| sight.sees(list[i], list[j]);
        match (operation, library) {
            (Operation::Check, true) => assert_eq!(check_legs(floor, list, n, proposal), Ok(true)),
            (Operation::Check, false) => assert!(check(sees, list, n, proposal)),
            (Operation::Propose, true) => assert_eq!(fewest_legs(floor, list, kept, legs, n), Ok(self.count)),
            (Operation::Propose, false) => assert_eq!(propose(sees, list, kept, legs, n), self.count),
        }
    }

    /// How many pairs an operation asks, beside those of neighbours, which say that the list is joined.
    fn asked(&mut self, operation: Operation) -> usize {
        let (sight, list, n) = (Sight::new(self.list.floor()), &self.list.list[..], self.n);
        let mut asked = 0;
        let sees = |i: usize, j: usize| {
            asked += 1;
            sight.sees(list[i], list[j])
        };
        match operation {
            Operation::Check => {
                let proposal = Proposal { kept: &self.kept, count: self.count, legs: &self.legs };
                assert!(check(sees, list, n, proposal), "{}: the library's proposal", self.list.name);
            }
            Operation::Propose => {
                let count = propose(sees, list, &mut self.own_kept, &mut self.own_legs, n);
                assert_eq!(count, self.count, "{}: how many are kept", self.list.name);
                assert!(self.own_kept == self.kept && self.own_legs == self.legs, "{}", self.list.name);
            }
        }
        asked - (n - 1)
    }

    /// How many pairs any method has to ask that knows sight only by asking: those where a leg would make the first
    /// number less.
    fn needed(&self) -> usize {
        let legs = &self.legs[..self.n];
        (0..self.n).map(|i| legs[i + 1..].iter().filter(|&&left| left + 1 < legs[i]).count()).sum()
    }

    /// Seconds of the library and of the copy: the least of the rounds, in which they take turns.
    fn measure(&mut self, operation: Operation, rounds: usize) -> [f64; 2] {
        let mut least = [f64::INFINITY; 2];
        for _ in 0..rounds {
            for (k, library) in [true, false].into_iter().enumerate() {
                let start = Instant::now();
                self.run(library, operation);
                least[k] = least[k].min(start.elapsed().as_secs_f64());
            }
        }
        least
    }
}

/// Prints a row for each list of 16,384 positions.
pub fn print(rounds: usize) {
    let mut columns = vec!["list".to_string(), "legs".to_string(), "must be asked".to_string()];
    columns.extend(OPERATIONS.iter().flat_map(|(name, _)| {
        [format!("{name}: asked"), format!("{name}: library s"), "copy s".to_string(), "to the copy".to_string()]
    }));
    println!("| {} |\n|{}", columns.join(" | "), "---|".repeat(columns.len()));
    for list in &lists() {
        let mut bench = Bench::new(list, POSITIONS);
        print!("| {} | {} | {} |", list.name, bench.count - 1, bench.needed());
        for (_, operation) in OPERATIONS {
            let asked = bench.asked(operation);
            let [library, copy] = bench.measure(operation, rounds);
            print!(" {asked} | {library:.3} | {copy:.3} | {:.2} |", library / copy);
        }
        println!();
    }
}

/// Prints the names of the lists.
pub fn list() {
    lists().iter().for_each(|list| println!("{}", list.name));
}

/// Runs one program on the first positions of a list a number of times, for a tool that counts instructions.
pub fn repeat(program: &str, operation: &str, name: &str, n: usize, times: usize) -> Option<()> {
    let library = ["copy", "library"].iter().position(|known| *known == program)? == 1;
    let (_, operation) = *OPERATIONS.iter().find(|(known, _)| *known == operation)?;
    let lists = lists();
    let list = lists.iter().find(|list| list.name == name).filter(|list| (1..=list.list.len()).contains(&n))?;
    let mut bench = Bench::new(list, n);
    for _ in 0..times {
        bench.run(library, operation);
    }
    Some(())
}
