//! The floors, and the jobs on them.

use crate::lurfanzi::{pack, Floor, Job, UNREACHABLE};
use crate::textbook;

/// A linear congruential generator: the same floors in every run.
pub struct Random(u64);

impl Random {
    pub fn new(seed: u64) -> Random {
        Random(seed)
    }

    pub fn below(&mut self, limit: usize) -> usize {
        self.0 = self.0.wrapping_mul(6364136223846793005).wrapping_add(1442695040888963407);
        (self.0 >> 33) as usize % limit
    }
}

#[derive(Clone, Copy, Debug, PartialEq, Eq)]
pub enum Kind {
    Open,
    Random,
    Ward,
    Serpentine,
}

pub const KINDS: [Kind; 4] = [Kind::Open, Kind::Random, Kind::Ward, Kind::Serpentine];

/// The sides that are measured, in cells.
pub const SIDES: [usize; 4] = [16, 32, 64, 127];

impl Kind {
    pub fn name(self) -> &'static str {
        match self {
            Kind::Open => "open",
            Kind::Random => "random",
            Kind::Ward => "ward",
            Kind::Serpentine => "serpentine",
        }
    }

    fn blocked(self, random: &mut Random, side: usize, i: usize, j: usize) -> bool {
        match self {
            Kind::Open => false,
            Kind::Random => random.below(100) < 20,
            Kind::Ward => ward(i, j),
            Kind::Serpentine => serpentine(side, i, j),
        }
    }
}

/// Rooms of seven by seven cells with walls of one cell and a door of one cell in every wall.
fn ward(i: usize, j: usize) -> bool {
    let (room, wall) = (8, 7);
    let door = |along: usize, across: usize| Random::new((along * 97 + across * 31) as u64).below(wall);
    match (i % room == wall, j % room == wall) {
        (true, true) => true,
        (true, false) => j % room != door(2 * (i / room), j / room),
        (false, true) => i % room != door(2 * (j / room) + 1, i / room),
        (false, false) => false,
    }
}

/// Halls of one cell, joined at alternate ends.
fn serpentine(side: usize, i: usize, j: usize) -> bool {
    j % 2 == 1 && i != if j % 4 == 1 { side - 1 } else { 0 }
}

/// A job on a square floor. The map is packed, a bit to a cell.
pub struct Case {
    pub side: usize,
    pub map: Vec<u8>,
    pub job: Job,
}

impl Case {
    /// A job with a route. The start is in the middle of the left side. The other end is the dearest vertex that the start
    /// reaches by at most 2^64 - 1 cheapest routes.
    pub fn new(kind: Kind, side: usize, neighbourhood: u32) -> Case {
        (1..).find_map(|seed| Case::from_seed(kind, side, neighbourhood, seed)).expect("a floor of which half is joined")
    }

    fn from_seed(kind: Kind, side: usize, neighbourhood: u32, seed: u64) -> Option<Case> {
        let mut random = Random::new(seed);
        let blocked = |cell: usize| u8::from(kind.blocked(&mut random, side, cell % side, cell / side));
        let map = pack(&(0..side * side).map(blocked).collect::<Vec<u8>>());
        let a = ((side + 1) * (side / 2)) as u32;
        let floor = Floor { width: side as u32, height: side as u32, map: &map };
        let reached = textbook::reached(floor, neighbourhood, a);
        if reached.iter().filter(|reach| reach.cost != UNREACHABLE).count() * 2 < reached.len() {
            return None;
        }
        let fits = |&v: &usize| reached[v].cost != UNREACHABLE && reached[v].count.is_some();
        let b = (0..reached.len()).filter(fits).max_by_key(|&v| (reached[v].cost, reached[v].count))?;
        Some(Case { side, map, job: Job { neighbourhood, a, b: b as u32 } })
    }

    /// The same floor with its last cell blocked, and the outer corner of that cell as the other end: no move from it is
    /// open, so that the job has no route.
    pub fn without_route(&self) -> Case {
        let (mut map, last) = (self.map.clone(), self.side * self.side - 1);
        map[last / 8] |= 1 << (last % 8);
        let b = (self.side + 1) * (self.side + 1) - 1;
        Case { side: self.side, map, job: Job { b: b as u32, ..self.job } }
    }

    /// The other ends of forty jobs with a route from the same start: of the vertices that it reaches by at most 2^64 - 1
    /// cheapest routes, in order of cost, forty at equal steps, the job's own other end the last.
    pub fn forty_ends(&self) -> Vec<u32> {
        let reached = textbook::reached(self.floor(), self.job.neighbourhood, self.job.a);
        let fits = |&v: &usize| reached[v].cost != UNREACHABLE && reached[v].count.is_some();
        let mut ends: Vec<usize> = (0..reached.len()).filter(fits).collect();
        ends.sort_by_key(|&v| (reached[v].cost, reached[v].count));
        (1..=40).map(|k| ends[k * (ends.len() - 1) / 40] as u32).collect()
    }

    pub fn floor(&self) -> Floor<'_> {
        Floor { width: self.side as u32, height: self.side as u32, map: &self.map }
    }

    /// Pairs of vertices one column and a whole side apart, or one row and a whole side.
    pub fn narrow_segments(&self, steep: bool) -> Vec<(u32, u32)> {
        let (side, columns) = (self.side, self.side + 1);
        let vertex = |along: usize, across: usize| {
            let (x, y) = if steep { (across, along) } else { (along, across) };
            (y * columns + x) as u32
        };
        (0..side).map(|k| (vertex(0, k), vertex(side, k + 1))).collect()
    }

    /// The ends of 64 lines inside the floor, from side to side: column lines, or row lines.
    pub fn line_segments(&self, upright: bool) -> Vec<(u32, u32)> {
        let (side, columns) = (self.side, self.side + 1);
        let lines = (0..64).map(|k| 1 + k % (side - 1).max(1));
        lines.map(|line| if upright { (line, side * columns + line) } else { (line * columns, line * columns + side) })
            .map(|(a, b)| (a as u32, b as u32))
            .collect()
    }

    /// The ends of 64 diagonals of at least half the side, falling and rising by turns.
    pub fn diagonal_segments(&self) -> Vec<(u32, u32)> {
        let (side, columns) = (self.side, self.side + 1);
        let segment = |k: usize| {
            let short = k / 2 % (side / 2 + 1);
            if k % 2 == 0 {
                (short, (side - short) * columns + side)
            } else {
                (side * columns + short, short * columns + side)
            }
        };
        (0..64).map(segment).map(|(a, b)| (a as u32, b as u32)).collect()
    }

    /// Pairs of vertices: at most eight apart in column and row, or at least half the side apart in one of the two.
    pub fn segments(&self, long: bool) -> Vec<(u32, u32)> {
        let columns = self.side + 1;
        let mut random = Random::new(self.side as u64);
        let mut pairs = Vec::new();
        while pairs.len() < 64 {
            let (a, b) = (random.below(columns * columns), random.below(columns * columns));
            let apart = (a % columns).abs_diff(b % columns).max((a / columns).abs_diff(b / columns));
            if if long { apart >= self.side / 2 } else { apart <= 8 } {
                pairs.push((a as u32, b as u32));
            }
        }
        pairs
    }
}
