//! The part of a job stream about two floors: what changed between them, the costs on both, and what is refused.

use crate::floor::Floor;
use crate::format;
use crate::graph::NEIGHBOURHOODS;
use crate::jobs::Maker;
use crate::layouts::{self, KINDS};
use crate::packed::PackedFloor;
use crate::sight;

/// How the other floor, of the same size, differs from the floor.
#[derive(Clone, Copy)]
enum Difference {
    Nowhere,
    /// One to four cells turned over.
    FewCells,
    /// A rectangle closed, or opened.
    Closed,
    Opened,
    /// Every cell turned over.
    Everywhere,
    /// A floor of any kind.
    AnyLayout,
}

const DIFFERENCES: [Difference; 6] = [
    Difference::Nowhere,
    Difference::FewCells,
    Difference::Closed,
    Difference::Opened,
    Difference::Everywhere,
    Difference::AnyLayout,
];

/// Which of the two floors the other one is.
const BOTH_WAYS: [bool; 2] = [false, true];

/// Lengths of the two cost slices, the changes and the working slice.
type Lengths = [usize; 4];

/// A floor with one of refusals 1 to 3.
#[derive(Clone, Copy)]
pub enum Fault {
    Side,
    MapLength,
    UnusedBit,
}

pub const FAULTS: [Fault; 3] = [Fault::Side, Fault::MapLength, Fault::UnusedBit];

impl Maker {
    /// The floor and others of the same size, each way round, and what is refused.
    pub fn change_operations(&mut self) {
        self.use_compared();
        let differences = if self.is_large() { vec![self.random.pick(&DIFFERENCES)] } else { DIFFERENCES.to_vec() };
        let first = self.random.index(3);
        for (k, difference) in differences.into_iter().enumerate() {
            let floor = self.other_floor(difference);
            let other = PackedFloor::of(&floor);
            let start = self.any_start(&floor);
            for is_first in BOTH_WAYS {
                self.changes_record(&other, is_first, self.solver.floor.cells.len());
                if !self.is_large() || self.random.percent(30) {
                    self.report_record(&other, is_first, NEIGHBOURHOODS[(first + k) % 3], start, self.good_report());
                }
            }
        }
        self.floors_of_other_sizes();
        for fault in FAULTS {
            let other = self.faulty_floor(fault);
            self.compare(&other);
        }
        self.slices_of_other_lengths();
        self.pinched_starts();
        self.refused_reports();
        self.use_compared();
    }

    /// A floor that is refused, beside good ones and beside others that are refused.
    pub fn changes_on_bad_floor(&mut self) {
        self.use_compared();
        let same = PackedFloor::new(self.solver.floor.width, self.solver.floor.height, self.map.clone());
        let good = PackedFloor::of(&layouts::make(self.random.pick(&KINDS), &mut self.random, 5, 3));
        for other in [same, good] {
            self.compare(&other);
        }
        for fault in FAULTS {
            let other = self.faulty_floor(fault);
            self.compare(&other);
        }
        self.use_compared();
    }

    /// A floor of the same size beside one whose map is refused, first or second.
    pub fn changes_with_map(&mut self) {
        self.use_compared();
        let (width, height) = (self.solver.floor.width, self.solver.floor.height);
        let other = PackedFloor::of(&Floor::open(width, height));
        let (one, length) = (self.random.percent(50), self.random.index(9));
        self.changes_record(&other, one, length);
        let (neighbourhood, start) = (self.random.pick(&[4, 8, 16, 5]), self.random.below(9));
        self.report_record(&other, !one, neighbourhood, start, [length; 4]);
        self.use_compared();
    }

    /// Both operations each way round, with faults of the report that come after those of the floors.
    fn compare(&mut self, other: &PackedFloor) {
        for is_first in BOTH_WAYS {
            let length = self.random.pick(&[self.solver.floor.cells.len(), self.map.len(), 15]);
            self.changes_record(other, is_first, length);
            let (neighbourhood, start) = (self.random.pick(&[4, 8, 16, 5]), self.random.below(20));
            let lengths = [(); 4].map(|()| self.random.index(40));
            self.report_record(other, is_first, neighbourhood, start, lengths);
        }
    }

    /// Sizes with the same number of cells, and sizes beside the floor's.
    fn floors_of_other_sizes(&mut self) {
        let (width, height) = (self.solver.floor.width, self.solver.floor.height);
        let cells = width * height;
        let mut beside = vec![(width + 1, height), (width, height + 1), (width - 1, height), (width, height - 1)];
        beside.extend([(cells, 1), (1, cells), (2 * width, height.div_ceil(2))]);
        beside.retain(|&(w, h)| (w, h) != (width, height) && (1..=127).contains(&w) && (1..=127).contains(&h));
        let mut sizes = vec![self.random.pick(&beside)];
        if width != height {
            sizes.push((height, width));
        }
        for (w, h) in sizes {
            let other = PackedFloor::of(&layouts::make(self.random.pick(&KINDS), &mut self.random, w, h));
            for is_first in BOTH_WAYS {
                self.changes_record(&other, is_first, cells as usize);
                let neighbourhood = self.random.pick(&NEIGHBOURHOODS);
                self.report_record(&other, is_first, neighbourhood, 0, self.good_report());
            }
        }
    }

    /// Each slice off by one, and some lengths that are another slice's.
    fn slices_of_other_lengths(&mut self) {
        let floor = self.other_floor(Difference::FewCells);
        let (other, start) = (PackedFloor::of(&floor), self.any_start(&floor));
        let cells = self.solver.floor.cells.len();
        for length in [cells - 1, cells + 1, 0, self.map.len(), self.count()] {
            let is_first = self.random.percent(50);
            self.changes_record(&other, is_first, length);
        }
        for lengths in self.bad_reports() {
            let (neighbourhood, is_first) = (self.random.pick(&NEIGHBOURHOODS), self.random.percent(50));
            if self.is_large() && self.random.percent(80) {
                continue;
            }
            self.report_record(&other, is_first, neighbourhood, start, lengths);
        }
    }

    /// A start that is a pinch of the other floor, of the floor, or of both, with good lengths and with others.
    fn pinched_starts(&mut self) {
        let mut floors = Vec::new();
        if let Some(vertex) = self.inner_vertex() {
            floors.push((vertex, self.with_pinch(vertex)));
        }
        let pinches: Vec<usize> = (0..self.count()).filter(|&v| self.is_pinch(v)).collect();
        if !pinches.is_empty() {
            let pinch = self.random.pick(&pinches);
            let mut opened = self.solver.floor.clone();
            cells_at(&opened, pinch).into_iter().for_each(|cell| opened.cells[cell] = 0);
            floors.extend([(pinch, opened), (pinch, self.solver.floor.clone())]);
        }
        let others = self.bad_reports();
        for (start, floor) in floors {
            let (other, neighbourhood) = (PackedFloor::of(&floor), self.random.pick(&NEIGHBOURHOODS));
            for is_first in BOTH_WAYS {
                let bad = self.random.pick(&others);
                for lengths in [self.good_report(), bad] {
                    if self.is_large() && self.random.percent(80) {
                        continue;
                    }
                    self.report_record(&other, is_first, neighbourhood, start as u64, lengths);
                }
            }
        }
    }

    /// 15, 4, one of 5 and 11, and 6, each alone and beside the others.
    fn refused_reports(&mut self) {
        let (width, height) = (self.solver.floor.width, self.solver.floor.height);
        let larger = layouts::make(self.random.pick(&KINDS), &mut self.random, width % 127 + 1, height);
        let inner = self.inner_vertex();
        let others = self.bad_reports();
        for faults in 1..16 {
            if self.is_large() && self.random.percent(80) {
                continue;
            }
            let pinch = inner.filter(|_| self.random.percent(50));
            let (same, start) = match pinch {
                Some(vertex) => (self.with_pinch(vertex), vertex as u64),
                None => (self.solver.floor.clone(), self.bad_end()),
            };
            let other = PackedFloor::of(if faults & 1 != 0 { &larger } else { &same });
            let neighbourhood = self.random.pick(&NEIGHBOURHOODS);
            let neighbourhood = if faults & 2 != 0 { self.bad_neighbourhood() } else { neighbourhood };
            let start = if faults & 4 != 0 { start } else { 0 };
            let lengths = if faults & 8 != 0 { self.random.pick(&others) } else { self.good_report() };
            let is_first = self.random.percent(50);
            self.report_record(&other, is_first, neighbourhood, start, lengths);
        }
    }
}

/// What is handed in.
impl Maker {
    fn other_floor(&mut self, difference: Difference) -> Floor {
        let mut floor = self.solver.floor.clone();
        let (width, height) = (floor.width, floor.height);
        match difference {
            Difference::Nowhere => {}
            Difference::FewCells => {
                for _ in 0..self.random.within(1, 4) {
                    let cell = self.random.index(floor.cells.len());
                    floor.cells[cell] ^= 1;
                }
            }
            Difference::Closed | Difference::Opened => {
                let rectangle = self.inner_rectangle(width as u32, height as u32);
                let state = u8::from(matches!(difference, Difference::Closed));
                for (cell, place) in (0..).zip(&mut floor.cells) {
                    *place = if rectangle.has(cell % width, cell / width) { state } else { *place };
                }
            }
            Difference::Everywhere => floor.cells.iter_mut().for_each(|cell| *cell ^= 1),
            Difference::AnyLayout => floor = layouts::make(self.random.pick(&KINDS), &mut self.random, width, height),
        }
        floor
    }

    /// A floor that is refused; where 3 alone is to apply and the floor has no unused bit, one of another size.
    pub fn faulty_floor(&mut self, fault: Fault) -> PackedFloor {
        let mut other = PackedFloor::new(self.solver.floor.width, self.solver.floor.height, self.map.clone());
        match fault {
            Fault::Side => {
                let (good, bad) = (self.random.within(1, 127), self.bad_side());
                (other.width, other.height) = self.random.pick(&[(bad, good), (good, bad), (bad, bad)]);
            }
            Fault::MapLength if other.fault().is_none() && self.random.percent(50) => drop(other.map.pop()),
            Fault::MapLength if other.fault().is_none() => other.map.push(self.random.pick(&[0, 255])),
            Fault::MapLength => other = PackedFloor::new(3, 2, vec![0; self.random.pick(&[0, 2, 6])]),
            Fault::UnusedBit if other.fault().is_none() && self.unused_bits() > 0 => {
                let place = 7 - self.random.below(self.unused_bits());
                *other.map.last_mut().expect("a map has a byte") |= 1 << place;
            }
            Fault::UnusedBit => other = PackedFloor::new(3, 1, vec![self.random.pick(&[8, 128, 255])]),
        }
        other
    }

    /// A vertex that is not on the floor's edge, where there is one.
    fn inner_vertex(&mut self) -> Option<usize> {
        let (width, height) = (self.solver.floor.width, self.solver.floor.height);
        if width < 2 || height < 2 {
            return None;
        }
        let (x, y) = (self.random.within(1, width - 1), self.random.within(1, height - 1));
        self.solver.floor.vertex(x as i64, y as i64)
    }

    /// The floor with the four cells at a vertex such that it is a pinch.
    fn with_pinch(&mut self, vertex: usize) -> Floor {
        let mut floor = self.solver.floor.clone();
        let states = self.random.pick(&[[1, 0, 0, 1], [0, 1, 1, 0]]);
        for (cell, state) in cells_at(&floor, vertex).into_iter().zip(states) {
            floor.cells[cell] = state;
        }
        floor
    }

    /// A vertex that is a pinch of neither floor, beside an open cell of one of them if one is found soon.
    fn any_start(&mut self, other: &Floor) -> u64 {
        let tries: Vec<usize> = (0..12).map(|_| self.random.index(self.count())).collect();
        let floors = [&self.solver.floor, other];
        let is_pinch = |v: usize| floors.iter().any(|floor| sight::is_pinch(floor, floor.point(v)));
        let is_beside = |v: usize| {
            let (x, y) = other.point(v);
            let cells = [(x - 1, y - 1), (x, y - 1), (x - 1, y), (x, y)];
            cells.iter().any(|&(i, j)| floors.iter().any(|floor| !floor.is_blocked(i, j)))
        };
        tries.into_iter().find(|&v| !is_pinch(v) && is_beside(v)).unwrap_or(0) as u64
    }

    fn good_report(&self) -> Lengths {
        let count = self.count();
        [count, count, count, 4 * count]
    }

    /// Lengths of which one is off by one, or that are those of other slices.
    fn bad_reports(&self) -> Vec<Lengths> {
        let good = self.good_report();
        let mut all = vec![[0; 4], [good[0]; 4], [good[3]; 4]];
        for slice in 0..4 {
            for length in [good[slice] - 1, good[slice] + 1] {
                let mut lengths = good;
                lengths[slice] = length;
                all.push(lengths);
            }
        }
        all.into_iter().map(with_room).filter(|&lengths| lengths != good).collect()
    }
}

/// The four cells at a vertex that is not on the floor's edge, row by row.
fn cells_at(floor: &Floor, vertex: usize) -> [usize; 4] {
    let (x, y) = floor.point(vertex);
    [(x - 1, y - 1), (x, y - 1), (x - 1, y), (x, y)].map(|(i, j)| j as usize * floor.width as usize + i as usize)
}

/// The lengths, each no longer than its buffer.
fn with_room([before, after, changes, work]: Lengths) -> Lengths {
    let [before, after] = [before, after].map(|length| length.min(format::SHEET_ROOM));
    [before, after, changes.min(format::CHANGES_ROOM), work.min(format::WORK_ROOM)]
}

/// Single records.
impl Maker {
    fn changes_record(&mut self, other: &PackedFloor, is_first: bool, length: usize) {
        let seed = self.random.next() as u32;
        let length = length.min(format::LIST_ROOM);
        let words = [other.width as u32, other.height as u32, u32::from(is_first), length as u32, seed];
        self.record(format::CHANGES, &words, other.map.clone());
    }

    fn report_record(
        &mut self, other: &PackedFloor, is_first: bool, neighbourhood: u64, start: u64, lengths: Lengths,
    ) {
        let seed = self.random.next() as u32;
        let mut words = vec![other.width as u32, other.height as u32, u32::from(is_first)];
        words.extend([neighbourhood as u32, start as u32]);
        words.extend(with_room(lengths).map(|length| length as u32));
        words.push(seed);
        self.record(format::REPORT, &words, other.map.clone());
    }
}
