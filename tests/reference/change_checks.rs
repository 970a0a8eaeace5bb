//! The comparison of two floors by other methods, and what a job stream has of it.

use crate::changes::{self, Lent};
use crate::floor::{sides_are_good, Floor};
use crate::format::{self, Record};
use crate::graph::{self, Graph, NEIGHBOURHOODS};
use crate::layouts::{self, KINDS};
use crate::packed::PackedFloor;
use crate::random::Random;
use crate::self_checks::{all_floors, is_pinched};
use crate::sheet::{Solver, NO_WALK};
use crate::vectors::Tally;
use std::collections::BTreeSet;

pub fn run(tally: &mut Tally) {
    let mut kinds = BTreeSet::new();
    for (width, height) in [(1, 1), (2, 1), (1, 3), (2, 2)] {
        let floors: Vec<Floor> = all_floors(width, height).collect();
        for (first, second) in floors.iter().flat_map(|first| floors.iter().map(move |second| (first, second))) {
            tally.holds("cells by the bits of the maps", cells_agree(first, second));
            for start in 0..first.vertex_count() {
                let mut agrees = |number: u64| report_agrees(first, second, number, start, &mut kinds);
                tally.holds("a report by rounds", NEIGHBOURHOODS.into_iter().all(&mut agrees));
            }
        }
    }
    let mut random = Random::new(10);
    for (kind, (width, height)) in KINDS.iter().flat_map(|&kind| [(7, 5), (13, 11)].map(|size| (kind, size))) {
        let first = layouts::make(kind, &mut random, width, height);
        for other in [kind, KINDS[2], KINDS[6]] {
            let second = layouts::make(other, &mut random, width, height);
            tally.holds("cells by the bits of the maps", cells_agree(&first, &second));
            for neighbourhood in NEIGHBOURHOODS {
                let start = random.index(first.vertex_count());
                tally.holds("a report by rounds", report_agrees(&first, &second, neighbourhood, start, &mut kinds));
            }
        }
    }
    tally.equal("kinds of changes, and 11", kinds.len(), 3 * 6);
}

/// The differing cells are the bits in which the maps differ; those of them that the second map has set are closed.
fn cells_agree(first: &Floor, second: &Floor) -> bool {
    let maps = [first, second].map(|floor| PackedFloor::of(floor).map);
    let differing: Vec<u8> = maps[0].iter().zip(&maps[1]).map(|(one, other)| one ^ other).collect();
    let bit = |map: &[u8], cell: usize| map[cell / 8] >> (cell % 8) & 1 == 1;
    let count = first.cells.len();
    let mut wanted: Vec<u16> = (0..count).filter(|&cell| bit(&differing, cell)).map(|cell| cell as u16).collect();
    let all: u32 = differing.iter().map(|byte| byte.count_ones()).sum();
    let closed: u32 = differing.iter().zip(&maps[1]).map(|(byte, after)| (byte & after).count_ones()).sum();
    wanted.resize(count, 0);
    let mut cells = vec![9; count];
    let told = changes::changes(first, second, &mut cells);
    let counts = (told.closed, told.opened) == (closed.into(), (all - closed).into());
    told.answer == 0 && cells == wanted && counts
}

/// The costs are those by rounds over all edges. Of the numbers written, M being the highest, a lesser one fell and a
/// greater one rose; but from M it came, and to M it went.
fn report_agrees(
    first: &Floor, second: &Floor, neighbourhood: u64, start: usize, kinds: &mut BTreeSet<(u64, u8)>,
) -> bool {
    let count = first.vertex_count();
    let (mut before, mut after, mut bytes) = (vec![9; count], vec![9; count], vec![9; count]);
    let mut work = vec![9; 4 * count];
    let lent = Lent { before: &mut before, after: &mut after, changes: &mut bytes, work: &mut work };
    let mut solvers = [first, second].map(|floor| Solver::new(floor.clone()));
    let [one, other] = &mut solvers;
    let answer = changes::report(one, other, neighbourhood, start as u64, lent);
    if [first, second].iter().any(|floor| is_pinched(floor, floor.point(start))) {
        kinds.insert((neighbourhood, 11));
        let untouched = [before, after, work].concat().iter().all(|&number| number == 9);
        return answer == 11 && untouched && bytes.iter().all(|&byte| byte == 9);
    }
    let by_rounds = |floor: &Floor| -> Vec<u32> {
        let distances = graph::distances_by_rounds(&Graph::of_floor(floor, neighbourhood), start);
        distances.iter().map(|distance| distance.map_or(NO_WALK, |cost| cost as u32)).collect()
    };
    let wanted = |v: usize| match (after[v] < before[v], after[v] > before[v]) {
        (true, _) => if before[v] == NO_WALK { 3 } else { 1 },
        (_, true) => if after[v] == NO_WALK { 4 } else { 2 },
        _ => 0,
    };
    kinds.extend(bytes.iter().map(|&byte| (neighbourhood, byte)));
    let costs = before == by_rounds(first) && after == by_rounds(second);
    answer == 0 && costs && (0..count).all(|v| bytes[v] == wanted(v)) && work.iter().all(|&number| number == 0)
}

/// A record about two floors, as it was made.
struct Pair {
    first: PackedFloor,
    second: PackedFloor,
    /// Neighbourhood and start of a report.
    job: Option<(u64, u64)>,
    lengths: Vec<u64>,
}

impl Pair {
    /// What the record asks for, where it is about two floors and the floor is this one.
    fn of(record: &Record, floor: &PackedFloor) -> Option<Pair> {
        let words = record.words.map(u64::from);
        let (job, lengths) = match record.operation {
            format::CHANGES => (None, words[3..4].to_vec()),
            format::REPORT => (Some((words[3], words[4])), words[5..9].to_vec()),
            _ => return None,
        };
        let other = PackedFloor::new(words[0], words[1], record.payload.clone());
        let (first, second) = if words[2] == 1 { (other, floor.clone()) } else { (floor.clone(), other) };
        Some(Pair { first, second, job, lengths })
    }

    fn good_lengths(&self) -> Vec<u64> {
        let (width, height) = (self.first.width, self.first.height);
        let count = (width + 1) * (height + 1);
        if self.job.is_some() { vec![count, count, count, 4 * count] } else { vec![width * height] }
    }

    /// Each fault by itself, in the order of the refusals, by name and number.
    fn faults(&self) -> Vec<(String, u8)> {
        let named = |floor: &str, number: Option<u8>| number.map(|number| (format!("{floor}'s {number}"), number));
        let plain = |applies: bool, number: u8| applies.then_some((number.to_string(), number));
        let mut faults: Vec<(String, u8)> = Vec::new();
        faults.extend(named("the first", self.first.fault()));
        faults.extend(named("the second", self.second.fault()));
        faults.extend(plain((self.first.width, self.first.height) != (self.second.width, self.second.height), 15));
        let (neighbourhood, start) = self.job.unwrap_or((4, 0));
        faults.extend(plain(!NEIGHBOURHOODS.contains(&neighbourhood), 4));
        if sides_are_good(self.first.width, self.first.height) {
            let is_off = start >= (self.first.width + 1) * (self.first.height + 1);
            faults.extend(plain(is_off, 5));
            faults.extend(plain(!is_off && self.pinched().contains(&true), 11));
            faults.extend(plain(self.lengths != self.good_lengths(), 6));
        }
        faults
    }

    /// Whether the start is a pinch, of the first floor and of the second; not of one that is refused.
    fn pinched(&self) -> [bool; 2] {
        let start = self.job.map_or(0, |(_, start)| start) as usize;
        [&self.first, &self.second].map(|packed| {
            let floor = packed.floor();
            floor.fault.is_none() && start < floor.vertex_count() && is_pinched(&floor, floor.point(start))
        })
    }
}

/// What the records about two floors of a stream have to show.
fn wanted() -> Vec<String> {
    let order = ["15", "4", "5", "11", "6"];
    let mut wanted: Vec<String> = Vec::new();
    for number in 1..4 {
        wanted.extend((1..4).map(|second| format!("the first's {number} before the second's {second}")));
        for (floor, after) in ["first", "second"].iter().flat_map(|&floor| order.map(|after| (floor, after))) {
            // Where a side of the first floor is bad, no start and no length is good or bad.
            let is_none = (floor, number) == ("first", 1) && (after == "5" || after == "6");
            if !is_none && after != "11" {
                wanted.push(format!("the {floor}'s {number} before {after}"));
            }
        }
    }
    for (place, before) in order.iter().enumerate() {
        let after = order[place + 1..].iter().filter(|&&after| (*before, after) != ("5", "11"));
        wanted.extend(after.map(|after| format!("{before} before {after}")));
    }
    wanted.extend((0..4).flat_map(|slice| [-1, 1].map(|off| format!("slice {slice} of a report off by {off}"))));
    for neighbourhood in NEIGHBOURHOODS {
        wanted.extend((0..5).map(|change| format!("{neighbourhood}: change {change}")));
        wanted.extend([format!("{neighbourhood}: M on both"), format!("{neighbourhood}: equal floors")]);
        for (one, other) in [(true, false), (false, true), (true, true)] {
            wanted.push(format!("{neighbourhood}: 11 of the first {one}, of the second {other}"));
        }
    }
    let others = [
        "slice 0 of cells off by -1", "slice 0 of cells off by 1", "127 by 1 and 1 by 127", "1 by 127 and 127 by 1",
        "closed and opened", "closed alone", "opened alone", "neither",
    ];
    wanted.extend(others.map(str::to_string));
    wanted
}

/// The records about two floors of a stream: every refusal before each that comes after it, also each fault of the
/// first floor before each of the second; lengths of each slice off by one; starts that are a pinch of one floor or of
/// both; and with each neighbourhood every change.
pub fn streams(tally: &mut Tally, stream: &[u8], text: &str) {
    let (mut input, mut floor) = (stream, PackedFloor::new(0, 0, Vec::new()));
    let mut seen = BTreeSet::new();
    for line in text.lines() {
        let Some(record) = Record::read(&mut input) else { break };
        if record.operation == format::FLOOR {
            floor = PackedFloor::new(record.words[0].into(), record.words[1].into(), record.payload.clone());
        }
        let Some(pair) = Pair::of(&record, &floor) else { continue };
        let numbers: Vec<u64> = line.split(' ').skip(1).filter_map(|word| word.parse().ok()).collect();
        let faults = pair.faults();
        let first = faults.first().map_or(0, |&(_, number)| number);
        tally.holds("two floors: the first fault is answered", numbers[0] == u64::from(first));
        match &faults[..] {
            [given, after @ ..] => {
                seen.extend(after.iter().map(|fault| format!("{} before {}", given.0, fault.0)));
                note_refusal(&mut seen, &pair, given.1);
            }
            [] => note_changes(&mut seen, &pair, &numbers),
        }
    }
    for what in wanted() {
        tally.holds(&format!("two floors: {what}"), seen.contains(&what));
    }
}

/// What a refusal of a size, a pinch or a length is about.
fn note_refusal(seen: &mut BTreeSet<String>, pair: &Pair, number: u8) {
    let (first, second) = (&pair.first, &pair.second);
    match (number, pair.job) {
        (15, _) => {
            seen.insert(format!("{} by {} and {} by {}", first.width, first.height, second.width, second.height));
        }
        (11, Some((neighbourhood, _))) => {
            let [one, other] = pair.pinched();
            seen.insert(format!("{neighbourhood}: 11 of the first {one}, of the second {other}"));
        }
        (6, job) => {
            let both = pair.lengths.iter().zip(pair.good_lengths());
            let off: Vec<i64> = both.map(|(&length, good)| length as i64 - good as i64).collect();
            let wrong: Vec<usize> = (0..off.len()).filter(|&slice| off[slice] != 0).collect();
            if let [slice] = wrong[..] {
                let name = if job.is_some() { "a report" } else { "cells" };
                seen.insert(format!("slice {slice} of {name} off by {}", off[slice]));
            }
        }
        _ => {}
    }
}

/// What changed; of costs on small floors alone.
fn note_changes(seen: &mut BTreeSet<String>, pair: &Pair, numbers: &[u64]) {
    let Some((neighbourhood, start)) = pair.job else {
        let kinds = ["neither", "closed alone", "opened alone", "closed and opened"];
        seen.insert(kinds[usize::from(numbers[1] > 0) + 2 * usize::from(numbers[2] > 0)].to_string());
        return;
    };
    if pair.first == pair.second {
        seen.insert(format!("{neighbourhood}: equal floors"));
    }
    if pair.first.map.len() > 20 {
        return;
    }
    let floors = [&pair.first, &pair.second];
    let [before, after] = floors.map(|packed| Solver::new(packed.floor()).costs(neighbourhood, start as usize));
    for (&before, &after) in before.iter().zip(after.iter()) {
        if [before, after] == [NO_WALK; 2] {
            seen.insert(format!("{neighbourhood}: M on both"));
        }
        seen.insert(format!("{neighbourhood}: change {}", changes::change(before, after)));
    }
}
