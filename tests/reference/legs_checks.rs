//! Fewest stops by listing every choice of positions, and what a job stream has of them.

use crate::floor::Floor;
use crate::format::{self, Record};
use crate::layouts::{self, KINDS};
use crate::legs;
use crate::packed::PackedFloor;
use crate::random::Random;
use crate::sheet::Solver;
use crate::vectors::Tally;
use crate::{sight, thin};
use std::collections::{BTreeMap, BTreeSet};

pub fn run(tally: &mut Tally) {
    let mut random = Random::new(12);
    let mut most = BTreeSet::new();
    for (kind, (width, height)) in KINDS.iter().flat_map(|&kind| [(3, 2), (5, 5), (9, 7)].map(|size| (kind, size))) {
        let floor = layouts::make(kind, &mut random, width, height);
        for length in [1, 2, 3, 5, 7, 9, 9, 9] {
            let list = any_list(&mut random, &floor, length);
            let choices = listed_choices(&floor, &list);
            tally.holds("fewest legs by listing", numbers_agree(&floor, &list, &choices));
            tally.holds("choices judged by listing", choices_agree(&floor, &list, &choices));
            tally.holds("numbers judged by listing", other_numbers_refused(&floor, &list));
            let right = choices[0].iter().filter(|choice| choice.len() == fewest(&choices[0]) + 1).count();
            most.insert((fewest(&choices[0]).min(3), right.min(3)));
        }
    }
    // No leg, of one point; one to three and more, of one choice, of two and of more.
    tally.equal("kinds of lists", most.len(), 1 + 1 + 2 * 3);
}

/// Vertices of which each sees the next, with repeats.
fn any_list(random: &mut Random, floor: &Floor, length: usize) -> Vec<u16> {
    let mut list = vec![random.index(floor.vertex_count())];
    while list.len() < length {
        let from = list[list.len() - 1];
        let (x, y) = floor.point(from);
        let reach = random.pick(&[1, 2, 9]);
        let mut offset = || random.within(0, 2 * reach) as i64 - reach as i64;
        let tries: Vec<(i64, i64)> = (0..20).map(|_| (offset(), offset())).collect();
        let vertices = tries.into_iter().filter_map(|(dx, dy)| floor.vertex(x + dx, y + dy));
        list.push(vertices.into_iter().find(|&to| sight::vertices_see(floor, from, to)).unwrap_or(from));
    }
    list.into_iter().map(|vertex| vertex as u16).collect()
}

/// For each position all lists of positions from there to the last that rise and of which each sees the next: of all
/// sets of the positions after it those that are so.
fn listed_choices(floor: &Floor, list: &[u16]) -> Vec<Vec<Vec<u16>>> {
    let last = list.len() - 1;
    let sees = |from: u16, to: u16| {
        sight::vertices_see(floor, list[usize::from(from)].into(), list[usize::from(to)].into())
    };
    let from = |first: usize| -> Vec<Vec<u16>> {
        let sets = 0..1u32 << (last - first);
        let positions = |set: u32| -> Vec<u16> {
            (first..=last).filter(|&k| k == first || set >> (k - first - 1) & 1 == 1).map(|k| k as u16).collect()
        };
        let is_choice = |choice: &Vec<u16>| {
            usize::from(choice[choice.len() - 1]) == last && choice.windows(2).all(|pair| sees(pair[0], pair[1]))
        };
        sets.map(positions).filter(is_choice).collect()
    };
    (0..=last).map(from).collect()
}

fn fewest(choices: &[Vec<u16>]) -> usize {
    choices.iter().map(|choice| choice.len() - 1).min().expect("every position")
}

/// Numbers in a slice of some length, 0 past them.
fn padded(numbers: &[u16], length: usize) -> Vec<u16> {
    [numbers, &vec![0; length - numbers.len()]].concat()
}

/// The proposed numbers are the fewest of the listed choices, and the proposed choice is the last of those of so many
/// legs, in order of their first differing position. The thinner's has no fewer legs.
fn numbers_agree(floor: &Floor, list: &[u16], choices: &[Vec<Vec<u16>>]) -> bool {
    let (mut kept, mut numbers) = (vec![9; list.len()], vec![9; list.len()]);
    let mut solver = Solver::new(floor.clone());
    let answer = legs::propose(&mut solver, list, &mut kept, &mut numbers, list.len() as u64);
    let least = fewest(&choices[0]);
    let best = choices[0].iter().filter(|choice| choice.len() == least + 1).max();
    let thinned = thin::kept_positions(floor, list).len();
    answer == (0, least as u64 + 1)
        && best.is_some_and(|best| kept == padded(best, list.len()))
        && choices.iter().zip(&numbers).all(|(choices, &number)| fewest(choices) == usize::from(number))
        && thinned > least
}

/// With the fewest legs as numbers, of all lists of positions that rise from 0 those are accepted that are a choice of
/// so many legs; so is the thinner's list where it is one.
fn choices_agree(floor: &Floor, list: &[u16], choices: &[Vec<Vec<u16>>]) -> bool {
    let mut solver = Solver::new(floor.clone());
    let (n, least) = (list.len(), fewest(&choices[0]));
    let numbers: Vec<u16> = choices.iter().map(|choices| fewest(choices) as u16).collect();
    let mut judge = |kept: &[u16]| {
        legs::check(&mut solver, list, n as u64, &padded(kept, n), kept.len() as u64, &numbers) == 0
    };
    let sets = (0..1u32 << (n - 1)).map(|set| -> Vec<u16> {
        (0..n).filter(|&k| k == 0 || set >> (k - 1) & 1 == 1).map(|k| k as u16).collect()
    });
    let right = |kept: &Vec<u16>| kept.len() == least + 1 && choices[0].contains(kept);
    let thinned: Vec<u16> = thin::kept_positions(floor, list).into_iter().map(|position| position as u16).collect();
    sets.chain([thinned]).all(|kept| judge(&kept) == right(&kept))
}

/// The proposal is refused with any other number of legs, up to two more than positions, at any position.
fn other_numbers_refused(floor: &Floor, list: &[u16]) -> bool {
    let mut solver = Solver::new(floor.clone());
    let n = list.len();
    let (mut kept, mut numbers) = (vec![9; n], vec![9; n]);
    let (_, count) = legs::propose(&mut solver, list, &mut kept, &mut numbers, n as u64);
    let mut refused = legs::check(&mut solver, list, n as u64, &kept, count, &numbers) == 0;
    for place in 0..n {
        let old = numbers[place];
        for number in (0..n as u16 + 2).chain([65_535]).filter(|&number| number != old) {
            numbers[place] = number;
            refused &= legs::check(&mut solver, list, n as u64, &kept, count, &numbers) == 19;
        }
        numbers[place] = old;
    }
    refused
}

/// What a record judges: the slices with its changes, cut to their lengths.
#[derive(Clone, Default)]
struct Judged {
    list: Vec<u16>,
    kept: Vec<u16>,
    legs: Vec<u16>,
    n: usize,
    count: usize,
}

impl Judged {
    /// The slices as a proposal leaves them, whole.
    fn proposed(solver: &mut Solver, record: &Record) -> Judged {
        let numbers = record.payload.chunks_exact(2).map(|pair| u16::from_le_bytes([pair[0], pair[1]]));
        let mut list: Vec<u16> = numbers.cycle().take(record.word(5)).collect();
        list.resize(record.word(0), 0);
        let [mut kept, mut legs] = [1, 2].map(|k| vec![9; record.word(k)]);
        let (n, count) = (record.word(3), legs::propose(solver, &list, &mut kept, &mut legs, record.words[3].into()).1);
        Judged { list, kept, legs, n, count: count as usize }
    }

    /// The record's, where these are in the buffers.
    fn of(&self, record: &Record) -> Judged {
        let mut slices = [&self.list, &self.kept, &self.legs].map(Vec::clone);
        for (k, slice) in slices.iter_mut().enumerate() {
            slice.resize(record.word(k).max(slice.len()), 9);
        }
        for change in format::damages_from_bytes(&record.payload) {
            slices[change.slice][change.place] = change.value as u16;
        }
        for (k, slice) in slices.iter_mut().enumerate() {
            slice.truncate(record.word(k));
        }
        let [list, kept, legs] = slices;
        Judged { list, kept, legs, n: record.word(3), count: record.word(4) }
    }

    fn bad_count(&self) -> bool {
        self.count == 0 || self.count > self.kept.len()
    }

    /// Every refusal that applies by itself, in order; 19 for the count alone.
    fn faults(&self, floor: &Floor) -> Vec<u8> {
        let lengths = [self.kept.len(), self.legs.len()];
        let mut faults: Vec<u8> = floor.shape_fault().into_iter().collect();
        faults.extend((self.list.len() > 16_384 || lengths != [self.list.len(); 2]).then_some(6));
        let used = &self.list[..self.n.min(self.list.len())];
        let count = (floor.width + 1).saturating_mul(floor.height + 1);
        let off = self.n == 0 || self.n > self.list.len() || used.iter().any(|&v| u64::from(v) >= count);
        let sees = |pair: &[u16]| thin::sees(floor, pair[0], pair[1]);
        let is_floor = floor.shape_fault().is_none();
        faults.extend((off || is_floor && !used.windows(2).all(sees)).then_some(10));
        faults.extend(self.bad_count().then_some(19));
        faults
    }

    /// What is false of a choice for a joined list, with the fewest legs given.
    fn untrue(&self, floor: &Floor, fewest: &[u16]) -> Vec<&'static str> {
        let mut untrue = Vec::new();
        let mut note = |is_false: bool, what: &'static str| untrue.extend(is_false.then_some(what));
        if self.bad_count() {
            return vec![if self.count == 0 { "no kept position" } else { "a count above the length" }];
        }
        let positions: Vec<usize> = self.kept[..self.count].iter().map(|&position| position.into()).collect();
        let vertex = |position: usize| self.list.get(position).copied().filter(|_| position < self.n);
        let sees = |from: usize, to: usize| match (vertex(from), vertex(to)) {
            (Some(from), Some(to)) => thin::sees(floor, from, to),
            _ => false,
        };
        note(positions[0] != 0, "the first position");
        note(positions[self.count - 1] + 1 != self.n, "the last position");
        note(positions.windows(2).any(|pair| pair[0] >= pair[1]), "rising");
        note(!positions.windows(2).all(|pair| sees(pair[0], pair[1])), "sight");
        note(self.count - 1 != usize::from(self.legs[0]), "the number of legs");
        note(self.legs[..self.n] != *fewest, "the numbers");
        note(self.kept[self.count..].iter().any(|&position| position != 0), "past the kept");
        note(self.legs[self.n..].iter().any(|&number| number != 0), "past n");
        untrue
    }
}

/// The lists of a stream: each answer, each refusal before the ones after it, and what is judged of joined lists: right
/// choices that are not the proposal, and choices of which one thing alone is false; on some lists every number one
/// more and one less.
pub fn streams(tally: &mut Tally, stream: &[u8], text: &str) {
    let (mut input, mut solver, mut buffers) = (stream, Solver::new(Floor::open(1, 1)), Judged::default());
    let (mut seen, mut lists, mut changed) = (BTreeSet::new(), 0, BTreeMap::new());
    for line in text.lines() {
        let Some(record) = Record::read(&mut input) else { break };
        let answer = line.split(' ').nth(1).and_then(|word| word.parse::<u8>().ok());
        match (record.operation, answer) {
            (format::FLOOR, _) => {
                let (width, height) = (record.words[0].into(), record.words[1].into());
                solver = Solver::new(PackedFloor::new(width, height, record.payload).floor());
            }
            (format::PROPOSE, Some(answer)) => {
                lists += 1;
                buffers = Judged::proposed(&mut solver, &record);
                seen.insert(format!("propose {answer}"));
            }
            (format::LEGS, Some(answer)) => {
                let judged = buffers.of(&record);
                let faults = judged.faults(&solver.floor);
                seen.insert(format!("legs {answer}"));
                seen.extend(faults.iter().skip(1).map(|after| format!("{answer} before {after}")));
                note_lengths(&mut seen, &judged, answer);
                if let Some(&first) = faults.first() {
                    tally.holds("fewest stops: the first fault is answered", answer == first);
                }
                if faults.iter().all(|&fault| fault == 19) {
                    let fewest = &solver.choices(&judged.list[..judged.n]).fewest;
                    let untrue = judged.untrue(&solver.floor, fewest);
                    tally.holds("fewest stops: what is judged", untrue.is_empty() == (answer == 0));
                    note_choice(&mut seen, &judged, &buffers, &untrue);
                    let is_kept = judged.kept == buffers.kept && judged.count == buffers.count;
                    if let Some(change) = changed_by_one(&judged.legs, fewest).filter(|_| is_kept) {
                        changed.entry((lists, judged.n)).or_insert_with(BTreeSet::new).insert(change);
                    }
                }
            }
            _ => {}
        }
    }
    let whole = changed.iter().filter(|((_, n), places)| places.len() == 2 * n).count();
    tally.holds("fewest stops: each number one more and one less", whole >= 20);
    for what in wanted() {
        tally.holds(&format!("fewest stops: {what}"), seen.contains(&what));
    }
}

/// The position of the one number that is one more or one less, and which.
fn changed_by_one(legs: &[u16], fewest: &[u16]) -> Option<(usize, bool)> {
    let differing: Vec<usize> = (0..fewest.len()).filter(|&place| legs[place] != fewest[place]).collect();
    let [place] = differing[..] else { return None };
    match legs[place].wrapping_sub(fewest[place]) {
        1 => Some((place, true)),
        65_535 => Some((place, false)),
        _ => None,
    }
}

fn note_lengths(seen: &mut BTreeSet<String>, judged: &Judged, answer: u8) {
    let [list, kept, legs] = [&judged.list, &judged.kept, &judged.legs].map(|slice| slice.len() as i64);
    let slices = [("list", list, [kept, legs]), ("kept", kept, [list, legs]), ("legs", legs, [list, kept])];
    for (name, length, others) in slices {
        if others[0] == others[1] {
            seen.insert(format!("{name} off by {}: {answer}", length - others[0]));
        }
    }
    if list >= 16_384 {
        seen.insert(format!("{} of {list} places: {answer}", judged.n));
    }
}

fn note_choice(seen: &mut BTreeSet<String>, judged: &Judged, buffers: &Judged, untrue: &[&'static str]) {
    let points = if judged.n == 1 { "one point" } else { "more" };
    match untrue {
        [] if judged.kept != buffers.kept => seen.insert("another right choice".to_string()),
        [] => seen.insert(format!("the proposal, of {points}")),
        [one] => seen.insert(format!("{one} alone, of {points}")),
        _ => seen.insert(format!("{} and more", untrue[0])),
    };
    if judged.count == buffers.count + 1 && judged.kept != buffers.kept {
        seen.insert(format!("a leg more: {}", untrue.join(", ")));
    }
    let is_any = [&judged.legs, &judged.kept].map(|numbers| numbers.contains(&65_535));
    seen.insert(format!("65,535 in the numbers {}, in the positions {}", is_any[0], is_any[1]));
    if untrue.is_empty() && judged.count > 4 {
        seen.insert("four legs or more".to_string());
    }
}

fn wanted() -> Vec<String> {
    let mut wanted: Vec<String> = Vec::new();
    wanted.extend([0, 1, 2, 3, 6, 10].map(|number| format!("propose {number}")));
    wanted.extend([0, 1, 2, 3, 6, 10, 19].map(|number| format!("legs {number}")));
    let order = [6, 10, 19];
    wanted.extend([1, 2, 3].iter().flat_map(|number| order.map(|after| format!("{number} before {after}"))));
    let alone = [
        "no kept position", "a count above the length", "the first position", "the last position", "sight",
        "the number of legs", "the numbers", "past the kept", "past n",
    ];
    wanted.extend(alone.map(|what| format!("{what} alone, of more")));
    let of_one_point = ["no kept position", "a count above the length", "past the kept", "past n"];
    wanted.extend(of_one_point.map(|what| format!("{what} alone, of one point")));
    for slice in ["list", "kept", "legs"] {
        wanted.extend([-1, 1].map(|off| format!("{slice} off by {off}: 6")));
    }
    let others = [
        "6 before 10", "6 before 19", "10 before 19", "the proposal, of more", "the proposal, of one point",
        "another right choice", "a leg more: the number of legs", "a leg more: the numbers", "rising and more",
        "four legs or more",
        "16384 of 16384 places: 0", "16384 of 16384 places: 19", "16383 of 16384 places: 0", "7 of 16385 places: 6",
        "65,535 in the numbers true, in the positions false", "65,535 in the numbers false, in the positions true",
    ];
    wanted.extend(others.map(str::to_string));
    wanted
}
