//! Mending of sheets that are made wrong at known places, and what a job stream has of mending.

use crate::floor::{sides_are_good, Floor};
use crate::format::{self, Damage, Record};
use crate::graph::NEIGHBOURHOODS;
use crate::jobs::{good_lengths, value_at};
use crate::layouts::{self, KINDS};
use crate::mend::{self, Mended, Second};
use crate::packed::PackedFloor;
use crate::random::Random;
use crate::self_checks::{all_floors, is_pinched};
use crate::sheet::{Request, Sheet, Solver};
use crate::vectors::{self, Tally};
use std::collections::{BTreeMap, BTreeSet};

const SLICES: [&str; 6] = ["d", "e", "f", "b", "route", "next"];

/// On tiny floors every job, on larger ones some.
pub fn run(tally: &mut Tally) {
    let mut random = Random::new(14);
    let mut answers = BTreeSet::new();
    for (width, height) in [(1, 1), (2, 1), (1, 3), (2, 2)] {
        for floor in all_floors(width, height) {
            for neighbourhood in NEIGHBOURHOODS {
                let size = floor.vertex_count() as u64;
                for (start, goal) in (0..size).flat_map(|start| (0..size).map(move |goal| (start, goal))) {
                    let request = Request { neighbourhood, start, goal };
                    tally.holds("mending a sheet of a tiny floor", mends(&mut random, &floor, request, &mut answers));
                }
            }
        }
    }
    let mut floors: Vec<Floor> = KINDS.iter().map(|&kind| layouts::make(kind, &mut random, 13, 9)).collect();
    floors.extend([Floor::open(34, 34), Floor::open(68, 34), Floor::open(102, 34)]);
    for (floor, neighbourhood) in floors.iter().flat_map(|floor| NEIGHBOURHOODS.map(|number| (floor, number))) {
        let last = floor.vertex_count() as u64 - 1;
        for (start, goal) in [(0, last), (random.below(last), random.below(last))] {
            let request = Request { neighbourhood, start, goal };
            tally.holds("mending a sheet", mends(&mut random, floor, request, &mut answers));
        }
    }
    let all = NEIGHBOURHOODS.iter().flat_map(|&number| [0, 7, 8, 11].map(|answer| (number, answer)));
    tally.equal("answers of mending", answers, all.collect());
}

/// The planner's two operations leave the same; the checker accepts it at 0 and 7; and a sheet that is made wrong at
/// some places of each slice differs at as many.
fn mends(random: &mut Random, floor: &Floor, request: Request, answers: &mut BTreeSet<(u64, u8)>) -> bool {
    let Request { neighbourhood, start, goal } = request;
    let planned = vectors::plan(floor, neighbourhood, start, goal);
    let (damaged, wrong) = wronged(random, &planned.sheet);
    let answer = planned.answer.answer;
    answers.insert((neighbourhood, answer));
    let (told, Second { sheet, work }) = mend::mended(floor, request, &damaged);
    if answer == 11 {
        let before = Second::patterned(good_lengths(floor.vertex_count()), 9);
        return told == Mended::refusal(11) && Second { sheet, work } == before;
    }
    let is_left = sheet == Sheet { n: 0, ..planned.sheet.clone() } && work == planned.work;
    if answer == 8 {
        return told == Mended::refusal(8) && is_left;
    }
    let taken = vectors::check(floor, neighbourhood, start, goal, &Sheet { n: told.n, ..sheet });
    told == Mended { answer, n: planned.answer.n, differing: wrong } && is_left && taken == answer
}

/// The sheet with another n and other numbers at some places of each slice, none of them twice, and how many they are.
fn wronged(random: &mut Random, sheet: &Sheet) -> (Sheet, [u64; 6]) {
    let (mut other, mut wrong) = (Sheet { n: random.below(9), ..sheet.clone() }, [0; 6]);
    for (slice, wrong) in wrong.iter_mut().enumerate() {
        let share = random.pick(&[0, 10, 50, 100]);
        for place in (0..sheet.d.len()).filter(|_| random.percent(share)).collect::<Vec<_>>() {
            let bit = random.below(64);
            match slice {
                0 => other.d[place] ^= 1 << (bit % 32),
                1 => other.e[place] ^= 1 << (bit % 32),
                2 => other.f[place] ^= 1 << bit,
                3 => other.b[place] ^= 1 << bit,
                4 => other.route[place] ^= 1 << (bit % 16),
                _ => other.next[place] ^= 1 << (bit % 16),
            }
            *wrong += 1;
        }
    }
    (other, wrong)
}

/// A record about mending, as it was made.
struct Call<'a> {
    floor: &'a PackedFloor,
    request: Request,
    old: [usize; 6],
    second: Vec<usize>,
    damages: Vec<Damage>,
}

impl Call<'_> {
    fn of<'a>(record: &Record, floor: &'a PackedFloor) -> Call<'a> {
        let (old, damages) = mend::from_payload(&record.payload);
        let second = (3..10).map(|k| record.word(k)).collect();
        Call { floor, request: request_of(record), old, second, damages }
    }

    fn count(&self) -> usize {
        ((self.floor.width + 1) * (self.floor.height + 1)) as usize
    }

    /// By how much each of the thirteen lengths is off, those handed in first.
    fn off(&self) -> Vec<i64> {
        let good = good_lengths(self.count());
        let lengths = self.old.iter().chain(&self.second);
        let both = lengths.zip(good[..6].iter().chain(&good));
        both.map(|(&length, &good)| length as i64 - good as i64).collect()
    }

    /// Each fault by itself, in the order of the refusals.
    fn faults(&self) -> Vec<u64> {
        let Request { neighbourhood, start, goal } = self.request;
        let mut faults: Vec<u64> = self.floor.fault().map(u64::from).into_iter().collect();
        if !NEIGHBOURHOODS.contains(&neighbourhood) {
            faults.push(4);
        }
        if sides_are_good(self.floor.width, self.floor.height) {
            let is_off = [start, goal].iter().any(|&end| end >= self.count() as u64);
            let floor = self.floor.floor();
            let pinched = |end: u64| end < self.count() as u64 && is_pinched(&floor, floor.point(end as usize));
            faults.extend(is_off.then_some(5));
            faults.extend((floor.fault.is_none() && (pinched(start) || pinched(goal))).then_some(11));
            faults.extend(self.off().iter().any(|&off| off != 0).then_some(6));
        }
        faults
    }
}

fn request_of(record: &Record) -> Request {
    let [neighbourhood, start, goal] = [0, 1, 2].map(|k: usize| u64::from(record.words[k]));
    Request { neighbourhood, start, goal }
}

/// What the records about mending of a stream have to show.
fn wanted() -> Vec<String> {
    let mut wanted: Vec<String> = Vec::new();
    for (place, before) in [1, 2, 3, 4, 5, 11, 6].into_iter().enumerate() {
        // Two of 1, 2 and 3 are another's test. Where a side is bad, no end and no length is good or bad, and a floor
        // that is refused has no pinch. 7 and 8 come after all the others, of which 6 alone leaves them to be seen.
        let after = [1, 2, 3, 4, 5, 11, 6, 7, 8].into_iter().skip(place + 1).filter(|&after| match before {
            1 => after == 4,
            2 | 3 => [4, 5, 6].contains(&after),
            6 => true,
            _ => ![7, 8].contains(&after),
        });
        wanted.extend(after.map(|after| format!("{before} before {after}")));
    }
    wanted.extend((0..13).flat_map(|slice| [-1, 1].map(|off| format!("slice {slice} of 13 off by {off}"))));
    for neighbourhood in NEIGHBOURHOODS {
        let mut each = |what: &str| wanted.push(format!("{neighbourhood}: {what}"));
        [0, 1, 2, 3, 5, 6, 7, 8, 11].iter().for_each(|answer| each(&format!("answer {answer}")));
        for answer in [0, 7] {
            for what in ["a true sheet", "another job's sheet", "a bit put back", "every slice of anything"] {
                each(&format!("{what}, {answer}"));
            }
        }
        each("damage at 8");
        for slice in SLICES {
            for what in ["the lowest bit", "the highest bit", "anything"] {
                wanted.extend([0, 7].map(|answer| of_slice(neighbourhood, slice, what, answer)));
            }
        }
    }
    wanted
}

/// What is to be seen of a slice: at 0 with each neighbourhood, at 7, of which a stream has fewer, with any.
fn of_slice(neighbourhood: u64, slice: &str, what: &str, answer: u64) -> String {
    let name = if answer == 0 { neighbourhood.to_string() } else { "any".to_string() };
    format!("{name}: {slice}, {what}, {answer}")
}

/// The job whose true sheet stands in the buffers, by the records before.
#[derive(Clone, Copy, PartialEq, Eq)]
struct Standing {
    job: [u32; 3],
    /// Slices filled with a pattern since the sheet was written.
    filled: [bool; 6],
}

/// The records about mending of a stream: the first fault is answered, a true sheet differs nowhere, one with a bit
/// turned over at one place of one slice; and all that is wanted is there.
pub fn streams(tally: &mut Tally, stream: &[u8], text: &str) {
    let (mut input, mut floor) = (stream, PackedFloor::new(0, 0, Vec::new()));
    let (mut seen, mut standing, mut planned) = (BTreeSet::new(), None, BTreeMap::new());
    let mut solver = Solver::new(floor.floor());
    for line in text.lines() {
        let Some(record) = Record::read(&mut input) else { break };
        let numbers: Vec<u64> = line.split(' ').skip(1).filter_map(|word| word.parse().ok()).collect();
        let job = [0, 1, 2].map(|k: usize| record.words[k]);
        match record.operation {
            format::FLOOR => {
                floor = PackedFloor::new(record.words[0].into(), record.words[1].into(), record.payload.clone());
                solver = Solver::new(floor.floor());
                planned.clear();
                standing = None;
            }
            format::COSTS => standing = filled(standing, &[record.word(2), 0, 0, 0, 0, 0], numbers[0]),
            format::FINISH if matches!(numbers[0], 0 | 7 | 8) => {
                standing = Some(Standing { job, filled: [false; 6] });
                planned.insert(job, numbers[0]);
            }
            format::FINISH => {
                let lengths = [0, record.word(4), record.word(5), record.word(6), record.word(7), record.word(8)];
                standing = filled(standing, &lengths, numbers[0]);
            }
            format::LOAD | format::REPLAY | format::REPORT => standing = None,
            format::MEND => {
                let call = Call::of(&record, &floor);
                let mut faults = call.faults();
                let first = faults.first().copied();
                let answer = numbers[0];
                let is_first = first.map_or(matches!(answer, 0 | 7 | 8), |first| first == answer);
                tally.holds("mending: the first fault is answered", is_first);
                tally.holds("mending: no count at a refusal", matches!(answer, 0 | 7) || numbers[1..8] == [0; 7]);
                faults.extend(planned.get(&job).filter(|&&answer| answer != 0));
                faults.iter().skip(1).for_each(|after| _ = seen.insert(format!("{} before {after}", faults[0])));
                seen.insert(format!("{}: answer {answer}", job[0]));
                note_lengths(&mut seen, &call, answer);
                if let (Some(standing), 0 | 7 | 8) = (standing, answer) {
                    let holds = note_counts(&mut seen, &call, standing, &numbers, &mut solver);
                    tally.holds("mending: the counts", holds);
                }
            }
            _ => {}
        }
    }
    for what in wanted() {
        tally.holds(&format!("mending: {what}"), seen.contains(&what));
    }
}

/// What stands in the buffers after a call of the planner that filled the first places of some slices and was refused
/// with 6; None where it was not.
fn filled(standing: Option<Standing>, lengths: &[usize; 6], answer: u64) -> Option<Standing> {
    let Standing { job, mut filled } = standing.filter(|_| answer == 6)?;
    for (filled, &length) in filled.iter_mut().zip(lengths) {
        *filled |= length > 0;
    }
    Some(Standing { job, filled })
}

/// The slice whose length alone is off by one.
fn note_lengths(seen: &mut BTreeSet<String>, call: &Call, answer: u64) {
    if answer == 6 {
        let off = call.off();
        let wrong: Vec<usize> = (0..13).filter(|&slice| off[slice] != 0).collect();
        if let [slice] = wrong[..] {
            seen.insert(format!("slice {slice} of 13 off by {}", off[slice]));
        }
    }
}

/// Whether the counts are those of the sheet that stands in the buffers, as far as it is known.
fn note_counts(
    seen: &mut BTreeSet<String>, call: &Call, standing: Standing, numbers: &[u64], solver: &mut Solver,
) -> bool {
    let Request { neighbourhood, start, goal } = call.request;
    let (answer, counts) = (numbers[0], &numbers[2..8]);
    let named = |what: &str| format!("{neighbourhood}: {what}");
    let is_own = standing.job.map(u64::from) == [neighbourhood, start, goal];
    let count = call.count() as u64;
    if answer == 8 {
        if !call.damages.is_empty() {
            seen.insert(named("damage at 8"));
        }
        return true;
    }
    if !is_own {
        seen.insert(named(&format!("another job's sheet, {answer}")));
        return true;
    }
    // Of numbers of a pattern few are right.
    let most = |slice: usize| count > 8 && counts[slice] * 4 > count * 3;
    match (standing.filled.iter().filter(|&&filled| filled).count(), &call.damages[..]) {
        (0, []) => _ = seen.insert(named(&format!("a true sheet, {answer}"))),
        (0, &[Damage { slice, place, value }]) => {
            if count <= 100 {
                let old = value_at(solver.truth(neighbourhood, start as usize, goal as usize).sheet(), slice, place);
                let highest = [31, 31, 63, 63, 15, 15][slice];
                let names = [(1, "lowest"), (1 << highest, "highest")];
                for (_, name) in names.iter().filter(|&&(bit, _)| old ^ value == bit) {
                    seen.insert(of_slice(neighbourhood, SLICES[slice], &format!("the {name} bit"), answer));
                }
            }
            return (0..6).all(|other| counts[other] == u64::from(other == slice));
        }
        (0, &[one, other]) if one.slice == other.slice && one.place == other.place => {
            seen.insert(named(&format!("a bit put back, {answer}")));
        }
        (0, _) => return counts.iter().sum::<u64>() <= call.damages.len() as u64,
        (number, _) => {
            let untouched = (0..6).all(|slice| standing.filled[slice] || counts[slice] == 0);
            for slice in (0..6).filter(|&slice| number == 1 && most(slice)) {
                seen.insert(of_slice(neighbourhood, SLICES[slice], "anything", answer));
            }
            if (0..6).all(most) {
                seen.insert(named(&format!("every slice of anything, {answer}")));
            }
            return untouched;
        }
    }
    counts.iter().all(|&count| count == 0)
}
