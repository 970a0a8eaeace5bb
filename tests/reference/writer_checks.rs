//! The writer against the reader of the program's input, and what a job stream has of it.

use crate::floor::Floor;
use crate::format::{self, Record};
use crate::layouts::{self, KINDS};
use crate::packed::PackedFloor;
use crate::program::{self, Input};
use crate::random::Random;
use crate::sheet::Request;
use crate::vectors::Tally;
use crate::writer::{Job, Writer};
use crate::{records, stream};
use std::collections::BTreeSet;

pub fn run(tally: &mut Tally) {
    calls_read_back(tally);
    streams_written_again(tally);
}

/// What a plain list of the records taken says of any calls.
struct Taken {
    before: Vec<u8>,
    floor: Option<Floor>,
    jobs: Vec<Job>,
}

impl Taken {
    /// The bytes of the records taken: four and one for each cell, and seven for each job.
    fn size(&self) -> usize {
        self.floor.as_ref().map_or(0, |floor| 4 + floor.cells.len()) + 7 * self.jobs.len()
    }

    /// The refusal of a map: of its sides and bits, then because one is there, then for its size.
    fn map_refusal(&self, floor: &PackedFloor) -> u8 {
        let cells = (floor.width * floor.height) as usize;
        let is_stray = |place: usize| floor.map[place / 8] >> (place % 8) & 1 == 1;
        if floor.width * floor.height == 0 || floor.width > 31 || floor.height > 31 {
            1
        } else if floor.map.len() != cells / 8 + usize::from(cells % 8 != 0) {
            2
        } else if (cells..8 * floor.map.len()).any(is_stray) {
            3
        } else if self.floor.is_some() {
            20
        } else {
            18 * u8::from(self.size() + 4 + cells > self.before.len())
        }
    }

    fn job_refusal(&self) -> u8 {
        let out_of_turn = self.floor.is_none() || self.jobs.len() == 1000;
        let too_long = self.size() + 7 > self.before.len();
        if out_of_turn { 20 } else { 18 * u8::from(too_long) }
    }

    /// What was written is read as the records taken, and the bytes past it are as they were.
    fn agrees(&self, writer: Writer, buffer: &[u8]) -> bool {
        let (at, size) = (writer.at as usize, self.size());
        let counted = writer.due as usize == self.jobs.len() + usize::from(self.floor.is_some());
        let untouched = at == size && buffer[at..] == self.before[at..];
        let read = program::read(&buffer[..at]);
        let same_floor = match (&self.floor, &read.floor) {
            (Some(taken), Some(read)) => same(taken, read),
            (taken, read) => taken.is_none() && read.is_none() && at == 0,
        };
        let is_bad = read.bad.is_some() != self.floor.is_none();
        counted && untouched && same_floor && !is_bad && read.jobs.iter().map(job_of).eq(self.jobs.iter().copied())
    }
}

fn same(one: &Floor, other: &Floor) -> bool {
    (one.width, one.height, &one.cells) == (other.width, other.height, &other.cells)
}

fn job_of(request: &Request) -> Job {
    Job { neighbourhood: request.neighbourhood as u8, start: request.start as u16, goal: request.goal as u16 }
}

/// Any calls from a fresh writer, with any room: maps that are good and maps with each fault, and jobs.
fn calls_read_back(tally: &mut Tally) {
    let mut random = Random::new(11);
    let mut answers = BTreeSet::new();
    for run in 0..400 {
        let room = if run % 40 == 0 { 8_100 } else { random.index(160) };
        let before: Vec<u8> = (0..room).map(|_| random.next() as u8).collect();
        let (mut writer, mut buffer) = (Writer::FRESH, before.clone());
        let mut taken = Taken { before, floor: None, jobs: Vec::new() };
        let calls = if run % 40 == 0 { 1060 } else { random.index(30) };
        let mut agrees = true;
        for _ in 0..calls {
            if random.percent(if taken.floor.is_some() { 2 } else { 60 }) {
                let floor = any_map(&mut random);
                let wanted = taken.map_refusal(&floor);
                agrees &= writer.write_map(&floor, &mut buffer) == wanted;
                taken.floor = if wanted == 0 { Some(floor.floor()) } else { taken.floor };
                answers.insert(("map", wanted));
            } else {
                let any = random.next();
                let job = Job { neighbourhood: any as u8, start: (any >> 8) as u16, goal: (any >> 24) as u16 };
                let wanted = taken.job_refusal();
                agrees &= writer.write_job(job, &mut buffer) == wanted;
                taken.jobs.extend((wanted == 0).then_some(job));
                answers.insert(("job", wanted));
            }
            // Long runs are read back at their ends alone.
            agrees &= calls > 100 || taken.agrees(writer, &buffer);
        }
        tally.holds("what was written is read back", agrees && taken.agrees(writer, &buffer));
    }
    let wanted = [0, 1, 2, 3, 20, 18].map(|number| ("map", number)).into_iter();
    let wanted = wanted.chain([0, 20, 18].map(|number| ("job", number)));
    tally.equal("answers of the writer", answers, wanted.collect());
}

/// A small map, now and then with a fault.
fn any_map(random: &mut Random) -> PackedFloor {
    let (width, height) = (random.within(1, 9), random.within(1, 8));
    let mut floor = PackedFloor::of(&layouts::make(random.pick(&KINDS), random, width, height));
    match random.below(12) {
        0 => floor.width = random.pick(&[0, 32, 127, 128]),
        1 => floor.height = random.pick(&[0, 32, 40, 255]),
        2 => floor.map.push(0),
        3 => drop(floor.map.pop()),
        4 => floor.map.iter_mut().for_each(|byte| *byte = 255),
        _ => {}
    }
    floor
}

/// Writes what was read, with this much room: the answers, and what was written.
fn written_again(read: &Input, room: usize) -> (Vec<u8>, Vec<u8>) {
    let (mut writer, mut buffer) = (Writer::FRESH, vec![9; room]);
    let mut answers: Vec<u8> = Vec::new();
    answers.extend(read.floor.iter().map(|floor| writer.write_map(&PackedFloor::of(floor), &mut buffer)));
    answers.extend(read.jobs.iter().map(|request| writer.write_job(job_of(request), &mut buffer)));
    buffer.truncate(writer.at as usize);
    (answers, buffer)
}

/// What was read before any bad record, written again, gives the same bytes; with less room their first records.
fn streams_written_again(tally: &mut Tally) {
    let mut streams: Vec<Vec<u8>> = (0..400).map(records::make).collect();
    streams.extend(stream::short_streams());
    streams.push(stream::long_stream());
    let mut kinds = BTreeSet::new();
    for bytes in streams {
        let read = program::read(&bytes);
        let end = read.bad.unwrap_or(bytes.len());
        let (answers, written) = written_again(&read, end);
        tally.holds("what was read is taken", answers.iter().all(|&answer| answer == 0));
        tally.holds("what was read is written again", written == bytes[..end]);
        kinds.insert((read.floor.is_some(), read.jobs.len().min(1), read.bad.is_some()));
        if end > 0 {
            let (answers, written) = written_again(&read, end - 1);
            tally.equal("a byte less", answers.last(), Some(&18));
            tally.holds("the records before the last", bytes.starts_with(&written));
        }
    }
    tally.equal("kinds of streams", kinds.len(), 5);
}

/// What stands at a place of a writer of any numbers.
fn kind_of(number: u64) -> &'static str {
    match number {
        0 => "0",
        1..=999 => "1 to 999",
        1000 => "1000",
        1001 => "1001",
        1002..=65_535 => "more",
        65_536..=0xFFFF_FFFF => "above 16 bits",
        _ => "above 32 bits",
    }
}

/// The writer's records of a stream: each answer of both calls from writers with each kind of numbers; each refusal
/// before the ones after it; rooms of a byte less than a record needs, of just so many and of one more; and the longest
/// run.
pub fn streams(tally: &mut Tally, stream: &[u8], text: &str) {
    let (mut input, mut writer, mut seen) = (stream, Writer::FRESH, BTreeSet::new());
    for line in text.lines() {
        let Some(record) = Record::read(&mut input) else { break };
        let numbers: Vec<u64> = line.split(' ').skip(1).filter_map(|word| word.parse().ok()).collect();
        let words = record.words.map(u64::from);
        let (name, size, room) = match record.operation {
            format::WRITER => {
                writer = Writer { at: numbers[0], due: numbers[1] };
                continue;
            }
            format::WRITE_MAP => ("map", 4 + words[0].saturating_mul(words[1]), words[2]),
            format::WRITE_JOB => ("job", 7, words[3]),
            _ => continue,
        };
        let after = Writer { at: numbers[numbers.len() - 3], due: numbers[numbers.len() - 2] };
        tally.holds("writer: it moves on exactly where it wrote", (after != writer) == (numbers[0] == 0));
        seen.insert(format!("{name}: {} due, {}", kind_of(writer.due), numbers[0]));
        seen.insert(format!("{name}: at {}, {}", kind_of(writer.at), numbers[0]));
        let past = i128::from(writer.at) + i128::from(size) - i128::from(room);
        let out_of_turn = if name == "map" { writer.due != 0 } else { !(1..=1000).contains(&writer.due) };
        seen.insert(format!("{name}: {}, out of turn {out_of_turn}, no room {}", numbers[0], past > 0));
        seen.insert(format!("{name}: {}, {past} past the room", numbers[0]));
        if past >= 1 << 64 {
            seen.insert(format!("{name}: {}, a sum that passes 64 bits", numbers[0]));
        }
        writer = after;
    }
    let mut wanted: Vec<String> = Vec::new();
    for number in [1, 2, 3] {
        let faults = [false, true].iter().flat_map(|&turn| [false, true].map(|room| (turn, room)));
        wanted.extend(faults.map(|(turn, room)| format!("map: {number}, out of turn {turn}, no room {room}")));
    }
    for name in ["map", "job"] {
        for (number, turn, room) in [(0, false, false), (18, false, true), (20, true, false), (20, true, true)] {
            wanted.push(format!("{name}: {number}, out of turn {turn}, no room {room}"));
        }
        wanted.extend(["0, 0", "0, -1", "18, 1"].map(|kind| format!("{name}: {kind} past the room")));
        wanted.push(format!("{name}: 18, a sum that passes 64 bits"));
        wanted.extend(["above 16 bits", "above 32 bits"].map(|kind| format!("{name}: at {kind}, 18")));
        wanted.extend(["1001", "above 32 bits"].map(|kind| format!("{name}: {kind} due, 20")));
    }
    wanted.extend(["job: 0 due, 20", "job: 1000 due, 0", "job: 1000 due, 18", "map: 1000 due, 20"].map(str::to_string));
    for what in wanted {
        tally.holds(&format!("writer: {what}"), seen.contains(&what));
    }
    tally.equal("writer: the longest run", writer, Writer { at: 965 + 7 * 1000, due: 1001 });
}
