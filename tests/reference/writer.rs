//! The writer of the program's input: each record's bytes are made whole, and laid into the buffer where they fit. The
//! known answers are worked by hand.

use crate::packed::PackedFloor;
use crate::stream;
use crate::vectors::Tally;

/// A side above this is refused, and so is a job past so many.
pub const LONGEST_SIDE: u64 = 31;
pub const MOST_JOBS: u64 = 1000;

/// The place of the next record, and its number: 0 for the map, then those of the jobs.
#[derive(Clone, Copy, Debug, PartialEq, Eq)]
pub struct Writer {
    pub at: u64,
    pub due: u64,
}

impl Writer {
    pub const FRESH: Writer = Writer { at: 0, due: 0 };

    /// Refusals 1, 2, 3, 20 and 18 leave the writer and the buffer.
    pub fn write_map(&mut self, floor: &PackedFloor, buffer: &mut [u8]) -> u8 {
        if [floor.width, floor.height].iter().any(|side| !(1..=LONGEST_SIDE).contains(side)) {
            return 1;
        }
        if let Some(number) = floor.fault() {
            return number;
        }
        self.write(self.due == 0, &stream::map_record(&floor.floor()), buffer)
    }

    /// Refusals 20 and 18 leave the writer and the buffer.
    pub fn write_job(&mut self, job: Job, buffer: &mut [u8]) -> u8 {
        let record = stream::job_record(job.neighbourhood, job.start.into(), job.goal.into());
        self.write((1..=MOST_JOBS).contains(&self.due), &record, buffer)
    }

    fn write(&mut self, in_turn: bool, record: &[u8], buffer: &mut [u8]) -> u8 {
        if !in_turn {
            return 20;
        }
        let end = u128::from(self.at) + record.len() as u128;
        if end > buffer.len() as u128 {
            return 18;
        }
        buffer[self.at as usize..end as usize].copy_from_slice(record);
        *self = Writer { at: end as u64, due: self.due + 1 };
        0
    }
}

/// A job's numbers, which may be any.
#[derive(Clone, Copy, Debug, PartialEq, Eq)]
pub struct Job {
    pub neighbourhood: u8,
    pub start: u16,
    pub goal: u16,
}

pub fn run(tally: &mut Tally) {
    written_bytes(tally);
    refused(tally);
    any_writers(tally);
    all_jobs(tally);
}

/// A record to write.
enum Call<'a> {
    Map(u64, u64, &'a [u8]),
    Job(u8, u16, u16),
}

/// What a call answers, and the writer and the buffer after it.
fn call(mut writer: Writer, call: &Call, mut buffer: Vec<u8>) -> (u8, Writer, Vec<u8>) {
    let answer = match *call {
        Call::Map(width, height, map) => {
            writer.write_map(&PackedFloor::new(width, height, map.to_vec()), &mut buffer)
        }
        Call::Job(neighbourhood, start, goal) => writer.write_job(Job { neighbourhood, start, goal }, &mut buffer),
    };
    (answer, writer, buffer)
}

/// The example of section 16, and bytes past each record that stay 9.
fn written_bytes(tally: &mut Tally) {
    let (answer, writer, buffer) = call(Writer::FRESH, &Call::Map(1, 1, &[0]), vec![9; 14]);
    tally.equal("request 11, the example's map", (answer, writer), (0, Writer { at: 5, due: 1 }));
    tally.equal("request 11, a map's bytes", &buffer, &[&[0x4D, 0x50, 1, 1, 0][..], &[9; 9]].concat());
    let (answer, writer, buffer) = call(writer, &Call::Job(4, 0, 3), buffer);
    tally.equal("request 11, the example's job", (answer, writer), (0, Writer { at: 12, due: 2 }));
    tally.equal("request 11, the example", buffer, vec![0x4D, 0x50, 1, 1, 0, 0x4A, 0x42, 4, 0, 0, 3, 0, 9, 9]);
    // A byte to a cell, row by row, whatever the map's bits are; the low byte of a number first.
    let maps: [(u64, u64, &[u8], &[u8]); 4] = [
        (2, 2, &[9], &[1, 0, 0, 1]),
        (3, 3, &[128, 1], &[0, 0, 0, 0, 0, 0, 0, 1, 1]),
        (1, 10, &[3, 2], &[1, 1, 0, 0, 0, 0, 0, 0, 0, 1]),
        (4, 2, &[0xF1], &[1, 0, 0, 0, 1, 1, 1, 1]),
    ];
    for (width, height, map, cells) in maps {
        let wanted = [&[0x4D, 0x50, width as u8, height as u8], cells, &[9]].concat();
        let moved = Writer { at: wanted.len() as u64 - 1, due: 1 };
        let left = call(Writer::FRESH, &Call::Map(width, height, map), vec![9; wanted.len()]);
        tally.equal("request 11, a packed map", left, (0, moved, wanted));
    }
    let jobs: [(u8, u16, u16, [u8; 7]); 4] = [
        (8, 1, 2, [0x4A, 0x42, 8, 1, 0, 2, 0]),
        (255, 0x1234, 0xFEDC, [0x4A, 0x42, 255, 0x34, 0x12, 0xDC, 0xFE]),
        (0, 65_535, 256, [0x4A, 0x42, 0, 255, 255, 0, 1]),
        (77, 255, 0, [0x4A, 0x42, 77, 255, 0, 0, 0]),
    ];
    for (neighbourhood, start, goal, bytes) in jobs {
        let wanted = [&[9, 9], &bytes[..], &[9]].concat();
        let left = call(Writer { at: 2, due: 5 }, &Call::Job(neighbourhood, start, goal), vec![9; 10]);
        tally.equal("request 11, a job's bytes", left, (0, Writer { at: 9, due: 6 }, wanted));
    }
}

/// Refusals in order, from writers that calls leave: a fresh one, one with a map of one cell, and those of some jobs.
fn refused(tally: &mut Tally) {
    let after_jobs = |jobs: u64| Writer { at: 5 + 7 * jobs, due: 1 + jobs };
    let calls: [(Writer, Call, usize, u8); 25] = [
        (Writer::FRESH, Call::Map(0, 1, &[2]), 0, 1),
        (Writer::FRESH, Call::Map(1, 0, &[]), 0, 1),
        (Writer::FRESH, Call::Map(32, 1, &[0; 4]), 99, 1),
        (Writer::FRESH, Call::Map(1, 32, &[0; 4]), 99, 1),
        (Writer::FRESH, Call::Map(127, 127, &[0; 2017]), 999_999, 1),
        (Writer::FRESH, Call::Map(32, 32, &[]), 0, 1),
        (Writer::FRESH, Call::Map(31, 31, &[255; 120]), 0, 2),
        (Writer::FRESH, Call::Map(1, 1, &[]), 99, 2),
        (Writer::FRESH, Call::Map(2, 2, &[1, 0, 0, 1]), 99, 2),
        (Writer::FRESH, Call::Map(1, 1, &[2]), 0, 3),
        (Writer::FRESH, Call::Map(31, 31, &[255; 121]), 999, 3),
        // A map that has a fault where none is due.
        (after_jobs(0), Call::Map(32, 1, &[0; 4]), 99, 1),
        (after_jobs(0), Call::Map(1, 1, &[0, 0]), 99, 2),
        (after_jobs(3), Call::Map(1, 1, &[4]), 99, 3),
        // Out of turn, with room and without.
        (Writer::FRESH, Call::Job(4, 0, 3), 99, 20),
        (Writer::FRESH, Call::Job(4, 0, 3), 0, 20),
        (after_jobs(0), Call::Map(1, 1, &[0]), 99, 20),
        (after_jobs(0), Call::Map(1, 1, &[0]), 5, 20),
        (after_jobs(1000), Call::Map(1, 1, &[0]), 9999, 20),
        (after_jobs(1000), Call::Job(4, 0, 3), 9999, 20),
        (after_jobs(1000), Call::Job(4, 0, 3), 7005, 20),
        // One byte short.
        (Writer::FRESH, Call::Map(1, 1, &[0]), 4, 18),
        (Writer::FRESH, Call::Map(31, 31, &[0; 121]), 964, 18),
        (after_jobs(0), Call::Job(4, 0, 3), 11, 18),
        (after_jobs(999), Call::Job(4, 0, 3), 7004, 18),
    ];
    for (writer, record, room, number) in calls {
        tally.equal("request 11, refused", call(writer, &record, vec![9; room]), (number, writer, vec![9; room]));
    }
    // With room for just the record.
    for (writer, record, room, due) in [
        (Writer::FRESH, Call::Map(1, 1, &[1]), 5, 1),
        (Writer::FRESH, Call::Map(31, 31, &[0; 121]), 965, 1),
        (after_jobs(0), Call::Job(4, 0, 3), 12, 2),
        (after_jobs(999), Call::Job(4, 0, 3), 7005, 1001),
    ] {
        let (answer, left, _) = call(writer, &record, vec![9; room]);
        tally.equal("request 11, no byte to spare", (answer, left), (0, Writer { at: room as u64, due }));
    }
}

/// Writers that no calls leave: a record goes where the writer says, and no sum wraps.
fn any_writers(tally: &mut Tally) {
    let job = Call::Job(16, 1, 2);
    let map = Call::Map(1, 1, &[1]);
    let last = u64::MAX;
    let calls: [(Writer, &Call, u8); 14] = [
        (Writer { at: 3, due: 0 }, &map, 0),
        (Writer { at: 4, due: 0 }, &map, 0),
        (Writer { at: 6, due: 0 }, &map, 18),
        (Writer { at: 0, due: 1 }, &job, 0),
        (Writer { at: 3, due: 1000 }, &job, 0),
        (Writer { at: 4, due: 7 }, &job, 18),
        (Writer { at: last, due: 0 }, &map, 18),
        (Writer { at: last - 4, due: 0 }, &map, 18),
        (Writer { at: last - 6, due: 1 }, &job, 18),
        (Writer { at: 1 << 32, due: 1 }, &job, 18),
        (Writer { at: 0, due: last }, &map, 20),
        (Writer { at: 0, due: 1 << 32 }, &map, 20),
        (Writer { at: 0, due: (1 << 32) + 1 }, &job, 20),
        (Writer { at: last, due: last }, &job, 20),
    ];
    for (writer, record, answer) in calls {
        let bytes: &[u8] = if matches!(record, Call::Map(..)) { b"MP\x01\x01\x01" } else { b"JB\x10\x01\0\x02\0" };
        let (mut buffer, mut left) = (vec![9; 10], writer);
        if answer == 0 {
            buffer[writer.at as usize..][..bytes.len()].copy_from_slice(bytes);
            left = Writer { at: writer.at + bytes.len() as u64, due: writer.due + 1 };
        }
        tally.equal("request 11, any writer", call(writer, record, vec![9; 10]), (answer, left, buffer));
    }
}

/// A map and 1,000 jobs, and one job more.
fn all_jobs(tally: &mut Tally) {
    let (mut writer, mut buffer) = (Writer::FRESH, vec![9; 7020]);
    (_, writer, buffer) = call(writer, &Call::Map(1, 1, &[0]), buffer);
    for number in 1..=1001 {
        let (answer, left, bytes) = call(writer, &Call::Job(4, number, 3), buffer);
        tally.equal("request 11, the 1,001st job", answer, if number <= 1000 { 0 } else { 20 });
        (writer, buffer) = (left, bytes);
    }
    tally.equal("request 11, the writer after 1,000 jobs", writer, Writer { at: 7005, due: 1001 });
    tally.equal("request 11, the last job", &buffer[6998..7007], b"JB\x04\xE8\x03\x03\0\x09\x09");
}
