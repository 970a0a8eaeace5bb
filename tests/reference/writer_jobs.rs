//! The part of a job stream about the writer: calls in a row from a fresh one, with room from 0 up, calls from writers
//! that hold any numbers, and what is refused.

use crate::change_jobs::FAULTS;
use crate::floor::Floor;
use crate::format;
use crate::jobs::Maker;
use crate::layouts::{self, KINDS};
use crate::packed::PackedFloor;
use crate::writer::{Job, Writer, LONGEST_SIDE, MOST_JOBS};

/// The bytes of a job's record.
const JOB_SIZE: usize = 7;

/// The bytes of a map's record.
fn map_size(floor: &PackedFloor) -> usize {
    4 + (floor.width * floor.height) as usize
}

impl Maker {
    /// The writer with the floor's map; one with a side that is too long is refused, and another takes its place.
    pub fn writer_operations(&mut self) {
        self.use_written();
        let mut own = PackedFloor::of(&self.solver.floor);
        if own.width.max(own.height) > LONGEST_SIDE {
            self.writer_record(Writer::FRESH);
            self.write_map_record(&own, format::WRITTEN_ROOM);
            own = self.small_floor();
        }
        self.whole_run(&own);
        self.rooms(&own);
        self.last_jobs(&own);
        for _ in 0..if self.is_large() { 3 } else { 10 } {
            self.any_writer(&own);
        }
        self.use_written();
    }

    /// A map that is refused, from any writer.
    pub fn writer_on_bad_floor(&mut self) {
        self.use_written();
        let own = PackedFloor::new(self.solver.floor.width, self.solver.floor.height, self.map.clone());
        for _ in 0..3 {
            let writer = self.random.pick(&[Writer::FRESH, Writer { at: 5, due: 1 }, Writer { at: 90, due: 3 }]);
            self.writer_record(writer);
            self.write_map_record(&own, 99);
            let small = self.small_floor();
            self.write_map_record(&small, 99);
            self.any_job_record(99);
        }
        self.use_written();
    }

    /// The floor's map, which is refused, from the writer as it stands or from a fresh one.
    pub fn writer_with_map(&mut self) {
        self.use_written();
        let own = PackedFloor::new(self.solver.floor.width, self.solver.floor.height, self.map.clone());
        if self.random.percent(50) {
            self.writer_record(Writer::FRESH);
        }
        let room = self.random.pick(&[0, 9, format::WRITTEN_ROOM]);
        self.write_map_record(&own, room);
        self.use_written();
    }

    /// A map of the longest sides, as many jobs as may be and two more; all with no byte to spare, or with some.
    pub fn longest_run(&mut self) {
        self.use_written();
        let side = LONGEST_SIDE;
        let floor = PackedFloor::of(&layouts::make(KINDS[2], &mut self.random, side, side));
        let room = map_size(&floor) + MOST_JOBS as usize * JOB_SIZE;
        self.writer_record(Writer::FRESH);
        self.write_map_record(&floor, room);
        for _ in 0..=MOST_JOBS {
            self.any_job_record(room);
        }
        self.any_job_record(format::WRITTEN_ROOM);
        self.write_map_record(&floor, format::WRITTEN_ROOM);
        self.use_written();
    }

    /// Refused maps and a job before the map, then the map, jobs until the room ends, maps in between, and with more
    /// room some jobs more.
    fn whole_run(&mut self, own: &PackedFloor) {
        let jobs = self.random.index(6);
        let room = map_size(own) + JOB_SIZE * jobs + self.random.index(JOB_SIZE);
        self.writer_record(Writer::FRESH);
        self.any_job_record(room);
        self.refused_maps(room);
        self.write_map_record(own, room);
        self.refused_maps(room);
        for number in 0..jobs + 2 {
            self.any_job_record(room);
            if number == 1 {
                self.write_map_record(own, room);
            }
        }
        self.write_map_record(own, room);
        self.any_job_record(room + JOB_SIZE);
        self.any_job_record(format::WRITTEN_ROOM.min(3 * room));
    }

    /// Maps with each of 1, 2 and 3, with the room given and with none.
    fn refused_maps(&mut self, room: usize) {
        for fault in FAULTS {
            let floor = self.faulty_floor(fault);
            let room = self.random.pick(&[0, room]);
            self.write_map_record(&floor, room);
        }
        let small = self.small_floor();
        let (width, height) = self.random.pick(&[(32, 1), (1, 32), (127, 1), (2, 100)]);
        for (width, height) in [(width, height), (small.width + 32, small.height)] {
            self.write_map_record(&PackedFloor::of(&Floor::open(width, height)), room);
        }
    }

    /// A map and then a job, with each room around their sizes.
    fn rooms(&mut self, own: &PackedFloor) {
        let size = map_size(own);
        for room in [0, 1, 4, size - 1, size, size + 1] {
            self.writer_record(Writer::FRESH);
            self.write_map_record(own, room);
            if self.writer.due == 1 {
                for left in [0, 1, JOB_SIZE - 1, JOB_SIZE] {
                    self.any_job_record(size + left);
                }
            }
        }
    }

    /// The last jobs that may be written, and those after them, with room and without.
    fn last_jobs(&mut self, own: &PackedFloor) {
        let (at, due) = (self.random.index(30), self.random.pick(&[998, 999, 1000]));
        self.writer_record(Writer { at: at as u64, due });
        for _ in 0..3 {
            self.any_job_record(at + 4 * JOB_SIZE);
        }
        let room = self.writer.at as usize;
        self.any_job_record(room);
        self.write_map_record(own, at + 4 * JOB_SIZE);
    }

    /// A map and a job from any writer.
    fn any_writer(&mut self, own: &PackedFloor) {
        let size = map_size(own);
        let room = self.random.pick(&[0, size, size + JOB_SIZE, 2 * size, 200]);
        let near = room as u64;
        let last = u64::MAX;
        let at = self.random.pick(&[
            0, 1, near, near + 1, near.saturating_sub(7), near.saturating_sub(6), near.saturating_sub(size as u64),
            1 << 16, 1 << 32, 1 << 63, last, last - 6, last - 7, last - size as u64 + 1,
        ]);
        let due = self.random.pick(&[0, 0, 0, 1, 1, 2, 500, 1000, 1001, 1002, 1 << 32, (1 << 32) + 1, last]);
        let floor = if self.random.percent(75) { own.clone() } else { self.small_floor() };
        for is_map in [true, false] {
            self.writer_record(Writer { at, due });
            if is_map { self.write_map_record(&floor, room) } else { self.any_job_record(room) }
        }
    }

    fn small_floor(&mut self) -> PackedFloor {
        let (width, height) = (self.random.within(1, 5), self.random.within(1, 4));
        PackedFloor::of(&layouts::make(self.random.pick(&KINDS), &mut self.random, width, height))
    }
}

/// Single records; the maker's writer follows them.
impl Maker {
    fn writer_record(&mut self, writer: Writer) {
        let seed = self.random.next() as u32;
        let halves = [writer.at, writer.due].map(|number| [number as u32, (number >> 32) as u32]);
        self.record(format::WRITER, &[&halves.concat()[..], &[seed]].concat(), Vec::new());
        self.writer = writer;
    }

    fn write_map_record(&mut self, floor: &PackedFloor, room: usize) {
        let room = room.min(format::WRITTEN_ROOM);
        self.record(format::WRITE_MAP, &[floor.width as u32, floor.height as u32, room as u32], floor.map.clone());
        self.writer.write_map(floor, &mut vec![0; room]);
    }

    /// A job of any numbers, mostly such that each of its bytes is another.
    fn any_job_record(&mut self, room: usize) {
        let room = room.min(format::WRITTEN_ROOM);
        let any = self.random.next();
        let number = |bits: u64| if bits % 8 == 0 { [0, 1, 255, 256, 65_535][bits as usize % 5] } else { bits as u16 };
        let job = Job { neighbourhood: any as u8, start: number(any >> 8), goal: number(any >> 32) };
        let words = [job.neighbourhood.into(), job.start.into(), job.goal.into(), room as u32];
        self.record(format::WRITE_JOB, &words, Vec::new());
        self.writer.write_job(job, &mut vec![0; room]);
    }
}
