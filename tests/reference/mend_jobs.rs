//! The part of a job stream about mending: true sheets, single bits turned over, whole slices of anything, sheets of
//! other jobs, and what is refused.

use crate::format::{self, Damage};
use crate::graph::NEIGHBOURHOODS;
use crate::jobs::{good_lengths, request, value_at, Lengths, Maker};
use crate::mend;
use crate::neighbourhood_jobs::other_neighbourhoods;
use crate::sheet::{Request, Sheet};

/// Vertices up to this many have a call after each slice that is filled.
const SMALL: usize = 120;

/// The bits of a number in each slice.
const WIDTHS: [u64; 6] = [32, 32, 64, 64, 16, 16];

/// Lengths of the six slices handed in, and of the second set with the working slice.
#[derive(Clone, Copy, PartialEq, Eq)]
struct Both {
    old: [usize; 6],
    second: Lengths,
}

impl Both {
    fn good(count: usize) -> Both {
        Both { old: [count; 6], second: good_lengths(count) }
    }

    /// The lengths, each no longer than its buffer.
    fn with_room(self) -> Both {
        let [d, e, f, b, route, next, work] = self.second;
        let [d, e, f, b, route, next] = [d, e, f, b, route, next].map(|length| length.min(format::SHEET_ROOM));
        let old = self.old.map(|length| length.min(format::SHEET_ROOM));
        Both { old, second: [d, e, f, b, route, next, work.min(format::WORK_ROOM)] }
    }
}

impl Maker {
    /// For each neighbourhood a job of those given, or another, and what is refused of them.
    pub fn mend_operations(&mut self, requests: &[Request]) {
        self.use_mended();
        let mut jobs = Vec::new();
        for neighbourhood in NEIGHBOURHOODS {
            let given = requests.iter().find(|request| request.neighbourhood == neighbourhood);
            if given.is_some() || !self.is_large() {
                jobs.push(given.copied().unwrap_or_else(|| self.any_request_of(neighbourhood)));
            }
        }
        for &job in &jobs {
            self.mended_job(job);
        }
        self.mends_of_other_lengths(&jobs);
        self.refused_mends(&jobs);
        self.pinched_mends();
        self.use_mended();
    }

    pub fn mends_on_bad_floor(&mut self) {
        self.use_mended();
        for _ in 0..3 {
            let old = [(); 6].map(|()| self.random.index(40));
            let second = [(); 7].map(|()| self.random.index(40));
            let ends = (self.random.below(20), self.random.below(20));
            let job = request(self.random.pick(&[4, 8, 16, 5, 0]), ends.0, ends.1);
            self.mend_record(job, Both { old, second }, &[]);
        }
        self.use_mended();
    }

    /// A call with a map that is refused, alone or with a fault that comes after.
    pub fn mend_with_map(&mut self) {
        self.use_mended();
        let (count, last) = (self.count(), self.count() as u64 - 1);
        let goal = self.random.pick(&[last, last + 1]);
        let job = request(self.random.pick(&[4, 8, 16, 5]), 0, goal);
        let length = self.random.pick(&[count, count + 1]);
        self.mend_record(job, Both { old: [length; 6], ..Both::good(count) }, &[]);
        self.use_mended();
    }

    /// The job's sheet as the planner leaves it; with one bit turned over in each slice and at some places; for other
    /// jobs; and with whole slices of anything.
    fn mended_job(&mut self, job: Request) {
        let good = Both::good(self.count());
        let seed = self.random.next() as u32;
        self.costs_record(job, good.second, seed);
        self.finish_record(job, good.second, seed, &[]);
        self.mend_record(job, good, &[]);
        let truth = self.solver.truth(job.neighbourhood, job.start as usize, job.goal as usize);
        let sheet = truth.sheet();
        let slices = if self.is_large() { vec![self.random.index(6)] } else { (0..6).collect() };
        for slice in slices {
            let damage = self.turned_bit(sheet, slice);
            self.mend_record(job, good, &[damage]);
        }
        if !self.is_large() {
            let changes = [self.places_of_a_slice(sheet), self.place_of_some_slices(sheet), self.put_back(sheet)];
            changes.iter().for_each(|damages| self.mend_record(job, good, damages));
            let others: Vec<u64> = other_neighbourhoods(job.neighbourhood).collect();
            let neighbourhood = self.random.pick(&others);
            self.mend_record(Request { neighbourhood, ..job }, good, &[]);
            self.mend_record(Request { start: job.goal, goal: job.start, ..job }, good, &[]);
        }
        self.filled_slices(job);
    }

    /// The slices one after the other, in any order, each filled with a pattern by a call of the planner that is
    /// refused with 6, and mended; on large floors when all are filled.
    fn filled_slices(&mut self, job: Request) {
        let count = self.count();
        let mut left: Vec<usize> = (0..6).collect();
        while !left.is_empty() {
            let slice = left.swap_remove(self.random.index(left.len()));
            let (mut lengths, seed) = ([0; 7], self.random.next() as u32);
            lengths[slice] = count;
            if slice == 0 {
                self.costs_record(job, lengths, seed);
            } else {
                self.finish_record(job, lengths, seed, &[]);
            }
            if count <= SMALL || left.is_empty() {
                self.mend_record(job, Both::good(count), &[]);
            }
        }
    }

    /// Each of the thirteen slices off by one, and lengths that are another slice's.
    fn mends_of_other_lengths(&mut self, jobs: &[Request]) {
        for lengths in self.bad_mends() {
            let job = self.random.pick(jobs);
            if !self.is_large() || self.random.percent(20) {
                self.mend_record(job, lengths, &[]);
            }
        }
    }

    /// 4, 5 and 6, each alone and beside the others.
    fn refused_mends(&mut self, jobs: &[Request]) {
        let others = self.bad_mends();
        for faults in 1..8 {
            let mut job = self.random.pick(jobs);
            if faults & 1 != 0 {
                job.neighbourhood = self.bad_neighbourhood();
            }
            if faults & 2 != 0 {
                let off = self.bad_end();
                let ends = [(off, job.goal), (job.start, off), (off, off)];
                (job.start, job.goal) = self.random.pick(&ends);
            }
            let lengths = if faults & 4 != 0 { self.random.pick(&others) } else { Both::good(self.count()) };
            self.mend_record(job, lengths, &[]);
        }
    }

    /// Ends on a pinch, where there is one, alone and beside 4, 5 and 6.
    fn pinched_mends(&mut self) {
        let pinches: Vec<usize> = (0..self.count()).filter(|&v| self.is_pinch(v)).collect();
        if pinches.is_empty() {
            return;
        }
        let others = self.bad_mends();
        let neighbourhood = self.random.pick(&NEIGHBOURHOODS);
        let [p, q] = [(); 2].map(|()| self.random.pick(&pinches) as u64);
        let (off, refused) = (self.bad_end(), self.bad_neighbourhood());
        let jobs = [
            request(neighbourhood, p, 0),
            request(neighbourhood, 0, p),
            request(neighbourhood, p, p),
            request(neighbourhood, p, q),
            request(neighbourhood, p, off),
            request(refused, 0, p),
        ];
        for job in jobs {
            for lengths in [Both::good(self.count()), self.random.pick(&others)] {
                self.mend_record(job, lengths, &[]);
            }
        }
    }

    /// Lengths of which one is off by one, or that are those of other slices.
    fn bad_mends(&self) -> Vec<Both> {
        let count = self.count();
        let good = Both::good(count);
        let mut all = vec![
            Both { old: [0; 6], second: [0; 7] },
            Both { old: [0; 6], ..good },
            Both { second: [count; 7], ..good },
            Both { old: [4 * count; 6], second: [4 * count; 7] },
        ];
        for slice in 0..6 {
            for length in [count - 1, count + 1] {
                let (mut old, mut second) = (good, good);
                old.old[slice] = length;
                second.second[slice] = length;
                all.extend([old, second]);
            }
        }
        for length in [4 * count - 1, 4 * count + 1] {
            let mut work = good;
            work.second[6] = length;
            all.push(work);
        }
        all.into_iter().map(Both::with_room).filter(|&lengths| lengths != good).collect()
    }
}

/// Changes to a sheet.
impl Maker {
    fn any_place(&mut self) -> usize {
        let any = self.random.index(self.count());
        self.random.pick(&[0, self.count() - 1, any, any])
    }

    /// The lowest bit, the highest, or any, of a number of the slice.
    fn turned_bit(&mut self, sheet: &Sheet, slice: usize) -> Damage {
        let place = self.any_place();
        let any = self.random.below(WIDTHS[slice]);
        let bit = self.random.pick(&[0, WIDTHS[slice] - 1, any]);
        Damage { slice, place, value: value_at(sheet, slice, place) ^ 1 << bit }
    }

    /// Two to four places of one slice, one beside the other.
    fn places_of_a_slice(&mut self, sheet: &Sheet) -> Vec<Damage> {
        let (slice, first) = (self.random.index(6), self.random.index(self.count()));
        let number = self.random.within(2, 4) as usize;
        let places = (first..first + number).map(|place| place % self.count());
        let next = |place: usize| value_at(sheet, slice, place).wrapping_add(1) & (u64::MAX >> (64 - WIDTHS[slice]));
        places.map(|place| Damage { slice, place, value: next(place) }).collect()
    }

    /// One place of each of four slices.
    fn place_of_some_slices(&mut self, sheet: &Sheet) -> Vec<Damage> {
        let first = self.random.index(6);
        (first..first + 4).map(|slice| self.turned_bit(sheet, slice % 6)).collect()
    }

    /// A bit turned over and back again.
    fn put_back(&mut self, sheet: &Sheet) -> Vec<Damage> {
        let slice = self.random.index(6);
        let turned = self.turned_bit(sheet, slice);
        vec![turned, Damage { value: value_at(sheet, slice, turned.place), ..turned }]
    }

    fn mend_record(&mut self, job: Request, lengths: Both, damages: &[Damage]) {
        let seed = self.random.next() as u32;
        let mut words = vec![job.neighbourhood as u32, job.start as u32, job.goal as u32];
        let Both { old, second } = lengths.with_room();
        words.extend(second.map(|length| length as u32));
        words.push(seed);
        self.record(format::MEND, &words, mend::payload_of(old, damages));
    }
}
