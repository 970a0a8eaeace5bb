//! The call that mends a sheet, by the signature of include/lurfanzi.h, and the record of a stream that asks for it.

use crate::lurfanzi::{Floor, Job};
use crate::{changes_in, digest, number, patterned, Driver, Record, Slices};

/// The number, n, and at how many places each slice differs.
#[repr(C)]
struct MendResult {
    n: usize,
    d: usize,
    e: usize,
    f: usize,
    back: usize,
    route: usize,
    next: usize,
    answer: u8,
}

extern "C" {
    fn lurfanzi_mend(
        width: u32, height: u32, map: *const u8, map_length: usize, neighbourhood: u32, a: u32, b: u32,
        old_d: *const u32, old_d_length: usize, old_e: *const u32, old_e_length: usize,
        old_f: *const u64, old_f_length: usize, old_back: *const u64, old_back_length: usize,
        old_route: *const u16, old_route_length: usize, old_next: *const u16, old_next_length: usize,
        d: *mut u32, d_length: usize, e: *mut u32, e_length: usize,
        f: *mut u64, f_length: usize, back: *mut u64, back_length: usize,
        route: *mut u16, route_length: usize, next: *mut u16, next_length: usize, work: *mut u32, work_length: usize,
    ) -> MendResult;
}

/// Writes the true sheet into the second set, each slice of either set whole.
fn mend(floor: Floor, job: Job, old: &Slices, second: &mut Slices, work: &mut [u32]) -> MendResult {
    // SAFETY: the header asks that a slice's pointer be valid for its length, aligned, and that no written slice
    // overlap another slice of the call. Each pointer and length are those of one slice: the map and those handed in
    // are shared, the second set and the working slice exclusive, and the borrows last as long as the call.
    unsafe {
        lurfanzi_mend(
            floor.width, floor.height, floor.map.as_ptr(), floor.map.len(), job.neighbourhood, job.a, job.b,
            old.d.as_ptr(), old.d.len(), old.e.as_ptr(), old.e.len(),
            old.f.as_ptr(), old.f.len(), old.back.as_ptr(), old.back.len(),
            old.route.as_ptr(), old.route.len(), old.next.as_ptr(), old.next.len(),
            second.d.as_mut_ptr(), second.d.len(), second.e.as_mut_ptr(), second.e.len(),
            second.f.as_mut_ptr(), second.f.len(), second.back.as_mut_ptr(), second.back.len(),
            second.route.as_mut_ptr(), second.route.len(), second.next.as_mut_ptr(), second.next.len(),
            work.as_mut_ptr(), work.len(),
        )
    }
}

impl Slices {
    /// Slices of these lengths that hold the pattern of a seed.
    fn patterned([d, e, f, back, route, next]: [usize; 6], seed: u32) -> Slices {
        let costs = |length: usize| patterned(&mut vec![0; length], length, seed).to_vec();
        let counts = |length: usize| patterned(&mut vec![0; length], length, seed).to_vec();
        let points = |length: usize| patterned(&mut vec![0; length], length, seed).to_vec();
        let (d, e, f, back) = (costs(d), costs(e), counts(f), counts(back));
        Slices { d, e, f, back, route: points(route), next: points(next) }
    }

    fn truncate(&mut self, [d, e, f, back, route, next]: [usize; 6]) {
        self.d.truncate(d);
        self.e.truncate(e);
        self.f.truncate(f);
        self.back.truncate(back);
        self.route.truncate(route);
        self.next.truncate(next);
    }
}

impl Driver {
    /// The sheet handed in is a copy with the changes made, so that nothing has to be put back.
    pub fn mend(&self, record: &Record) -> String {
        let (front, changes) = record.payload.split_at(24);
        let mut old = self.slices.clone();
        changes_in(changes).for_each(|(slice, place, value)| old.change(slice, place, value));
        old.truncate([0, 1, 2, 3, 4, 5].map(|slice| number(&front[4 * slice..][..4]) as usize));
        let mut second = Slices::patterned([3, 4, 5, 6, 7, 8].map(|k| record.length(k)), record.word(10));
        let mut work = vec![0; record.length(9)];
        patterned(&mut work, record.length(9), record.word(10));
        let told = mend(self.ground.floor(), record.job(), &old, &mut second, &mut work);
        let counts = [told.d, told.e, told.f, told.back, told.route, told.next];
        let counts = counts.map(|count| count.to_string()).join(" ");
        let (d, e, f) = (digest(&second.d), digest(&second.e), digest(&second.f));
        let (back, route, next) = (digest(&second.back), digest(&second.route), digest(&second.next));
        let digests = format!("{d} {e} {f} {back} {route} {next} {}", digest(&work));
        format!("mend {} {} {counts} {digests}", told.answer, told.n)
    }
}
