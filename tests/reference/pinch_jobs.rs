//! The part of a job stream about pinches: ends on them, segments and lists through them.

use crate::format;
use crate::jobs::{good_lengths, Maker};
use crate::sheet::{Request, Truth};
use crate::sight;

/// Vertices above this make a sheet too large for a load record.
const LOADED: usize = 585;

impl Maker {
    pub fn pinch_operations(&mut self) {
        let pinches: Vec<usize> = (0..self.count()).filter(|&v| self.is_pinch(v)).collect();
        if pinches.is_empty() {
            return;
        }
        self.use_corners();
        let large = self.is_large();
        self.pinched_jobs(&pinches);
        self.pinched_pairs(&pinches, if large { 24 } else { 48 });
        for _ in 0..if large { 4 } else { 8 } {
            self.pinched_lists(&pinches);
        }
        self.use_corners();
    }

    /// Jobs with an end on a pinch: from true costs and from any, alone and beside 4, 5 and 6.
    fn pinched_jobs(&mut self, pinches: &[usize]) {
        let good = good_lengths(self.count());
        let request = self.any_request();
        let [p, q] = [(); 2].map(|()| self.random.pick(pinches) as u64);
        let off = self.bad_end();
        let neighbourhood = self.random.pick(&[5, 12, 17]);
        let at_goal = Request { goal: p, ..request };
        let jobs = [
            at_goal,
            Request { start: p, ..request },
            Request { start: p, goal: q, ..request },
            Request { start: p, goal: p, ..request },
            Request { start: p, goal: off, ..request },
            Request { start: off, goal: p, ..request },
            Request { neighbourhood, ..at_goal },
        ];
        for job in jobs {
            let other = self.bad_lengths(7);
            for lengths in [good, other] {
                self.plan_records(job, lengths);
                self.check_record(job, lengths, None, &[]);
            }
        }
        if self.count() <= LOADED {
            self.sheet_of_a_pinch(Request { start: p, goal: p, ..request });
        }
    }

    /// The sheet of a pinch as both ends, as it would be if a pinch could be an end.
    fn sheet_of_a_pinch(&mut self, request: Request) {
        let truth = self.solver.truth(request.neighbourhood, request.start as usize, request.goal as usize);
        let Truth::Route { sheet, .. } = &*truth else { return };
        self.load_record(sheet);
        self.check_record(request, good_lengths(self.count()), None, &[]);
        self.finish_record(request, good_lengths(self.count()), sheet.d[0], &[]);
    }

    /// Two vertices with a pinch between them, or at an end; or the pinch twice.
    pub fn pair_through(&mut self, pinch: usize) -> (usize, usize) {
        let (x, y) = self.solver.floor.point(pinch);
        let [dx, dy] = [(); 2].map(|()| self.random.below(9) as i64 - 4);
        let [before, after] = [(); 2].map(|()| self.random.below(3) as i64);
        let at = |steps: i64| self.solver.floor.vertex(x + steps * dx, y + steps * dy).unwrap_or(pinch);
        (at(-before), at(after))
    }

    /// Each pair both ways, by both questions.
    fn pinched_pairs(&mut self, pinches: &[usize], number: usize) {
        let mut pairs = Vec::new();
        for _ in 0..number / 2 {
            let pinch = self.random.pick(pinches);
            let (from, to) = self.pair_through(pinch);
            pairs.extend([(from as u32, to as u32), (to as u32, from as u32)]);
        }
        self.pairs_record(format::SIGHT, &pairs);
        self.pairs_record(format::OBSTACLE, &pairs);
    }

    /// Lists that stay on a pinch, that go through one, and that go round it.
    fn pinched_lists(&mut self, pinches: &[usize]) {
        let pinch = self.random.pick(pinches);
        let (from, to) = self.pair_through(pinch);
        let times = self.random.within(1, 5) as usize;
        self.whole_list(&vec![pinch; times]);
        self.whole_list(&[from, to]);
        self.whole_list(&[from, from, pinch, pinch, to]);
        let tries: Vec<usize> = (0..20).map(|_| self.near(pinch)).collect();
        let floor = &self.solver.floor;
        let joins = |&via: &usize| sight::vertices_see(floor, from, via) && sight::vertices_see(floor, via, to);
        if let Some(via) = tries.into_iter().find(joins) {
            self.whole_list(&[from, via, to]);
            self.whole_list(&[from, via, to, via, from, from]);
        }
    }

    fn whole_list(&mut self, list: &[usize]) {
        let vertices: Vec<u16> = list.iter().map(|&v| v as u16).collect();
        self.list_record(&vertices, list.len(), list.len(), list.len() as u32);
    }
}
