//! The programs, and one operation of one program on one job.

use crate::floors::{Case, Kind};
use crate::lurfanzi::{self, CostChangesMut, Floor, Job, Mended, Plan, Refusal, Replay, Sheet, SheetMut, Verdict};
use crate::{buckets, textbook, tuned, tuned_check, tuned_sight};
use std::hint::black_box;

/// A program: the operations of the header, and a whole plan, by which d is filled too.
#[derive(Clone, Copy)]
pub struct Program {
    pub name: &'static str,
    pub plan: fn(Floor, Job, &mut [u32], &mut SheetMut, &mut [u32]) -> Result<Plan, Refusal>,
    pub costs: fn(Floor, u32, u32, &mut [u32], &mut [u32]) -> Result<(), Refusal>,
    pub finish: fn(Floor, Job, &[u32], &mut SheetMut, &mut [u32]) -> Result<Plan, Refusal>,
    pub check: fn(Floor, Job, Sheet) -> Result<Verdict, Refusal>,
    pub thin: fn(Floor, &[u16], &mut [u16], usize) -> Result<usize, Refusal>,
    pub sight: fn(Floor, u32, u32) -> Result<bool, Refusal>,
}

impl Program {
    /// Whether it has an operation with a neighbourhood. It is asked on a floor of one open cell: refusal 4 says no.
    pub fn has(&self, operation: Operation, neighbourhood: u32) -> bool {
        if operation.is_of_library_alone() && self.name != LIBRARY.name {
            return false;
        }
        let floor = Floor { width: 1, height: 1, map: &[0] };
        let job = Job { neighbourhood, a: 0, b: 0 };
        let mut slices = Slices::new(floor.vertices(), 0);
        let answer = match operation {
            operation if operation.is_of_planner() => slices.costs(self, floor, job),
            Operation::Check => (self.check)(floor, job, slices.sheet(0)).map(|_| ()),
            Operation::Replay => slices.replay(floor, job, &[]).map(|_| ()),
            Operation::CostChanges => slices.cost_changes(floor, floor, job, &mut [0; 4]),
            Operation::Mend => slices.mend(floor, job, Slices::new(floor.vertices(), 0).sheet(0)).map(|_| ()),
            _ => Ok(()),
        };
        answer != Err(Refusal::BadNeighbourhood)
    }
}

/// A lone job by the library: its two operations.
fn plan(floor: Floor, job: Job, d: &mut [u32], sheet: &mut SheetMut, work: &mut [u32]) -> Result<Plan, Refusal> {
    lurfanzi::costs(floor, job.neighbourhood, job.a, d, work)?;
    lurfanzi::finish(floor, job, d, sheet, work)
}

pub const LIBRARY: Program = Program {
    name: "library",
    plan,
    costs: lurfanzi::costs,
    finish: lurfanzi::finish,
    check: lurfanzi::check,
    thin: lurfanzi::thin,
    sight: lurfanzi::sight,
};

pub const TEXTBOOK: Program = Program {
    name: "textbook",
    plan: textbook::plan,
    costs: textbook::costs,
    finish: textbook::finish,
    check: textbook::check,
    thin: textbook::thin,
    sight: textbook::sight,
};

pub const TUNED: Program = Program {
    name: "tuned",
    plan: tuned::plan,
    costs: tuned::costs,
    finish: tuned::finish,
    check: tuned_check::check,
    thin: tuned_sight::thin,
    sight: tuned_sight::sight,
};

/// A planner of its own; the rest is the tuned program's.
pub const BUCKETS: Program =
    Program { name: "bucket queue", plan: buckets::plan, costs: buckets::costs, finish: buckets::finish, ..TUNED };

pub const PROGRAMS: [Program; 4] = [LIBRARY, TEXTBOOK, TUNED, BUCKETS];

#[derive(Clone, Copy, Debug, PartialEq, Eq)]
pub enum Operation {
    /// A lone job.
    Plan,
    Costs,
    /// A job from given costs.
    Finish,
    /// A job from given costs of which that of the last vertex is false: it is refused after all are tested.
    FalseCosts,
    /// The costs from one dock, and forty jobs from them.
    FortyJobs,
    Check,
    Thin,
    /// The log of the central route.
    Replay,
    /// The costs on the floor and on the one after a change.
    CostChanges,
    /// A sheet with a damaged place in each slice.
    Mend,
    ShortSight,
    LongSight,
    /// One row and a whole side of columns.
    FlatSight,
    /// One column and a whole side of rows.
    SteepSight,
    /// Along a row line inside the floor, from side to side.
    RowLineSight,
    /// Along a column line inside the floor, from side to side.
    ColumnLineSight,
    /// Along a diagonal, at least half the side.
    DiagonalSight,
}

pub const OPERATIONS: [Operation; 17] = [
    Operation::Plan,
    Operation::Costs,
    Operation::Finish,
    Operation::FalseCosts,
    Operation::FortyJobs,
    Operation::Check,
    Operation::Thin,
    Operation::Replay,
    Operation::CostChanges,
    Operation::Mend,
    Operation::ShortSight,
    Operation::LongSight,
    Operation::FlatSight,
    Operation::SteepSight,
    Operation::RowLineSight,
    Operation::ColumnLineSight,
    Operation::DiagonalSight,
];

const SIGHTS: [Operation; 7] = [
    Operation::ShortSight,
    Operation::LongSight,
    Operation::FlatSight,
    Operation::SteepSight,
    Operation::RowLineSight,
    Operation::ColumnLineSight,
    Operation::DiagonalSight,
];

impl Operation {
    pub fn name(self) -> &'static str {
        match self {
            Operation::Plan => "plan",
            Operation::Costs => "costs",
            Operation::Finish => "finish",
            Operation::FalseCosts => "false-costs",
            Operation::FortyJobs => "forty-jobs",
            Operation::Check => "check",
            Operation::Thin => "thin",
            Operation::Replay => "replay",
            Operation::CostChanges => "cost-changes",
            Operation::Mend => "mend",
            Operation::ShortSight => "short-sight",
            Operation::LongSight => "long-sight",
            Operation::FlatSight => "flat-sight",
            Operation::SteepSight => "steep-sight",
            Operation::RowLineSight => "row-line-sight",
            Operation::ColumnLineSight => "column-line-sight",
            Operation::DiagonalSight => "diagonal-sight",
        }
    }

    /// Whether it is one of the planner, of which every program has its own.
    fn is_of_planner(self) -> bool {
        use Operation::*;
        matches!(self, Plan | Costs | Finish | FalseCosts | FortyJobs)
    }

    /// Whether the library alone has it. It is measured beside other operations of the library.
    pub fn is_of_library_alone(self) -> bool {
        matches!(self, Operation::Replay | Operation::CostChanges | Operation::Mend)
    }

    /// The programs to measure: those with an operation of their own.
    pub fn programs(self) -> &'static [Program] {
        match self {
            _ if self.is_of_planner() => &PROGRAMS,
            _ if self.is_of_library_alone() => &PROGRAMS[..1],
            _ => &PROGRAMS[..3],
        }
    }

    /// Which segments it asks about; none where it is no sight question.
    fn segments(self) -> Option<usize> {
        SIGHTS.iter().position(|&sight| sight == self)
    }

    /// Whether the neighbourhood matters to it.
    pub fn has_neighbourhood(self) -> bool {
        self.segments().is_none()
    }

    /// Whether it is measured on a kind of floor: long segments of a shape of their own are clear on the open one.
    pub fn is_on(self, kind: Kind) -> bool {
        kind == Kind::Open || !SIGHTS[2..].contains(&self)
    }
}

/// The slices that a planner is lent.
#[derive(Clone, PartialEq, Eq)]
pub struct Slices {
    pub d: Vec<u32>,
    pub e: Vec<u32>,
    pub f: Vec<u64>,
    pub back: Vec<u64>,
    pub route: Vec<u16>,
    pub next: Vec<u16>,
    pub work: Vec<u32>,
}

impl Slices {
    pub fn new(vertices: usize, fill: u8) -> Slices {
        let (narrow, wide) = (u32::from_ne_bytes([fill; 4]), u64::from_ne_bytes([fill; 8]));
        let point = u16::from_ne_bytes([fill; 2]);
        Slices {
            d: vec![narrow; vertices],
            e: vec![narrow; vertices],
            f: vec![wide; vertices],
            back: vec![wide; vertices],
            route: vec![point; vertices],
            next: vec![point; vertices],
            work: vec![narrow; 4 * vertices],
        }
    }

    pub fn plan(&mut self, program: &Program, floor: Floor, job: Job) -> Result<Plan, Refusal> {
        let Slices { d, e, f, back, route, next, work } = self;
        (program.plan)(floor, job, d, &mut SheetMut { e, f, back, route, next }, work)
    }

    pub fn costs(&mut self, program: &Program, floor: Floor, job: Job) -> Result<(), Refusal> {
        (program.costs)(floor, job.neighbourhood, job.a, &mut self.d, &mut self.work)
    }

    /// Finishes a job from the costs in d.
    pub fn finish(&mut self, program: &Program, floor: Floor, job: Job) -> Result<Plan, Refusal> {
        let Slices { d, e, f, back, route, next, work } = self;
        (program.finish)(floor, job, d, &mut SheetMut { e, f, back, route, next }, work)
    }

    /// Replays a log by the library, with d for the costs.
    pub fn replay(&mut self, floor: Floor, job: Job, log: &[u8]) -> Result<Replay, Refusal> {
        lurfanzi::replay(floor, job.neighbourhood, log, &mut self.d, &mut self.work)
    }

    /// Compares the costs on two floors by the library, with d and e for the costs.
    pub fn cost_changes(&mut self, floor: Floor, after: Floor, job: Job, changes: &mut [u8]) -> Result<(), Refusal> {
        let mut to = CostChangesMut { costs: &mut self.d, after_costs: &mut self.e, changes };
        lurfanzi::cost_changes(floor, after, job.neighbourhood, job.a, &mut to, &mut self.work)
    }

    /// Mends a sheet into these by the library.
    pub fn mend(&mut self, floor: Floor, job: Job, damaged: Sheet) -> Result<Mended, Refusal> {
        let Slices { d, e, f, back, route, next, work } = self;
        lurfanzi::mend(floor, job, damaged, d, &mut SheetMut { e, f, back, route, next }, work)
    }

    pub fn sheet(&self, points: usize) -> Sheet<'_> {
        let Slices { d, e, f, back, route, next, .. } = self;
        Sheet { d, e, f, back, route, next, points }
    }
}

/// A job, the floor after a change, the job's true sheet and a damaged one, the log of its route, the other ends of
/// forty jobs from its start, and memory for the operations. The memory is not cleared between runs; `given` has the
/// true costs in d, and `falsely_given` costs of which the last is false.
pub struct Bench<'a> {
    pub case: &'a Case,
    after: Case,
    pub truth: Slices,
    damaged: Slices,
    pub points: usize,
    log: Vec<u8>,
    ends: Vec<u32>,
    given: Slices,
    falsely_given: Slices,
    segments: [Vec<(u32, u32)>; 7],
    slices: Slices,
    out: Vec<u16>,
    changes: Vec<u8>,
}

/// Flips a bit in the middle of each slice of a sheet.
fn damage(sheet: &mut Slices) {
    let middle = sheet.d.len() / 2;
    sheet.d[middle] ^= 1;
    sheet.e[middle] ^= 1;
    sheet.f[middle] ^= 1;
    sheet.back[middle] ^= 1;
    sheet.route[middle] ^= 1;
    sheet.next[middle] ^= 1;
}

impl<'a> Bench<'a> {
    pub fn new(case: &'a Case) -> Bench<'a> {
        let vertices = case.floor().vertices();
        let mut truth = Slices::new(vertices, 0);
        let points = truth.plan(&TEXTBOOK, case.floor(), case.job).map_or(0, |plan| plan.points);
        // A log has at most 4,096 records: of a longer route it has the first ones.
        let log = lurfanzi::log_of(&truth.route[..points.min(4096)]);
        let given = Slices { d: truth.d.clone(), ..Slices::new(vertices, 0xFF) };
        let [short, long] = [false, true].map(|long| case.segments(long));
        let [flat, steep] = [false, true].map(|steep| case.narrow_segments(steep));
        let [row, column] = [false, true].map(|upright| case.line_segments(upright));
        let segments = [short, long, flat, steep, row, column, case.diagonal_segments()];
        let ends = case.forty_ends();
        let (slices, out, changes) = (Slices::new(vertices, 0xFF), vec![0xFFFF; vertices], vec![0xFF; vertices]);
        let after = case.without_route();
        let (mut damaged, mut falsely_given) = (truth.clone(), given.clone());
        damage(&mut damaged);
        falsely_given.d[vertices - 1] ^= 1;
        Bench {
            case, after, truth, damaged, points, log, ends, given, falsely_given, segments, slices, out, changes,
        }
    }

    /// How many operations a run has.
    pub fn count(&self, operation: Operation) -> usize {
        operation.segments().map_or(1, |k| self.segments[k].len())
    }

    pub fn run(&mut self, program: &Program, operation: Operation) {
        let (floor, job) = black_box((self.case.floor(), self.case.job));
        match operation {
            Operation::Plan => {
                _ = black_box(self.slices.plan(program, floor, job));
                black_box(&self.slices.route);
            }
            Operation::Costs => {
                _ = black_box(self.slices.costs(program, floor, job));
                black_box(&self.slices.d);
            }
            Operation::Finish => {
                _ = black_box(self.given.finish(program, floor, job));
                black_box(&self.given.route);
            }
            Operation::FalseCosts => _ = black_box(self.falsely_given.finish(program, floor, job)),
            Operation::FortyJobs => {
                _ = black_box(self.slices.costs(program, floor, job));
                for &b in &self.ends {
                    _ = black_box(self.slices.finish(program, floor, Job { b, ..job }));
                    black_box(&self.slices.route);
                }
            }
            Operation::Check => _ = black_box((program.check)(floor, job, self.truth.sheet(self.points))),
            Operation::Thin => {
                _ = black_box((program.thin)(floor, &self.truth.route, &mut self.out, self.points));
                black_box(&self.out);
            }
            Operation::Replay => {
                _ = black_box(self.slices.replay(floor, job, &self.log));
                black_box(&self.slices.d);
            }
            Operation::CostChanges => {
                _ = black_box(self.slices.cost_changes(floor, self.after.floor(), job, &mut self.changes));
                black_box(&self.changes);
            }
            Operation::Mend => {
                _ = black_box(self.slices.mend(floor, job, self.damaged.sheet(0)));
                black_box(&self.slices.route);
            }
            _ => {
                for &(a, b) in operation.segments().iter().flat_map(|&k| &self.segments[k]) {
                    _ = black_box((program.sight)(floor, a, b));
                }
            }
        }
    }
}
