//! A job, planned and checked.

use crate::lurfanzi::{self, Floor, Job, Plan, Refusal, Sheet, SheetMut, Verdict, UNREACHABLE};

/// A planned route: what the planner answers, the traversal count of each vertex, the vertices of the central route,
/// and the positions in it that are kept.
#[derive(Debug, PartialEq, Eq)]
pub struct Route {
    pub plan: Plan,
    pub counts: Vec<u64>,
    pub vertices: Vec<u16>,
    pub kept: Vec<u16>,
}

/// What comes of a job of good shape: a route; no route (7), with the vertices that can be reached from each end; or
/// too many cheapest routes (8), with the vertices that lie on one.
#[derive(Debug, PartialEq, Eq)]
pub enum Planned {
    Route(Route),
    NoRoute { from_start: Vec<bool>, from_end: Vec<bool> },
    TooMany { on_way: Vec<bool> },
}

/// Why there is nothing to draw: the planner refuses the job's shape, or a checker does not accept what came of it.
#[derive(Debug, PartialEq, Eq)]
pub enum Failure {
    Refused(Refusal),
    NotAccepted(String),
}

impl From<Refusal> for Failure {
    fn from(refusal: Refusal) -> Failure {
        Failure::Refused(refusal)
    }
}

/// How a list of vertices is thinned: the kept positions, and the rule in words.
pub struct Thinning {
    pub kept: fn(Floor, &[u16]) -> Result<Vec<u16>, Failure>,
    pub rule: &'static str,
}

/// The thinning of rule 9.4.
pub const FARTHEST: Thinning = Thinning { kept: thinned, rule: "by the thinning rule" };

/// The slices of a sheet.
struct Slices {
    d: Vec<u32>,
    e: Vec<u32>,
    f: Vec<u64>,
    back: Vec<u64>,
    route: Vec<u16>,
    next: Vec<u16>,
}

impl Slices {
    fn new(vertices: usize) -> Slices {
        Slices {
            d: vec![0; vertices],
            e: vec![0; vertices],
            f: vec![0; vertices],
            back: vec![0; vertices],
            route: vec![0; vertices],
            next: vec![0; vertices],
        }
    }

    /// Fills the sheet of a job. As in the program, the second operation is asked first: it judges both ends before
    /// the costs, which are all 0 and so not the true ones.
    fn plan(&mut self, floor: Floor, job: Job) -> Result<Plan, Refusal> {
        let mut work = vec![0; 4 * floor.vertices()];
        let Slices { d, e, f, back, route, next } = self;
        let mut sheet = SheetMut { e, f, back, route, next };
        match lurfanzi::finish(floor, job, d, &mut sheet, &mut work) {
            Err(Refusal::FalseCosts) => {
                lurfanzi::costs(floor, job.neighbourhood, job.a, d, &mut work)?;
                lurfanzi::finish(floor, job, d, &mut sheet, &mut work)
            }
            answer => answer,
        }
    }

    /// Asks the checker for a verdict on the sheet. Any other is an error: nothing is drawn that it does not accept.
    fn check(&self, floor: Floor, job: Job, points: usize, wanted: Verdict) -> Result<(), Failure> {
        let Slices { d, e, f, back, route, next } = self;
        match lurfanzi::check(floor, job, Sheet { d, e, f, back, route, next, points })? {
            verdict if verdict == wanted => Ok(()),
            _ => Err(Failure::NotAccepted("the checker does not accept the planner's sheet (9)".to_string())),
        }
    }
}

/// Plans a job, has its sheet checked, and thins its route.
pub fn planned(floor: Floor, job: Job, thinning: &Thinning) -> Result<Planned, Failure> {
    let mut sheet = Slices::new(floor.vertices());
    let answer = sheet.plan(floor, job);
    judged(floor, job, &sheet, answer, thinning)
}

/// What comes of a job for which a planner filled the sheet and gave the answer, once the checker accepts it.
fn judged(
    floor: Floor, job: Job, sheet: &Slices, answer: Result<Plan, Refusal>, thinning: &Thinning,
) -> Result<Planned, Failure> {
    match answer {
        Ok(plan) => {
            sheet.check(floor, job, plan.points, Verdict::Route)?;
            let counts = sheet.f.iter().zip(&sheet.back).map(|(f, back)| f * back).collect();
            let vertices = sheet.route[..plan.points].to_vec();
            let kept = (thinning.kept)(floor, &vertices)?;
            Ok(Planned::Route(Route { plan, counts, vertices, kept }))
        }
        Err(Refusal::NoRoute) => {
            sheet.check(floor, job, 0, Verdict::NoRoute)?;
            let from_start = reached(&sheet.d);
            Ok(Planned::NoRoute { from_start, from_end: reached_from(floor, job.neighbourhood, job.b)? })
        }
        Err(Refusal::TooMany) => Ok(Planned::TooMany { on_way: on_way(&sheet.d, &sheet.e, job) }),
        Err(refusal) => Err(Failure::Refused(refusal)),
    }
}

/// The positions that thinning keeps (rule 9.4): from each the last one before the first that is not seen from it.
fn thinned(floor: Floor, list: &[u16]) -> Result<Vec<u16>, Failure> {
    let mut kept = vec![0; list.len()];
    let count = lurfanzi::thin(floor, list, &mut kept, list.len())?;
    kept.truncate(count);
    Ok(kept)
}

/// Whether each vertex is reached at some cost.
fn reached(costs: &[u32]) -> Vec<bool> {
    costs.iter().map(|&cost| cost != UNREACHABLE).collect()
}

/// The vertices that can be reached from one of them.
fn reached_from(floor: Floor, neighbourhood: u32, vertex: u32) -> Result<Vec<bool>, Refusal> {
    let (mut costs, mut work) = (vec![0; floor.vertices()], vec![0; 4 * floor.vertices()]);
    lurfanzi::costs(floor, neighbourhood, vertex, &mut costs, &mut work)?;
    Ok(reached(&costs))
}

/// Whether each vertex lies on a cheapest route, by the costs from the start and to the end.
fn on_way(d: &[u32], e: &[u32], job: Job) -> Vec<bool> {
    let least = u64::from(d[job.b as usize]);
    d.iter().zip(e).map(|(&d, &e)| u64::from(d) + u64::from(e) == least).collect()
}

#[cfg(test)]
mod tests {
    use super::*;
    use crate::working_floor::tests::floor_of;

    const JOB: Job = Job { neighbourhood: 8, a: 0, b: 11 };

    #[test]
    fn a_route() {
        let floor = floor_of(&["...", ".#."], &[]);
        let Ok(Planned::Route(route)) = planned(floor.floor(), JOB, &FARTHEST) else { panic!("no route") };
        assert_eq!((route.plan.total, route.vertices.as_slice()), (2, [0, 1, 6, 11].as_slice()));
        assert_eq!(route.counts, [2, 1, 0, 0, 0, 1, 2, 0, 0, 0, 0, 2]);
        assert_eq!(route.kept, [0, 2, 3]);
    }

    #[test]
    fn no_route() {
        let floor = floor_of(&[".#.", ".#."], &[]);
        let rows = |cells: [[u8; 4]; 3]| cells.concat().iter().map(|&cell| cell == 1).collect::<Vec<bool>>();
        let wanted = Planned::NoRoute {
            from_start: rows([[1, 1, 0, 0]; 3]),
            from_end: rows([[0, 0, 1, 1]; 3]),
        };
        assert_eq!(planned(floor.floor(), JOB, &FARTHEST), Ok(wanted));
    }

    #[test]
    fn too_many_routes() {
        let rows = vec![".".repeat(35); 35];
        let rows: Vec<&str> = rows.iter().map(String::as_str).collect();
        let floor = floor_of(&rows, &[]);
        let job = Job { neighbourhood: 4, a: 0, b: 36 * 36 - 1 };
        assert_eq!(planned(floor.floor(), job, &FARTHEST), Ok(Planned::TooMany { on_way: vec![true; 36 * 36] }));
        let along = Job { b: 35 * 36, ..job };
        assert!(matches!(planned(floor.floor(), along, &FARTHEST), Ok(Planned::Route(_))));
    }

    #[test]
    fn refusals_of_shape() {
        let floor = floor_of(&["#.", ".#"], &[]);
        let job = Job { neighbourhood: 8, a: 2, b: 6 };
        let refused = |job, refusal| {
            assert_eq!(planned(floor.floor(), job, &FARTHEST), Err(Failure::Refused(refusal)));
        };
        refused(Job { neighbourhood: 12, a: 4, b: 9 }, Refusal::BadNeighbourhood);
        refused(Job { a: 4, b: 9, ..job }, Refusal::BadEnd);
        refused(Job { b: 4, ..job }, Refusal::PinchedEnd);
    }

    /// A sheet with another number at any place is not drawn, nor a route of another length, nor a route where there
    /// is none.
    #[test]
    fn false_sheets() {
        let floor = floor_of(&["...", ".#."], &[]);
        let mut sheet = Slices::new(12);
        let plan = sheet.plan(floor.floor(), JOB).expect("a route");
        let judge = |sheet: &Slices, answer| judged(floor.floor(), JOB, sheet, answer, &FARTHEST);
        let not_accepted = |sheet: &Slices, answer| matches!(judge(sheet, answer), Err(Failure::NotAccepted(_)));
        assert!(judge(&sheet, Ok(plan)).is_ok());
        assert!(not_accepted(&sheet, Ok(Plan { points: plan.points - 1, ..plan })));
        assert!(not_accepted(&sheet, Err(Refusal::NoRoute)));
        assert!(not_accepted(&Slices::new(12), Err(Refusal::NoRoute)));
        for place in 0..12 {
            sheet.back[place] ^= 1;
            assert!(not_accepted(&sheet, Ok(plan)));
            sheet.back[place] ^= 1;
        }
        sheet.next.pop();
        assert_eq!(judge(&sheet, Ok(plan)), Err(Failure::Refused(Refusal::BadSliceLength)));
    }
}
