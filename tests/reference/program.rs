//! The program: a stream of records in, lines of text out.

use crate::floor::Floor;
use crate::sheet::{self, Lent, Request, Sheet, Solver};
use crate::thin;

const MAP_MARK: [u8; 2] = [0x4D, 0x50];
const JOB_MARK: [u8; 2] = [0x4A, 0x42];
const JOB_SIZE: usize = 7;
const MOST_JOBS: usize = 1000;
const LONGEST_SIDE: u8 = 31;

/// The map record at the start of the input, and its size in bytes.
fn read_map(input: &[u8]) -> Option<(Floor, usize)> {
    let body = input.strip_prefix(&MAP_MARK)?;
    let (&width, &height) = (body.first()?, body.get(1)?);
    if width > LONGEST_SIDE || height > LONGEST_SIDE {
        return None;
    }
    let size = usize::from(width) * usize::from(height);
    let cells = body.get(2..2 + size)?.to_vec();
    let floor = Floor::new(width.into(), height.into(), cells);
    floor.shape_fault().is_none().then_some((floor, 4 + size))
}

/// The job record at the start of the input.
fn read_job(input: &[u8]) -> Option<Request> {
    let record = input.get(..JOB_SIZE)?;
    let body = record.strip_prefix(&JOB_MARK)?;
    let number = |at: usize| u64::from(u16::from_le_bytes([body[at], body[at + 1]]));
    Some(Request { neighbourhood: body[0].into(), start: number(1), goal: number(3) })
}

/// The lines of one job.
fn job_lines(solver: &mut Solver, number: usize, request: Request) -> String {
    let size = solver.floor.vertex_count();
    let mut s = Sheet::zeros(size);
    let mut work = vec![0; 4 * size];
    sheet::costs(solver, request.neighbourhood, request.start, &mut s.d, &mut work);
    let Sheet { d, e, f, b, route, next, .. } = &mut s;
    let lent = Lent { e, f, b, route, next, work: &mut work };
    let answer = sheet::finish(solver, request, d, lent);
    if answer.answer != 0 {
        return format!("job {number}: refused {}\n", answer.answer);
    }
    let list = &s.route[..answer.n as usize];
    let kept = thin::kept_positions(&solver.floor, list);
    let names: Vec<String> = kept.iter().map(|&position| list[position].to_string()).collect();
    let (cost, total, points) = (answer.cost, answer.total, answer.n);
    let first = format!("job {number}: cost {cost} routes {total} points {points} kept {}", kept.len());
    format!("{first}\nat {}\n", names.join(" "))
}

/// What stands in an input: the map's floor, the jobs, and the place of the bad record that ends it.
pub struct Input {
    pub floor: Option<Floor>,
    pub jobs: Vec<Request>,
    pub bad: Option<usize>,
}

/// Reads an input up to its end or to a bad record.
pub fn read(input: &[u8]) -> Input {
    let Some((floor, map_size)) = read_map(input) else { return Input { floor: None, jobs: Vec::new(), bad: Some(0) } };
    let mut read = Input { floor: Some(floor), jobs: Vec::new(), bad: None };
    let mut at = map_size;
    while at < input.len() {
        let Some(request) = read_job(&input[at..]).filter(|_| read.jobs.len() < MOST_JOBS) else {
            read.bad = Some(at);
            break;
        };
        read.jobs.push(request);
        at += JOB_SIZE;
    }
    read
}

/// Everything the program writes for an input.
pub fn run(input: &[u8]) -> String {
    let Input { floor, jobs, bad } = read(input);
    let mut text = String::new();
    if let Some(floor) = floor {
        let mut solver = Solver::new(floor);
        text.extend((1..).zip(jobs).map(|(number, request)| job_lines(&mut solver, number, request)));
    }
    text.extend(bad.map(|at| format!("bad record at {at}\n")));
    text
}
