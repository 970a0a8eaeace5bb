//! Record streams for a test of the program.

use crate::floor::Floor;
use crate::graph::NEIGHBOURHOODS;
use crate::random::Random;

/// Halls of the long stream's floor, in rows; the last is walled off.
const HALLS: [u64; 6] = [6, 5, 4, 3, 2, 6];
const SIDE: u64 = 31;
const GAP: u64 = 3;

pub fn map_record(floor: &Floor) -> Vec<u8> {
    let mut bytes = vec![0x4D, 0x50, floor.width as u8, floor.height as u8];
    bytes.extend(&floor.cells);
    bytes
}

pub fn job_record(neighbourhood: u8, start: u64, goal: u64) -> Vec<u8> {
    let mut bytes = vec![0x4A, 0x42, neighbourhood];
    bytes.extend((start as u16).to_le_bytes());
    bytes.extend((goal as u16).to_le_bytes());
    bytes
}

/// The walls between the halls, as rows: 6, 12, 17, 21 and 24.
fn wall_rows() -> Vec<u64> {
    let mut rows = Vec::new();
    let mut next = 0;
    for hall in HALLS {
        next += hall;
        rows.push(next);
        next += 1;
    }
    rows.pop();
    rows
}

/// Halls one above the other, joined at alternate ends by gaps in the walls.
pub fn halls_floor() -> Floor {
    let mut floor = Floor::open(SIDE, SIDE);
    let rows = wall_rows();
    for (k, &row) in rows.iter().enumerate() {
        for i in 0..SIDE {
            let gap = if k % 2 == 0 { i + GAP >= SIDE } else { i < GAP };
            let sealed = k + 1 == rows.len();
            floor.cells[(row * SIDE + i) as usize] = u8::from(sealed || !gap);
        }
    }
    floor
}

/// The k-th job: good ones with refusals 4, 5, 7 and 8 in between.
fn halls_job(random: &mut Random, k: u64) -> Vec<u8> {
    let count = (SIDE + 1) * (SIDE + 1);
    let first_sealed = (wall_rows()[4] + 1) * (SIDE + 1);
    let neighbourhood = random.pick(&NEIGHBOURHOODS) as u8;
    let inside = random.below(first_sealed);
    let sealed = random.within(first_sealed, count - 1);
    match k % 13 {
        2 => job_record(random.pick(&[0, 1, 2, 3, 5, 7, 9, 12, 15, 17, 24, 32, 255]), inside, sealed),
        4 => job_record(neighbourhood, random.pick(&[count, count + 1, 65_535]), inside),
        5 => job_record(neighbourhood, inside, random.pick(&[count, count + 256, 32_768])),
        7 => job_record(neighbourhood, inside, sealed),
        8 => job_record(neighbourhood, sealed, inside),
        9 => job_record(4, random.below(4), first_sealed - 32 - random.below(4)),
        11 => job_record(neighbourhood, sealed, random.within(first_sealed, count - 1)),
        12 => job_record(neighbourhood, inside, inside),
        _ => job_record(neighbourhood, inside, random.below(first_sealed)),
    }
}

/// A map, 1,000 jobs, and one job more.
pub fn long_stream() -> Vec<u8> {
    let mut random = Random::new(31);
    let mut bytes = map_record(&halls_floor());
    for k in 0..1001 {
        bytes.extend(halls_job(&mut random, k));
    }
    bytes
}

/// Short streams, most of them with a bad record.
pub fn short_streams() -> Vec<Vec<u8>> {
    let map = map_record(&Floor::open(1, 1));
    let job = job_record(4, 0, 3);
    let joined = |parts: &[&[u8]]| parts.concat();
    // Vertex 4 is a pinch, and the floor has 9.
    let pinched = map_record(&Floor::new(2, 2, vec![1, 0, 0, 1]));
    let pinched_jobs = [(8, 2, 6), (8, 2, 4), (8, 4, 2), (4, 4, 4), (8, 4, 9), (8, 9, 4), (5, 4, 9), (8, 2, 5)];
    let pinched_jobs = pinched_jobs.map(|(neighbourhood, start, goal)| job_record(neighbourhood, start, goal)).concat();
    // From one start with one neighbourhood after the other: the costs of the job before are true, or false.
    let in_turn = |goal: u64| [4, 8, 16, 16, 8, 4, 16, 4].map(|number| job_record(number, 0, goal)).concat();
    let others = [12, 15, 16, 17, 24, 32].map(|number| job_record(number, 0, 5)).concat();
    vec![
        joined(&[&map, &job]),
        Vec::new(),
        map.clone(),
        map[..4].to_vec(),
        vec![0x4D],
        joined(&[&map, &job, &job[..6]]),
        joined(&[&map, &job, &map]),
        joined(&[&job, &map]),
        joined(&[&map, &job, &[0x4A]]),
        joined(&[&map, &job, &[0x4A, 0x4A, 4, 0, 0, 3, 0], &job]),
        vec![0x4D, 0x50, 0, 1],
        vec![0x4D, 0x50, 1, 1, 2],
        map_record(&Floor::open(32, 1)),
        map_record(&Floor::open(1, 32)),
        joined(&[&map_record(&Floor::open(31, 31)), &job_record(8, 0, 1023), &job_record(4, 0, 1024)]),
        joined(&[&map, &job_record(3, 9, 9), &job_record(8, 4, 0), &job_record(8, 0, 4), &job_record(8, 2, 2)]),
        joined(&[&pinched, &pinched_jobs]),
        joined(&[&map_record(&Floor::open(2, 1)), &job_record(16, 0, 5)]),
        joined(&[&map_record(&Floor::open(2, 1)), &in_turn(5), &others]),
        joined(&[&map_record(&Floor::new(1, 1, vec![1])), &in_turn(3), &in_turn(0)]),
        joined(&[&map_record(&Floor::with_blocked(4, 2, &[2, 5])), &job_record(16, 0, 14), &job_record(16, 0, 7)]),
    ]
}
