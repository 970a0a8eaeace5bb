//! Record streams of any seed, for a test of the program.

use crate::floor::Floor;
use crate::graph::NEIGHBOURHOODS;
use crate::layouts::{self, KINDS};
use crate::random::Random;
use crate::sixteen::REFUSED;
use crate::{sight, stream};

/// A map and jobs, in half of the streams with one fault.
pub fn make(seed: u64) -> Vec<u8> {
    let mut random = Random::new(seed);
    let floor = any_floor(&mut random);
    let mut records = vec![stream::map_record(&floor)];
    let is_pinch = |&v: &usize| sight::is_pinch(&floor, floor.point(v));
    let pinches: Vec<usize> = (0..floor.vertex_count()).filter(is_pinch).collect();
    let mut start = 0;
    for _ in 0..job_count(&mut random) {
        records.push(any_job(&mut random, floor.vertex_count() as u64, &pinches, &mut start));
    }
    if random.percent(50) {
        return records.concat();
    }
    spoil(&mut random, records)
}

fn any_floor(random: &mut Random) -> Floor {
    if random.percent(10) {
        return stream::halls_floor();
    }
    let kind = random.pick(&KINDS);
    let longest = random.pick(&[3, 9, 31]);
    let (width, height) = (random.within(1, longest), random.within(1, longest));
    layouts::make(kind, random, width, height)
}

/// A few, or about as many as a stream may have.
fn job_count(random: &mut Random) -> u64 {
    if random.percent(4) { random.within(998, 1003) } else { random.within(0, 24) }
}

/// A job, in a quarter of all cases from the start of the job before.
fn any_job(random: &mut Random, count: u64, pinches: &[usize], start: &mut u64) -> Vec<u8> {
    let neighbourhood = match random.below(100) {
        0..=93 => random.pick(&NEIGHBOURHOODS) as u8,
        94..=96 => random.pick(&REFUSED) as u8,
        _ => random.below(256) as u8,
    };
    let mut end = || match random.below(40) {
        0 => count + random.below(3),
        1 => random.below(1 << 16),
        2 => 0,
        3 => count - 1,
        4..=6 if !pinches.is_empty() => random.pick(pinches) as u64,
        _ => random.below(count),
    };
    let (other, goal) = (end(), end());
    *start = if random.percent(25) { *start } else { other };
    stream::job_record(neighbourhood, *start, goal)
}

/// The stream with one fault in a record, or after the last.
fn spoil(random: &mut Random, mut records: Vec<Vec<u8>>) -> Vec<u8> {
    let k = random.index(records.len());
    let map = records[0].clone();
    match random.below(8) {
        0 => records[k][random.index(2)] ^= random.within(1, 255) as u8,
        1 => records[k][..2].copy_from_slice(if k == 0 { b"JB" } else { b"MP" }),
        2 => records.insert(k, map),
        3 => records.push((0..random.within(1, 20)).map(|_| random.below(256) as u8).collect()),
        4 => records[0][2 + random.index(2)] = random.pick(&[0, 1, 30, 32, 127, 128, 255]),
        5 => records[0][4 + random.index(map.len() - 4)] = random.within(2, 255) as u8,
        6 => drop(records[k].pop()),
        _ => {
            let mut bytes = records.concat();
            bytes.truncate(random.index(bytes.len()));
            return bytes;
        }
    }
    records.concat()
}
