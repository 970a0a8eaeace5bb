//! The record stream of a floor and its jobs, for the program, by the library's writer.

use crate::lurfanzi::{Refusal, Stream, LONGEST_STREAM};
use crate::sides::{Point, Sides};
use crate::working_floor::WorkingFloor;

/// The stream of a floor with its closures, which are blocked cells of its map record, and of jobs with these ends.
pub fn written(floor: &WorkingFloor, neighbourhood: u32, jobs: &[(Point, Point)]) -> Result<Vec<u8>, String> {
    let mut buffer = [0; LONGEST_STREAM];
    let mut stream = Stream::new(&mut buffer);
    stream.map(floor.floor()).map_err(|refusal| refused_map(floor.sides, refusal))?;
    let byte = || format!("a job record has a byte for the neighbourhood, and {neighbourhood} is more (4)");
    let neighbourhood = u8::try_from(neighbourhood).map_err(|_| byte())?;
    for &(a, b) in jobs {
        let [a, b] = [floor.vertex(a)?, floor.vertex(b)?];
        // A floor that has a map record has at most 1,024 vertices.
        stream.job(neighbourhood, a as u16, b as u16).map_err(refused_job)?;
    }
    Ok(stream.bytes().to_vec())
}

fn refused_map(sides: Sides, refusal: Refusal) -> String {
    let Sides { width, height } = sides;
    match refusal {
        Refusal::BadSize => format!("a record stream has floors of up to 31 by 31 cells, not {width} by {height} (1)"),
        other => other.to_string(),
    }
}

fn refused_job(refusal: Refusal) -> String {
    match refusal {
        Refusal::OutOfTurn => "a record stream has at most 1,000 jobs (20)".to_string(),
        other => other.to_string(),
    }
}

#[cfg(test)]
mod tests {
    use super::*;
    use crate::lurfanzi::Rectangle;
    use crate::working_floor::tests::floor_of;

    fn at(x: u32, y: u32) -> Point {
        Point { x, y }
    }

    #[test]
    fn records() {
        let closure = Rectangle { column: 1, row: 0, columns: 1, rows: 1 };
        let floor = floor_of(&["...", ".#."], &[closure]);
        let found = written(&floor, 16, &[(at(0, 0), at(3, 2)), (at(3, 2), at(0, 0))]);
        let wanted = b"MP\x03\x02\0\x01\0\0\x01\0JB\x10\0\0\x0b\0JB\x10\x0b\0\0\0";
        assert_eq!(found.as_deref(), Ok(wanted.as_slice()));
        assert_eq!(written(&floor, 8, &[]).map(|bytes| bytes.len()), Ok(10));
    }

    #[test]
    fn refusals() {
        let wide = ".".repeat(32);
        let said = |rows: &[&str], neighbourhood, jobs: &[(Point, Point)]| {
            written(&floor_of(rows, &[]), neighbourhood, jobs).expect_err("a refusal")
        };
        let size = "a record stream has floors of up to 31 by 31 cells, not 32 by 1 (1)";
        assert_eq!(said(&[wide.as_str()], 256, &[(at(9, 9), at(9, 9))]), size);
        assert!(said(&["."], 256, &[]).ends_with("256 is more (4)"));
        assert!(said(&["."], 8, &[(at(0, 0), at(2, 0))]).ends_with("(5)"));
        assert!(said(&["."], 8, &[(at(0, 0), at(1, 1)); 1001]).ends_with("(20)"));
        let most = written(&floor_of(&["."], &[]), 8, &[(at(0, 0), at(1, 1)); 1000]);
        assert_eq!(most.map(|bytes| bytes.len()), Ok(7005));
    }
}
