//! Refusals 1 to 5, 11 and 6, in this order, for all baselines; cells of a packed map; and pinches.

use crate::lurfanzi::{Floor, Job, Refusal, Sheet};

pub fn of_floor(floor: Floor) -> Result<(), Refusal> {
    let (width, height) = (floor.width as usize, floor.height as usize);
    if !(1..=127).contains(&width) || !(1..=127).contains(&height) {
        return Err(Refusal::BadSize);
    }
    let cells = width * height;
    if floor.map.len() != cells.div_ceil(8) {
        Err(Refusal::BadMapLength)
    } else if cells % 8 != 0 && floor.map[cells / 8] >> (cells % 8) != 0 {
        Err(Refusal::UnusedBit)
    } else {
        Ok(())
    }
}

/// 1 where the cell of a number is blocked, else 0.
#[inline(always)]
pub fn cell(map: &[u8], number: usize) -> u8 {
    map[number / 8] >> (number % 8) & 1
}

pub fn of_end(floor: Floor, end: u32) -> Result<(), Refusal> {
    if (end as usize) < floor.vertices() {
        Ok(())
    } else {
        Err(Refusal::BadEnd)
    }
}

/// Whether one diagonal pair of the four cells at a vertex is blocked and the other open. On the floor's edge the cells
/// outside are side by side.
pub fn is_pinch(floor: Floor, x: usize, y: usize) -> bool {
    let (width, height) = (floor.width as usize, floor.height as usize);
    if x == 0 || y == 0 || x >= width || y >= height {
        return false;
    }
    let first = (y - 1) * width + x - 1;
    let [nw, ne, sw, se] = [first, first + 1, first + width, first + width + 1].map(|number| cell(floor.map, number));
    nw == se && ne == sw && nw != ne
}

fn of_pinch(floor: Floor, end: u32) -> Result<(), Refusal> {
    let columns = floor.width + 1;
    if is_pinch(floor, (end % columns) as usize, (end / columns) as usize) {
        Err(Refusal::PinchedEnd)
    } else {
        Ok(())
    }
}

fn of_moves(floor: Floor, neighbourhood: u32) -> Result<(), Refusal> {
    of_floor(floor)?;
    match neighbourhood {
        4 | 8 | 16 => Ok(()),
        _ => Err(Refusal::BadNeighbourhood),
    }
}

/// Refusals of the costs from one end.
pub fn of_costs(floor: Floor, neighbourhood: u32, a: u32, d: &[u32], work: &[u32]) -> Result<(), Refusal> {
    of_moves(floor, neighbourhood)?;
    of_end(floor, a)?;
    of_pinch(floor, a)?;
    if d.len() != floor.vertices() {
        return Err(Refusal::BadSliceLength);
    }
    of_work(floor, work)
}

pub fn of_work(floor: Floor, work: &[u32]) -> Result<(), Refusal> {
    if work.len() == 4 * floor.vertices() {
        Ok(())
    } else {
        Err(Refusal::BadSliceLength)
    }
}

/// Refusals of a job, but for the working slice.
pub fn of_job(floor: Floor, job: Job, sheet: Sheet) -> Result<(), Refusal> {
    of_moves(floor, job.neighbourhood)?;
    of_end(floor, job.a)?;
    of_end(floor, job.b)?;
    of_pinch(floor, job.a)?;
    of_pinch(floor, job.b)?;
    let numbers = [sheet.d.len(), sheet.e.len(), sheet.f.len(), sheet.back.len()];
    let points = [sheet.route.len(), sheet.next.len()];
    if numbers.iter().chain(&points).any(|&length| length != floor.vertices()) {
        return Err(Refusal::BadSliceLength);
    }
    Ok(())
}

pub fn of_lists(list: &[u16], out: &[u16]) -> Result<(), Refusal> {
    if list.len() > 16_384 || out.len() != list.len() {
        return Err(Refusal::BadSliceLength);
    }
    Ok(())
}
