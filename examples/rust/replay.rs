//! Replays night logs on a floor with a wall, and says in words what the cart did.

// Not every item of the wrapper is used here.
#[allow(dead_code)]
mod lurfanzi;

use lurfanzi::{log_of, pack, replay, Floor, Refusal};

const WIDTH: u32 = 7;
const HEIGHT: u32 = 5;
const COLUMNS: u16 = WIDTH as u16 + 1;

/// The cells of the map, a byte each. The cell of the first row's last column and the one below to its left touch at a
/// corner, which is a pinch.
const CELLS: [u8; 35] = [
    0, 0, 0, 0, 0, 0, 1, //
    0, 0, 0, 1, 0, 1, 0, //
    0, 0, 0, 1, 0, 0, 0, //
    0, 0, 0, 1, 0, 0, 0, //
    0, 0, 0, 1, 0, 0, 0, //
];

fn point(v: u16) -> String {
    format!("({},{})", v % COLUMNS, v / COLUMNS)
}

/// The vertices of the records that were read.
fn stops(log: &[u8], read: usize) -> Vec<u16> {
    log.chunks(4).take(read).map(|record| u16::from_le_bytes([record[2], record[3]])).collect()
}

/// Says what a log tells.
fn show(floor: Floor, neighbourhood: u32, what: &str, log: &[u8]) -> Result<(), Refusal> {
    let mut costs = vec![0; floor.vertices()];
    let told = replay(floor, neighbourhood, log, &mut costs, &mut vec![0; 4 * floor.vertices()])?;
    let stops = stops(log, told.read);
    println!("{what}, with {neighbourhood} moves: records read {}, cost {}", told.read, told.cost);
    if let Some(record) = told.unfollowed.map(usize::from) {
        let at = point(stops[record - 1]);
        match record {
            1 => println!("  it starts at {at}, where no cart can be"),
            _ => println!("  no open move leads from {} to {at}: record {record}", point(stops[record - 2])),
        }
    }
    if let Some(record) = told.bad {
        println!("  record {record} is bad, and nothing after it was read");
    }
    match (told.unfollowed, told.bad, stops.first().zip(stops.last())) {
        (None, None, None) => println!("  the log is empty"),
        (None, None, Some((&first, &last))) if told.cheapest => {
            println!("  from {} to {} as cheap as can be", point(first), point(last));
        }
        (None, None, Some((&first, &last))) => {
            let least = costs[usize::from(last)];
            let more = told.cost - least;
            println!("  from {} to {} by {more} more than the least, {least}", point(first), point(last));
        }
        _ => {}
    }
    Ok(())
}

fn main() -> Result<(), Refusal> {
    let map = pack(&CELLS);
    let floor = Floor { width: WIDTH, height: HEIGHT, map: &map };
    let log = |points: &[(u16, u16)]| log_of(&points.iter().map(|&(x, y)| x + y * COLUMNS).collect::<Vec<u16>>());

    let there = [(0, 4), (1, 3), (2, 2), (3, 1), (4, 1), (5, 2), (6, 3), (6, 4), (7, 5)];
    show(floor, 8, "a route", &log(&there))?;
    show(floor, 16, "the same", &log(&there))?;
    show(floor, 4, "the same", &log(&there))?;
    show(floor, 8, "with a rest at the wall", &log(&[(2, 2), (3, 1), (3, 1), (3, 1), (4, 1)]))?;
    show(floor, 8, "there and back", &log(&[(2, 2), (3, 1), (2, 2)]))?;
    show(floor, 8, "through the wall and on", &log(&[(1, 4), (2, 4), (3, 4), (4, 4), (5, 4), (6, 4)]))?;
    show(floor, 8, "over the pinch", &log(&[(5, 1), (6, 1), (6, 1), (7, 2)]))?;
    show(floor, 8, "from the pinch", &log(&[(6, 1), (6, 1)]))?;
    show(floor, 8, "cut short", &log(&there)[..18])?;
    show(floor, 8, "through the wall and off the floor", &log(&[(2, 4), (3, 4), (4, 4), (4, 5), (0, 6), (4, 5)]))?;
    show(floor, 8, "one record", &log(&[(7, 5)]))?;
    show(floor, 8, "no record", &[])?;
    println!("a log that is too long: {}", show(floor, 8, "", &[0; 16_385]).unwrap_err());
    Ok(())
}
