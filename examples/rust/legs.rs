//! Checks proposals for thinning the list of a cart that went to and fro in winding halls, and makes one.

// Not every item of the wrapper is used here.
#[allow(dead_code)]
mod lurfanzi;

use lurfanzi::{check_legs, fewest_legs, pack, thin, Floor, Proposal, Refusal};

const WIDTH: u32 = 3;
const HEIGHT: u32 = 5;
const COLUMNS: u16 = WIDTH as u16 + 1;

/// The cells of the map, a byte each: three halls of one cell, joined at alternate ends.
const CELLS: [u8; 15] = [
    0, 0, 0, //
    1, 1, 0, //
    0, 0, 0, //
    0, 1, 1, //
    0, 0, 0, //
];

/// Where the cart went, by column and row.
const POINTS: [(u16, u16); 9] = [(0, 0), (2, 1), (2, 2), (3, 1), (2, 2), (3, 1), (1, 3), (0, 4), (3, 5)];

/// The points at the positions.
fn text(positions: &[u16]) -> String {
    positions.iter().map(|&k| format!(" {:?}", POINTS[usize::from(k)]).replace(", ", ",")).collect()
}

/// Checks some kept positions with the numbers of legs from every position.
fn show(floor: Floor, list: &[u16], what: &str, positions: &[u16], legs: &[u16]) -> Result<(), Refusal> {
    let mut kept = vec![0; list.len()];
    kept[..positions.len()].copy_from_slice(positions);
    let proposal = Proposal { kept: &kept, count: positions.len(), legs };
    let verdict = if check_legs(floor, list, list.len(), proposal)? { "accepted" } else { "false" };
    println!("{what}:{}: {verdict}", text(positions));
    Ok(())
}

fn main() -> Result<(), Refusal> {
    let map = pack(&CELLS);
    let floor = Floor { width: WIDTH, height: HEIGHT, map: &map };
    let list = POINTS.map(|(x, y)| x + y * COLUMNS);
    let (mut kept, mut legs) = ([0; POINTS.len()], [0; POINTS.len()]);

    let count = thin(floor, &list, &mut kept, list.len())?;
    println!("thinned, {} legs:{}", count - 1, text(&kept[..count]));
    let thinned = kept[..count].to_vec();

    let count = fewest_legs(floor, &list, &mut kept, &mut legs, list.len())?;
    println!("fewest legs from each point: {legs:?}");
    show(floor, &list, "ours", &kept[..count], &legs)?;
    show(floor, &list, "by the same point, earlier in the list", &[0, 3, 7, 8], &legs)?;
    show(floor, &list, "the thinned list", &thinned, &legs)?;
    show(floor, &list, "through a wall", &[0, 4, 7, 8], &legs)?;
    show(floor, &list, "a leg fewer", &[0, 7, 8], &legs)?;
    legs[2] += 1;
    show(floor, &list, "ours, with another number at (2,2)", &kept[..count], &legs)?;
    let apart = [list[0], list[8]];
    println!("two points that do not see each other: {}", show(floor, &apart, "", &[0, 1], &[1, 0]).unwrap_err());
    Ok(())
}
