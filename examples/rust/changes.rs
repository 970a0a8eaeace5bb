//! Compares two plans of a floor: says in words which cells closed and opened, and what that does to the ways from a
//! dock.

// Not every item of the wrapper is used here.
#[allow(dead_code)]
mod lurfanzi;

use lurfanzi::{changes, cost_changes, pack, CostChange, CostChangesMut, Floor, Refusal};

const WIDTH: u32 = 5;
const HEIGHT: u32 = 3;
const COLUMNS: usize = WIDTH as usize + 1;

/// The cells of the two plans, a byte each. In the second the door in the wall is at the bottom and not at the top, and
/// the closet in the left corner and not in the right one.
const BEFORE: [u8; 15] = [
    0, 0, 0, 0, 0, //
    0, 0, 1, 0, 0, //
    0, 0, 1, 0, 1, //
];
const AFTER: [u8; 15] = [
    0, 0, 1, 0, 0, //
    0, 0, 1, 0, 0, //
    1, 0, 0, 0, 0, //
];

fn point(v: usize) -> String {
    format!("({},{})", v % COLUMNS, v / COLUMNS)
}

fn show_cells(before: Floor, after: Floor) -> Result<(), Refusal> {
    let mut cells = vec![0; (WIDTH * HEIGHT) as usize];
    let found = changes(before, after, &mut cells)?;
    println!("cells closed: {}, opened: {}", found.closed, found.opened);
    for &cell in found.listed(&cells) {
        let (i, j) = (u32::from(cell) % WIDTH, u32::from(cell) / WIDTH);
        println!("  cell ({i},{j}) {}", if AFTER[usize::from(cell)] != 0 { "closed" } else { "opened" });
    }
    Ok(())
}

fn show_costs(before: Floor, after: Floor, neighbourhood: u32, dock: u32) -> Result<(), Refusal> {
    let vertices = before.vertices();
    let (mut costs, mut after_costs, mut bytes) = (vec![0; vertices], vec![0; vertices], vec![0; vertices]);
    let mut to = CostChangesMut { costs: &mut costs, after_costs: &mut after_costs, changes: &mut bytes };
    cost_changes(before, after, neighbourhood, dock, &mut to, &mut vec![0; 4 * vertices])?;
    println!("from {}, with {neighbourhood} moves:", point(dock as usize));
    for (v, &byte) in bytes.iter().enumerate() {
        let (was, is) = (costs[v], after_costs[v]);
        match CostChange::from_byte(byte) {
            Some(CostChange::Fell) => println!("  to {} by {} less, {is}", point(v), was - is),
            Some(CostChange::Rose) => println!("  to {} by {} more, {is}", point(v), is - was),
            Some(CostChange::FromUnreachable) => println!("  a way leads to {}, at {is}", point(v)),
            Some(CostChange::ToUnreachable) => println!("  no way leads to {} any more; it was {was}", point(v)),
            Some(CostChange::Equal) | None => {}
        }
    }
    println!("  as before: {} of {vertices} points", bytes.iter().filter(|&&byte| byte == 0).count());
    Ok(())
}

fn main() -> Result<(), Refusal> {
    let (map, after_map) = (pack(&BEFORE), pack(&AFTER));
    let before = Floor { width: WIDTH, height: HEIGHT, map: &map };
    let after = Floor { map: &after_map, ..before };
    show_cells(before, after)?;
    show_costs(before, after, 8, 0)?;
    show_cells(before, before)?;
    show_costs(before, before, 8, 0)?;
    let turned = Floor { width: HEIGHT, height: WIDTH, ..after };
    println!("a plan turned round: {}", show_cells(before, turned).unwrap_err());
    Ok(())
}
