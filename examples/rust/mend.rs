//! Plans a job, flips bits of its sheet, mends the sheet, and says in words what was damaged. Then the same for a job
//! whose ends no walk joins.

// Not every item of the wrapper is used here.
#[allow(dead_code)]
mod lurfanzi;

use lurfanzi::{check, costs, finish, mend, pack, Differences, Floor, Job, Refusal, Sheet, SheetMut};

const WIDTH: u32 = 7;
const HEIGHT: u32 = 5;
const COLUMNS: u32 = WIDTH + 1;

/// The cells of the map, a byte each. The wall has a door in the first row.
const CELLS: [u8; 35] = [
    0, 0, 0, 0, 0, 0, 0, //
    0, 0, 0, 1, 0, 0, 0, //
    0, 0, 0, 1, 0, 0, 0, //
    0, 0, 0, 1, 0, 0, 0, //
    0, 0, 0, 1, 0, 0, 0, //
];
const DOOR: usize = 3;

/// A sheet's memory.
struct Memory {
    d: Vec<u32>,
    e: Vec<u32>,
    f: Vec<u64>,
    back: Vec<u64>,
    route: Vec<u16>,
    next: Vec<u16>,
}

impl Memory {
    fn new(v: usize) -> Memory {
        let (d, e, f, back) = (vec![0; v], vec![0; v], vec![0; v], vec![0; v]);
        Memory { d, e, f, back, route: vec![0; v], next: vec![0; v] }
    }

    fn sheet(&self, points: usize) -> Sheet<'_> {
        let Memory { d, e, f, back, route, next } = self;
        Sheet { d, e, f, back, route, next, points }
    }

    /// d, and the rest of the sheet, to be written.
    fn parts(&mut self) -> (&mut [u32], SheetMut<'_>) {
        let Memory { d, e, f, back, route, next } = self;
        (d, SheetMut { e, f, back, route, next })
    }
}

fn text(damage: Differences) -> String {
    let Differences { d, e, f, back, route, next } = damage;
    let slices = [("d", d), ("e", e), ("f", f), ("back", back), ("route", route), ("next", next)];
    let places: String = slices.iter().filter(|(_, n)| *n > 0).map(|(name, n)| format!(" {name} {n}")).collect();
    if places.is_empty() { " none".to_string() } else { places }
}

/// Plans a job, damages its sheet, and mends it.
fn show(floor: Floor, job: Job, damage: impl Fn(&mut Memory)) -> Result<(), Refusal> {
    let vertices = floor.vertices();
    let (mut sheet, mut mended, mut work) = (Memory::new(vertices), Memory::new(vertices), vec![0; 4 * vertices]);
    costs(floor, job.neighbourhood, job.a, &mut sheet.d, &mut work)?;
    let (d, mut rest) = sheet.parts();
    let planned = finish(floor, job, d, &mut rest, &mut work).map_or(0, |plan| plan.points);
    println!("planned, points {planned}: the checker says {:?}", check(floor, job, sheet.sheet(planned))?);

    damage(&mut sheet);
    println!("damaged: the checker says {:?}", check(floor, job, sheet.sheet(planned))?);
    let (d, mut rest) = mended.parts();
    let found = mend(floor, job, sheet.sheet(0), d, &mut rest, &mut work)?;
    let points = found.points.map_or(0, usize::from);
    println!("damaged places:{}", text(found.damage));
    println!("mended, points {points}: the checker says {:?}", check(floor, job, mended.sheet(points))?);

    let (d, mut rest) = sheet.parts();
    let again = mend(floor, job, mended.sheet(0), d, &mut rest, &mut work)?;
    println!("damaged places of the mended sheet:{}", text(again.damage));
    Ok(())
}

fn main() -> Result<(), Refusal> {
    let job = Job { neighbourhood: 8, a: 4 * COLUMNS, b: 5 * COLUMNS + 7 };
    let map = pack(&CELLS);
    let floor = Floor { width: WIDTH, height: HEIGHT, map: &map };
    show(floor, job, |sheet| {
        sheet.d[0] ^= 1 << 31;
        sheet.f[12] ^= 1;
        sheet.f[13] ^= 1 << 40;
        sheet.route[2] ^= 1 << 3;
        // Flipped twice, so it is as it was.
        sheet.next[9] ^= 4;
        sheet.next[9] ^= 4;
    })?;
    println!("with the door shut");
    let mut cells = CELLS;
    cells[DOOR] = 1;
    let map = pack(&cells);
    show(Floor { map: &map, ..floor }, job, |sheet| {
        sheet.e[7] ^= 1;
        sheet.back.iter_mut().for_each(|count| *count ^= 1 << 63);
        sheet.route[0] = 32;
        sheet.route[1] = 25;
    })?;
    let short = Memory::new(1);
    let (mut to, mut work) = (Memory::new(floor.vertices()), vec![0; 4 * floor.vertices()]);
    let (d, mut rest) = to.parts();
    let refused = mend(floor, job, short.sheet(0), d, &mut rest, &mut work).unwrap_err();
    println!("a sheet of one place: {refused}");
    Ok(())
}
