//! Plans two jobs from one dock round a wall, then round a closure that is posted on the floor and struck again. The
//! costs from the dock are computed once for each map. Each sheet is checked, each route thinned to the vertices that a
//! cart needs, and a cart that is shoved to another vertex on the way goes on from there. Last the jobs are planned for
//! a cart that steers finely, with sixteen moves.

// Not every item of the wrapper is used here.
#[allow(dead_code)]
mod lurfanzi;

use lurfanzi::{check, costs, finish, obstacle, pack, thin};
use lurfanzi::{Closures, Floor, Job, Obstacle, Rectangle, Refusal, SheetMut};

const WIDTH: u32 = 7;
const HEIGHT: u32 = 5;
const COLUMNS: u32 = WIDTH + 1;

/// The cells of the base map, a byte each.
const CELLS: [u8; 35] = [
    0, 0, 0, 0, 0, 0, 0, //
    0, 0, 0, 1, 0, 0, 0, //
    0, 0, 0, 1, 0, 0, 0, //
    0, 0, 0, 1, 0, 0, 0, //
    0, 0, 0, 1, 0, 0, 0, //
];

fn vertex(x: u32, y: u32) -> u32 {
    x + y * COLUMNS
}

fn point(v: u32) -> String {
    format!("({},{})", v % COLUMNS, v / COLUMNS)
}

fn text(vertices: impl Iterator<Item = u16>) -> String {
    vertices.map(|v| format!(" {}", point(v.into()))).collect()
}

/// Says what is in the way from one vertex to another.
fn show_obstacle(floor: Floor, a: u32, b: u32) -> Result<(), Refusal> {
    let found = match obstacle(floor, a, b)? {
        Obstacle::Clear => "the way is clear".to_string(),
        Obstacle::Cell(cell) => format!("cell ({},{}) is blocked", cell % WIDTH, cell / WIDTH),
        Obstacle::Step(vertex) => format!("shut from {} on", point(vertex)),
        Obstacle::Pinch(vertex) => format!("pinched at {}", point(vertex)),
    };
    println!("from {} to {}: {found}", point(a), point(b));
    Ok(())
}

/// Says where a cart that was shoved to vertex v goes on. Off the way, where f is 0, it needs a job of its own.
fn show_shoved(sheet: &SheetMut, v: u32, b: u32) {
    if sheet.f.get(v as usize).is_none_or(|&count| count == 0) {
        return println!("shoved to {}: not on the way", point(v));
    }
    let after = |&at: &u16| (u32::from(at) != b).then(|| sheet.next[usize::from(at)]);
    println!("shoved to {}: on to{}", point(v), text(std::iter::successors(Some(v as u16), after).skip(1)));
}

/// Finishes a job from the costs of its first end, checks the sheet and thins the route. On the way a cart is shoved to
/// vertex v.
fn show_job(floor: Floor, job: Job, d: &[u32], v: u32) -> Result<(), Refusal> {
    let vertices = floor.vertices();
    let (mut e, mut f) = (vec![0; vertices], vec![0; vertices]);
    let (mut back, mut route, mut next) = (vec![0; vertices], vec![0; vertices], vec![0; vertices]);
    let mut sheet = SheetMut { e: &mut e, f: &mut f, back: &mut back, route: &mut route, next: &mut next };

    let found = finish(floor, job, d, &mut sheet, &mut vec![0; 4 * vertices])?;
    println!("to {}: cost {}, cheapest routes {}, points {}", point(job.b), found.cost, found.total, found.points);
    println!("route:{}", text(sheet.route.iter().copied().take(found.points)));
    println!("the checker says {:?}", check(floor, job, sheet.read(d, found.points))?);

    let mut kept = vec![0; vertices];
    let count = thin(floor, sheet.route, &mut kept, found.points)?;
    let kept = kept.iter().take(count);
    println!("kept:{}", text(kept.filter_map(|&position| sheet.route.get(usize::from(position)).copied())));
    show_shoved(&sheet, v, job.b);
    Ok(())
}

/// Plans jobs from one dock. The costs from the dock are computed once, and the jobs share them. Each job has its end,
/// and the vertex to which a cart is shoved.
fn show_jobs(floor: Floor, neighbourhood: u32, dock: u32, jobs: &[(u32, u32)]) -> Result<Vec<u32>, Refusal> {
    let mut d = vec![0; floor.vertices()];
    costs(floor, neighbourhood, dock, &mut d, &mut vec![0; 4 * floor.vertices()])?;
    for &(b, v) in jobs {
        show_job(floor, Job { neighbourhood, a: dock, b }, &d, v)?;
    }
    Ok(d)
}

fn main() -> Result<(), Refusal> {
    let (dock, corner, end) = (vertex(0, 4), vertex(4, 1), vertex(7, 5));
    let jobs = [(end, vertex(4, 2)), (vertex(7, 0), vertex(5, 0))];
    let base_map = pack(&CELLS);
    let base = Floor { width: WIDTH, height: HEIGHT, map: &base_map };
    show_obstacle(base, dock, end)?;
    let d = show_jobs(base, 8, dock, &jobs)?;

    // A wet floor of 2 by 2 cells, from column 4 and row 1 on.
    let mut closures = Closures::new(WIDTH, HEIGHT);
    let slot = closures.post(Rectangle { column: 4, row: 1, columns: 2, rows: 2 })?;
    println!("posted in slot {slot}");
    let mut map = base_map.clone();
    closures.working_map(&base_map, &mut map)?;
    let wet = Floor { map: &map, ..base };
    show_obstacle(wet, corner, end)?;
    let stale = show_job(wet, Job { neighbourhood: 8, a: dock, b: end }, &d, dock);
    println!("from the costs of the map before: {stale:?}");
    show_jobs(wet, 8, dock, &jobs)?;

    closures.strike(slot)?;
    println!("struck slot {slot}");
    closures.working_map(&base_map, &mut map)?;
    let dry = Floor { map: &map, ..base };
    show_obstacle(dry, corner, end)?;
    show_jobs(dry, 8, dock, &jobs)?;

    // Sixteen moves have costs of their own, so the costs from the dock are computed again.
    let other = show_job(dry, Job { neighbourhood: 16, a: dock, b: end }, &d, dock);
    println!("with sixteen moves, from the costs of eight: {other:?}");
    show_jobs(dry, 16, dock, &jobs)?;
    Ok(())
}
