//! The hand-tuned checker: the local laws of costs, counts and next vertices, row by row, with no memory but a few
//! rows.
//!
//! d is the true cost list from A exactly when it is 0 at A, and at every other vertex the least of the neighbours' costs,
//! each with its move's cost added, M acting as infinity. A count is the sum of the counts of the neighbours that are one
//! open move nearer.

use crate::lurfanzi::{Floor, Job, Refusal, Sheet, Verdict, UNREACHABLE};
use crate::moves::{all_rows, offsets, sum, sum_and_next, Cells, Eight, Four, Sixteen, Table};
use crate::shape;

/// Costs are compared as FAR less the cost: 0 stands for M, so that a shut move is an `and` and the law a maximum. No true
/// cost reaches FAR.
const FAR: u32 = 0x3FFF_FFFF;

/// A row of costs in that form, with M twice at either side.
type Row = [i32; 132];

/// The law of costs of a neighbourhood.
trait Law: Table {
    /// The most that the open moves from column x leave, in that form, of five rows of costs; the middle one is its
    /// own.
    fn most(rows: [&Row; 5], x: usize, mask: i32) -> i32;
}

/// All bits where a move is open.
#[inline(always)]
fn open(mask: i32, k: usize) -> i32 {
    if mask & 1 << k != 0 { -1 } else { 0 }
}

/// The most at the far ends of the open cardinal moves, and of the open diagonal ones.
#[inline(always)]
fn most_of_eight([_, above, here, below, _]: [&Row; 5], x: usize, mask: i32) -> (i32, i32) {
    let across = (here[x + 3] & open(mask, 0)).max(here[x + 1] & open(mask, 4));
    let along = (below[x + 2] & open(mask, 2)).max(above[x + 2] & open(mask, 6));
    let lower = (below[x + 3] & open(mask, 1)).max(below[x + 1] & open(mask, 3));
    let upper = (above[x + 1] & open(mask, 5)).max(above[x + 3] & open(mask, 7));
    (across.max(along), lower.max(upper))
}

impl Law for Four {
    #[inline(always)]
    fn most(rows: [&Row; 5], x: usize, mask: i32) -> i32 {
        Eight::most(rows, x, mask)
    }
}

impl Law for Eight {
    #[inline(always)]
    fn most(rows: [&Row; 5], x: usize, mask: i32) -> i32 {
        let (cardinal, diagonal) = most_of_eight(rows, x, mask);
        (cardinal - 408).max(diagonal - 577).max(0)
    }
}

impl Law for Sixteen {
    #[inline(always)]
    fn most(rows: [&Row; 5], x: usize, mask: i32) -> i32 {
        let (cardinal, diagonal) = most_of_eight(rows, x, mask);
        let [far_above, above, _, below, far_below] = rows;
        let lower = (below[x + 4] & open(mask, 8)).max(below[x] & open(mask, 11));
        let far_lower = (far_below[x + 3] & open(mask, 9)).max(far_below[x + 1] & open(mask, 10));
        let upper = (above[x] & open(mask, 12)).max(above[x + 4] & open(mask, 15));
        let far_upper = (far_above[x + 1] & open(mask, 13)).max(far_above[x + 3] & open(mask, 14));
        let between = lower.max(far_lower).max(upper.max(far_upper));
        (cardinal - 1000).max(diagonal - 1414).max(between - 2236).max(0)
    }
}

/// Rows of each of N cost slices: row y stands at place y % 8.
struct Window<'a, const N: usize> {
    costs: [&'a [u32]; N],
    ends: [usize; N],
    columns: usize,
    rows: [[Row; N]; 8],
    fits: bool,
}

impl<'a, const N: usize> Window<'a, N> {
    /// Stands above the first row.
    fn new(costs: [&'a [u32]; N], ends: [usize; N], columns: usize) -> Window<'a, N> {
        let mut window = Window { costs, ends, columns, rows: [[[0; 132]; N]; 8], fits: true };
        window.read(0);
        window.read(1);
        window
    }

    /// Reads row y of the costs; `fits` says whether all numbers can be costs.
    fn read(&mut self, y: usize) {
        for (to, from) in self.rows[y % 8].iter_mut().zip(self.costs) {
            let Some(from) = from.get(y * self.columns..(y + 1) * self.columns) else {
                *to = [0; 132];
                continue;
            };
            let mut fits = true;
            for (to, &cost) in to[2..].iter_mut().zip(from) {
                let fit = cost < FAR;
                fits &= fit | (cost == UNREACHABLE);
                *to = if fit { (FAR - cost) as i32 } else { 0 };
            }
            self.fits &= fits;
        }
    }

    /// Moves on to row y, and tests its costs.
    fn row_is_true<L: Law>(&mut self, y: usize, masks: &[L::Mask; 128]) -> bool {
        self.read(y + 2);
        let columns = self.columns.min(128);
        let rows = [6, 7, 0, 1, 2].map(|ahead| &self.rows[(y + ahead) % 8]);
        let mut most = [[0; 128]; N];
        for x in 0..columns {
            let mask: u32 = masks[x].into();
            for slice in 0..N {
                most[slice][x] = L::most(rows.map(|row| &row[slice]), x, mask as i32);
            }
        }
        self.fits
            && (0..N).all(|slice| {
                if self.ends[slice] / columns == y {
                    most[slice][self.ends[slice] % columns] = FAR as i32;
                }
                most[slice][..columns] == rows[2][slice][2..columns + 2]
            })
    }
}

/// Whether the counts and the next vertices of row y are true. All costs are, and the cost of the route is not M. Where
/// a traversal count passes 64 bits a count of some row is false, so that the sheet is refused.
fn counts_are_true<T: Table>(
    y: usize, masks: &[T::Mask; 128], offsets: &[isize; 16], job: Job, sheet: Sheet,
) -> bool {
    let (a, b, columns) = (job.a as usize, job.b as usize, offsets[2] as usize);
    let cost = sheet.d[b];
    let row = y * columns..(y + 1) * columns;
    let (d, e) = (&sheet.d[row.clone()], &sheet.e[row.clone()]);
    // A vertex that one end does not reach, the other does not either: M + M is no route's cost.
    let on_way = |d: u32, e: u32| d.wrapping_add(e) == cost;
    if !d.iter().zip(e).fold(false, |any, (&d, &e)| any | on_way(d, e)) {
        return is_0(&sheet.f[row.clone()]) && is_0(&sheet.back[row.clone()]) && is_0(&sheet.next[row]);
    }
    row.zip(d.iter().zip(e)).zip(masks).all(|((v, (&to, &from)), &mask)| {
        let (f, back, next) = (sheet.f[v], sheet.back[v], usize::from(sheet.next[v]));
        if !on_way(to, from) {
            return f | back | next as u64 == 0;
        }
        let f_is_true = if v == a { f == 1 } else { sum::<T>(v, mask, offsets, sheet.d, sheet.f) == (f, false) };
        let (count, over, wanted) =
            if v == b { (1, false, b) } else { sum_and_next::<T>(v, mask, offsets, sheet.e, sheet.back, sheet.f) };
        f_is_true && (back, false, next) == (count, over, wanted)
    })
}

/// Whether the route is the walk through the next vertices, which are true.
fn route_is_true(job: Job, sheet: Sheet) -> bool {
    let (a, b) = (job.a as usize, job.b as usize);
    let Some((used, rest)) = sheet.route.split_at_checked(sheet.points) else { return false };
    let Some((&first, used)) = used.split_first() else { return false };
    let mut u = usize::from(first);
    let follows = u == a
        && used.iter().all(|&point| {
            let goes_on = u != b && sheet.next[u] == point;
            u = usize::from(point);
            goes_on
        });
    follows && u == b && is_0(rest)
}

fn is_0<T: Copy + Default + PartialEq + std::ops::BitOr<Output = T>>(slice: &[T]) -> bool {
    slice.chunks(1024).all(|chunk| chunk.iter().fold(T::default(), |all, &one| all | one) == T::default())
}

/// Whether the costs are those from the job's first end.
pub fn costs_are_true(floor: Floor, job: Job, d: &[u32]) -> bool {
    let are_true = match job.neighbourhood {
        4 => are_costs::<Four>,
        8 => are_costs::<Eight>,
        _ => are_costs::<Sixteen>,
    };
    are_true(floor, job, d)
}

fn are_costs<L: Law>(floor: Floor, job: Job, d: &[u32]) -> bool {
    let columns = floor.width as usize + 1;
    let mut window = Window::new([d], [job.a as usize], columns);
    all_rows(floor, |y, cells| window.row_is_true::<L>(y, &masks_of::<L>(cells, columns)))
}

/// The half masks of a row of vertices.
#[inline(always)]
fn masks_of<T: Table>(cells: [&Cells; 4], columns: usize) -> [T::Mask; 128] {
    let mut masks = [T::Mask::default(); 128];
    T::row_masks(cells, &mut masks[..columns]);
    masks
}

pub fn check(floor: Floor, job: Job, sheet: Sheet) -> Result<Verdict, Refusal> {
    shape::of_job(floor, job, sheet)?;
    let verdict = match job.neighbourhood {
        4 => verdict::<Four>,
        8 => verdict::<Eight>,
        _ => verdict::<Sixteen>,
    };
    Ok(verdict(floor, job, sheet).unwrap_or(Verdict::FalseSheet))
}

fn verdict<L: Law>(floor: Floor, job: Job, sheet: Sheet) -> Option<Verdict> {
    let columns = floor.width as usize + 1;
    let (a, b) = (job.a as usize, job.b as usize);
    if sheet.d[b] == UNREACHABLE {
        let no_points = sheet.points == 0 && is_0(sheet.route) && is_0(sheet.next);
        let zeros = no_points && is_0(sheet.e) && is_0(sheet.f) && is_0(sheet.back);
        return (zeros && are_costs::<L>(floor, job, sheet.d)).then_some(Verdict::NoRoute);
    }
    let offsets = offsets(columns);
    let mut window = Window::new([sheet.d, sheet.e], [a, b], columns);
    let good = all_rows(floor, |y, cells| window.row_is_true::<L>(y, &masks_of::<L>(cells, columns)))
        && all_rows(floor, |y, cells| counts_are_true::<L>(y, &masks_of::<L>(cells, columns), &offsets, job, sheet))
        && route_is_true(job, sheet);
    good.then_some(Verdict::Route)
}
