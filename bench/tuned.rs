//! The hand-tuned planner: open moves as masks, a bucket queue from each end, counts and next vertices along the
//! settled order. It is for neighbourhoods 4 and 8 alone, and refuses 16: its canonical ordering is one of 8.

use crate::lurfanzi::{Floor, Job, Plan, Refusal, SheetMut, UNREACHABLE};
use crate::moves::{fill_masks, offsets, sum, sum_and_next, Eight, Four, Table};
use crate::shape;
use crate::tuned_check::costs_are_true;

/// The moves worth trying at a vertex that was reached by move `via` (8: the start), by the mask of its open moves.
///
/// A move is left out when the vertex before reaches its far end no dearer without this vertex: after a diagonal move
/// all but the three ahead; after a cardinal move all but the one ahead, and, on a side where the move back across the
/// cell behind is shut, the two on that side. Of equals the diagonal move goes first: the canonical ordering of grid
/// paths. The other way turns at a vertex with two open cells side by side, which is no pinch.
const fn worth_trying() -> [[u8; 256]; 9] {
    let mut table = [[0; 256]; 9];
    let mut mask = 0;
    while mask < 256 {
        let mut via = 0;
        while via < 8 {
            let mut ahead = 1u8;
            if via % 2 == 1 {
                ahead |= 1 << 1 | 1 << 7;
            } else {
                if mask >> ((via + 3) % 8) & 1 == 0 {
                    ahead |= 1 << 1 | 1 << 2;
                }
                if mask >> ((via + 5) % 8) & 1 == 0 {
                    ahead |= 1 << 6 | 1 << 7;
                }
            }
            table[via][mask] = ahead.rotate_left(via as u32) & mask as u8;
            via += 1;
        }
        table[8][mask] = mask as u8;
        mask += 1;
    }
    table
}

static WORTH_TRYING: [[u8; 256]; 9] = worth_trying();

/// A cost and the move by which the vertex was reached, in one number: the cost in the high bits.
const fn label(cost: u32, via: u32) -> u32 {
    cost << 4 | via
}

const STEP: [u32; 8] = [
    label(408, 0), label(577, 1), label(408, 2), label(577, 3),
    label(408, 4), label(577, 5), label(408, 6), label(577, 7),
];

/// Regions of the working slice: `order` and `later` have more than V places, `masks` at least V.
struct Memory<'a> {
    order: &'a mut [u16],
    later: &'a mut [u16],
    masks: &'a mut [u8],
}

impl Memory<'_> {
    fn of(work: &mut [u32], vertices: usize) -> Memory<'_> {
        // SAFETY: any bytes are numbers of either width.
        let (_, halves, _) = unsafe { work.align_to_mut::<u16>() };
        let (order, rest) = halves.split_at_mut(vertices + 1);
        let (later, rest) = rest.split_at_mut(vertices + 1);
        // SAFETY: as above.
        let (_, masks, _) = unsafe { rest.align_to_mut::<u8>() };
        Memory { order, later, masks }
    }
}

/// Costs with neighbourhood 8; the answer is the number of vertices settled, which `order` holds.
///
/// A bucket holds the costs from `base` to `base + 407`. No move is cheaper than 408, so that a bucket's costs are
/// final when it is taken up, and its vertices may be taken in any order. A move leads to the next bucket, which stands
/// in `order` after this one, or to the one after, which stands in `later`. A vertex is put into a bucket once: when
/// its label falls from beyond the bucket. An entry of `later` whose label has fallen again is dropped. The stores have
/// no branch: where nothing is put, the place is written again by the next.
fn search8(memory: &mut Memory, columns: usize, from: usize, d: &mut [u32]) -> usize {
    let offsets = offsets(columns);
    let Memory { order, later, masks } = memory;
    d.fill(UNREACHABLE);
    d[from] = label(0, 8);
    order[0] = from as u16;
    let (mut base, mut first, mut n, mut m) = (0, 0, 1, 0);
    while first < n || m > 0 {
        let last = n;
        let (next, beyond, far) = (label(base + 408, 0), label(base + 816, 0), label(base + 1224, 0));
        for &v in &later[..m] {
            order[n] = v;
            n += usize::from(d[usize::from(v)] >= next);
        }
        m = 0;
        for i in first..last {
            // SAFETY: every entry of `order` is a vertex, an open move leads to a vertex, and no more than V vertices
            // are put into `order`, or into `later` during one bucket.
            unsafe {
                let u = usize::from(*order.get_unchecked(i));
                let key = *d.get_unchecked(u);
                let table = WORTH_TRYING.get_unchecked(key as usize & 15);
                let mut moves = *table.get_unchecked(usize::from(*masks.get_unchecked(u)));
                while moves != 0 {
                    let k = moves.trailing_zeros() as usize;
                    moves &= moves - 1;
                    let w = u.wrapping_add_signed(*offsets.get_unchecked(k));
                    let new = (key & !15) + STEP.get_unchecked(k);
                    let old = *d.get_unchecked(w);
                    *d.get_unchecked_mut(w) = old.min(new);
                    *order.get_unchecked_mut(n) = w as u16;
                    *later.get_unchecked_mut(m) = w as u16;
                    n += usize::from((new < beyond) & (old >= beyond));
                    m += usize::from((new >= beyond) & (old >= far));
                }
            }
        }
        first = last;
        base += 408;
    }
    for cost in d.iter_mut() {
        *cost = if *cost == UNREACHABLE { UNREACHABLE } else { *cost >> 4 };
    }
    n
}

/// Costs with neighbourhood 4: breadth-first search. A shut move leads to the vertex itself.
fn search4(memory: &mut Memory, columns: usize, from: usize, d: &mut [u32]) -> usize {
    let offsets = offsets(columns);
    let Memory { order, masks, .. } = memory;
    d.fill(UNREACHABLE);
    d[from] = 0;
    order[0] = from as u16;
    let (mut i, mut n) = (0, 1);
    while i < n {
        // SAFETY: as in `search8`.
        unsafe {
            let u = usize::from(*order.get_unchecked(i));
            i += 1;
            let key = *d.get_unchecked(u) + 408;
            let moves = *masks.get_unchecked(u);
            for k in [0, 2, 4, 6] {
                let w = u.wrapping_add_signed(offsets[k] & -((moves >> k & 1) as isize));
                let old = *d.get_unchecked(w);
                *d.get_unchecked_mut(w) = old.min(key);
                *order.get_unchecked_mut(n) = w as u16;
                n += usize::from(old == UNREACHABLE);
            }
        }
    }
    n
}

/// How a planner makes masks and costs, and the rest of a sheet from the costs from its first end.
pub struct Method {
    /// Puts the masks of open moves into the working slice.
    pub prepare: fn(Floor, &mut [u32]),
    /// Costs from one end; the masks are there.
    pub search: fn(Floor, u32, usize, &mut [u32], &mut [u32]),
    /// Costs to the other end, counts, next vertices and route; the masks are there, and f, `back` and `next` are 0.
    pub rest: fn(Floor, Job, &[u32], &mut SheetMut, &mut [u32]) -> Result<Plan, Refusal>,
}

const METHOD: Method = Method { prepare, search, rest };

/// Refusals 1 to 3, and 4 for a neighbourhood that this planner does not have.
fn of_moves(floor: Floor, neighbourhood: u32) -> Result<(), Refusal> {
    shape::of_floor(floor)?;
    if neighbourhood == 16 { Err(Refusal::BadNeighbourhood) } else { Ok(()) }
}

pub fn plan(floor: Floor, job: Job, d: &mut [u32], sheet: &mut SheetMut, work: &mut [u32]) -> Result<Plan, Refusal> {
    of_moves(floor, job.neighbourhood)?;
    METHOD.plan(floor, job, d, sheet, work)
}

pub fn costs(floor: Floor, neighbourhood: u32, a: u32, d: &mut [u32], work: &mut [u32]) -> Result<(), Refusal> {
    of_moves(floor, neighbourhood)?;
    METHOD.costs(floor, neighbourhood, a, d, work)
}

pub fn finish(floor: Floor, job: Job, d: &[u32], sheet: &mut SheetMut, work: &mut [u32]) -> Result<Plan, Refusal> {
    of_moves(floor, job.neighbourhood)?;
    METHOD.finish(floor, job, d, sheet, work)
}

impl Method {
    pub fn plan(
        &self, floor: Floor, job: Job, d: &mut [u32], sheet: &mut SheetMut, work: &mut [u32],
    ) -> Result<Plan, Refusal> {
        shape::of_job(floor, job, sheet.read(d, 0))?;
        shape::of_work(floor, work)?;
        (self.prepare)(floor, work);
        (self.search)(floor, job.neighbourhood, job.a as usize, d, work);
        self.fill_rest(floor, job, d, sheet, work)
    }

    pub fn costs(
        &self, floor: Floor, neighbourhood: u32, a: u32, d: &mut [u32], work: &mut [u32],
    ) -> Result<(), Refusal> {
        shape::of_costs(floor, neighbourhood, a, d, work)?;
        (self.prepare)(floor, work);
        (self.search)(floor, neighbourhood, a as usize, d, work);
        work.fill(0);
        Ok(())
    }

    /// Tests the costs as the tuned checker does, then does the rest.
    pub fn finish(
        &self, floor: Floor, job: Job, d: &[u32], sheet: &mut SheetMut, work: &mut [u32],
    ) -> Result<Plan, Refusal> {
        shape::of_job(floor, job, sheet.read(d, 0))?;
        shape::of_work(floor, work)?;
        if !costs_are_true(floor, job, d) {
            return Err(Refusal::FalseCosts);
        }
        (self.prepare)(floor, work);
        self.fill_rest(floor, job, d, sheet, work)
    }

    /// The rest of a sheet, and the clearing of what it leaves.
    fn fill_rest(
        &self, floor: Floor, job: Job, d: &[u32], sheet: &mut SheetMut, work: &mut [u32],
    ) -> Result<Plan, Refusal> {
        sheet.f.fill(0);
        sheet.back.fill(0);
        sheet.next.fill(0);
        let planned = (self.rest)(floor, job, d, sheet, work);
        match planned {
            Ok(plan) => sheet.route[plan.points..].fill(0),
            Err(_) => sheet.route.fill(0),
        }
        work.fill(0);
        planned
    }
}

/// Fills the counts and the next vertices on the way; whether all counts fit in 64 bits.
fn counts<T: Table>(
    way: &[u16], masks: &[T::Mask], offsets: &[isize; 16], a: usize, b: usize, d: &[u32], sheet: &mut SheetMut,
) -> bool {
    sheet.f[a] = 1;
    for v in way.iter().rev().map(|&v| usize::from(v)).filter(|&v| v != a) {
        let (count, over) = sum::<T>(v, masks[v], offsets, d, sheet.f);
        if over {
            return false;
        }
        sheet.f[v] = count;
    }
    // No count to B passes the total, which fits, and no traversal count does.
    sheet.back[b] = 1;
    sheet.next[b] = b as u16;
    for v in way.iter().map(|&v| usize::from(v)).filter(|&v| v != b) {
        let (count, _, next) = sum_and_next::<T>(v, masks[v], offsets, sheet.e, sheet.back, sheet.f);
        sheet.back[v] = count;
        sheet.next[v] = next as u16;
    }
    true
}

/// Counts, next vertices and route from the costs. `way` has the vertices on the way, those nearer to B first.
pub fn counts_and_route<T: Table>(
    job: Job, columns: usize, way: &[u16], masks: &[T::Mask], d: &[u32], sheet: &mut SheetMut,
) -> Result<Plan, Refusal> {
    let (a, b, offsets) = (job.a as usize, job.b as usize, offsets(columns));
    let fits = counts::<T>(way, masks, &offsets, a, b, d, sheet);
    if !fits {
        sheet.f.fill(0);
        return Err(Refusal::TooMany);
    }

    let (mut u, mut points) = (a, 1);
    sheet.route[0] = a as u16;
    while u != b {
        u = sheet.next[u].into();
        sheet.route[points] = u as u16;
        points += 1;
    }
    Ok(Plan { cost: d[b], total: sheet.f[b], points })
}

fn prepare(floor: Floor, work: &mut [u32]) {
    fill_masks(floor, Memory::of(work, floor.vertices()).masks);
}

fn search(floor: Floor, neighbourhood: u32, from: usize, d: &mut [u32], work: &mut [u32]) {
    settle(&mut Memory::of(work, floor.vertices()), neighbourhood, floor.width as usize + 1, from, d);
}

fn settle(memory: &mut Memory, neighbourhood: u32, columns: usize, from: usize, d: &mut [u32]) -> usize {
    if neighbourhood == 8 {
        search8(memory, columns, from, d)
    } else {
        search4(memory, columns, from, d)
    }
}

fn rest(floor: Floor, job: Job, d: &[u32], sheet: &mut SheetMut, work: &mut [u32]) -> Result<Plan, Refusal> {
    let (b, columns) = (job.b as usize, floor.width as usize + 1);
    let cost = d[b];
    if cost == UNREACHABLE {
        sheet.e.fill(0);
        return Err(Refusal::NoRoute);
    }
    let mut memory = Memory::of(work, floor.vertices());
    let settled = settle(&mut memory, job.neighbourhood, columns, b, sheet.e);
    let Memory { order, later: way, masks } = memory;

    // The vertices on the way, those nearer to B first.
    let e = &*sheet.e;
    let mut n = 0;
    for &v in &order[..settled] {
        // SAFETY: the entries of `order` are vertices that both ends reach, none twice.
        unsafe {
            let (from, to) = (*d.get_unchecked(usize::from(v)), *e.get_unchecked(usize::from(v)));
            if to >= cost + 408 {
                break;
            }
            *way.get_unchecked_mut(n) = v;
            n += usize::from(from + to == cost);
        }
    }
    let counts_and_route = if job.neighbourhood == 8 { counts_and_route::<Eight> } else { counts_and_route::<Four> };
    counts_and_route(job, columns, &way[..n], masks, d, sheet)
}
