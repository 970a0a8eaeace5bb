//! The planner with a hand-tuned bucket queue: open moves as masks, Dial's method from each end with a bucket for each
//! cost; moves have one cost with neighbourhood 4, two with 8, three with 16. Counts, next vertices and route are the
//! tuned program's.

use crate::lurfanzi::{Floor, Job, Plan, Refusal, SheetMut, UNREACHABLE};
use crate::moves::{fill_masks, fill_masks_of_16, offsets, Eight, Four, Sixteen, Table, CARDINAL};
use crate::tuned::{self, Method};

/// No node.
const NONE: u16 = u16::MAX;

/// A neighbourhood in this planner.
trait Queued: Table {
    /// How many costs its moves have.
    const KINDS: usize;

    /// Fills whole masks.
    fn fill_masks(floor: Floor, masks: &mut [Self::Mask]);

    /// Costs from one end; the answer is the number of vertices reached, which `order` holds, the cheaper ones first.
    fn settle(memory: &mut Memory<Self::Mask>, columns: usize, from: usize, d: &mut [u32]) -> usize;
}

impl Queued for Four {
    const KINDS: usize = 1;

    fn fill_masks(floor: Floor, masks: &mut [u8]) {
        fill_masks(floor, masks);
    }

    fn settle(memory: &mut Memory<u8>, columns: usize, from: usize, d: &mut [u32]) -> usize {
        settle_8(memory, CARDINAL, columns, from, d)
    }
}

impl Queued for Eight {
    const KINDS: usize = 2;

    fn fill_masks(floor: Floor, masks: &mut [u8]) {
        fill_masks(floor, masks);
    }

    fn settle(memory: &mut Memory<u8>, columns: usize, from: usize, d: &mut [u32]) -> usize {
        settle_8(memory, 0xFF, columns, from, d)
    }
}

impl Queued for Sixteen {
    const KINDS: usize = 3;

    fn fill_masks(floor: Floor, masks: &mut [u16]) {
        fill_masks_of_16(floor, masks);
    }

    fn settle(memory: &mut Memory<u16>, columns: usize, from: usize, d: &mut [u32]) -> usize {
        settle_16(memory, columns, from, d)
    }
}

/// The costs of the moves, by their bits.
const COSTS: [u32; 8] = [408, 577, 408, 577, 408, 577, 408, 577];

/// Regions of the working slice: `order` has V places, `vertices` and `after` V for each cost of a move, `masks` at
/// least V.
///
/// A vertex is put into the queue at most once for each cost of a move: vertices are settled in order of cost, so that
/// of the moves of one cost that lead to it the first tried makes its cost least.
struct Memory<'a, M> {
    order: &'a mut [u16],
    vertices: &'a mut [u16],
    after: &'a mut [u16],
    masks: &'a mut [M],
}

fn memory_of<Q: Queued>(work: &mut [u32], v: usize) -> Memory<'_, Q::Mask> {
    // SAFETY: any bytes are numbers of either width.
    let (_, halves, _) = unsafe { work.align_to_mut::<u16>() };
    let (order, rest) = halves.split_at_mut(v);
    let (vertices, rest) = rest.split_at_mut(Q::KINDS * v);
    let (after, rest) = rest.split_at_mut(Q::KINDS * v);
    // SAFETY: a mask is a number of 8 or 16 bits.
    let (_, masks, _) = unsafe { rest.align_to_mut::<Q::Mask>() };
    Memory { order, vertices, after, masks }
}

/// The buckets: the first node of each, and a bit for each that has nodes, in words of 64. They number more than the
/// dearest move costs, so that no two costs in the queue have the same bucket.
struct Buckets<const SPAN: usize, const WORDS: usize> {
    heads: [u16; SPAN],
    filled: [u64; WORDS],
}

impl<const SPAN: usize, const WORDS: usize> Buckets<SPAN, WORDS> {
    /// All empty but the first, which has node 0.
    fn new() -> Buckets<SPAN, WORDS> {
        let mut heads = [NONE; SPAN];
        heads[0] = 0;
        Buckets { heads, filled: [0; WORDS] }
    }

    /// Empties bucket `at` and returns its first node.
    fn take(&mut self, at: usize) -> u16 {
        self.filled[at / 64] &= !(1 << (at % 64));
        std::mem::replace(&mut self.heads[at], NONE)
    }

    /// How far after bucket `at`, which is empty, the next filled one is.
    fn gap(&self, at: usize) -> Option<usize> {
        let (mut word, bit) = (at / 64, at % 64);
        let ahead = self.filled[word] >> bit;
        if ahead != 0 {
            return Some(ahead.trailing_zeros() as usize);
        }
        for k in 1..=WORDS {
            word = if word + 1 == WORDS { 0 } else { word + 1 };
            if self.filled[word] != 0 {
                return Some(64 * k - bit + self.filled[word].trailing_zeros() as usize);
            }
        }
        None
    }

    /// A bucket this far after another.
    fn after(at: usize, gap: usize) -> usize {
        let to = at + gap;
        if to >= SPAN { to - SPAN } else { to }
    }
}

type BucketsOf8 = Buckets<640, 10>;

type BucketsOf16 = Buckets<2304, 36>;

/// Neighbourhoods 4 and 8: the bits of the open moves in turn.
fn settle_8(memory: &mut Memory<u8>, moves_of: u8, columns: usize, from: usize, d: &mut [u32]) -> usize {
    let offsets = offsets(columns);
    let Memory { order, vertices, after, masks } = memory;
    let mut buckets = BucketsOf8::new();
    d.fill(UNREACHABLE);
    d[from] = 0;
    (vertices[0], after[0]) = (from as u16, NONE);
    let (mut n, mut nodes, mut cost, mut at) = (0, 1, 0, 0);
    loop {
        let mut node = buckets.take(at);
        // SAFETY: every node's vertex is one of the floor, an open move leads to a vertex, no vertex is settled twice
        // or put more often than moves have costs, and `Buckets::after` answers less than the span.
        unsafe {
            while node != NONE {
                let u = usize::from(*vertices.get_unchecked(usize::from(node)));
                node = *after.get_unchecked(usize::from(node));
                if *d.get_unchecked(u) != cost {
                    continue;
                }
                *order.get_unchecked_mut(n) = u as u16;
                n += 1;
                let mut moves = *masks.get_unchecked(u) & moves_of;
                while moves != 0 {
                    let k = moves.trailing_zeros() as usize;
                    moves &= moves - 1;
                    let w = u.wrapping_add_signed(*offsets.get_unchecked(k));
                    let step = *COSTS.get_unchecked(k);
                    if cost + step < *d.get_unchecked(w) {
                        *d.get_unchecked_mut(w) = cost + step;
                        let to = BucketsOf8::after(at, step as usize);
                        *vertices.get_unchecked_mut(nodes) = w as u16;
                        *after.get_unchecked_mut(nodes) = *buckets.heads.get_unchecked(to);
                        *buckets.heads.get_unchecked_mut(to) = nodes as u16;
                        *buckets.filled.get_unchecked_mut(to / 64) |= 1 << (to % 64);
                        nodes += 1;
                    }
                }
            }
        }
        let Some(gap) = buckets.gap(at) else { return n };
        cost += gap as u32;
        at = BucketsOf8::after(at, gap);
    }
}

/// Offers each of the sixteen far ends its cost: the end, which of the three costs it is, and the cost.
#[inline(always)]
fn offer_all(end: impl Fn(usize) -> usize, mut offer: impl FnMut(usize, usize, u32)) {
    for k in [0, 2, 4, 6] {
        offer(end(k), 0, 1000);
    }
    for k in [1, 3, 5, 7] {
        offer(end(k), 1, 1414);
    }
    for k in [8, 9, 10, 11, 12, 13, 14, 15] {
        offer(end(k), 2, 2236);
    }
}

/// Neighbourhood 16: the three buckets that moves lead to are found once for each bucket that is taken, and a vertex's
/// sixteen tries are written out, without their tests of what is open where all is. A shut move leads to the vertex
/// itself, whose cost is final.
fn settle_16(memory: &mut Memory<u16>, columns: usize, from: usize, d: &mut [u32]) -> usize {
    let offsets = offsets(columns);
    let Memory { order, vertices, after, masks } = memory;
    let mut buckets = BucketsOf16::new();
    d.fill(UNREACHABLE);
    d[from] = 0;
    (vertices[0], after[0]) = (from as u16, NONE);
    let (mut n, mut nodes, mut cost, mut at) = (0, 1, 0, 0);
    loop {
        let mut node = buckets.take(at);
        let to = [1000, 1414, 2236].map(|step| BucketsOf16::after(at, step));
        let mut heads = to.map(|to| buckets.heads[to]);
        // SAFETY: as in `settle_8`.
        unsafe {
            while node != NONE {
                let u = usize::from(*vertices.get_unchecked(usize::from(node)));
                node = *after.get_unchecked(usize::from(node));
                if *d.get_unchecked(u) != cost {
                    continue;
                }
                *order.get_unchecked_mut(n) = u as u16;
                n += 1;
                let offer = |w: usize, kind: usize, step: u32| {
                    if cost + step < *d.get_unchecked(w) {
                        *d.get_unchecked_mut(w) = cost + step;
                        *vertices.get_unchecked_mut(nodes) = w as u16;
                        *after.get_unchecked_mut(nodes) = heads[kind];
                        heads[kind] = nodes as u16;
                        nodes += 1;
                    }
                };
                let mask = *masks.get_unchecked(u);
                if mask == 0xFFFF {
                    offer_all(|k| u.wrapping_add_signed(offsets[k]), offer);
                } else {
                    offer_all(|k| u.wrapping_add_signed(offsets[k] & -((mask >> k & 1) as isize)), offer);
                }
            }
        }
        for (to, head) in to.into_iter().zip(heads) {
            buckets.heads[to] = head;
            buckets.filled[to / 64] |= u64::from(head != NONE) << (to % 64);
        }
        let Some(gap) = buckets.gap(at) else { return n };
        cost += gap as u32;
        at = BucketsOf16::after(at, gap);
    }
}

fn method(neighbourhood: u32) -> Method {
    match neighbourhood {
        4 => method_of::<Four>(),
        8 => method_of::<Eight>(),
        _ => method_of::<Sixteen>(),
    }
}

fn method_of<Q: Queued>() -> Method {
    Method { prepare: prepare::<Q>, search: search::<Q>, rest: rest::<Q> }
}

pub fn plan(floor: Floor, job: Job, d: &mut [u32], sheet: &mut SheetMut, work: &mut [u32]) -> Result<Plan, Refusal> {
    method(job.neighbourhood).plan(floor, job, d, sheet, work)
}

pub fn costs(floor: Floor, neighbourhood: u32, a: u32, d: &mut [u32], work: &mut [u32]) -> Result<(), Refusal> {
    method(neighbourhood).costs(floor, neighbourhood, a, d, work)
}

pub fn finish(floor: Floor, job: Job, d: &[u32], sheet: &mut SheetMut, work: &mut [u32]) -> Result<Plan, Refusal> {
    method(job.neighbourhood).finish(floor, job, d, sheet, work)
}

fn prepare<Q: Queued>(floor: Floor, work: &mut [u32]) {
    Q::fill_masks(floor, memory_of::<Q>(work, floor.vertices()).masks);
}

fn search<Q: Queued>(floor: Floor, _: u32, from: usize, d: &mut [u32], work: &mut [u32]) {
    Q::settle(&mut memory_of::<Q>(work, floor.vertices()), floor.width as usize + 1, from, d);
}

fn rest<Q: Queued>(floor: Floor, job: Job, d: &[u32], sheet: &mut SheetMut, work: &mut [u32]) -> Result<Plan, Refusal> {
    let (b, columns) = (job.b as usize, floor.width as usize + 1);
    let cost = d[b];
    if cost == UNREACHABLE {
        sheet.e.fill(0);
        return Err(Refusal::NoRoute);
    }
    let mut memory = memory_of::<Q>(work, floor.vertices());
    let n = Q::settle(&mut memory, columns, b, sheet.e);
    let mut kept = 0;
    for i in 0..n {
        let v = memory.order[i];
        memory.order[kept] = v;
        kept += usize::from(d[usize::from(v)] + sheet.e[usize::from(v)] == cost);
    }
    tuned::counts_and_route::<Q>(job, columns, &memory.order[..kept], memory.masks, d, sheet)
}
