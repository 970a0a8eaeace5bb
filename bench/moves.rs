//! The open moves of a vertex as a mask; and what the hand-written planners and the tuned checker do with it.
//!
//! Bits 0 to 7 are the eight moves in their order. Neighbourhood 16 has eight bits more: bit 8 + k is the sum of moves
//! k and k + 1, which stands between them in its order.
//!
//! The cells at a vertex, with 16 those next to them too, give its half mask, which has the moves that lead to a pinch
//! too; that of a pinch is 0. The checker needs no more: the costs of a pinch are true only where they are M, and a
//! move to such a vertex makes nothing cheaper and adds no count. A planner has whole masks.

use crate::lurfanzi::Floor;

/// The bits of the cardinal moves.
pub const CARDINAL: u8 = 0x55;

/// The offsets of the moves, by their bits.
pub fn offsets(columns: usize) -> [isize; 16] {
    let c = columns as isize;
    let eight = [1, c + 1, c, c - 1, -1, -c - 1, -c, -c + 1];
    std::array::from_fn(|k| if k < 8 { eight[k] } else { eight[k - 8] + eight[(k - 7) % 8] })
}

/// A neighbourhood.
pub trait Table {
    type Mask: Copy + Default + Into<u32>;

    /// The bit and the cost of each move, in move order.
    const MOVES: &'static [(usize, u32)];

    /// The half masks of one row of vertices, from the two rows of cells above it and the two below.
    fn row_masks(cells: [&Cells; 4], masks: &mut [Self::Mask]);
}

pub struct Four;

pub struct Eight;

pub struct Sixteen;

impl Table for Four {
    type Mask = u8;

    const MOVES: &'static [(usize, u32)] = &[(0, 408), (2, 408), (4, 408), (6, 408)];

    fn row_masks(cells: [&Cells; 4], masks: &mut [u8]) {
        Eight::row_masks(cells, masks);
        masks.iter_mut().for_each(|mask| *mask &= CARDINAL);
    }
}

impl Table for Eight {
    type Mask = u8;

    const MOVES: &'static [(usize, u32)] =
        &[(0, 408), (1, 577), (2, 408), (3, 577), (4, 408), (5, 577), (6, 408), (7, 577)];

    fn row_masks([_, above, below, _]: [&Cells; 4], masks: &mut [u8]) {
        let columns = masks.len();
        let left = above[1..=columns].iter().zip(&below[1..=columns]);
        let right = above[2..columns + 2].iter().zip(&below[2..columns + 2]);
        for (mask, ((nw, sw), (ne, se))) in masks.iter_mut().zip(left.zip(right)) {
            let upper = (nw & sw) << 4 | nw << 5 | (nw & ne) << 6 | ne << 7;
            let shut = (ne & se) | se << 1 | (sw & se) << 2 | sw << 3 | upper;
            let pinched = (shut == 1 << 1 | 1 << 5) | (shut == 1 << 3 | 1 << 7);
            *mask = !shut & u8::from(pinched).wrapping_sub(1);
        }
    }
}

impl Table for Sixteen {
    type Mask = u16;

    const MOVES: &'static [(usize, u32)] = &[
        (0, 1000), (8, 2236), (1, 1414), (9, 2236), (2, 1000), (10, 2236), (3, 1414), (11, 2236),
        (4, 1000), (12, 2236), (5, 1414), (13, 2236), (6, 1000), (14, 2236), (7, 1414), (15, 2236),
    ];

    fn row_masks(cells: [&Cells; 4], masks: &mut [u16]) {
        let [far_above, above, below, far_below] = cells;
        let (mut eight, mut between) = ([0; 128], [0; 128]);
        Eight::row_masks(cells, &mut eight[..masks.len()]);
        // Of all 128 columns, so that nothing depends on how many there are.
        for (x, between) in between.iter_mut().enumerate() {
            let (nw, ne, sw, se) = (above[x + 1], above[x + 2], below[x + 1], below[x + 2]);
            let lower = (se | below[x + 3]) | (se | far_below[x + 2]) << 1 | (sw | far_below[x + 1]) << 2;
            let sides = (sw | below[x]) << 3 | (nw | above[x]) << 4 | (ne | above[x + 3]) << 7;
            let upper = (nw | far_above[x + 1]) << 5 | (ne | far_above[x + 2]) << 6;
            *between = !(lower | sides | upper);
        }
        for ((mask, &eight), &between) in masks.iter_mut().zip(&eight).zip(&between) {
            // No move of the eight leaves a pinch, nor a vertex whose cells are all blocked.
            *mask = (u16::from(eight) | u16::from(between) << 8) & u16::from(eight == 0).wrapping_sub(1);
        }
    }
}

/// A row of cells, a byte each, with two blocked cells at either side.
pub type Cells = [u8; 132];

/// The bits of a byte as bytes, the lowest first.
const fn spread() -> [[u8; 8]; 256] {
    let mut table = [[0; 8]; 256];
    let mut byte = 0;
    while byte < 256 {
        let mut k = 0;
        while k < 8 {
            table[byte][k] = (byte >> k & 1) as u8;
            k += 1;
        }
        byte += 1;
    }
    table
}

static SPREAD: [[u8; 8]; 256] = spread();

/// The cells of row y as bits, the first at the low end; past the row any bits.
#[inline(always)]
fn row_bits(floor: Floor, y: usize) -> u128 {
    let first = y * floor.width as usize;
    let (bytes, shift) = (&floor.map[first / 8..], first % 8);
    let Some((low, rest)) = bytes.split_first_chunk::<16>() else {
        return bytes.iter().rev().fold(0, |bits, &byte| bits << 8 | u128::from(byte)) >> shift;
    };
    // Shifted in two steps, since all 128 places at once are no shift.
    let high = u128::from(rest.first().copied().unwrap_or(0)) << 1 << (127 - shift);
    u128::from_le_bytes(*low) >> shift | high
}

/// Unpacks row y of the map; outside all cells are blocked.
#[inline(always)]
fn read_row(floor: Floor, y: usize, cells: &mut Cells) {
    if y >= floor.height as usize {
        *cells = [1; 132];
        return;
    }
    let width = floor.width as usize;
    for (eight, byte) in cells[2..].chunks_exact_mut(8).zip(row_bits(floor, y).to_le_bytes()).take(width.div_ceil(8)) {
        eight.copy_from_slice(&SPREAD[usize::from(byte)]);
    }
    (cells[width + 2], cells[width + 3]) = (1, 1);
}

/// Calls `take` with the number of each row of vertices and the two rows of cells above and below it, until it answers
/// false; whether it never did.
pub fn all_rows(floor: Floor, mut take: impl FnMut(usize, [&Cells; 4]) -> bool) -> bool {
    // Row y stands at place y % 4.
    let mut rows = [[1; 132]; 4];
    read_row(floor, 0, &mut rows[0]);
    (0..=floor.height as usize).all(|y| {
        read_row(floor, y + 1, &mut rows[(y + 1) % 4]);
        take(y, [2, 3, 0, 1].map(|ahead| &rows[(y + ahead) % 4]))
    })
}

/// Whole masks of the eight moves: half masks, and then each pinch clears the bits of the moves that lead to it.
pub fn fill_masks(floor: Floor, masks: &mut [u8]) {
    fill_half_masks::<Eight>(floor, masks);
    let columns = floor.width as usize + 1;
    let offsets = offsets(columns);
    for y in 1..floor.height as usize {
        let row = y * columns;
        for first in (row + 1..row + columns - 1).step_by(8) {
            let last = (first + 8).min(row + columns - 1);
            if has_zero(&masks[first..last]) {
                (first..last).for_each(|v| clear_moves_to(v, masks, &offsets));
            }
        }
    }
}

/// Whole masks of the sixteen moves.
pub fn fill_masks_of_16(floor: Floor, masks: &mut [u16]) {
    fill_half_masks::<Sixteen>(floor, masks);
    let columns = floor.width as usize + 1;
    let offsets = offsets(columns);
    for y in 1..floor.height as usize {
        let row = y * columns;
        for first in (row + 1..row + columns - 1).step_by(16) {
            let last = (first + 16).min(row + columns - 1);
            if masks[first..last].iter().fold(false, |any, &mask| any | (mask == 0)) {
                (first..last).for_each(|v| clear_moves_of_16_to(v, masks, &offsets));
            }
        }
    }
}

fn fill_half_masks<T: Table>(floor: Floor, masks: &mut [T::Mask]) {
    let columns = floor.width as usize + 1;
    all_rows(floor, |y, cells| {
        T::row_masks(cells, &mut masks[y * columns..][..columns]);
        true
    });
}

/// Whether one of at most eight bytes is 0.
fn has_zero(bytes: &[u8]) -> bool {
    let Ok(eight) = bytes.try_into() else { return bytes.contains(&0) };
    let word = u64::from_le_bytes(eight);
    word.wrapping_sub(0x0101_0101_0101_0101) & !word & 0x8080_8080_8080_8080 != 0
}

/// Clears the bits of the moves that lead to a vertex inside the floor, where its mask is 0. Where it is no pinch, none
/// is set.
fn clear_moves_to(v: usize, masks: &mut [u8], offsets: &[isize; 16]) {
    if masks[v] == 0 {
        for (k, &offset) in offsets[..8].iter().enumerate() {
            masks[v.wrapping_add_signed(offset)] &= !(1u8 << 4).rotate_left(k as u32);
        }
    }
}

/// The same with sixteen moves. One that leaves the floor at a side is numbered as some other vertex, from which the
/// move back leaves the floor too: its bit is not set.
fn clear_moves_of_16_to(v: usize, masks: &mut [u16], offsets: &[isize; 16]) {
    if masks[v] == 0 {
        for (k, &offset) in offsets.iter().enumerate() {
            if let Some(mask) = masks.get_mut(v.wrapping_add_signed(offset)) {
                *mask &= !(1 << (k ^ 4));
            }
        }
    }
}

/// The sum of the counts of the neighbours that are one open move nearer, and whether it passed 64 bits. The mask is
/// that of v, whose cost is not M, or its half mask; both slices have a place for each vertex. M, at a pinch, wraps to
/// one less than the move's cost, which no cost is: 407 or 576; with 16 an odd number.
#[inline(always)]
pub fn sum<T: Table>(v: usize, mask: T::Mask, offsets: &[isize; 16], d: &[u32], count: &[u64]) -> (u64, bool) {
    let (mut sum, mut over) = (0u64, false);
    let mask: u32 = mask.into();
    for &(k, cost) in T::MOVES {
        // SAFETY: an open move leads to a vertex; a shut one is taken to lead to v, which is not nearer.
        unsafe {
            let u = v.wrapping_add_signed(offsets[k] & -((mask >> k & 1) as isize));
            let nearer = d.get_unchecked(u).wrapping_add(cost) == *d.get_unchecked(v);
            let (next, carry) = sum.overflowing_add(if nearer { *count.get_unchecked(u) } else { 0 });
            sum = next;
            over |= carry;
        }
    }
    (sum, over)
}

/// The same sum of the counts to B, by the costs to B; and the next vertex: of the neighbours that are one open move
/// nearer the one with the highest traversal count, of equals the first, v where there is none. The mask may be a half
/// mask.
#[inline(always)]
pub fn sum_and_next<T: Table>(
    v: usize, mask: T::Mask, offsets: &[isize; 16], e: &[u32], back: &[u64], f: &[u64],
) -> (u64, bool, usize) {
    let (mut sum, mut over, mut best, mut next) = (0u64, false, 0, v);
    let mask: u32 = mask.into();
    for &(k, cost) in T::MOVES {
        // SAFETY: as in `sum`.
        unsafe {
            let w = v.wrapping_add_signed(offsets[k] & -((mask >> k & 1) as isize));
            let nearer = e.get_unchecked(w).wrapping_add(cost) == *e.get_unchecked(v);
            let count = if nearer { *back.get_unchecked(w) } else { 0 };
            let (more, carry) = sum.overflowing_add(count);
            sum = more;
            over |= carry;
            let traversals = count.wrapping_mul(*f.get_unchecked(w));
            if traversals > best {
                (best, next) = (traversals, w);
            }
        }
    }
    (sum, over, next)
}
