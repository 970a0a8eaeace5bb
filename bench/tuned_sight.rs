//! The hand-tuned line of sight and thinning: a segment's cells as one run in each row, and the vertices on it.

use crate::lurfanzi::{Floor, Refusal};
use crate::shape::{self, cell, is_pinch};

/// So many cells are read at once, wherever the first is in its byte.
const AT_ONCE: usize = 56;

/// At most 56 cells from a number on, as bits, the first at the low end.
#[inline(always)]
fn bits(map: &[u8], first: usize, count: usize) -> u64 {
    let at = first / 8;
    let word = if at + 8 <= map.len() {
        // SAFETY: the eight bytes are the map's.
        u64::from_le(unsafe { map.as_ptr().add(at).cast::<u64>().read_unaligned() })
    } else {
        last_bytes(&map[at..])
    };
    word >> (first % 8) & ((1 << count) - 1)
}

/// Less than eight bytes.
#[cold]
fn last_bytes(bytes: &[u8]) -> u64 {
    bytes.iter().rev().fold(0, |word, &byte| word << 8 | u64::from(byte))
}

#[inline(always)]
fn is_clear(map: &[u8], mut first: usize, mut count: usize) -> bool {
    while count > AT_ONCE {
        if bits(map, first, AT_ONCE) != 0 {
            return false;
        }
        first += AT_ONCE;
        count -= AT_ONCE;
    }
    bits(map, first, count) == 0
}

/// Whether no step along a grid line is between two blocked cells, one of the run above it and one of that below, and no
/// vertex between two steps is a pinch: there a blocked cell of one side is followed by one of the other.
fn is_passable(map: &[u8], mut above: usize, width: usize, mut count: usize) -> bool {
    loop {
        let part = count.min(AT_ONCE);
        let (one, other) = (bits(map, above, part), bits(map, above + width, part));
        if one & other | one >> 1 & other | one & other >> 1 != 0 {
            return false;
        }
        if part == count {
            return true;
        }
        // The last cells of this part are the first of the next.
        above += part - 1;
        count -= part - 1;
    }
}

/// Outside is blocked.
fn sees_along_row(floor: Floor, y: usize, left: usize, right: usize) -> bool {
    let (width, height, count) = (floor.width as usize, floor.height as usize, right - left);
    if y == 0 || y == height {
        return is_clear(floor.map, if y == 0 { left } else { (y - 1) * width + left }, count);
    }
    is_passable(floor.map, (y - 1) * width + left, width, count)
}

fn sees_along_column(floor: Floor, x: usize, top: usize, bottom: usize) -> bool {
    let (width, map) = (floor.width as usize, floor.map);
    if x == 0 || x == width {
        let beside = if x == 0 { 0 } else { width - 1 };
        return (top..bottom).all(|y| cell(map, y * width + beside) == 0);
    }
    // The cells left and right of the step before: at most one of them is blocked.
    let mut before = 0;
    (top..bottom).all(|y| {
        let here = bits(map, y * width + x - 1, 2);
        let shut = here == 3 || here != 0 && before == 3 - here;
        before = here;
        !shut
    })
}

/// Quotient and remainder of numbers below 2^32: the narrow division is the quicker one.
fn quotient(number: usize, by: usize) -> (usize, usize) {
    let (number, by) = (number as u32, by as u32);
    ((number / by) as usize, (number % by) as usize)
}

/// A vertex's column and row.
fn point(v: usize, columns: usize) -> (usize, usize) {
    let (y, x) = quotient(v, columns);
    (x, y)
}

/// Whether the cells along a diagonal are open, and no vertex between two of them is a pinch. At such a vertex the two
/// other cells are `beside` and `below` the cell before.
fn sees_along_diagonal(map: &[u8], first: usize, step: usize, beside: usize, below: usize, count: usize) -> bool {
    let mut k = 0;
    for _ in 1..count {
        if cell(map, first + k) | (cell(map, beside + k) & cell(map, below + k)) != 0 {
            return false;
        }
        k += step;
    }
    cell(map, first + k) == 0
}

fn common_divisor(mut a: u32, mut b: u32) -> usize {
    while b != 0 {
        (a, b) = (b, a % b);
    }
    a as usize
}

/// Whether a vertex strictly inside a segment that goes down is a pinch.
fn passes_pinch(floor: Floor, (x0, y0): (usize, usize), (x1, y1): (usize, usize)) -> bool {
    let (dx, dy) = (x0.abs_diff(x1), y1 - y0);
    let parts = common_divisor(dy as u32, dx as u32);
    let (part_x, part_y) = (dx / parts, dy / parts);
    (1..parts).any(|k| is_pinch(floor, if x0 < x1 { x0 + k * part_x } else { x0 - k * part_x }, y0 + k * part_y))
}

fn is_pinch_at(floor: Floor, v: usize) -> bool {
    let (x, y) = point(v, floor.width as usize + 1);
    is_pinch(floor, x, y)
}

#[inline]
fn sees(floor: Floor, a: usize, b: usize) -> bool {
    a == b || !is_pinch_at(floor, a) && !is_pinch_at(floor, b) && is_clear_between(floor, a, b)
}

/// Whether two vertices that are no pinches see each other.
#[inline]
fn is_clear_between(floor: Floor, a: usize, b: usize) -> bool {
    let (width, columns) = (floor.width as usize, floor.width as usize + 1);
    let ((x0, y0), (x1, y1)) = (point(a.min(b), columns), point(a.max(b), columns));
    if y0 == y1 {
        return x0 == x1 || sees_along_row(floor, y0, x0, x1);
    }
    if x0 == x1 {
        return sees_along_column(floor, x0, y0, y1);
    }
    let (dx, dy) = (x0.abs_diff(x1), y1 - y0);
    let corner = y0 * width + x0;
    if dx == dy {
        return if x0 < x1 {
            sees_along_diagonal(floor.map, corner, width + 1, corner + 1, corner + width, dx)
        } else {
            sees_along_diagonal(floor.map, corner - 1, width - 1, (corner - 1).wrapping_sub(1), corner - 1 + width, dx)
        };
    }
    // In each row the segment starts `from + rest / dy` columns beside x0.
    let (mut from, mut rest) = (0, 0);
    let (whole, part) = if dx < dy { (0, dx) } else { quotient(dx, dy) };
    let open = (y0..y1).all(|y| {
        let first = from;
        from += whole;
        rest += part;
        if rest >= dy {
            rest -= dy;
            from += 1;
        }
        let last = from + usize::from(rest > 0);
        let left = if x0 < x1 { x0 + first } else { x0 - last };
        is_clear(floor.map, y * width + left, last - first)
    });
    open && !passes_pinch(floor, (x0, y0), (x1, y1))
}

pub fn sight(floor: Floor, a: u32, b: u32) -> Result<bool, Refusal> {
    shape::of_floor(floor)?;
    shape::of_end(floor, a)?;
    shape::of_end(floor, b)?;
    Ok(sees(floor, a as usize, b as usize))
}

/// Whether the step from q to r goes on in the direction of the one from p to q.
fn goes_on(columns: usize, p: usize, q: usize, r: usize) -> bool {
    let signed = |v: usize| {
        let (x, y) = point(v, columns);
        (x as i32, y as i32)
    };
    let ((px, py), (qx, qy), (rx, ry)) = (signed(p), signed(q), signed(r));
    let ((ax, ay), (bx, by)) = ((qx - px, qy - py), (rx - qx, ry - qy));
    ax * by == ay * bx && ax * bx + ay * by >= 0
}

pub fn thin(floor: Floor, list: &[u16], out: &mut [u16], n: usize) -> Result<usize, Refusal> {
    shape::of_floor(floor)?;
    shape::of_lists(list, out)?;
    let vertices = floor.vertices();
    let used = list.get(..n).filter(|used| !used.is_empty()).ok_or(Refusal::NotJoined)?;
    let vertex = |k: usize| usize::from(used[k]);
    if !used.iter().all(|&v| usize::from(v) < vertices) {
        return Err(Refusal::NotJoined);
    }
    // A pinch is joined to itself alone.
    let joined = if used.iter().any(|&v| is_pinch_at(floor, usize::from(v))) {
        used.iter().all(|v| *v == used[0])
    } else {
        (1..n).all(|k| is_clear_between(floor, vertex(k - 1), vertex(k)))
    };
    if !joined {
        return Err(Refusal::NotJoined);
    }
    out.fill(0);
    let (mut i, mut kept) = (0, 1);
    let columns = floor.width as usize + 1;
    while i < n - 1 {
        let mut k = i + 1;
        // A vertex further on in the same direction is seen: each part of the segment is clear.
        while k + 1 < n
            && (goes_on(columns, vertex(i), vertex(k), vertex(k + 1))
                || is_clear_between(floor, vertex(i), vertex(k + 1)))
        {
            k += 1;
        }
        i = k;
        out[kept] = i as u16;
        kept += 1;
    }
    Ok(kept)
}
