//! The library's line of sight, the same loops written in Rust: what its proved form costs is measured against it.

use crate::lurfanzi::Floor;
use crate::shape::cell;

#[derive(Clone, Copy)]
pub struct Sight<'a> {
    width: usize,
    height: usize,
    map: &'a [u8],
}

/// The far line of the k-th cell from a towards b: one more than the cell's number.
fn line_at(a: usize, b: usize, k: usize) -> usize {
    if a <= b { a + k + 1 } else { a - k }
}

/// The line k lines from a towards b.
fn point_at(a: usize, b: usize, k: usize) -> usize {
    if a <= b { a + k } else { a - k }
}

fn common_divisor(mut a: usize, mut b: usize) -> usize {
    while b != 0 {
        (a, b) = (b, a % b);
    }
    a
}

impl<'a> Sight<'a> {
    pub fn new(floor: Floor<'a>) -> Sight<'a> {
        Sight { width: floor.width as usize, height: floor.height as usize, map: floor.map }
    }

    /// Whether two vertices see each other.
    pub fn sees(self, a: u16, b: u16) -> bool {
        let (columns, a, b) = (self.width + 1, usize::from(a), usize::from(b));
        let (x0, y0, x1, y1) = (a % columns, a / columns, b % columns, b / columns);
        let (across, down) = (x0.abs_diff(x1), y0.abs_diff(y1));
        if !self.is_unblocked(x0, y0, x1, y1, across, down) {
            return false;
        }
        if across + down == 0 {
            return true;
        }
        if across <= 1 && down <= 1 {
            return !self.is_pinch(x0, y0) && !self.is_pinch(x1, y1);
        }
        let parts = common_divisor(across, down);
        let (part_x, part_y) = (across / parts, down / parts);
        (0..=parts).all(|k| !self.is_pinch(point_at(x0, x1, k * part_x), point_at(y0, y1, k * part_y)))
    }

    /// Whether the cell with the vertex (x, y) as its lower right corner is blocked; outside the map it is.
    fn is_blocked(self, x: usize, y: usize) -> bool {
        x == 0 || y == 0 || self.width < x || self.height < y || cell(self.map, (y - 1) * self.width + x - 1) != 0
    }

    fn is_pinch(self, x: usize, y: usize) -> bool {
        if x == 0 || y == 0 || self.width <= x || self.height <= y {
            return false;
        }
        let (a, b) = (self.is_blocked(x, y), self.is_blocked(x + 1, y + 1));
        let (c, d) = (self.is_blocked(x + 1, y), self.is_blocked(x, y + 1));
        a == b && c == d && a != c
    }

    fn is_unblocked(self, x0: usize, y0: usize, x1: usize, y1: usize, across: usize, down: usize) -> bool {
        if across == 0 {
            let shut = |y: usize| self.is_blocked(x0, y) & self.is_blocked(x0 + 1, y);
            return (0..down).all(|k| !shut(line_at(y0, y1, k)));
        }
        if down == 0 {
            let shut = |x: usize| self.is_blocked(x, y0) & self.is_blocked(x, y0 + 1);
            return (0..across).all(|k| !shut(line_at(x0, x1, k)));
        }
        let blocked = |c: usize, r: usize| self.is_blocked(line_at(x0, x1, c), line_at(y0, y1, r));
        if across < down { steep(across, down, blocked) } else { slanted(across, down, blocked) }
    }
}

/// No cell entered is blocked, by a look at a run of cells in each row. Where the segment crosses a row line is carried
/// from row to row: so many columns from the first end, and a rest, of which `down` make a column.
fn slanted(across: usize, down: usize, blocked: impl Fn(usize, usize) -> bool) -> bool {
    let (step, part) = (across / down, across % down);
    let (mut column, mut rest) = (0, 0);
    for r in 0..down {
        let first = column;
        column += step;
        rest += part;
        if rest >= down {
            column += 1;
            rest -= down;
        }
        let past = if rest == 0 { column } else { column + 1 };
        if (first..past).any(|c| blocked(c, r)) {
            return false;
        }
    }
    true
}

/// The same with more rows than columns: one cell of each row, or two.
fn steep(across: usize, down: usize, blocked: impl Fn(usize, usize) -> bool) -> bool {
    let (mut column, mut rest) = (0, 0);
    for r in 0..down {
        if blocked(column, r) {
            return false;
        }
        rest += across;
        if rest >= down {
            column += 1;
            rest -= down;
            if rest != 0 && blocked(column, r) {
                return false;
            }
        }
    }
    true
}
