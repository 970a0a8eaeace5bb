//! Floors whose totals lie at the edge of 64 bits, for neighbourhood 4, and doubled halls for 16.

use crate::floor::Floor;

/// Halls one below the other, with a wall of one row after each. A walk goes round the ends of the walls to and fro,
/// and a cheapest one passes both corners of each end: `at` is the lower one, where the next hall begins. So the counts
/// of the halls are multiplied.
struct Track {
    /// The walls' rows, and the columns of their open cells.
    walls: Vec<(u64, Vec<u64>)>,
    at: (u64, u64),
}

impl Track {
    /// A hall of one row to the right: multiplies the count by length + 1; with neighbourhood 16, where the row is
    /// changed by one move of two columns, by length - 1.
    fn right(&mut self, length: u64) {
        let (x, y) = self.at;
        self.walls.push((y + 1, vec![x + length]));
        self.at = (x + length, y + 2);
    }

    /// The same to the left.
    fn left(&mut self, length: u64) {
        let (x, y) = self.at;
        self.walls.push((y + 1, vec![x - length - 1]));
        self.at = (x - length, y + 2);
    }

    /// Two halls to the right with a wall between them that is open at some cells. A walk passes that wall along one of
    /// the column lines c beside them, so that the count is multiplied by the sum over these lines of
    /// binomial(c + upper, upper) * binomial(length - c + lower, lower).
    fn gate(&mut self, upper: u64, lower: u64, length: u64, open: &[u64]) {
        let (x, y) = self.at;
        self.walls.push((y + upper, open.iter().map(|cell| x + cell).collect()));
        self.walls.push((y + upper + 1 + lower, vec![x + length]));
        self.at = (x + length, y + upper + lower + 2);
    }

    /// The floor with all these rows, `width` cells wide.
    fn floor(&self, width: u64) -> Floor {
        let mut floor = Floor::open(width, self.at.1);
        for (row, open) in &self.walls {
            for i in (0..width).filter(|i| !open.contains(i)) {
                floor.cells[(row * width + i) as usize] = 1;
            }
        }
        floor
    }
}

/// A floor with its ends.
pub struct Case {
    pub floor: Floor,
    pub start: u64,
    pub goal: u64,
}

impl Case {
    fn new(floor: Floor, start: (u64, u64), goal: (u64, u64)) -> Case {
        let number = |(x, y): (u64, u64)| y * (floor.width + 1) + x;
        let (start, goal) = (number(start), number(goal));
        Case { floor, start, goal }
    }
}

/// k halls of two ways each: a total of 2^k.
pub fn doubling(k: u64) -> Case {
    halls(k, 1)
}

/// The same for neighbourhood 16.
pub fn doubling_of_sixteen(k: u64) -> Case {
    halls(k, 3)
}

/// k halls of one row, to the right and to the left in turn.
fn halls(k: u64, length: u64) -> Case {
    let mut track = Track { walls: Vec::new(), at: (1, 0) };
    for hall in 1..k {
        if hall % 2 == 1 { track.right(length) } else { track.left(length) }
    }
    let (x, y) = track.at;
    track.at = (length + 2 - x, y + 1);
    Case::new(track.floor(length + 2), (1, 0), track.at)
}

/// A total of 6,700,417 * (length + 1) * 65,537 * 3 * 641 * 5 * 257, which for length 16 is 2^64 - 1.
pub fn product(length: u64) -> Case {
    let mut track = Track { walls: Vec::new(), at: (0, 0) };
    track.gate(2, 3, 45, &[1, 2, 8, 9, 13, 17, 23, 24]);
    track.left(length);
    track.gate(2, 3, 20, &[0, 1, 11, 12, 17, 18, 19]);
    track.left(2);
    track.gate(1, 1, 18, &[4, 5, 6, 9, 10]);
    track.left(4);
    track.gate(1, 2, 9, &[2, 8]);
    Case::new(track.floor(track.at.0 + 1), (0, 0), track.at)
}
