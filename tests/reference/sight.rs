//! Line of sight by exact geometry: the segment is clipped against the open
//! square of each blocked cell, with fractions for the parameters; the vertices
//! on it cut it into equal parts, as many as its sides' greatest common divisor.

use crate::floor::Floor;

pub type Point = (i64, i64);

/// num / den with den above 0.
#[derive(Clone, Copy)]
struct Fraction {
    num: i128,
    den: i128,
}

impl Fraction {
    fn new(num: i128, den: i128) -> Fraction {
        if den < 0 {
            Fraction { num: -num, den: -den }
        } else {
            Fraction { num, den }
        }
    }

    fn less(self, other: Fraction) -> bool {
        self.num * other.den < other.num * self.den
    }

    fn min(self, other: Fraction) -> Fraction {
        if self.less(other) { self } else { other }
    }

    fn max(self, other: Fraction) -> Fraction {
        if self.less(other) { other } else { self }
    }
}

/// The open interval of all t with low < start + t * delta < low + 1, for
/// whole numbers start and low. Empty for delta 0: start is whole.
fn strip_interval(start: i64, delta: i64, low: i64) -> Option<(Fraction, Fraction)> {
    if delta == 0 {
        return None;
    }
    let at_low = Fraction::new(i128::from(low - start), i128::from(delta));
    let at_high = Fraction::new(i128::from(low + 1 - start), i128::from(delta));
    Some((at_low.min(at_high), at_low.max(at_high)))
}

/// Whether the segment has a point inside the open square of cell (i, j).
pub fn enters_cell(from: Point, to: Point, i: i64, j: i64) -> bool {
    let (dx, dy) = (to.0 - from.0, to.1 - from.1);
    let Some((x_low, x_high)) = strip_interval(from.0, dx, i) else { return false };
    let Some((y_low, y_high)) = strip_interval(from.1, dy, j) else { return false };
    let low = x_low.max(y_low).max(Fraction::new(0, 1));
    let high = x_high.min(y_high).min(Fraction::new(1, 1));
    low.less(high)
}

fn enters_blocked_cell(floor: &Floor, from: Point, to: Point) -> bool {
    let columns = from.0.min(to.0)..from.0.max(to.0);
    let mut rows = from.1.min(to.1)..from.1.max(to.1);
    rows.any(|j| columns.clone().any(|i| floor.is_blocked(i, j) && enters_cell(from, to, i, j)))
}

/// Whether a unit step of a vertical segment has blocked cells on both sides.
fn vertical_is_shut(floor: &Floor, x: i64, y0: i64, y1: i64) -> bool {
    (y0.min(y1)..y0.max(y1)).any(|j| floor.is_blocked(x - 1, j) && floor.is_blocked(x, j))
}

/// Whether a unit step of a horizontal segment has blocked cells on both sides.
fn horizontal_is_shut(floor: &Floor, y: i64, x0: i64, x1: i64) -> bool {
    (x0.min(x1)..x0.max(x1)).any(|i| floor.is_blocked(i, y - 1) && floor.is_blocked(i, y))
}

/// Whether exactly two of the four cells at a point are blocked, one of them across
/// the point from the other.
pub fn is_pinch(floor: &Floor, (x, y): Point) -> bool {
    let cells = [(x - 1, y - 1), (x, y - 1), (x - 1, y), (x, y)];
    let blocked: Vec<Point> = cells.into_iter().filter(|&(i, j)| floor.is_blocked(i, j)).collect();
    matches!(blocked[..], [one, other] if one.0 != other.0 && one.1 != other.1)
}

fn common_divisor(a: i64, b: i64) -> i64 {
    if b == 0 { a } else { common_divisor(b, a % b) }
}

/// The first pinch on a segment, from its first end; none where it is one point.
fn first_pinch(floor: &Floor, from: Point, to: Point) -> Option<Point> {
    let (dx, dy) = (to.0 - from.0, to.1 - from.1);
    let parts = common_divisor(dx.abs(), dy.abs());
    let point = |k: i64| (from.0 + k * dx / parts, from.1 + k * dy / parts);
    (0..=parts).filter(|_| parts > 0).map(point).find(|&at| is_pinch(floor, at))
}

/// Whether no blocked cell is entered and no step is shut.
pub fn is_unblocked(floor: &Floor, from: Point, to: Point) -> bool {
    if from.0 == to.0 {
        !vertical_is_shut(floor, from.0, from.1, to.1)
    } else if from.1 == to.1 {
        !horizontal_is_shut(floor, from.1, from.0, to.0)
    } else {
        !enters_blocked_cell(floor, from, to)
    }
}

/// Whether two points of a floor of good shape see each other.
pub fn sees(floor: &Floor, from: Point, to: Point) -> bool {
    is_unblocked(floor, from, to) && first_pinch(floor, from, to).is_none()
}

/// Whether two vertices see each other; both are below the vertex count.
pub fn vertices_see(floor: &Floor, from: usize, to: usize) -> bool {
    sees(floor, floor.point(from), floor.point(to))
}

/// Refusal 1, 2, 3 or 5 of a question about two vertices.
fn question_fault(floor: &Floor, from: u64, to: u64) -> Option<u8> {
    let off_floor = || (from.max(to) >= floor.vertex_count() as u64).then_some(5);
    floor.shape_fault().or_else(off_floor)
}

/// The sight question: a refusal 1, 2, 3 or 5, or yes or no.
pub fn question(floor: &Floor, from: u64, to: u64) -> Result<bool, u8> {
    let seen = || vertices_see(floor, from as usize, to as usize);
    question_fault(floor, from, to).map_or_else(|| Ok(seen()), Err)
}

/// What is in the way of a segment: a cell's number, or that of the vertex where a
/// step begins, or that of a pinch.
#[derive(Clone, Copy, Debug, PartialEq, Eq)]
pub enum Obstacle {
    Clear,
    Cell(u64),
    Step(u64),
    Pinch(u64),
}

/// Of all blocked cells entered, the one least far in columns from the first end,
/// of equals least far in rows. Distances are those of the cells' middles, doubled.
fn nearest_cell(floor: &Floor, from: Point, to: Point) -> Obstacle {
    let cells = (0..floor.height as i64).flat_map(|j| (0..floor.width as i64).map(move |i| (i, j)));
    let entered = cells.filter(|&(i, j)| floor.is_blocked(i, j) && enters_cell(from, to, i, j));
    let far = |&(i, j): &Point| ((2 * i + 1 - 2 * from.0).abs(), (2 * j + 1 - 2 * from.1).abs());
    entered.min_by_key(far).map_or(Obstacle::Clear, |(i, j)| Obstacle::Cell(j as u64 * floor.width + i as u64))
}

/// Of all vertices where a shut step of the segment begins, the one nearest to the
/// first end.
fn nearest_step(floor: &Floor, from: Point, to: Point) -> Obstacle {
    let (dx, dy) = ((to.0 - from.0).signum(), (to.1 - from.1).signum());
    let between = |at: i64, a: i64, b: i64| a.min(b) <= at && at <= a.max(b);
    let begins = |&v: &usize| {
        let (x, y) = floor.point(v);
        let on_segment = between(x, from.0, to.0) && between(y, from.1, to.1) && (x, y) != to;
        on_segment && !is_unblocked(floor, (x, y), (x + dx, y + dy))
    };
    let far = |&v: &usize| (floor.point(v).0 - from.0).abs() + (floor.point(v).1 - from.1).abs();
    let nearest = (0..floor.vertex_count()).filter(begins).min_by_key(far);
    nearest.map_or(Obstacle::Clear, |v| Obstacle::Step(v as u64))
}

/// What is in the way between two points of a floor of good shape. A pinch is named
/// where no cell and no step is.
pub fn obstacle(floor: &Floor, from: Point, to: Point) -> Obstacle {
    let along_a_line = from.0 == to.0 || from.1 == to.1;
    let blockage = if along_a_line { nearest_step(floor, from, to) } else { nearest_cell(floor, from, to) };
    let pinch = || first_pinch(floor, from, to).and_then(|(x, y)| floor.vertex(x, y));
    match blockage {
        Obstacle::Clear => pinch().map_or(Obstacle::Clear, |v| Obstacle::Pinch(v as u64)),
        found => found,
    }
}

/// What is in the way between two vertices, or a refusal 1, 2, 3 or 5.
pub fn obstacle_question(floor: &Floor, from: u64, to: u64) -> Result<Obstacle, u8> {
    let found = || obstacle(floor, floor.point(from as usize), floor.point(to as usize));
    question_fault(floor, from, to).map_or_else(|| Ok(found()), Err)
}
