//! What is in the way between two points.

use crate::lurfanzi::{self, Obstacle};
use crate::sides::{Cell, Point};
use crate::working_floor::WorkingFloor;

/// What is in the way: nothing, a blocked cell, a shut step from one point to the next, or a pinch.
#[derive(Clone, Copy, Debug, PartialEq, Eq)]
pub enum InTheWay {
    Nothing,
    Cell(Cell),
    Step(Point, Point),
    Pinch(Point),
}

/// A sight question and its answer.
#[derive(Clone, Copy, Debug, PartialEq, Eq)]
pub struct Sighting {
    pub from: Point,
    pub to: Point,
    pub found: InTheWay,
}

impl Sighting {
    /// Asks what is in the way from one point to another.
    pub fn asked(floor: &WorkingFloor, from: Point, to: Point) -> Result<Sighting, String> {
        let obstacle = lurfanzi::obstacle(floor.floor(), floor.vertex(from)?, floor.vertex(to)?);
        let found = match obstacle.map_err(|refusal| refusal.to_string())? {
            Obstacle::Clear => InTheWay::Nothing,
            Obstacle::Cell(number) => InTheWay::Cell(floor.sides.cell(number)),
            Obstacle::Step(vertex) => {
                let begin = floor.sides.point(vertex);
                InTheWay::Step(begin, towards(begin, to))
            }
            Obstacle::Pinch(vertex) => InTheWay::Pinch(floor.sides.point(vertex)),
        };
        Ok(Sighting { from, to, found })
    }
}

/// The next point from one to another along a grid line.
fn towards(from: Point, to: Point) -> Point {
    let next = |from: u32, to: u32| if from < to { from + 1 } else { from - u32::from(from > to) };
    Point { x: next(from.x, to.x), y: next(from.y, to.y) }
}

#[cfg(test)]
mod tests {
    use super::*;
    use crate::working_floor::tests::floor_of;

    fn at(x: u32, y: u32) -> Point {
        Point { x, y }
    }

    #[test]
    fn what_is_in_the_way() {
        let floor = floor_of(&["..##", ".#..", "...."], &[]);
        let found = |from, to| Sighting::asked(&floor, from, to).map(|sighting| sighting.found);
        assert_eq!(found(at(0, 0), at(0, 3)), Ok(InTheWay::Nothing));
        assert_eq!(found(at(0, 0), at(4, 3)), Ok(InTheWay::Cell(Cell { column: 1, row: 1 })));
        assert_eq!(found(at(0, 0), at(4, 0)), Ok(InTheWay::Step(at(2, 0), at(3, 0))));
        assert_eq!(found(at(4, 0), at(0, 0)), Ok(InTheWay::Step(at(4, 0), at(3, 0))));
        assert_eq!(found(at(4, 0), at(4, 3)), Ok(InTheWay::Step(at(4, 0), at(4, 1))));
        assert_eq!(found(at(4, 3), at(4, 0)), Ok(InTheWay::Step(at(4, 1), at(4, 0))));
        assert_eq!(found(at(1, 0), at(3, 2)), Ok(InTheWay::Pinch(at(2, 1))));
        assert!(found(at(5, 0), at(0, 0)).is_err_and(|said| said.ends_with("(5)")));
    }
}
