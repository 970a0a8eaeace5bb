//! A floor with its closures, as the library takes it.

use crate::floor_text::FloorText;
use crate::lurfanzi::{self, Closures, Floor, Obstacle, Rectangle};
use crate::sides::{Cell, Point, Sides};

/// What a cell is: open, blocked by the floor itself, or open there and closed by the closure in a slot.
#[derive(Clone, Copy, Debug, PartialEq, Eq)]
pub enum Ground {
    Open,
    Wall,
    Closed(usize),
}

/// A floor, the closures posted on it, by slot, and the working map of both.
pub struct WorkingFloor {
    pub sides: Sides,
    pub closures: Vec<Rectangle>,
    walls: Vec<bool>,
    map: Vec<u8>,
}

impl WorkingFloor {
    /// The floor of a text, with closures posted in this order.
    pub fn new(text: FloorText, closures: &[Rectangle]) -> Result<WorkingFloor, String> {
        let Sides { width, height } = text.sides;
        let mut table = Closures::new(width, height);
        for (k, &closure) in closures.iter().enumerate() {
            let Rectangle { column, row, columns, rows } = closure;
            let named = |refusal| format!("closure {k}, {column},{row},{columns},{rows}: {refusal}");
            table.post(closure).map_err(named)?;
        }
        let cells: Vec<u8> = text.blocked.iter().map(|&blocked| blocked.into()).collect();
        let base = lurfanzi::pack(&cells);
        let mut map = base.clone();
        table.working_map(&base, &mut map).map_err(|refusal| refusal.to_string())?;
        Ok(WorkingFloor { sides: text.sides, closures: closures.to_vec(), walls: text.blocked, map })
    }

    /// The floor with its working map.
    pub fn floor(&self) -> Floor<'_> {
        Floor { width: self.sides.width, height: self.sides.height, map: &self.map }
    }

    /// What a cell of the floor is.
    pub fn ground(&self, cell: Cell) -> Ground {
        let covers = |r: &Rectangle| {
            (r.column..r.column + r.columns).contains(&cell.column) && (r.row..r.row + r.rows).contains(&cell.row)
        };
        let wall = self.walls[(cell.column + cell.row * self.sides.width) as usize];
        match self.closures.iter().position(covers) {
            _ if wall => Ground::Wall,
            Some(slot) => Ground::Closed(slot),
            None => Ground::Open,
        }
    }

    /// What the four cells round a point are, row by row; outside is wall.
    pub fn around(&self, point: Point) -> [Ground; 4] {
        [(0, 0), (1, 0), (0, 1), (1, 1)].map(|(right, down)| {
            let column = (point.x + right).checked_sub(1).filter(|&column| column < self.sides.width);
            let row = (point.y + down).checked_sub(1).filter(|&row| row < self.sides.height);
            column.zip(row).map_or(Ground::Wall, |(column, row)| self.ground(Cell { column, row }))
        })
    }

    /// The number of the vertex at a point, or words that say it is none.
    pub fn vertex(&self, point: Point) -> Result<u32, String> {
        let Sides { width, height } = self.sides;
        let off = || format!("({},{}) is off the floor: x is 0 to {width}, y is 0 to {height} (5)", point.x, point.y);
        self.sides.vertex(point).ok_or_else(off)
    }

    /// Whether a point is a pinch, as the library has it: the first thing in the way along a side of one. No point of
    /// the floor's last column is a pinch.
    pub fn is_pinch(&self, point: Point) -> bool {
        let right = Point { x: point.x.saturating_add(1), ..point };
        let ends = self.sides.vertex(point).zip(self.sides.vertex(right));
        ends.is_some_and(|(v, w)| lurfanzi::obstacle(self.floor(), v, w) == Ok(Obstacle::Pinch(v)))
    }

    /// The pinches of the floor with its closures.
    pub fn pinches(&self) -> Vec<Point> {
        self.sides.points().filter(|&point| self.is_pinch(point)).collect()
    }
}

#[cfg(test)]
pub mod tests {
    use super::*;

    /// The floor of rows of characters.
    pub fn floor_of(rows: &[&str], closures: &[Rectangle]) -> WorkingFloor {
        let text = crate::floor_text::read(rows.join("\n").as_bytes()).expect("a floor");
        WorkingFloor::new(text, closures).expect("closures that fit")
    }

    const CLOSURE: Rectangle = Rectangle { column: 1, row: 1, columns: 2, rows: 1 };

    #[test]
    fn cells_and_closures() {
        let floor = floor_of(&["...", ".#.", "..."], &[CLOSURE]);
        let row = |row| [0, 1, 2].map(|column| floor.ground(Cell { column, row }));
        assert_eq!(row(0), [Ground::Open; 3]);
        assert_eq!(row(1), [Ground::Open, Ground::Wall, Ground::Closed(0)]);
        assert_eq!(floor.floor().map, [0b0011_0000, 0]);
        assert_eq!(floor.around(Point { x: 0, y: 0 }), [Ground::Wall, Ground::Wall, Ground::Wall, Ground::Open]);
        assert_eq!(floor.around(Point { x: 2, y: 1 }), [Ground::Open, Ground::Open, Ground::Wall, Ground::Closed(0)]);
    }

    #[test]
    fn refused_closures() {
        let refused = |closures: &[Rectangle]| {
            let text = crate::floor_text::read(b"...\n...").expect("a floor");
            WorkingFloor::new(text, closures).err().expect("a refusal")
        };
        let wide = Rectangle { columns: 3, ..CLOSURE };
        assert_eq!(refused(&[CLOSURE, wide]), "closure 1, 1,1,3,1: the rectangle is empty or leaves the floor (12)");
        assert!(refused(&[CLOSURE; 17]).starts_with("closure 16, ") && refused(&[CLOSURE; 17]).ends_with("(13)"));
    }

    /// A pinch is where exactly two of the four cells are blocked and they are diagonal to each other.
    #[test]
    fn pinches_by_their_cells() {
        let rows = ["#..#.#", ".##.#.", "..#.##", "#...#.", ".#.#.#"];
        let floor = floor_of(&rows, &[Rectangle { column: 1, row: 3, columns: 1, rows: 1 }]);
        for point in floor.sides.points() {
            let blocked = floor.around(point).map(|ground| ground != Ground::Open);
            let diagonal = blocked == [true, false, false, true] || blocked == [false, true, true, false];
            assert_eq!(floor.is_pinch(point), diagonal, "{point:?}");
        }
        assert_eq!(floor.pinches().len(), 7);
    }
}
