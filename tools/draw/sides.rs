//! The sides of a floor, and the points and cells that its numbers stand for.

/// A vertex of a floor, which is a corner of its cells, by its column and row.
#[derive(Clone, Copy, Debug, PartialEq, Eq)]
pub struct Point {
    pub x: u32,
    pub y: u32,
}

/// A cell of a floor, between the points (column, row) and (column + 1, row + 1).
#[derive(Clone, Copy, Debug, PartialEq, Eq)]
pub struct Cell {
    pub column: u32,
    pub row: u32,
}

/// The sides of a floor in cells, each 1 to 127.
#[derive(Clone, Copy, Debug, PartialEq, Eq)]
pub struct Sides {
    pub width: u32,
    pub height: u32,
}

impl Sides {
    /// The number of vertices.
    pub fn vertices(self) -> usize {
        (self.width as usize + 1) * (self.height as usize + 1)
    }

    /// The number of the vertex at a point; none off the floor.
    pub fn vertex(self, point: Point) -> Option<u32> {
        (point.x <= self.width && point.y <= self.height).then(|| point.x + point.y * (self.width + 1))
    }

    /// The point of a vertex.
    pub fn point(self, vertex: u32) -> Point {
        Point { x: vertex % (self.width + 1), y: vertex / (self.width + 1) }
    }

    /// The cell with a number.
    pub fn cell(self, number: u32) -> Cell {
        Cell { column: number % self.width, row: number / self.width }
    }

    /// Every point, in the order of the vertices' numbers.
    pub fn points(self) -> impl Iterator<Item = Point> {
        (0..=self.height).flat_map(move |y| (0..=self.width).map(move |x| Point { x, y }))
    }
}

#[cfg(test)]
mod tests {
    use super::*;

    #[test]
    fn numbers_and_points() {
        let sides = Sides { width: 3, height: 2 };
        assert_eq!(sides.points().count(), sides.vertices());
        for (vertex, point) in (0..).zip(sides.points()) {
            assert_eq!((sides.point(vertex), sides.vertex(point)), (point, Some(vertex)));
        }
        for point in [Point { x: 4, y: 0 }, Point { x: 0, y: 3 }, Point { x: u32::MAX, y: u32::MAX }] {
            assert_eq!(sides.vertex(point), None);
        }
        assert_eq!(sides.cell(4), Cell { column: 1, row: 1 });
    }
}
