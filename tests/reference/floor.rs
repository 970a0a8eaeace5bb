//! The floor: cells row by row, a byte each, 0 open and 1 blocked; vertices at the cell corners.

/// Whether refusal 1 does not apply.
pub fn sides_are_good(width: u64, height: u64) -> bool {
    [width, height].iter().all(|side| (1..=127).contains(side))
}

#[derive(Clone, Debug)]
pub struct Floor {
    pub width: u64,
    pub height: u64,
    pub cells: Vec<u8>,
    /// Refusal 1, 2 or 3 of the map that it was read from.
    pub fault: Option<u8>,
}

impl Floor {
    pub fn new(width: u64, height: u64, cells: Vec<u8>) -> Floor {
        Floor { width, height, cells, fault: None }
    }

    pub fn open(width: u64, height: u64) -> Floor {
        Floor::new(width, height, vec![0; (width * height) as usize])
    }

    pub fn with_blocked(width: u64, height: u64, blocked: &[usize]) -> Floor {
        let mut floor = Floor::open(width, height);
        blocked.iter().for_each(|&cell| floor.cells[cell] = 1);
        floor
    }

    /// Refusal 1, 2 or 3, the first that applies: that of its map; of cells that came without one, as the program's
    /// do, 3 for one above 1.
    pub fn shape_fault(&self) -> Option<u8> {
        if self.fault.is_some() {
            return self.fault;
        }
        if !sides_are_good(self.width, self.height) {
            return Some(1);
        }
        if self.cells.len() as u64 != self.width * self.height {
            return Some(2);
        }
        if self.cells.iter().any(|&cell| cell > 1) {
            return Some(3);
        }
        None
    }

    /// The number of vertices of a floor of good shape.
    pub fn vertex_count(&self) -> usize {
        ((self.width + 1) * (self.height + 1)) as usize
    }

    pub fn point(&self, vertex: usize) -> (i64, i64) {
        let columns = self.width as usize + 1;
        ((vertex % columns) as i64, (vertex / columns) as i64)
    }

    /// The vertex at a point, where the point is on the floor.
    pub fn vertex(&self, x: i64, y: i64) -> Option<usize> {
        let on_floor = 0 <= x && x <= self.width as i64 && 0 <= y && y <= self.height as i64;
        on_floor.then(|| y as usize * (self.width as usize + 1) + x as usize)
    }

    /// Whether cell (i, j) is blocked; everything outside the map is.
    pub fn is_blocked(&self, i: i64, j: i64) -> bool {
        if i < 0 || j < 0 || i >= self.width as i64 || j >= self.height as i64 {
            return true;
        }
        self.cells[j as usize * self.width as usize + i as usize] == 1
    }
}
