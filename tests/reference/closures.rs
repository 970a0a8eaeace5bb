//! Closures: the sixteen slots as 64 plain numbers, read afresh at each call; a
//! rectangle is judged by counting the cells of the floor that lie in it.

use crate::floor::{self, Floor};
use std::collections::BTreeMap;

pub const SLOTS: u32 = 16;
pub const NUMBERS: usize = 64;

/// First column, first row, columns, rows.
#[derive(Clone, Copy, Debug, PartialEq, Eq)]
pub struct Rectangle {
    pub column: u32,
    pub row: u32,
    pub columns: u32,
    pub rows: u32,
}

impl Rectangle {
    pub fn has(&self, i: u64, j: u64) -> bool {
        let along = |at: u64, first: u32, length: u32| {
            let first = u64::from(first);
            (first..first + u64::from(length)).contains(&at)
        };
        along(i, self.column, self.columns) && along(j, self.row, self.rows)
    }

    /// How many cells of a floor lie in it.
    fn cells_on(&self, width: u64, height: u64) -> u64 {
        cells(width, height).filter(|&(i, j)| self.has(i, j)).count() as u64
    }

    /// It has cells, and all of them are cells of the floor.
    fn is_on(&self, width: u64, height: u64) -> bool {
        let all = u64::from(self.columns) * u64::from(self.rows);
        all > 0 && self.cells_on(width, height) == all
    }
}

/// The cells of a floor, row by row.
fn cells(width: u64, height: u64) -> impl Iterator<Item = (u64, u64)> {
    (0..height).flat_map(move |j| (0..width).map(move |i| (i, j)))
}

/// Slot k has its rectangle at places 4k to 4k + 3, and is free where columns is 0.
#[derive(Clone, Debug, PartialEq, Eq)]
pub struct Table {
    pub numbers: [u32; NUMBERS],
}

impl Table {
    pub fn empty() -> Table {
        Table { numbers: [0; NUMBERS] }
    }

    /// The rectangles held, by slot.
    pub fn held(&self) -> BTreeMap<u32, Rectangle> {
        let rectangle = |four: &[u32]| Rectangle { column: four[0], row: four[1], columns: four[2], rows: four[3] };
        let slots = (0..).zip(self.numbers.chunks_exact(4).map(rectangle));
        slots.filter(|(_, rectangle)| rectangle.columns != 0).collect()
    }

    fn put(&mut self, slot: u32, four: [u32; 4]) {
        let at = 4 * slot as usize;
        self.numbers[at..at + 4].copy_from_slice(&four);
    }

    /// The slot, or refusal 1, 12 or 13, which leaves the table.
    pub fn post(&mut self, width: u64, height: u64, rectangle: Rectangle) -> Result<u32, u8> {
        if !floor::sides_are_good(width, height) {
            return Err(1);
        }
        if !rectangle.is_on(width, height) {
            return Err(12);
        }
        let held = self.held();
        let Some(slot) = (0..SLOTS).find(|slot| !held.contains_key(slot)) else { return Err(13) };
        self.put(slot, [rectangle.column, rectangle.row, rectangle.columns, rectangle.rows]);
        Ok(slot)
    }

    /// Refusal 1 or 14 leaves the table.
    pub fn strike(&mut self, width: u64, height: u64, slot: u32) -> Result<(), u8> {
        if !floor::sides_are_good(width, height) {
            return Err(1);
        }
        if !self.held().contains_key(&slot) {
            return Err(14);
        }
        self.put(slot, [0; 4]);
        Ok(())
    }

    /// The cells of a base map with the closures on it, or refusal 1, 2 or 3.
    pub fn working_cells(&self, base: &Floor) -> Result<Vec<u8>, u8> {
        if let Some(fault) = base.shape_fault() {
            return Err(fault);
        }
        let held = self.held();
        let closed = |i: u64, j: u64| held.values().any(|rectangle| rectangle.has(i, j));
        let blocked = |(i, j): (u64, u64)| u8::from(closed(i, j) || base.is_blocked(i as i64, j as i64));
        Ok(cells(base.width, base.height).map(blocked).collect())
    }
}
