//! Maps with a bit to a cell, as the operations take them. Inside, this program has a byte to a cell: a map is read bit
//! by bit where it is handed in, and packed where it is written.

use crate::closures::Table;
use crate::floor::{self, Floor};

/// The map of some cells: a byte for each eight of them, the first cell at the low end; the bits of cells that are
/// missing are 0.
pub fn pack(cells: &[u8]) -> Vec<u8> {
    let byte = |eight: &[u8]| eight.iter().rev().fold(0, |bits, &cell| 2 * bits + cell);
    cells.chunks(8).map(byte).collect()
}

/// Every bit of a map as a byte, the unused ones too.
fn bits(map: &[u8]) -> Vec<u8> {
    map.iter().flat_map(|&byte| [1, 2, 4, 8, 16, 32, 64, 128].map(|weight| byte / weight % 2)).collect()
}

/// A floor as an operation is handed it.
#[derive(Clone, Debug, PartialEq, Eq)]
pub struct PackedFloor {
    pub width: u64,
    pub height: u64,
    pub map: Vec<u8>,
}

impl PackedFloor {
    pub fn new(width: u64, height: u64, map: Vec<u8>) -> PackedFloor {
        PackedFloor { width, height, map }
    }

    pub fn of(floor: &Floor) -> PackedFloor {
        PackedFloor::new(floor.width, floor.height, pack(&floor.cells))
    }

    /// Refusal 1, 2 or 3, the first that applies.
    pub fn fault(&self) -> Option<u8> {
        if !floor::sides_are_good(self.width, self.height) {
            return Some(1);
        }
        let cells = (self.width * self.height) as usize;
        if self.map.len() != cells.div_ceil(8) {
            return Some(2);
        }
        bits(&self.map)[cells..].contains(&1).then_some(3)
    }

    /// The floor with the same cells; one without cells, with the fault, where it is refused.
    pub fn floor(&self) -> Floor {
        let fault = self.fault();
        let mut cells = bits(&self.map);
        cells.truncate(if fault.is_none() { (self.width * self.height) as usize } else { 0 });
        Floor { fault, ..Floor::new(self.width, self.height, cells) }
    }
}

/// Writes the base map with a table's closures on it. Refusals 1, 2, 3 and 6 leave the working slice.
pub fn working_map(table: &Table, base: &PackedFloor, working: &mut [u8]) -> Result<(), u8> {
    let cells = table.working_cells(&base.floor())?;
    if working.len() != base.map.len() {
        return Err(6);
    }
    working.copy_from_slice(&pack(&cells));
    Ok(())
}
