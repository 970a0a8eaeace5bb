//! The records of closures in a job stream: calls on tables that calls made, and on
//! tables that hold any numbers.

use crate::closures::{Rectangle, Table, NUMBERS, SLOTS};
use crate::floor;
use crate::format;
use crate::jobs::Maker;
use crate::packed::{self, PackedFloor};
use crate::sheet::Solver;

/// The base map of a working record: the floor's, or one of its own.
pub enum Base {
    Floor,
    Own(Vec<u8>),
}

/// Single records; the maker's table follows them.
impl Maker {
    pub fn table_record(&mut self, table: Table) {
        let bytes = table.numbers.iter().flat_map(|number| number.to_le_bytes()).collect();
        self.record(format::TABLE, &[], bytes);
        self.table = table;
    }

    pub fn post_record(&mut self, r: Rectangle) {
        self.record(format::POST, &[r.column, r.row, r.columns, r.rows], Vec::new());
        let floor = &self.solver.floor;
        let _ = self.table.post(floor.width, floor.height, r);
    }

    fn strike_record(&mut self, slot: u32) {
        self.record(format::STRIKE, &[slot], Vec::new());
        let floor = &self.solver.floor;
        let _ = self.table.strike(floor.width, floor.height, slot);
    }

    pub fn working_record(&mut self, base: Base, length: usize, taken: bool) {
        let seed = self.random.next() as u32;
        let (own, bytes) = match base {
            Base::Floor => (0, Vec::new()),
            Base::Own(bytes) => (1, bytes),
        };
        self.record(format::WORKING, &[length as u32, seed, own, u32::from(taken)], bytes);
    }
}

/// What is handed in.
impl Maker {
    fn sides(&self) -> (u32, u32) {
        (self.solver.floor.width as u32, self.solver.floor.height as u32)
    }

    /// A rectangle on a floor of these sides.
    pub fn inner_rectangle(&mut self, width: u32, height: u32) -> Rectangle {
        let (column, row) = (self.random.below(width.into()) as u32, self.random.below(height.into()) as u32);
        let columns = self.random.within(1, (width - column).into()) as u32;
        let rows = self.random.within(1, (height - row).into()) as u32;
        Rectangle { column, row, columns, rows }
    }

    /// On the floor, empty, leaving it by one, or with numbers whose sum passes 32 bits.
    fn any_rectangle(&mut self) -> Rectangle {
        let (width, height) = self.sides();
        if !floor::sides_are_good(width.into(), height.into()) {
            return self.inner_rectangle(3, 3);
        }
        let inner = self.inner_rectangle(width, height);
        let Rectangle { column, row, .. } = inner;
        match self.random.below(28) {
            0 => Rectangle { column: 0, row: 0, columns: width, rows: height },
            1 => Rectangle { columns: 0, ..inner },
            2 => Rectangle { rows: 0, ..inner },
            3 => Rectangle { columns: width - column + 1, ..inner },
            4 => Rectangle { rows: height - row + 1, ..inner },
            5 => Rectangle { column: width, columns: 1, ..inner },
            6 => Rectangle { row: height, rows: 1, ..inner },
            7 => Rectangle { column: u32::MAX, columns: self.random.within(1, 3) as u32, ..inner },
            8 => Rectangle { row: u32::MAX, rows: self.random.within(1, 3) as u32, ..inner },
            9 => Rectangle { columns: u32::MAX - self.random.below(3) as u32, ..inner },
            10 => Rectangle { rows: u32::MAX - self.random.below(3) as u32, ..inner },
            11 => Rectangle { column: 1 << 31, columns: 1 << 31, ..inner },
            12 => Rectangle { columns: 1 << 16, rows: 1 << 16, ..inner },
            13 => Rectangle { column: column + 256, ..inner },
            14 => Rectangle { columns: width - column, rows: height - row, ..inner },
            _ => inner,
        }
    }

    /// Any number, or one at a limit of the floor or of 32 bits.
    fn any_number(&mut self, side: u32) -> u32 {
        match self.random.below(4) {
            0 => self.random.next() as u32,
            1 => self.random.pick(&[0, 1, side.wrapping_sub(1), side, side.wrapping_add(1), 1 << 31, u32::MAX]),
            _ => self.random.below(u64::from(side) + 2) as u32,
        }
    }

    /// A table that no calls need have made. A share of its slots is free, with any
    /// other three numbers.
    fn any_table(&mut self) -> Table {
        let (width, height) = self.sides();
        let free = self.random.pick(&[0, 5, 50]);
        let mut table = Table { numbers: [0; NUMBERS] };
        for slot in table.numbers.chunks_exact_mut(4) {
            let [column, row, columns, rows] = [width, height, width, height].map(|side| self.any_number(side));
            let columns = if self.random.percent(free) { 0 } else { columns.max(1) };
            slot.copy_from_slice(&[column, row, columns, rows]);
        }
        table
    }

    /// A held slot, or any other.
    fn any_slot(&mut self) -> u32 {
        let held: Vec<u32> = self.table.held().into_keys().collect();
        match self.random.below(8) {
            0 => self.random.below(SLOTS.into()) as u32,
            1 => self.random.pick(&[15, 16, 17, 64, 256, 65_536, 1 << 31, u32::MAX]),
            _ if held.is_empty() => 0,
            _ => self.random.pick(&held),
        }
    }
}

/// Calls in a row.
impl Maker {
    fn any_calls(&mut self, number: usize) {
        for _ in 0..number {
            if self.random.percent(65) {
                let rectangle = self.any_rectangle();
                self.post_record(rectangle);
            } else {
                let slot = self.any_slot();
                self.strike_record(slot);
            }
        }
    }

    fn small_posts(&mut self, number: u32) {
        for _ in 0..number {
            self.post_record(Rectangle { column: 0, row: 0, columns: 1, rows: 1 });
        }
    }

    /// All slots filled, one rectangle more, one that is refused with 12 before 13, and
    /// strikes of the last slot, of the one above and of the last again.
    fn full_table(&mut self) {
        self.small_posts(SLOTS + 1);
        self.post_record(Rectangle { column: 0, row: 0, columns: 0, rows: 1 });
        for slot in [15, 16, 15] {
            self.strike_record(slot);
        }
        self.small_posts(2);
    }

    /// Working slices and base maps with faults, one or two at a time.
    fn bad_working(&mut self) {
        let map = self.map.clone();
        let length = map.len();
        let other = self.random.pick(&[0, length - 1, length + 1, 2 * length]).min(format::WORKING_ROOM);
        self.working_record(Base::Floor, other, true);
        // One unused bit, or all from it on. Where the map has none, the last cell is blocked.
        let mut stray = map.clone();
        let place = 7 - self.random.below(self.unused_bits().max(1));
        stray[length - 1] |= if self.random.percent(50) { 1 << place } else { u8::MAX << place };
        let slice = self.random.pick(&[length, other]);
        self.working_record(Base::Own(stray.clone()), slice, false);
        let mut bad_length = if self.random.percent(50) { map } else { stray };
        if self.random.percent(50) {
            bad_length.push(0);
        } else {
            bad_length.pop();
        }
        let slice = self.random.pick(&[length, bad_length.len()]);
        self.working_record(Base::Own(bad_length), slice, true);
    }

    pub fn closures_on_good_floor(&mut self) {
        let length = self.map.len();
        self.table_record(Table::empty());
        self.working_record(Base::Floor, length, false);
        self.any_calls(if self.is_large() { 8 } else { 16 });
        self.working_record(Base::Floor, length, false);
        if self.random.percent(30) {
            self.full_table();
        }
        self.bad_working();
        let filled = self.any_table();
        self.table_record(filled);
        self.working_record(Base::Floor, length, false);
        self.any_calls(6);
        self.working_record(Base::Own(vec![0; length]), length, false);
        if !self.is_large() {
            self.job_on_working_map();
        }
    }

    /// A few small closures, and a job on the map with them.
    fn job_on_working_map(&mut self) {
        let (width, height) = self.sides();
        self.table_record(Table::empty());
        for _ in 0..self.random.within(1, 3) {
            let inner = self.inner_rectangle(width, height);
            self.post_record(Rectangle { columns: inner.columns.min(3), rows: inner.rows.min(2), ..inner });
        }
        let base = PackedFloor::of(&self.solver.floor);
        let mut map = vec![0; base.map.len()];
        let written = packed::working_map(&self.table, &base, &mut map);
        assert_eq!(written, Ok(()), "the floor is good");
        self.working_record(Base::Floor, map.len(), true);
        let floor = PackedFloor { map, ..base };
        self.solver = Solver::new(floor.floor());
        self.map = floor.map;
        self.sight_pairs(8);
        let request = self.any_request();
        self.job(request, 2);
    }

    /// Where a side is bad every call answers 1; where only the map is, post and strike
    /// do not read it, and a base map of its own may be good.
    pub fn closures_on_bad_floor(&mut self) {
        let pairs = self.small_pairs();
        self.pairs_record(format::OBSTACLE, &pairs);
        let floor = &self.solver.floor;
        let length = self.map.len();
        let cells = floor.width.saturating_mul(floor.height).min(8 * format::MAP_ROOM as u64) as usize;
        let blocked = packed::pack(&vec![1; cells]);
        self.table_record(Table::empty());
        self.any_calls(4);
        self.working_record(Base::Floor, length, true);
        let filled = self.any_table();
        self.table_record(filled);
        self.any_calls(4);
        self.working_record(Base::Own(blocked.clone()), blocked.len(), false);
        self.working_record(Base::Own(Vec::new()), 0, true);
    }
}
