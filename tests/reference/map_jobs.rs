//! The part of a job stream about how maps are packed: unused bits that are set, and lengths that are not a map's.

use crate::closure_jobs::Base;
use crate::closures::{Rectangle, Table};
use crate::floor::Floor;
use crate::format;
use crate::graph::NEIGHBOURHOODS;
use crate::jobs::{good_lengths, Maker};
use crate::layouts::{self, KINDS};
use crate::packed::PackedFloor;
use crate::replay::log_of;
use crate::sheet::Request;

/// Bytes above this make a map large: fewer of its unused bits are set.
const LARGE_MAP: usize = 16;

impl Maker {
    /// For each W·H modulo 8 a floor of one byte, one of two or three and one of many.
    pub fn floors_by_unused_bits(&mut self) -> Vec<Floor> {
        self.use_bits();
        let mut floors = Vec::new();
        for k in 1..=8 {
            for (width, height) in [(k, 1), (1, 8 + k), (8 + k, 9)] {
                let kind = self.random.pick(&KINDS);
                floors.push(layouts::make(kind, &mut self.random, width, height));
            }
        }
        self.use_bits();
        floors
    }

    /// How many bits of the map's last byte are no cell's.
    pub fn unused_bits(&self) -> u64 {
        (8 * self.map.len() - self.solver.floor.cells.len()) as u64
    }

    /// The floor's map with unused bits set, one at a time and all together, and of lengths off by one: for each what
    /// reads a map. Then closures on the whole floor, of which the working map has every bit set that is a cell's.
    pub fn map_faults(&mut self, floor: &PackedFloor) {
        self.use_bits();
        self.floor_record(floor.clone());
        for map in self.bad_maps(&floor.map) {
            self.floor_record(floor.clone());
            for length in [floor.map.len(), map.len()] {
                self.working_record(Base::Own(map.clone()), length.min(format::WORKING_ROOM), false);
            }
            self.floor_record(PackedFloor { map, ..floor.clone() });
            self.reads_of_a_map();
        }
        self.floor_record(floor.clone());
        self.whole_floor_closed();
        self.use_bits();
    }

    fn bad_maps(&mut self, map: &[u8]) -> Vec<Vec<u8>> {
        let unused = self.unused_bits() as u32;
        let mut bits: Vec<u8> = (8 - unused..8).map(|place| 1 << place).collect();
        if map.len() > LARGE_MAP && unused > 0 {
            bits = vec![self.random.pick(&bits)];
        }
        if unused > 1 {
            bits.push(!(u8::MAX >> unused));
        }
        let stray = |bit: u8| [&map[..map.len() - 1], &[map[map.len() - 1] | bit]].concat();
        let mut maps: Vec<Vec<u8>> = bits.iter().map(|&bit| stray(bit)).collect();
        maps.push(map[..map.len() - 1].to_vec());
        maps.push([map, &[0]].concat());
        // With an unused bit too, or a byte that is not 0: 2 comes before 3.
        maps.push([&stray(128), &[self.random.pick(&[1, 128, 255])][..]].concat());
        // A byte to a cell.
        let cells = &self.solver.floor.cells;
        if cells.len() > 1 && cells.len() <= format::MAP_ROOM {
            maps.push(cells.clone());
        }
        maps
    }

    /// Each operation that reads the floor's map, alone or with a fault that comes after.
    fn reads_of_a_map(&mut self) {
        let count = self.count();
        let last = count as u64 - 1;
        let good = Request { neighbourhood: self.random.pick(&NEIGHBOURHOODS), start: 0, goal: last };
        let other = match self.random.below(3) {
            0 => Request { neighbourhood: self.random.pick(&[5, 12, 17]), ..good },
            1 => Request { goal: last + 1, ..good },
            _ => good,
        };
        self.plan_records(good, good_lengths(count));
        self.check_record(other, good_lengths(count), None, &[]);
        self.finish_record(other, [count + 1; 7].map(|length| length.min(format::SHEET_ROOM)), 1, &[]);
        let n = self.random.pick(&[2, 3]);
        self.list_record(&[0, 0], 2, 2, n);
        let pairs = [(0, 0), (0, last as u32), (last as u32 + 1, 0)];
        self.pairs_record(format::SIGHT, &pairs);
        self.pairs_record(format::OBSTACLE, &pairs);
        self.mend_with_map();
        self.use_driven();
        let (neighbourhood, log) = (self.random.pick(&[good.neighbourhood, 5]), self.random.pick(&[4, 16_385]));
        self.replay_record(neighbourhood, log_of(&[0]), log, [count, 4 * count]);
        self.use_driven();
        self.changes_with_map();
        self.writer_with_map();
        self.legs_on_bad_floor(1);
        let length = self.map.len();
        self.working_record(Base::Floor, length, true);
    }

    fn whole_floor_closed(&mut self) {
        let (width, height) = (self.solver.floor.width as u32, self.solver.floor.height as u32);
        self.table_record(Table::empty());
        self.post_record(Rectangle { column: 0, row: 0, columns: width, rows: height });
        let length = self.map.len();
        self.working_record(Base::Floor, length, true);
        let last = self.count() as u32 - 1;
        self.pairs_record(format::OBSTACLE, &[(0, last), (last, 0), (0, 0)]);
    }
}
