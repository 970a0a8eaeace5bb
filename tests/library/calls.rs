//! Calls of the C interface on Rust slices, by the signatures of include/lurfanzi.h. They hand on what they are given
//! and hand back what is answered.
//!
//! Why they are sound: the header asks that a slice's pointer be valid for its length, aligned, and that no written
//! slice overlap another slice of the call. Each pointer and length are those of one Rust slice, shared for `*const`
//! and exclusive for `*mut`, and the borrows last as long as the call.

use crate::lurfanzi::Floor;

#[repr(C)]
pub struct ChangesResult {
    pub closed: usize,
    pub opened: usize,
    pub answer: u8,
}

#[repr(C)]
pub struct ThinResult {
    pub kept: usize,
    pub answer: u8,
}

#[derive(Clone, Copy)]
#[repr(C)]
pub struct Writer {
    pub at: usize,
    pub due: usize,
}

#[repr(C)]
pub struct WriteResult {
    pub writer: Writer,
    pub answer: u8,
}

extern "C" {
    fn lurfanzi_changes(
        width: u32, height: u32, map: *const u8, map_length: usize,
        new_width: u32, new_height: u32, new_map: *const u8, new_map_length: usize,
        cells: *mut u16, cells_length: usize,
    ) -> ChangesResult;

    fn lurfanzi_cost_changes(
        width: u32, height: u32, map: *const u8, map_length: usize,
        new_width: u32, new_height: u32, new_map: *const u8, new_map_length: usize, neighbourhood: u32, a: u32,
        costs: *mut u32, costs_length: usize, new_costs: *mut u32, new_costs_length: usize,
        changes: *mut u8, changes_length: usize, work: *mut u32, work_length: usize,
    ) -> u8;

    fn lurfanzi_write_map(
        writer: Writer, width: u32, height: u32, map: *const u8, map_length: usize,
        buffer: *mut u8, buffer_length: usize,
    ) -> WriteResult;

    fn lurfanzi_write_job(
        writer: Writer, neighbourhood: u8, a: u16, b: u16, buffer: *mut u8, buffer_length: usize,
    ) -> WriteResult;

    fn lurfanzi_check_legs(
        width: u32, height: u32, map: *const u8, map_length: usize, list: *const u16, list_length: usize, n: usize,
        kept: *const u16, kept_length: usize, kept_count: usize, legs: *const u16, legs_length: usize,
    ) -> u8;

    fn lurfanzi_fewest_legs(
        width: u32, height: u32, map: *const u8, map_length: usize, list: *const u16, list_length: usize,
        kept: *mut u16, kept_length: usize, legs: *mut u16, legs_length: usize, n: usize,
    ) -> ThinResult;
}

/// What changed from the first floor to the second.
pub fn changes(first: Floor, second: Floor, cells: &mut [u16]) -> ChangesResult {
    // SAFETY: the maps are shared slices, the cells an exclusive one.
    unsafe {
        lurfanzi_changes(
            first.width, first.height, first.map.as_ptr(), first.map.len(),
            second.width, second.height, second.map.as_ptr(), second.map.len(),
            cells.as_mut_ptr(), cells.len(),
        )
    }
}

/// The slices lent for the costs on two floors.
pub struct TwoCosts<'a> {
    pub costs: &'a mut [u32],
    pub new_costs: &'a mut [u32],
    pub changes: &'a mut [u8],
    pub work: &'a mut [u32],
}

/// The costs from a vertex on both floors, and how each changed.
pub fn cost_changes(first: Floor, second: Floor, neighbourhood: u32, a: u32, lent: &mut TwoCosts) -> u8 {
    // SAFETY: the maps are shared slices, the four others are exclusive ones.
    unsafe {
        lurfanzi_cost_changes(
            first.width, first.height, first.map.as_ptr(), first.map.len(),
            second.width, second.height, second.map.as_ptr(), second.map.len(), neighbourhood, a,
            lent.costs.as_mut_ptr(), lent.costs.len(), lent.new_costs.as_mut_ptr(), lent.new_costs.len(),
            lent.changes.as_mut_ptr(), lent.changes.len(), lent.work.as_mut_ptr(), lent.work.len(),
        )
    }
}

/// Writes a map's record.
pub fn write_map(writer: Writer, floor: Floor, buffer: &mut [u8]) -> WriteResult {
    // SAFETY: the map is a shared slice, the buffer an exclusive one.
    unsafe {
        lurfanzi_write_map(
            writer, floor.width, floor.height, floor.map.as_ptr(), floor.map.len(), buffer.as_mut_ptr(), buffer.len(),
        )
    }
}

/// Writes a job's record.
pub fn write_job(writer: Writer, neighbourhood: u8, a: u16, b: u16, buffer: &mut [u8]) -> WriteResult {
    // SAFETY: the buffer is an exclusive slice.
    unsafe { lurfanzi_write_job(writer, neighbourhood, a, b, buffer.as_mut_ptr(), buffer.len()) }
}

/// Judges kept positions of a list's first n places, and the fewest legs from each of these.
pub fn check_legs(floor: Floor, list: &[u16], n: usize, kept: &[u16], kept_count: usize, legs: &[u16]) -> u8 {
    // SAFETY: all four are shared slices; nothing is written.
    unsafe {
        lurfanzi_check_legs(
            floor.width, floor.height, floor.map.as_ptr(), floor.map.len(), list.as_ptr(), list.len(), n,
            kept.as_ptr(), kept.len(), kept_count, legs.as_ptr(), legs.len(),
        )
    }
}

/// Proposes kept positions of a list's first n places, and the fewest legs from each of these.
pub fn fewest_legs(floor: Floor, list: &[u16], kept: &mut [u16], legs: &mut [u16], n: usize) -> ThinResult {
    // SAFETY: the map and the list are shared slices, the two others are exclusive ones.
    unsafe {
        lurfanzi_fewest_legs(
            floor.width, floor.height, floor.map.as_ptr(), floor.map.len(), list.as_ptr(), list.len(),
            kept.as_mut_ptr(), kept.len(), legs.as_mut_ptr(), legs.len(), n,
        )
    }
}
