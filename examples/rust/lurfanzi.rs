//! Safe Rust over the C interface of include/lurfanzi.h.
//!
//! Every function is total, as in C: any numbers and any slices may be handed in, and a refusal is an `Err`. A slice
//! that a call writes is borrowed mutably, so that it overlaps no other slice of the call.

use std::num::NonZeroUsize;

/// The header's `LURFANZI_INTERFACE`: maps have a bit to a cell, and a sheet has the slice of next vertices.
pub const INTERFACE: u32 = 3;

/// The cost where no open walk joins two vertices.
pub const UNREACHABLE: u32 = u32::MAX;

/// The bytes of the longest record stream: a map of 31 by 31 cells and 1,000 jobs.
pub const LONGEST_STREAM: usize = 7965;

/// The map of some cells, given row by row with a byte each, 0 open and any other number blocked: cell c is bit c % 8,
/// from the low end, of byte c / 8, and the unused high bits of the last byte are 0.
pub fn pack(cells: &[u8]) -> Vec<u8> {
    let mut map = vec![0; cells.len().div_ceil(8)];
    for (c, _) in cells.iter().enumerate().filter(|(_, &cell)| cell != 0) {
        map[c / 8] |= 1 << (c % 8);
    }
    map
}

/// A floor: its sides in cells, and its map with a bit to a cell, `(width * height + 7) / 8` bytes, as `pack` makes it.
#[derive(Clone, Copy, Debug)]
pub struct Floor<'a> {
    pub width: u32,
    pub height: u32,
    pub map: &'a [u8],
}

/// What is asked on a floor: the neighbourhood, 4, 8 or 16, and the vertices at the ends.
#[derive(Clone, Copy, Debug)]
pub struct Job {
    pub neighbourhood: u32,
    pub a: u32,
    pub b: u32,
}

/// The slices of a sheet that `finish` fills: all but d. Each has a place for every vertex. A cart that is shoved to
/// another vertex on the way, which is where f is not 0, goes on by `next`.
#[derive(Debug)]
pub struct SheetMut<'a> {
    pub e: &'a mut [u32],
    pub f: &'a mut [u64],
    pub back: &'a mut [u64],
    pub route: &'a mut [u16],
    pub next: &'a mut [u16],
}

/// A filled sheet, to be read, with the number of points of its route.
#[derive(Clone, Copy, Debug)]
pub struct Sheet<'a> {
    pub d: &'a [u32],
    pub e: &'a [u32],
    pub f: &'a [u64],
    pub back: &'a [u64],
    pub route: &'a [u16],
    pub next: &'a [u16],
    pub points: usize,
}

/// A planned route: its cost, the number of cheapest routes, and how many vertices it has.
#[derive(Clone, Copy, Debug, PartialEq, Eq)]
pub struct Plan {
    pub cost: u32,
    pub total: u64,
    pub points: usize,
}

/// What a sheet of good shape is.
#[derive(Clone, Copy, Debug, PartialEq, Eq)]
pub enum Verdict {
    Route,
    NoRoute,
    FalseSheet,
}

/// At how many places two sheets differ, slice by slice.
#[derive(Clone, Copy, Debug, Default, PartialEq, Eq)]
pub struct Differences {
    pub d: usize,
    pub e: usize,
    pub f: usize,
    pub back: usize,
    pub route: usize,
    pub next: usize,
}

/// A mended sheet: how many points its route has, none where no walk joins the ends, and at how many places the damaged
/// sheet was not true.
#[derive(Clone, Copy, Debug, PartialEq, Eq)]
pub struct Mended {
    pub points: Option<NonZeroUsize>,
    pub damage: Differences,
}

/// A proposal for a list, with slices as long as the list: the kept positions, `count` of them, then 0; and the fewest
/// legs from each position to the last, then 0.
#[derive(Clone, Copy, Debug)]
pub struct Proposal<'a> {
    pub kept: &'a [u16],
    pub count: usize,
    pub legs: &'a [u16],
}

/// What a log tells: how many of its records were read, the cost driven, the first record that cannot follow the one
/// before it and the bad record that ended the reading, each by its number from 1, and whether the log is faultless and
/// as cheap as can be between its ends.
#[derive(Clone, Copy, Debug, Default, PartialEq, Eq)]
pub struct Replay {
    pub read: usize,
    pub cost: u32,
    pub unfollowed: Option<NonZeroUsize>,
    pub bad: Option<NonZeroUsize>,
    pub cheapest: bool,
}

/// How many cells are blocked on the second of two floors alone, and how many on the first alone.
#[derive(Clone, Copy, Debug, Default, PartialEq, Eq)]
pub struct Changes {
    pub closed: usize,
    pub opened: usize,
}

/// The slices that `cost_changes` fills, each with a place for every vertex: the costs on a floor, those on the floor
/// after it, and the bytes that say how each changed.
#[derive(Debug)]
pub struct CostChangesMut<'a> {
    pub costs: &'a mut [u32],
    pub after_costs: &'a mut [u32],
    pub changes: &'a mut [u8],
}

/// How the cost of a vertex changed from one floor to another; the numbers are the bytes that `cost_changes` writes.
#[derive(Clone, Copy, Debug, PartialEq, Eq)]
pub enum CostChange {
    Equal = 0,
    Fell = 1,
    Rose = 2,
    FromUnreachable = 3,
    ToUnreachable = 4,
}

/// How far a record stream is: how many bytes are written, and the number of the next record, 0 for the map and 1 to
/// 1,000 for a job. The default is a fresh writer; any numbers may stand in it.
#[repr(C)]
#[derive(Clone, Copy, Debug, Default, PartialEq, Eq)]
pub struct Writer {
    pub at: usize,
    pub due: usize,
}

/// A record stream for the program, made in a buffer. It borrows the buffer, so that nothing else writes there in
/// between. Once a map is in, `bytes` reads as the floor and the jobs that were taken.
#[derive(Debug)]
pub struct Stream<'a> {
    writer: Writer,
    buffer: &'a mut [u8],
}

/// What is in the way between two vertices: nothing, the cell with a number, the shut step that begins in a vertex, or
/// the pinch at a vertex.
#[derive(Clone, Copy, Debug, PartialEq, Eq)]
pub enum Obstacle {
    Clear,
    Cell(u32),
    Step(u32),
    Pinch(u32),
}

/// A rectangle of cells: its first column and row, and how many columns and rows it has.
#[derive(Clone, Copy, Debug, PartialEq, Eq)]
pub struct Rectangle {
    pub column: u32,
    pub row: u32,
    pub columns: u32,
    pub rows: u32,
}

/// The sixteen closures of a floor with these sides. Slot `k` has its column, row, columns and rows at places `4 * k`
/// to `4 * k + 3`, and is free where columns is 0. Any numbers may stand there.
#[derive(Clone, Debug, PartialEq, Eq)]
pub struct Closures {
    pub width: u32,
    pub height: u32,
    pub slots: [u32; 64],
}

/// The refusals of the header, by its numbers.
#[derive(Clone, Copy, Debug, PartialEq, Eq)]
pub enum Refusal {
    BadSize,
    BadMapLength,
    UnusedBit,
    BadNeighbourhood,
    BadEnd,
    BadSliceLength,
    NoRoute,
    TooMany,
    FalseCosts,
    NotJoined,
    PinchedEnd,
    BadClosure,
    SlotsFull,
    SlotEmpty,
    SizesDiffer,
    LongLog,
    NoRoom,
    OutOfTurn,
    /// A number that the header does not list for the call. The library gives none.
    Unlisted(u8),
}

impl Refusal {
    fn from_number(number: u8) -> Refusal {
        match number {
            1 => Refusal::BadSize,
            2 => Refusal::BadMapLength,
            3 => Refusal::UnusedBit,
            4 => Refusal::BadNeighbourhood,
            5 => Refusal::BadEnd,
            6 => Refusal::BadSliceLength,
            7 => Refusal::NoRoute,
            8 => Refusal::TooMany,
            9 => Refusal::FalseCosts,
            10 => Refusal::NotJoined,
            11 => Refusal::PinchedEnd,
            12 => Refusal::BadClosure,
            13 => Refusal::SlotsFull,
            14 => Refusal::SlotEmpty,
            15 => Refusal::SizesDiffer,
            16 => Refusal::LongLog,
            18 => Refusal::NoRoom,
            20 => Refusal::OutOfTurn,
            other => Refusal::Unlisted(other),
        }
    }

    pub fn number(self) -> u8 {
        match self {
            Refusal::BadSize => 1,
            Refusal::BadMapLength => 2,
            Refusal::UnusedBit => 3,
            Refusal::BadNeighbourhood => 4,
            Refusal::BadEnd => 5,
            Refusal::BadSliceLength => 6,
            Refusal::NoRoute => 7,
            Refusal::TooMany => 8,
            Refusal::FalseCosts => 9,
            Refusal::NotJoined => 10,
            Refusal::PinchedEnd => 11,
            Refusal::BadClosure => 12,
            Refusal::SlotsFull => 13,
            Refusal::SlotEmpty => 14,
            Refusal::SizesDiffer => 15,
            Refusal::LongLog => 16,
            Refusal::NoRoom => 18,
            Refusal::OutOfTurn => 20,
            Refusal::Unlisted(number) => number,
        }
    }
}

impl std::fmt::Display for Refusal {
    fn fmt(&self, to: &mut std::fmt::Formatter<'_>) -> std::fmt::Result {
        let meaning = match self {
            Refusal::BadSize => "a side is not 1 to 127, or in a record stream not 1 to 31",
            Refusal::BadMapLength => "the map has not width * height / 8 bytes, rounded up",
            Refusal::UnusedBit => "an unused bit of the map is set",
            Refusal::BadNeighbourhood => "the neighbourhood is not 4, 8 or 16",
            Refusal::BadEnd => "an end is not a vertex",
            Refusal::BadSliceLength => "a slice has another length than asked",
            Refusal::NoRoute => "no open walk joins the ends",
            Refusal::TooMany => "the cheapest routes number more than 2^64 - 1",
            Refusal::FalseCosts => "the costs handed in are not those from the first end",
            Refusal::NotJoined => "the list is not a joined list of vertices",
            Refusal::PinchedEnd => "an end is a pinch, between two blocked cells that touch at a corner",
            Refusal::BadClosure => "the rectangle is empty or leaves the floor",
            Refusal::SlotsFull => "no slot is free",
            Refusal::SlotEmpty => "the slot is above 15 or free",
            Refusal::SizesDiffer => "the two floors have not the same sides",
            Refusal::LongLog => "the log has more than 16,384 bytes",
            Refusal::NoRoom => "the record does not fit in the room left",
            Refusal::OutOfTurn => "a job before the map, a second map or the 1,001st job",
            Refusal::Unlisted(_) => "an answer that the header does not list",
        };
        write!(to, "{meaning} ({})", self.number())
    }
}

impl std::error::Error for Refusal {}

impl Floor<'_> {
    /// The number of vertices, V, where the sides are 1 to 127; some number where they are not.
    pub fn vertices(&self) -> usize {
        (self.width as usize).saturating_add(1).saturating_mul((self.height as usize).saturating_add(1))
    }
}

impl SheetMut<'_> {
    /// The sheet as it stands, with the costs from the first end, for `check`.
    pub fn read<'b>(&'b self, d: &'b [u32], points: usize) -> Sheet<'b> {
        Sheet { d, e: self.e, f: self.f, back: self.back, route: self.route, next: self.next, points }
    }
}

impl Mended {
    /// The answer's number of the header.
    pub fn number(&self) -> u8 {
        if self.points.is_some() { 0 } else { 7 }
    }
}

impl Replay {
    /// The answer's number of the header.
    pub fn number(&self) -> u8 {
        if self.bad.is_some() { 17 } else { 0 }
    }
}

impl Changes {
    /// The numbers of the differing cells, ascending, in the slice that `changes` has filled.
    pub fn listed<'a>(&self, cells: &'a [u16]) -> &'a [u16] {
        &cells[..self.closed + self.opened]
    }
}

impl CostChange {
    /// What a byte says; none for a number that `cost_changes` does not write.
    pub fn from_byte(byte: u8) -> Option<CostChange> {
        use CostChange::*;
        [Equal, Fell, Rose, FromUnreachable, ToUnreachable].get(usize::from(byte)).copied()
    }
}

impl<'a> Stream<'a> {
    /// No record yet.
    pub fn new(buffer: &'a mut [u8]) -> Stream<'a> {
        Stream { writer: Writer::default(), buffer }
    }

    /// Writes the map record of a floor of at most 31 by 31 cells: the first record.
    pub fn map(&mut self, floor: Floor) -> Result<(), Refusal> {
        self.writer = write_map(self.writer, floor, self.buffer)?;
        Ok(())
    }

    /// Writes a job record. Any numbers are taken.
    pub fn job(&mut self, neighbourhood: u8, a: u16, b: u16) -> Result<(), Refusal> {
        self.writer = write_job(self.writer, neighbourhood, a, b, self.buffer)?;
        Ok(())
    }

    /// The records that are written.
    pub fn bytes(&self) -> &[u8] {
        &self.buffer[..self.writer.at]
    }
}

impl Closures {
    /// No closure, on a floor with these sides.
    pub fn new(width: u32, height: u32) -> Closures {
        Closures { width, height, slots: [0; 64] }
    }

    /// Puts a rectangle into the lowest free slot and returns the number of that slot.
    pub fn post(&mut self, rectangle: Rectangle) -> Result<u32, Refusal> {
        let result = call::post(self, rectangle);
        match result.answer {
            0 => Ok(result.slot),
            number => Err(Refusal::from_number(number)),
        }
    }

    /// Frees a slot.
    pub fn strike(&mut self, slot: u32) -> Result<(), Refusal> {
        done(call::strike(self, slot))
    }

    /// Writes the base map with the closures on it. Both are packed.
    pub fn working_map(&self, base: &[u8], map: &mut [u8]) -> Result<(), Refusal> {
        done(call::working_map(self, base, map))
    }
}

/// The result of an answer without values.
fn done(number: u8) -> Result<(), Refusal> {
    match number {
        0 => Ok(()),
        number => Err(Refusal::from_number(number)),
    }
}

/// Whether the vertices `a` and `b` see each other.
pub fn sight(floor: Floor, a: u32, b: u32) -> Result<bool, Refusal> {
    match call::sight(floor, a, b) {
        0 => Ok(true),
        100 => Ok(false),
        number => Err(Refusal::from_number(number)),
    }
}

/// What is in the way from the vertex `a` to the vertex `b`.
pub fn obstacle(floor: Floor, a: u32, b: u32) -> Result<Obstacle, Refusal> {
    let result = call::obstacle(floor, a, b);
    match result.answer {
        0 => Ok(Obstacle::Clear),
        101 => Ok(Obstacle::Cell(result.place)),
        102 => Ok(Obstacle::Step(result.place)),
        103 => Ok(Obstacle::Pinch(result.place)),
        number => Err(Refusal::from_number(number)),
    }
}

/// Fills `d` with the costs from the vertex `a`; `work` has four places for every vertex. Every job from `a` with this
/// floor and neighbourhood can be finished from them.
pub fn costs(floor: Floor, neighbourhood: u32, a: u32, d: &mut [u32], work: &mut [u32]) -> Result<(), Refusal> {
    done(call::costs(floor, neighbourhood, a, d, work))
}

/// Plans the central route and fills the rest of its sheet, from the costs `d` from the job's first end, which are
/// tested; `work` has four places for every vertex. Many jobs may share `d`. The header says what each slice holds at
/// each refusal.
pub fn finish(floor: Floor, job: Job, d: &[u32], sheet: &mut SheetMut, work: &mut [u32]) -> Result<Plan, Refusal> {
    let result = call::finish(floor, job, d, sheet, work);
    match result.answer {
        0 => Ok(Plan { cost: result.cost, total: result.total, points: result.points }),
        number => Err(Refusal::from_number(number)),
    }
}

/// Checks a sheet from any planner.
pub fn check(floor: Floor, job: Job, sheet: Sheet) -> Result<Verdict, Refusal> {
    match call::check(floor, job, sheet) {
        0 => Ok(Verdict::Route),
        7 => Ok(Verdict::NoRoute),
        9 => Ok(Verdict::FalseSheet),
        number => Err(Refusal::from_number(number)),
    }
}

/// Mends a damaged sheet of a job: writes the true one into `d` and `sheet`, and counts the places that differ. How
/// many points the damaged one has is not asked for. `check` accepts what is written; that no walk joins the ends,
/// answer 7, is no refusal here. `work` has four places for every vertex.
pub fn mend(
    floor: Floor, job: Job, damaged: Sheet, d: &mut [u32], sheet: &mut SheetMut, work: &mut [u32],
) -> Result<Mended, Refusal> {
    let result = call::mend(floor, job, damaged, d, sheet, work);
    let call::MendResult { n, d, e, f, back, route, next, answer } = result;
    match (answer, NonZeroUsize::new(n)) {
        (0, points @ Some(_)) | (7, points @ None) => {
            Ok(Mended { points, damage: Differences { d, e, f, back, route, next } })
        }
        (number, _) => Err(Refusal::from_number(number)),
    }
}

/// Thins the first `n` vertices of `list` and returns how many positions are kept; they are at the front of `out`.
pub fn thin(floor: Floor, list: &[u16], out: &mut [u16], n: usize) -> Result<usize, Refusal> {
    let result = call::thin(floor, list, out, n);
    match result.answer {
        0 => Ok(result.kept),
        number => Err(Refusal::from_number(number)),
    }
}

/// Checks a proposal for the first `n` vertices of `list`, from any optimiser: whether its positions have the fewest
/// legs and its numbers are the fewest from each position. Quadratic in `n` at worst.
pub fn check_legs(floor: Floor, list: &[u16], n: usize, proposal: Proposal) -> Result<bool, Refusal> {
    match call::check_legs(floor, list, n, proposal) {
        0 => Ok(true),
        19 => Ok(false),
        number => Err(Refusal::from_number(number)),
    }
}

/// Makes a proposal for the first `n` vertices of `list` and returns how many positions are kept. Both slices are as
/// long as the list, and `check_legs` accepts what they hold. Quadratic in `n` at worst.
pub fn fewest_legs(
    floor: Floor, list: &[u16], kept: &mut [u16], legs: &mut [u16], n: usize,
) -> Result<usize, Refusal> {
    let result = call::fewest_legs(floor, list, kept, legs, n);
    match result.answer {
        0 => Ok(result.kept),
        number => Err(Refusal::from_number(number)),
    }
}

/// The log of a cart that stopped at these vertices: for each the bytes 56 and 54 hex and its number, low byte first.
pub fn log_of(stops: &[u16]) -> Vec<u8> {
    stops.iter().flat_map(|stop| [[0x56, 0x54], stop.to_le_bytes()].concat()).collect()
}

/// Replays a log. A bad record, answer 17, is no refusal: it is told with the rest of the answer. `costs` has a place
/// for every vertex. Where the log has a record and neither fault it gets the costs from the log's first vertex, else
/// 0. `work` has four places for every vertex.
pub fn replay(
    floor: Floor, neighbourhood: u32, log: &[u8], costs: &mut [u32], work: &mut [u32],
) -> Result<Replay, Refusal> {
    let result = call::replay(floor, neighbourhood, log, costs, work);
    match (result.answer, NonZeroUsize::new(result.bad)) {
        (0, bad @ None) | (17, bad @ Some(_)) => Ok(Replay {
            read: result.read,
            cost: result.cost,
            unfollowed: NonZeroUsize::new(result.unfollowed),
            bad,
            cheapest: result.cheapest != 0,
        }),
        (number, _) => Err(Refusal::from_number(number)),
    }
}

/// Lists the cells that differ between a floor and the one after it: their numbers are at the front of `cells`, which
/// has a place for every cell.
pub fn changes(floor: Floor, after: Floor, cells: &mut [u16]) -> Result<Changes, Refusal> {
    let result = call::changes(floor, after, cells);
    match result.answer {
        0 => Ok(Changes { closed: result.closed, opened: result.opened }),
        number => Err(Refusal::from_number(number)),
    }
}

/// Fills the costs from the vertex `a` on a floor and on the floor after it, and a byte for each vertex that says how
/// its cost changed, which `CostChange` reads; `work` has four places for every vertex.
pub fn cost_changes(
    floor: Floor, after: Floor, neighbourhood: u32, a: u32, slices: &mut CostChangesMut, work: &mut [u32],
) -> Result<(), Refusal> {
    done(call::cost_changes(floor, after, neighbourhood, a, slices, work))
}

/// Writes the map record of a floor of at most 31 by 31 cells into the buffer, from `writer.at` on, and returns the
/// writer past it. A refusal writes nothing. `Stream` keeps writer and buffer together.
pub fn write_map(writer: Writer, floor: Floor, buffer: &mut [u8]) -> Result<Writer, Refusal> {
    written(call::write_map(writer, floor, buffer))
}

/// Writes a job record into the buffer, from `writer.at` on, and returns the writer past it. A refusal writes nothing.
pub fn write_job(writer: Writer, neighbourhood: u8, a: u16, b: u16, buffer: &mut [u8]) -> Result<Writer, Refusal> {
    written(call::write_job(writer, neighbourhood, a, b, buffer))
}

fn written(result: call::WriteResult) -> Result<Writer, Refusal> {
    match result.answer {
        0 => Ok(result.writer),
        number => Err(Refusal::from_number(number)),
    }
}

/// The calls themselves: the only unsafe code.
///
/// Why they are sound: the header asks that a slice's pointer be valid for its length, aligned, and that no written
/// slice overlap another slice of the call. Each pointer and length are those of one Rust slice or array, shared for
/// `*const` and exclusive for `*mut`, and the borrows last as long as the call. The library reads and writes nothing
/// else, keeps no pointer, and every number it may write is a value of the slice's type.
mod call {
    use super::{Closures, CostChangesMut, Floor, Job, Proposal, Rectangle, Sheet, SheetMut, Writer};

    #[repr(C)]
    pub struct PlanResult {
        pub total: u64,
        pub points: usize,
        pub cost: u32,
        pub answer: u8,
    }

    #[repr(C)]
    pub struct ThinResult {
        pub kept: usize,
        pub answer: u8,
    }

    #[repr(C)]
    pub struct PostResult {
        pub slot: u32,
        pub answer: u8,
    }

    #[repr(C)]
    pub struct ObstacleResult {
        pub place: u32,
        pub answer: u8,
    }

    #[repr(C)]
    pub struct ReplayResult {
        pub read: usize,
        pub unfollowed: usize,
        pub bad: usize,
        pub cost: u32,
        pub cheapest: u8,
        pub answer: u8,
    }

    #[repr(C)]
    pub struct ChangesResult {
        pub closed: usize,
        pub opened: usize,
        pub answer: u8,
    }

    #[repr(C)]
    pub struct WriteResult {
        pub writer: Writer,
        pub answer: u8,
    }

    #[repr(C)]
    pub struct MendResult {
        pub n: usize,
        pub d: usize,
        pub e: usize,
        pub f: usize,
        pub back: usize,
        pub route: usize,
        pub next: usize,
        pub answer: u8,
    }

    extern "C" {
        fn lurfanzi_sight(width: u32, height: u32, map: *const u8, map_length: usize, a: u32, b: u32) -> u8;

        fn lurfanzi_obstacle(
            width: u32, height: u32, map: *const u8, map_length: usize, a: u32, b: u32,
        ) -> ObstacleResult;

        fn lurfanzi_post(
            width: u32, height: u32, slots: *mut u32, column: u32, row: u32, columns: u32, rows: u32,
        ) -> PostResult;

        fn lurfanzi_strike(width: u32, height: u32, slots: *mut u32, slot: u32) -> u8;

        fn lurfanzi_working_map(
            width: u32, height: u32, slots: *const u32,
            base: *const u8, base_length: usize, map: *mut u8, map_length: usize,
        ) -> u8;

        fn lurfanzi_costs(
            width: u32, height: u32, map: *const u8, map_length: usize, neighbourhood: u32, a: u32,
            d: *mut u32, d_length: usize, work: *mut u32, work_length: usize,
        ) -> u8;

        fn lurfanzi_finish(
            width: u32, height: u32, map: *const u8, map_length: usize, neighbourhood: u32, a: u32, b: u32,
            d: *const u32, d_length: usize, e: *mut u32, e_length: usize, f: *mut u64, f_length: usize,
            back: *mut u64, back_length: usize, route: *mut u16, route_length: usize,
            next: *mut u16, next_length: usize, work: *mut u32, work_length: usize,
        ) -> PlanResult;

        fn lurfanzi_check(
            width: u32, height: u32, map: *const u8, map_length: usize, neighbourhood: u32, a: u32, b: u32,
            d: *const u32, d_length: usize, e: *const u32, e_length: usize, f: *const u64, f_length: usize,
            back: *const u64, back_length: usize, route: *const u16, route_length: usize,
            next: *const u16, next_length: usize, n: usize,
        ) -> u8;

        fn lurfanzi_mend(
            width: u32, height: u32, map: *const u8, map_length: usize, neighbourhood: u32, a: u32, b: u32,
            old_d: *const u32, old_d_length: usize, old_e: *const u32, old_e_length: usize,
            old_f: *const u64, old_f_length: usize, old_back: *const u64, old_back_length: usize,
            old_route: *const u16, old_route_length: usize, old_next: *const u16, old_next_length: usize,
            d: *mut u32, d_length: usize, e: *mut u32, e_length: usize, f: *mut u64, f_length: usize,
            back: *mut u64, back_length: usize, route: *mut u16, route_length: usize,
            next: *mut u16, next_length: usize, work: *mut u32, work_length: usize,
        ) -> MendResult;

        fn lurfanzi_thin(
            width: u32, height: u32, map: *const u8, map_length: usize,
            list: *const u16, list_length: usize, out: *mut u16, out_length: usize, n: usize,
        ) -> ThinResult;

        fn lurfanzi_check_legs(
            width: u32, height: u32, map: *const u8, map_length: usize,
            list: *const u16, list_length: usize, n: usize,
            kept: *const u16, kept_length: usize, kept_count: usize, legs: *const u16, legs_length: usize,
        ) -> u8;

        fn lurfanzi_fewest_legs(
            width: u32, height: u32, map: *const u8, map_length: usize, list: *const u16, list_length: usize,
            kept: *mut u16, kept_length: usize, legs: *mut u16, legs_length: usize, n: usize,
        ) -> ThinResult;

        fn lurfanzi_replay(
            width: u32, height: u32, map: *const u8, map_length: usize, neighbourhood: u32,
            log: *const u8, log_length: usize, costs: *mut u32, costs_length: usize,
            work: *mut u32, work_length: usize,
        ) -> ReplayResult;

        fn lurfanzi_changes(
            width: u32, height: u32, map: *const u8, map_length: usize,
            new_width: u32, new_height: u32, new_map: *const u8, new_map_length: usize,
            cells: *mut u16, cells_length: usize,
        ) -> ChangesResult;

        fn lurfanzi_cost_changes(
            width: u32, height: u32, map: *const u8, map_length: usize,
            new_width: u32, new_height: u32, new_map: *const u8, new_map_length: usize, neighbourhood: u32, a: u32,
            costs: *mut u32, costs_length: usize, new_costs: *mut u32, new_costs_length: usize,
            changes: *mut u8, changes_length: usize, work: *mut u32, work_length: usize,
        ) -> u8;

        fn lurfanzi_write_map(
            writer: Writer, width: u32, height: u32, map: *const u8, map_length: usize,
            buffer: *mut u8, buffer_length: usize,
        ) -> WriteResult;

        fn lurfanzi_write_job(
            writer: Writer, neighbourhood: u8, a: u16, b: u16, buffer: *mut u8, buffer_length: usize,
        ) -> WriteResult;
    }

    pub fn sight(floor: Floor, a: u32, b: u32) -> u8 {
        // SAFETY: the map is a shared slice; nothing is written.
        unsafe { lurfanzi_sight(floor.width, floor.height, floor.map.as_ptr(), floor.map.len(), a, b) }
    }

    pub fn obstacle(floor: Floor, a: u32, b: u32) -> ObstacleResult {
        // SAFETY: the map is a shared slice; nothing is written.
        unsafe { lurfanzi_obstacle(floor.width, floor.height, floor.map.as_ptr(), floor.map.len(), a, b) }
    }

    pub fn post(table: &mut Closures, r: Rectangle) -> PostResult {
        let slots = table.slots.as_mut_ptr();
        // SAFETY: the slots are an exclusive array of 64 numbers.
        unsafe { lurfanzi_post(table.width, table.height, slots, r.column, r.row, r.columns, r.rows) }
    }

    pub fn strike(table: &mut Closures, slot: u32) -> u8 {
        // SAFETY: the slots are an exclusive array of 64 numbers.
        unsafe { lurfanzi_strike(table.width, table.height, table.slots.as_mut_ptr(), slot) }
    }

    pub fn working_map(table: &Closures, base: &[u8], map: &mut [u8]) -> u8 {
        // SAFETY: the slots are a shared array of 64 numbers, the base map is a shared slice, the map an exclusive one.
        unsafe {
            lurfanzi_working_map(
                table.width, table.height, table.slots.as_ptr(),
                base.as_ptr(), base.len(), map.as_mut_ptr(), map.len(),
            )
        }
    }

    pub fn costs(floor: Floor, neighbourhood: u32, a: u32, d: &mut [u32], work: &mut [u32]) -> u8 {
        // SAFETY: the map is a shared slice, the two others are exclusive ones.
        unsafe {
            lurfanzi_costs(
                floor.width, floor.height, floor.map.as_ptr(), floor.map.len(), neighbourhood, a,
                d.as_mut_ptr(), d.len(), work.as_mut_ptr(), work.len(),
            )
        }
    }

    pub fn finish(floor: Floor, job: Job, d: &[u32], sheet: &mut SheetMut, work: &mut [u32]) -> PlanResult {
        // SAFETY: the map and d are shared slices, the six others are exclusive ones.
        unsafe {
            lurfanzi_finish(
                floor.width, floor.height, floor.map.as_ptr(), floor.map.len(), job.neighbourhood, job.a, job.b,
                d.as_ptr(), d.len(), sheet.e.as_mut_ptr(), sheet.e.len(),
                sheet.f.as_mut_ptr(), sheet.f.len(), sheet.back.as_mut_ptr(), sheet.back.len(),
                sheet.route.as_mut_ptr(), sheet.route.len(), sheet.next.as_mut_ptr(), sheet.next.len(),
                work.as_mut_ptr(), work.len(),
            )
        }
    }

    pub fn check(floor: Floor, job: Job, sheet: Sheet) -> u8 {
        // SAFETY: all are shared slices; nothing is written.
        unsafe {
            lurfanzi_check(
                floor.width, floor.height, floor.map.as_ptr(), floor.map.len(), job.neighbourhood, job.a, job.b,
                sheet.d.as_ptr(), sheet.d.len(), sheet.e.as_ptr(), sheet.e.len(),
                sheet.f.as_ptr(), sheet.f.len(), sheet.back.as_ptr(), sheet.back.len(),
                sheet.route.as_ptr(), sheet.route.len(), sheet.next.as_ptr(), sheet.next.len(), sheet.points,
            )
        }
    }

    pub fn mend(
        floor: Floor, job: Job, damaged: Sheet, d: &mut [u32], sheet: &mut SheetMut, work: &mut [u32],
    ) -> MendResult {
        // SAFETY: the map and the damaged slices are shared slices, the seven others are exclusive ones.
        unsafe {
            lurfanzi_mend(
                floor.width, floor.height, floor.map.as_ptr(), floor.map.len(), job.neighbourhood, job.a, job.b,
                damaged.d.as_ptr(), damaged.d.len(), damaged.e.as_ptr(), damaged.e.len(),
                damaged.f.as_ptr(), damaged.f.len(), damaged.back.as_ptr(), damaged.back.len(),
                damaged.route.as_ptr(), damaged.route.len(), damaged.next.as_ptr(), damaged.next.len(),
                d.as_mut_ptr(), d.len(), sheet.e.as_mut_ptr(), sheet.e.len(),
                sheet.f.as_mut_ptr(), sheet.f.len(), sheet.back.as_mut_ptr(), sheet.back.len(),
                sheet.route.as_mut_ptr(), sheet.route.len(), sheet.next.as_mut_ptr(), sheet.next.len(),
                work.as_mut_ptr(), work.len(),
            )
        }
    }

    pub fn thin(floor: Floor, list: &[u16], out: &mut [u16], n: usize) -> ThinResult {
        // SAFETY: the map and the list are shared slices, the output is an exclusive one.
        unsafe {
            lurfanzi_thin(
                floor.width, floor.height, floor.map.as_ptr(), floor.map.len(),
                list.as_ptr(), list.len(), out.as_mut_ptr(), out.len(), n,
            )
        }
    }

    pub fn check_legs(floor: Floor, list: &[u16], n: usize, proposal: Proposal) -> u8 {
        let Proposal { kept, count, legs } = proposal;
        // SAFETY: all are shared slices; nothing is written.
        unsafe {
            lurfanzi_check_legs(
                floor.width, floor.height, floor.map.as_ptr(), floor.map.len(), list.as_ptr(), list.len(), n,
                kept.as_ptr(), kept.len(), count, legs.as_ptr(), legs.len(),
            )
        }
    }

    pub fn fewest_legs(floor: Floor, list: &[u16], kept: &mut [u16], legs: &mut [u16], n: usize) -> ThinResult {
        // SAFETY: the map and the list are shared slices, the two others are exclusive ones.
        unsafe {
            lurfanzi_fewest_legs(
                floor.width, floor.height, floor.map.as_ptr(), floor.map.len(), list.as_ptr(), list.len(),
                kept.as_mut_ptr(), kept.len(), legs.as_mut_ptr(), legs.len(), n,
            )
        }
    }

    pub fn replay(
        floor: Floor, neighbourhood: u32, log: &[u8], costs: &mut [u32], work: &mut [u32],
    ) -> ReplayResult {
        // SAFETY: the map and the log are shared slices, the two others are exclusive ones.
        unsafe {
            lurfanzi_replay(
                floor.width, floor.height, floor.map.as_ptr(), floor.map.len(), neighbourhood,
                log.as_ptr(), log.len(), costs.as_mut_ptr(), costs.len(), work.as_mut_ptr(), work.len(),
            )
        }
    }

    pub fn changes(floor: Floor, after: Floor, cells: &mut [u16]) -> ChangesResult {
        // SAFETY: the maps are shared slices, the cells an exclusive one.
        unsafe {
            lurfanzi_changes(
                floor.width, floor.height, floor.map.as_ptr(), floor.map.len(),
                after.width, after.height, after.map.as_ptr(), after.map.len(), cells.as_mut_ptr(), cells.len(),
            )
        }
    }

    pub fn cost_changes(
        floor: Floor, after: Floor, neighbourhood: u32, a: u32, to: &mut CostChangesMut, work: &mut [u32],
    ) -> u8 {
        // SAFETY: the maps are shared slices, the four others are exclusive ones.
        unsafe {
            lurfanzi_cost_changes(
                floor.width, floor.height, floor.map.as_ptr(), floor.map.len(),
                after.width, after.height, after.map.as_ptr(), after.map.len(), neighbourhood, a,
                to.costs.as_mut_ptr(), to.costs.len(), to.after_costs.as_mut_ptr(), to.after_costs.len(),
                to.changes.as_mut_ptr(), to.changes.len(), work.as_mut_ptr(), work.len(),
            )
        }
    }

    pub fn write_map(writer: Writer, floor: Floor, buffer: &mut [u8]) -> WriteResult {
        // SAFETY: the map is a shared slice, the buffer an exclusive one.
        unsafe {
            lurfanzi_write_map(
                writer, floor.width, floor.height, floor.map.as_ptr(), floor.map.len(),
                buffer.as_mut_ptr(), buffer.len(),
            )
        }
    }

    pub fn write_job(writer: Writer, neighbourhood: u8, a: u16, b: u16, buffer: &mut [u8]) -> WriteResult {
        // SAFETY: the buffer is an exclusive slice.
        unsafe { lurfanzi_write_job(writer, neighbourhood, a, b, buffer.as_mut_ptr(), buffer.len()) }
    }
}

#[cfg(test)]
mod tests {
    use super::*;

    const OPEN: Floor = Floor { width: 2, height: 1, map: &[0] };
    /// Cell 1 is blocked.
    const SHUT: Floor = Floor { width: 2, height: 1, map: &[2] };
    const JOB: Job = Job { neighbourhood: 8, a: 0, b: 5 };
    const FINE: Job = Job { neighbourhood: 16, ..JOB };
    /// Cells 0 and 3 are blocked, and vertex 4 is a pinch.
    const TOUCHING: Floor = Floor { width: 2, height: 2, map: &[9] };

    type Answers = (Result<Plan, Refusal>, Result<Verdict, Refusal>);

    /// Fills slices of the given lengths by both calls: returns the first refusal, or the plan, and the checker's
    /// answer for the same slices.
    fn plan_and_check(floor: Floor, job: Job, length: usize, work: usize) -> Answers {
        let (mut d, mut e, mut f) = (vec![7; length], vec![7; length], vec![7; length]);
        let (mut back, mut route, mut next) = (vec![7; length], vec![7; length], vec![7; length]);
        let mut work = vec![7; work];
        let mut sheet = SheetMut { e: &mut e, f: &mut f, back: &mut back, route: &mut route, next: &mut next };
        let planned = costs(floor, job.neighbourhood, job.a, &mut d, &mut work)
            .and_then(|()| finish(floor, job, &d, &mut sheet, &mut work));
        let points = planned.map_or(0, |route| route.points);
        (planned, check(floor, job, sheet.read(&d, points)))
    }

    fn refused(floor: Floor, job: Job, length: usize, refusal: Refusal) {
        assert_eq!(plan_and_check(floor, job, length, 4 * length), (Err(refusal), Err(refusal)));
    }

    #[test]
    fn routes() {
        let plan = Plan { cost: 985, total: 2, points: 3 };
        assert_eq!(plan_and_check(OPEN, JOB, 6, 24), (Ok(plan), Ok(Verdict::Route)));
        assert_eq!(plan_and_check(SHUT, JOB, 6, 24), (Err(Refusal::NoRoute), Ok(Verdict::NoRoute)));
        let plan = Plan { cost: 2236, total: 1, points: 2 };
        assert_eq!(plan_and_check(OPEN, FINE, 6, 24), (Ok(plan), Ok(Verdict::Route)));
        assert_eq!(plan_and_check(SHUT, FINE, 6, 24), (Err(Refusal::NoRoute), Ok(Verdict::NoRoute)));
        let largest = Floor { width: 127, height: 127, map: &[0; 2017] };
        let corners = Job { neighbourhood: 4, a: 0, b: 16_383 };
        assert_eq!(plan_and_check(largest, corners, 16_384, 65_536), (Err(Refusal::TooMany), Ok(Verdict::FalseSheet)));
    }

    #[test]
    fn refusals() {
        refused(Floor { width: 0, ..OPEN }, JOB, 6, Refusal::BadSize);
        refused(Floor { height: u32::MAX, ..OPEN }, JOB, 6, Refusal::BadSize);
        refused(Floor { map: &[], ..OPEN }, JOB, 6, Refusal::BadMapLength);
        refused(Floor { map: &[0, 0], ..OPEN }, JOB, 6, Refusal::BadMapLength);
        refused(Floor { map: &[4], ..OPEN }, JOB, 6, Refusal::UnusedBit);
        refused(Floor { map: &[128], ..OPEN }, JOB, 6, Refusal::UnusedBit);
        for neighbourhood in [0, 5, 12, 15, 17, 24, 32, 260, 272] {
            refused(OPEN, Job { neighbourhood, ..JOB }, 6, Refusal::BadNeighbourhood);
        }
        refused(OPEN, Job { a: 6, ..JOB }, 6, Refusal::BadEnd);
        refused(OPEN, Job { b: u32::MAX, ..JOB }, 6, Refusal::BadEnd);
        refused(OPEN, JOB, 5, Refusal::BadSliceLength);
        refused(OPEN, JOB, 0, Refusal::BadSliceLength);
        assert_eq!(plan_and_check(OPEN, JOB, 6, 23).0, Err(Refusal::BadSliceLength));
    }

    #[test]
    fn pinched_ends() {
        let job = Job { neighbourhood: 8, a: 2, b: 6 };
        assert_eq!(plan_and_check(TOUCHING, job, 9, 36), (Err(Refusal::NoRoute), Ok(Verdict::NoRoute)));
        for pinched in [Job { a: 4, ..job }, Job { b: 4, ..job }, Job { a: 4, b: 4, ..job }] {
            refused(TOUCHING, pinched, 9, Refusal::PinchedEnd);
        }
        refused(TOUCHING, Job { a: 4, ..job }, 8, Refusal::PinchedEnd);
        refused(TOUCHING, Job { a: 9, b: 4, ..job }, 9, Refusal::BadEnd);
        assert_eq!(plan_and_check(TOUCHING, Job { b: 4, ..job }, 8, 32).1, Err(Refusal::PinchedEnd));
        assert_eq!(plan_and_check(TOUCHING, Job { a: 4, b: 9, ..job }, 9, 36).1, Err(Refusal::BadEnd));
        let (mut d, mut work) = ([7; 9], [7; 36]);
        assert_eq!(costs(TOUCHING, 8, 4, &mut d, &mut work), Err(Refusal::PinchedEnd));
        assert_eq!((d, work), ([7; 9], [7; 36]));
    }

    /// Finishes a job from these costs, with an output slice of the given length; nothing is touched at a refusal of
    /// shape.
    fn finish_from(floor: Floor, job: Job, d: &[u32], length: usize) -> Result<Plan, Refusal> {
        let (mut e, mut f, mut back, mut route, mut next) = ([7; 6], [7; 6], [7; 6], vec![7; length], [7; 6]);
        let mut work = [7; 24];
        let mut sheet = SheetMut { e: &mut e, f: &mut f, back: &mut back, route: &mut route, next: &mut next };
        let planned = finish(floor, job, d, &mut sheet, &mut work);
        if !matches!(planned, Ok(_) | Err(Refusal::NoRoute)) {
            assert_eq!((e, f, back, route, next, work), ([7; 6], [7; 6], [7; 6], vec![7; length], [7; 6], [7; 24]));
        }
        planned
    }

    #[test]
    fn one_start() {
        let (mut d, mut work) = ([7; 6], [7; 24]);
        assert_eq!(costs(OPEN, 8, 0, &mut d, &mut work), Ok(()));
        assert_eq!((d, work), ([0, 408, 816, 408, 577, 985], [0; 24]));
        assert_eq!(finish_from(OPEN, JOB, &d, 6), Ok(Plan { cost: 985, total: 2, points: 3 }));
        assert_eq!(finish_from(OPEN, Job { b: 4, ..JOB }, &d, 6), Ok(Plan { cost: 577, total: 1, points: 2 }));
        assert_eq!(finish_from(OPEN, Job { b: 0, ..JOB }, &d, 6), Ok(Plan { cost: 0, total: 1, points: 1 }));
        assert_eq!(finish_from(OPEN, Job { a: 1, ..JOB }, &d, 6), Err(Refusal::FalseCosts));
        assert_eq!(finish_from(OPEN, Job { neighbourhood: 4, ..JOB }, &d, 6), Err(Refusal::FalseCosts));
        assert_eq!(finish_from(OPEN, FINE, &d, 6), Err(Refusal::FalseCosts));
        assert_eq!(finish_from(SHUT, JOB, &d, 6), Err(Refusal::FalseCosts));
        assert_eq!(finish_from(SHUT, JOB, &d, 5), Err(Refusal::BadSliceLength));
        assert_eq!(finish_from(OPEN, JOB, &d[..5], 6), Err(Refusal::BadSliceLength));
        assert_eq!(finish_from(OPEN, Job { b: 6, ..JOB }, &d[..5], 6), Err(Refusal::BadEnd));
        assert_eq!(costs(SHUT, 8, 0, &mut d, &mut work), Ok(()));
        assert_eq!(d, [0, 408, UNREACHABLE, 408, 577, UNREACHABLE]);
        assert_eq!(finish_from(SHUT, JOB, &d, 6), Err(Refusal::NoRoute));
    }

    /// The costs of neighbourhood 16 are its own; all neighbourhoods share them where nothing is reached.
    #[test]
    fn one_start_with_sixteen() {
        let (mut d, mut work) = ([7; 6], [7; 24]);
        assert_eq!(costs(OPEN, 16, 0, &mut d, &mut work), Ok(()));
        assert_eq!((d, work), ([0, 1000, 2000, 1000, 1414, 2236], [0; 24]));
        for (b, points) in (0..6).zip([1, 2, 3, 2, 2, 2]) {
            let plan = Plan { cost: d[b as usize], total: 1, points };
            assert_eq!(finish_from(OPEN, Job { b, ..FINE }, &d, 6), Ok(plan));
        }
        for neighbourhood in [4, 8] {
            assert_eq!(finish_from(OPEN, Job { neighbourhood, ..FINE }, &d, 6), Err(Refusal::FalseCosts));
        }
        assert_eq!(finish_from(OPEN, Job { neighbourhood: 12, ..FINE }, &d, 6), Err(Refusal::BadNeighbourhood));
        assert_eq!(costs(SHUT, 16, 0, &mut d, &mut work), Ok(()));
        assert_eq!(d, [0, 1000, UNREACHABLE, 1000, 1414, UNREACHABLE]);
        let blocked = Floor { map: &[3], ..OPEN };
        let mut alone = [UNREACHABLE; 6];
        alone[0] = 0;
        for neighbourhood in [4, 8, 16] {
            assert_eq!(costs(blocked, neighbourhood, 0, &mut d, &mut work), Ok(()));
            assert_eq!(d, alone);
            assert_eq!(finish_from(blocked, Job { neighbourhood, ..JOB }, &d, 6), Err(Refusal::NoRoute));
        }
    }

    /// The next vertices that a plan leaves, and the checker's verdict with another number at a place.
    #[test]
    fn next_vertices() {
        let ends = [(0, 5, [1, 5, 0, 0, 5, 5]), (5, 0, [0, 0, 0, 0, 0, 4]), (4, 4, [0, 0, 0, 0, 4, 0])];
        for (a, b, wanted) in ends {
            let job = Job { a, b, ..JOB };
            let (mut d, mut e, mut f, mut back, mut work) = ([7; 6], [7; 6], [7; 6], [7; 6], [7; 24]);
            let (mut route, mut next) = ([7; 6], [7; 6]);
            assert_eq!(costs(OPEN, 8, a, &mut d, &mut work), Ok(()));
            let mut sheet = SheetMut { e: &mut e, f: &mut f, back: &mut back, route: &mut route, next: &mut next };
            let points = finish(OPEN, job, &d, &mut sheet, &mut work).map_or(0, |plan| plan.points);
            assert_eq!(sheet.next, wanted);
            let sheet = sheet.read(&d, points);
            assert_eq!(check(OPEN, job, sheet), Ok(Verdict::Route));
            assert_eq!(check(OPEN, job, Sheet { next: &wanted[..5], ..sheet }), Err(Refusal::BadSliceLength));
            for (place, number) in (0..6).flat_map(|place| (0..7).map(move |number| (place, number))) {
                let mut other = wanted;
                other[place] = number;
                let verdict = if other == wanted { Verdict::Route } else { Verdict::FalseSheet };
                assert_eq!(check(OPEN, job, Sheet { next: &other, ..sheet }), Ok(verdict));
            }
        }
    }

    /// A next slice of another length alone is refused before false costs, and all else is untouched.
    #[test]
    fn next_of_another_length() {
        let d = [0, 408, 816, 408, 577, 985];
        for (length, costs) in [(0, d), (5, d), (7, d), (5, [0; 6])] {
            let (mut e, mut f, mut back, mut work) = ([7; 6], [7; 6], [7; 6], [7; 24]);
            let (mut route, mut next) = ([7; 6], vec![7; length]);
            let mut sheet = SheetMut { e: &mut e, f: &mut f, back: &mut back, route: &mut route, next: &mut next };
            assert_eq!(finish(OPEN, JOB, &costs, &mut sheet, &mut work), Err(Refusal::BadSliceLength));
            assert_eq!((e, f, back, route, next, work), ([7; 6], [7; 6], [7; 6], [7; 6], vec![7; length], [7; 24]));
        }
    }

    /// Calls at the same time share the costs.
    #[test]
    fn at_the_same_time() {
        let d = [0, 408, 816, 408, 577, 985];
        let costs_to = |b: u32| finish_from(OPEN, Job { b, ..JOB }, &d, 6).map(|plan| plan.cost);
        let found = std::thread::scope(|scope| {
            let calls = [0, 1, 2, 3, 4, 5].map(|b| scope.spawn(move || costs_to(b)));
            calls.map(|call| call.join().expect("a call that ends"))
        });
        assert_eq!(found, d.map(Ok));
    }

    #[test]
    fn sights() {
        assert_eq!(sight(OPEN, 0, 5), Ok(true));
        assert_eq!(sight(SHUT, 0, 5), Ok(false));
        assert_eq!(sight(SHUT, 0, 6), Err(Refusal::BadEnd));
        assert_eq!(sight(TOUCHING, 2, 6), Ok(false));
        assert_eq!(sight(TOUCHING, 4, 4), Ok(true));
        assert_eq!(sight(Floor { width: 0, height: 0, map: &[] }, 0, 0), Err(Refusal::BadSize));
    }

    #[test]
    fn obstacles() {
        assert_eq!(obstacle(OPEN, 0, 5), Ok(Obstacle::Clear));
        assert_eq!(obstacle(SHUT, 0, 5), Ok(Obstacle::Cell(1)));
        assert_eq!(obstacle(SHUT, 0, 2), Ok(Obstacle::Step(1)));
        assert_eq!(obstacle(SHUT, 2, 0), Ok(Obstacle::Step(2)));
        assert_eq!(obstacle(TOUCHING, 2, 6), Ok(Obstacle::Pinch(4)));
        assert_eq!(obstacle(TOUCHING, 4, 5), Ok(Obstacle::Pinch(4)));
        assert_eq!(obstacle(TOUCHING, 4, 4), Ok(Obstacle::Clear));
        assert_eq!(obstacle(TOUCHING, 8, 0), Ok(Obstacle::Cell(3)));
        assert_eq!(obstacle(SHUT, 6, 0), Err(Refusal::BadEnd));
        assert_eq!(obstacle(Floor { map: &[4], ..OPEN }, 0, 0), Err(Refusal::UnusedBit));
    }

    const CELL: Rectangle = Rectangle { column: 1, row: 0, columns: 1, rows: 1 };

    #[test]
    fn closed() {
        let mut table = Closures::new(2, 1);
        let mut map = [0xFF];
        assert_eq!(table.post(CELL), Ok(0));
        assert_eq!(table.working_map(OPEN.map, &mut map), Ok(()));
        assert_eq!(map, [2]);
        assert_eq!(table.strike(0), Ok(()));
        assert_eq!(table, Closures::new(2, 1));
        assert_eq!(table.working_map(OPEN.map, &mut map), Ok(()));
        assert_eq!(map, [0]);
        assert_eq!(table.working_map(&[4], &mut map), Err(Refusal::UnusedBit));
        assert_eq!(table.working_map(&[0, 0], &mut map), Err(Refusal::BadMapLength));
        assert_eq!(table.working_map(OPEN.map, &mut map[..0]), Err(Refusal::BadSliceLength));
        assert_eq!(map, [0]);
    }

    #[test]
    fn unclosed() {
        let mut table = Closures::new(2, 1);
        assert_eq!(table.post(Rectangle { columns: 0, ..CELL }), Err(Refusal::BadClosure));
        assert_eq!(table.post(Rectangle { column: u32::MAX, ..CELL }), Err(Refusal::BadClosure));
        assert_eq!(table.strike(0), Err(Refusal::SlotEmpty));
        assert_eq!(table.strike(u32::MAX), Err(Refusal::SlotEmpty));
        assert_eq!(table, Closures::new(2, 1));
        for slot in 0..16 {
            assert_eq!(table.post(CELL), Ok(slot));
        }
        assert_eq!(table.post(CELL), Err(Refusal::SlotsFull));
        assert_eq!(table.strike(15), Ok(()));
        assert_eq!(table.strike(16), Err(Refusal::SlotEmpty));
        let mut none = Closures { width: 0, ..table };
        assert_eq!(none.post(CELL), Err(Refusal::BadSize));
        assert_eq!(none.strike(0), Err(Refusal::BadSize));
        assert_eq!(none.working_map(&[], &mut []), Err(Refusal::BadSize));
    }

    /// The slices of a sheet.
    #[derive(Clone, Debug, PartialEq, Eq)]
    struct Slices {
        d: Vec<u32>,
        e: Vec<u32>,
        f: Vec<u64>,
        back: Vec<u64>,
        route: Vec<u16>,
        next: Vec<u16>,
    }

    impl Slices {
        fn new(vertices: usize) -> Slices {
            let (d, e, f, back) = (vec![7; vertices], vec![7; vertices], vec![7; vertices], vec![7; vertices]);
            Slices { d, e, f, back, route: vec![7; vertices], next: vec![7; vertices] }
        }

        fn sheet(&self, points: usize) -> Sheet<'_> {
            let Slices { d, e, f, back, route, next } = self;
            Sheet { d, e, f, back, route, next, points }
        }

        /// Mends a sheet into these, with a working slice of the given length.
        fn mend(&mut self, floor: Floor, job: Job, damaged: Sheet, work: usize) -> Result<Mended, Refusal> {
            let Slices { d, e, f, back, route, next } = self;
            let mut work = vec![7; work];
            let answer = mend(floor, job, damaged, d, &mut SheetMut { e, f, back, route, next }, &mut work);
            let written = matches!(answer, Ok(_) | Err(Refusal::TooMany));
            assert!(work.iter().all(|&number| number == if written { 0 } else { 7 }));
            answer
        }
    }

    /// The true sheet of a job, and the number of its points.
    fn planned(floor: Floor, job: Job) -> (Slices, usize) {
        let (mut truth, mut work) = (Slices::new(floor.vertices()), vec![7; 4 * floor.vertices()]);
        assert_eq!(costs(floor, job.neighbourhood, job.a, &mut truth.d, &mut work), Ok(()));
        let Slices { d, e, f, back, route, next } = &mut truth;
        let points = finish(floor, job, d, &mut SheetMut { e, f, back, route, next }, &mut work);
        let points = points.map_or(0, |plan| plan.points);
        (truth, points)
    }

    #[test]
    fn mended() {
        for (floor, job) in [(OPEN, JOB), (OPEN, FINE), (SHUT, JOB), (OPEN, Job { b: 0, ..JOB })] {
            let (truth, points) = planned(floor, job);
            let mut damaged = truth.clone();
            let expect_mended = |damaged: &Slices, damage: Differences| {
                let mut slices = Slices::new(6);
                let wanted = Mended { points: NonZeroUsize::new(points), damage };
                assert_eq!(slices.mend(floor, job, damaged.sheet(usize::MAX), 24), Ok(wanted));
                assert_eq!(slices, truth);
                let verdict = if points > 0 { Verdict::Route } else { Verdict::NoRoute };
                assert_eq!(check(floor, job, slices.sheet(points)), Ok(verdict));
                assert_eq!(wanted.number(), if points > 0 { 0 } else { 7 });
            };
            expect_mended(&damaged, Differences::default());
            // One place of d, two of e and so on, each by a bit of its own.
            for place in 0..6 {
                let turned = |least: usize| usize::from(place < least);
                damaged.d[place] ^= (turned(1) as u32) << 31;
                damaged.e[place] ^= turned(2) as u32;
                damaged.f[place] ^= (turned(3) as u64) << 63;
                damaged.back[place] ^= (turned(4) as u64) << 32;
                damaged.route[place] ^= (turned(5) as u16) << 15;
                damaged.next[place] ^= turned(6) as u16;
                let [d, e, f, back, route, next] = [1, 2, 3, 4, 5, 6].map(|least| (place + 1).min(least));
                expect_mended(&damaged, Differences { d, e, f, back, route, next });
            }
        }
    }

    #[test]
    fn unmended() {
        let (whole, _) = planned(OPEN, JOB);
        let refused = |floor: Floor, job: Job, damaged: Sheet, work: usize, refusal: Refusal| {
            let mut slices = Slices::new(floor.vertices().min(9));
            let before = slices.clone();
            assert_eq!(slices.mend(floor, job, damaged, work), Err(refusal));
            assert_eq!(slices, before);
        };
        let sheet = whole.sheet(0);
        let short = Sheet { next: &whole.next[..5], ..sheet };
        refused(Floor { width: 0, ..OPEN }, JOB, short, 24, Refusal::BadSize);
        refused(Floor { map: &[], ..OPEN }, JOB, short, 24, Refusal::BadMapLength);
        refused(Floor { map: &[4], ..OPEN }, JOB, short, 24, Refusal::UnusedBit);
        refused(OPEN, Job { neighbourhood: 5, ..JOB }, short, 24, Refusal::BadNeighbourhood);
        refused(OPEN, Job { b: 6, ..JOB }, short, 24, Refusal::BadEnd);
        refused(TOUCHING, Job { b: 4, ..JOB }, short, 36, Refusal::PinchedEnd);
        refused(TOUCHING, Job { a: 4, b: 4, ..JOB }, short, 36, Refusal::PinchedEnd);
        refused(OPEN, JOB, short, 24, Refusal::BadSliceLength);
        refused(OPEN, JOB, Sheet { d: &whole.d[1..], ..sheet }, 24, Refusal::BadSliceLength);
        refused(OPEN, JOB, Sheet { back: &[7; 7], ..sheet }, 24, Refusal::BadSliceLength);
        refused(OPEN, JOB, sheet, 23, Refusal::BadSliceLength);
        refused(SHUT, JOB, Sheet { e: &[], ..sheet }, 24, Refusal::BadSliceLength);
        // Too many routes: d and e are written, the rest is 0, and nothing is counted.
        let largest = Floor { width: 127, height: 127, map: &[0; 2017] };
        let corners = Job { neighbourhood: 4, a: 0, b: 16_383 };
        let (wanted, _) = planned(largest, corners);
        let mut slices = Slices::new(16_384);
        let damaged = slices.clone();
        assert_eq!(slices.mend(largest, corners, damaged.sheet(0), 65_536), Err(Refusal::TooMany));
        assert!(slices == wanted && slices.f.iter().chain(&slices.back).all(|&count| count == 0));
    }

    #[test]
    fn thinned() {
        let mut out = [9; 4];
        assert_eq!(thin(OPEN, &[0, 1, 5, 6], &mut out, 3), Ok(2));
        assert_eq!(out, [0, 2, 0, 0]);
        assert_eq!(thin(OPEN, &[0, 1, 5, 6], &mut out, 4), Err(Refusal::NotJoined));
        assert_eq!(thin(OPEN, &[0, 1, 5, 6], &mut out, usize::MAX), Err(Refusal::NotJoined));
        assert_eq!(thin(OPEN, &[0, 1, 5], &mut out, 3), Err(Refusal::BadSliceLength));
        assert_eq!(thin(OPEN, &[], &mut [], 0), Err(Refusal::NotJoined));
        assert_eq!(thin(TOUCHING, &[4, 4, 4, 5], &mut out, 3), Ok(2));
        assert_eq!(out, [0, 2, 0, 0]);
        assert_eq!(thin(TOUCHING, &[4, 4, 4, 5], &mut out, 4), Err(Refusal::NotJoined));
        assert_eq!(thin(TOUCHING, &[2, 6], &mut out[..2], 2), Err(Refusal::NotJoined));
    }

    /// Cell 0 is blocked: vertex 3 does not see 1, and 4, 5, 8 and 7 each see both.
    const CORNER: Floor = Floor { width: 2, height: 2, map: &[1] };
    const ROUND: [u16; 6] = [3, 4, 5, 8, 7, 1];

    #[test]
    fn proposed() {
        let lists: [(Floor, &[u16], usize, &[u16], &[u16]); 5] = [
            (CORNER, &ROUND, 6, &[0, 4, 5], &[2, 1, 1, 1, 1, 0]),
            (CORNER, &[2, 1, 4, 3, 4, 1], 6, &[0, 5], &[1, 1, 1, 2, 1, 0]),
            (OPEN, &[0, 1, 5, 6], 3, &[0, 2], &[1, 1, 0]),
            (SHUT, &[3, 6], 1, &[0], &[0]),
            (TOUCHING, &[4, 4, 4, 5], 3, &[0, 2], &[1, 1, 0]),
        ];
        for (floor, list, n, wanted_kept, wanted_legs) in lists {
            let (mut kept, mut legs) = (vec![7; list.len()], vec![7; list.len()]);
            let count = fewest_legs(floor, list, &mut kept, &mut legs, n).expect("a joined list");
            assert_eq!((count, &kept[..count]), (wanted_kept.len(), wanted_kept));
            assert_eq!(&legs[..n], wanted_legs);
            assert!(kept[count..].iter().chain(&legs[n..]).all(|&number| number == 0));
            assert_eq!(check_legs(floor, list, n, Proposal { kept: &kept, count, legs: &legs }), Ok(true));
        }
    }

    #[test]
    fn checked_proposals() {
        let legs = [2, 1, 1, 1, 1, 0];
        let verdict = |kept: [u16; 6], count: usize, legs: &[u16]| {
            check_legs(CORNER, &ROUND, 6, Proposal { kept: &kept, count, legs })
        };
        for middle in 0..7 {
            assert_eq!(verdict([0, middle, 5, 0, 0, 0], 3, &legs), Ok((1..5).contains(&middle)));
        }
        let others: [([u16; 6], usize); 8] = [
            ([0; 6], 0),
            ([0, 5, 0, 0, 0, 0], 2),
            ([0, 1, 2, 5, 0, 0], 4),
            ([0, 4, 5, 0, 0, 0], 4),
            ([0, 4, 5, 0, 0, 1], 3),
            ([1, 4, 5, 0, 0, 0], 3),
            ([0, 4, u16::MAX, 0, 0, 0], 3),
            ([0, 4, 5, 0, 0, 0], usize::MAX),
        ];
        for (kept, count) in others {
            assert_eq!(verdict(kept, count, &legs), Ok(false));
        }
        for (place, number) in (0..6).flat_map(|place| (0..4).map(move |number| (place, number))) {
            let mut other = legs;
            other[place] = number;
            assert_eq!(verdict([0, 4, 5, 0, 0, 0], 3, &other), Ok(other == legs));
        }
    }

    #[test]
    fn refused_proposals() {
        let refused = |floor: Floor, list: &[u16], n: usize, lengths: [usize; 2], refusal: Refusal| {
            let [mut kept, mut legs] = lengths.map(|length| vec![7; length]);
            assert_eq!(check_legs(floor, list, n, Proposal { kept: &kept, count: 9, legs: &legs }), Err(refusal));
            assert_eq!(fewest_legs(floor, list, &mut kept, &mut legs, n), Err(refusal));
            assert!(kept.iter().chain(&legs).all(|&number| number == 7));
        };
        refused(Floor { width: 0, ..CORNER }, &ROUND, 7, [5, 6], Refusal::BadSize);
        refused(Floor { map: &[], ..CORNER }, &ROUND, 7, [5, 6], Refusal::BadMapLength);
        refused(Floor { map: &[17], ..CORNER }, &ROUND, 7, [5, 6], Refusal::UnusedBit);
        for lengths in [[5, 6], [6, 5], [7, 6], [6, 7], [0, 0]] {
            refused(CORNER, &ROUND, 7, lengths, Refusal::BadSliceLength);
        }
        refused(CORNER, &[3; 16_385], 1, [16_385, 16_385], Refusal::BadSliceLength);
        for (list, n) in [(ROUND, 0), (ROUND, 7), (ROUND, usize::MAX), ([3, 1, 1, 1, 1, 1], 2), ([9; 6], 1)] {
            refused(CORNER, &list, n, [6, 6], Refusal::NotJoined);
        }
        refused(CORNER, &[], 0, [0, 0], Refusal::NotJoined);
    }

    /// Replays a log with slices that hold 7 at each place: the answer, and the costs. The working slice is 0.
    fn replayed(floor: Floor, neighbourhood: u32, log: &[u8]) -> (Replay, Vec<u32>) {
        let (mut d, mut work) = (vec![7; floor.vertices()], vec![7; 4 * floor.vertices()]);
        let answer = replay(floor, neighbourhood, log, &mut d, &mut work).expect("a call of good shape");
        assert!(work.iter().all(|&number| number == 0));
        (answer, d)
    }

    /// What a log answers: records read, cost, and the two records' numbers, 0 for none.
    fn told(read: usize, cost: u32, unfollowed: usize, bad: usize) -> Replay {
        let [unfollowed, bad] = [unfollowed, bad].map(NonZeroUsize::new);
        Replay { read, cost, unfollowed, bad, cheapest: false }
    }

    #[test]
    fn faultless_logs() {
        assert_eq!(log_of(&[1, 0x1234]), [0x56, 0x54, 1, 0, 0x56, 0x54, 0x34, 0x12]);
        let from_0 = vec![0, 408, 816, 408, 577, 985];
        let logs: [(&[u16], u32, bool); 5] = [
            (&[0, 4, 5], 985, true),
            (&[0, 1, 5], 985, true),
            (&[0, 0, 4, 4, 4, 5, 5], 985, true),
            (&[0, 1, 2, 5], 1224, false),
            (&[0, 1, 0], 816, false),
        ];
        for (stops, cost, cheapest) in logs {
            let wanted = Replay { cheapest, ..told(stops.len(), cost, 0, 0) };
            assert_eq!(replayed(OPEN, 8, &log_of(stops)), (wanted, from_0.clone()));
            assert_eq!(wanted.number(), 0);
        }
        let alone = Replay { cheapest: true, ..told(1, 0, 0, 0) };
        assert_eq!(replayed(OPEN, 8, &log_of(&[3])), (alone, vec![408, 577, 985, 0, 408, 816]));
        let fine = Replay { cheapest: true, ..told(2, 2236, 0, 0) };
        assert_eq!(replayed(OPEN, 16, &log_of(&[0, 5])), (fine, vec![0, 1000, 2000, 1000, 1414, 2236]));
        let longest = Replay { cheapest: true, ..told(4096, 0, 0, 0) };
        assert_eq!(replayed(OPEN, 8, &log_of(&[0; 4096])), (longest, from_0));
        assert_eq!(replayed(OPEN, 8, &[]), (told(0, 0, 0, 0), vec![0; 6]));
    }

    #[test]
    fn faults_of_logs() {
        let none = |length: usize| vec![0; length];
        // No open move: too far, through the shut step, and on from a fault by an open one.
        assert_eq!(replayed(OPEN, 8, &log_of(&[0, 5])), (told(2, 0, 2, 0), none(6)));
        assert_eq!(replayed(OPEN, 4, &log_of(&[0, 1, 5])), (told(3, 408, 3, 0), none(6)));
        assert_eq!(replayed(SHUT, 8, &log_of(&[0, 1, 2, 1, 0])), (told(5, 408, 3, 0), none(6)));
        // Pinches: first, later, and standing still on one.
        for neighbourhood in [4, 8, 16] {
            assert_eq!(replayed(TOUCHING, neighbourhood, &log_of(&[4, 4])), (told(2, 0, 1, 0), none(9)));
            let side = if neighbourhood == 16 { 1000 } else { 408 };
            assert_eq!(replayed(TOUCHING, neighbourhood, &log_of(&[1, 2, 4, 5])), (told(4, side, 3, 0), none(9)));
        }
        // Bad records: off the floor, cut short, with a wrong mark; and both faults.
        let off = replayed(OPEN, 8, &log_of(&[0, 1, 6, 2]));
        assert_eq!((off.0.number(), off), (17, (told(2, 408, 0, 3), none(6))));
        for length in 5..8 {
            assert_eq!(replayed(OPEN, 8, &log_of(&[0, 1])[..length]), (told(1, 0, 0, 2), none(6)));
        }
        for place in 0..2 {
            let mut log = log_of(&[0, 1]);
            log[place] ^= 1;
            assert_eq!(replayed(OPEN, 8, &log), (told(0, 0, 0, 1), none(6)));
        }
        assert_eq!(replayed(OPEN, 8, &log_of(&[0, 1, 3, 5, 4, u16::MAX, 0])), (told(5, 985, 4, 6), none(6)));
    }

    #[test]
    fn refused_logs() {
        let good = log_of(&[0, 4, 5]);
        let long = [9; 16_385];
        let refused = |floor: Floor, neighbourhood: u32, log: &[u8], lengths: [usize; 2], refusal: Refusal| {
            let [mut d, mut work] = lengths.map(|length| vec![7; length]);
            assert_eq!(replay(floor, neighbourhood, log, &mut d, &mut work), Err(refusal));
            assert!(d.iter().chain(&work).all(|&number| number == 7));
        };
        refused(Floor { width: 0, ..OPEN }, 8, &good, [6, 24], Refusal::BadSize);
        refused(Floor { map: &[0, 0], ..OPEN }, 8, &good, [6, 24], Refusal::BadMapLength);
        refused(Floor { map: &[4], ..OPEN }, 5, &good, [6, 24], Refusal::UnusedBit);
        refused(OPEN, 5, &long, [5, 24], Refusal::BadNeighbourhood);
        refused(OPEN, 8, &long, [5, 24], Refusal::LongLog);
        for lengths in [[5, 24], [7, 24], [0, 24], [6, 23], [6, 25], [6, 0], [24, 6]] {
            refused(OPEN, 8, &good, lengths, Refusal::BadSliceLength);
            refused(OPEN, 8, &[9], lengths, Refusal::BadSliceLength);
        }
    }

    #[test]
    fn changed_cells() {
        let blocked = Floor { map: &[3], ..OPEN };
        let mirrored = Floor { map: &[6], ..TOUCHING };
        let told = |closed: usize, opened: usize| Changes { closed, opened };
        let floors: [(Floor, Floor, Changes, &[u16]); 6] = [
            (OPEN, SHUT, told(1, 0), &[1]),
            (SHUT, OPEN, told(0, 1), &[1]),
            (SHUT, SHUT, told(0, 0), &[]),
            (SHUT, blocked, told(1, 0), &[0]),
            (OPEN, blocked, told(2, 0), &[0, 1]),
            (TOUCHING, mirrored, told(2, 2), &[0, 1, 2, 3]),
        ];
        for (floor, after, wanted, listed) in floors {
            let mut cells = vec![7; (floor.width * floor.height) as usize];
            assert_eq!(changes(floor, after, &mut cells), Ok(wanted));
            assert_eq!(wanted.listed(&cells), listed);
            assert!(cells[listed.len()..].iter().all(|&cell| cell == 0));
        }
    }

    /// Floors to compare, good ones or not, and the refusal.
    fn unlike() -> [(Floor<'static>, Floor<'static>, Refusal); 7] {
        let [short, stray] = [&[][..], &[4]].map(|map| Floor { map, ..OPEN });
        let narrow = Floor { width: 0, ..OPEN };
        let upright = Floor { width: 1, height: 2, map: &[2] };
        [
            (narrow, stray, Refusal::BadSize),
            (short, narrow, Refusal::BadMapLength),
            (stray, narrow, Refusal::UnusedBit),
            (OPEN, Floor { height: 128, ..OPEN }, Refusal::BadSize),
            (OPEN, Floor { map: &[0, 0], ..upright }, Refusal::BadMapLength),
            (OPEN, Floor { map: &[4], ..upright }, Refusal::UnusedBit),
            (OPEN, upright, Refusal::SizesDiffer),
        ]
    }

    #[test]
    fn refused_changes() {
        let mut cells = [7; 4];
        for (floor, after, refusal) in unlike() {
            assert_eq!(changes(floor, after, &mut cells), Err(refusal));
        }
        for length in [0, 1, 3] {
            assert_eq!(changes(OPEN, SHUT, &mut cells[..length]), Err(Refusal::BadSliceLength));
        }
        assert_eq!(cells, [7; 4]);
    }

    type Compared = (Vec<u32>, Vec<u32>, Vec<u8>);

    /// Compares the costs, with slices of the given lengths that hold 7 at each place: the refusal, at which all hold 7
    /// still, or the slices. The working slice is 0 then.
    fn compared(
        floors: [Floor; 2], neighbourhood: u32, a: u32, lengths: [usize; 4],
    ) -> Result<Compared, Refusal> {
        let [mut costs, mut after_costs, mut work] = [0, 1, 3].map(|k| vec![7; lengths[k]]);
        let mut changes = vec![7; lengths[2]];
        let mut to = CostChangesMut { costs: &mut costs, after_costs: &mut after_costs, changes: &mut changes };
        let answer = cost_changes(floors[0], floors[1], neighbourhood, a, &mut to, &mut work);
        let untouched = costs.iter().chain(&after_costs).chain(&work).all(|&cost| cost == 7);
        assert!(answer.is_ok() || untouched && changes.iter().all(|&byte| byte == 7));
        assert!(answer.is_err() || work.iter().all(|&number| number == 0));
        answer.map(|()| (costs, after_costs, changes))
    }

    /// From the middle of the left side the second floor is the first upside down.
    #[test]
    fn changed_costs() {
        let [upper, lower] = [&[2 | 8], &[32 | 128]].map(|map| Floor { width: 4, height: 2, map });
        let rows = [[408, 577, 1224, 1393, UNREACHABLE], [0, 408, 816, 1224, 1632], [408, 577, 985, 1393, 1801]];
        let (costs, turned) = (rows.concat(), [rows[2], rows[1], rows[0]].concat());
        let there = vec![0, 0, 1, 0, 3, 0, 0, 0, 0, 0, 0, 0, 2, 0, 4];
        let back = vec![0, 0, 2, 0, 4, 0, 0, 0, 0, 0, 0, 0, 1, 0, 3];
        let lengths = [15, 15, 15, 60];
        assert_eq!(compared([upper, lower], 8, 5, lengths), Ok((costs.clone(), turned.clone(), there)));
        assert_eq!(compared([lower, upper], 8, 5, lengths), Ok((turned, costs.clone(), back)));
        assert_eq!(compared([upper, upper], 8, 5, lengths), Ok((costs.clone(), costs, vec![0; 15])));
        let read = [0, 1, 2, 3, 4, 5].map(CostChange::from_byte);
        use CostChange::*;
        assert_eq!(read, [Some(Equal), Some(Fell), Some(Rose), Some(FromUnreachable), Some(ToUnreachable), None]);
        assert!((0..5).all(|byte| CostChange::from_byte(byte).map(|change| change as u8) == Some(byte)));
    }

    #[test]
    fn refused_cost_changes() {
        let (good, short) = ([6, 6, 6, 24], [5, 6, 6, 24]);
        for (floor, after, refusal) in unlike() {
            assert_eq!(compared([floor, after], 5, 6, short), Err(refusal));
        }
        assert_eq!(compared([OPEN, SHUT], 5, 6, short), Err(Refusal::BadNeighbourhood));
        assert_eq!(compared([OPEN, SHUT], 8, 6, short), Err(Refusal::BadEnd));
        assert_eq!(compared([OPEN, SHUT], 8, u32::MAX, good), Err(Refusal::BadEnd));
        let open = Floor { map: &[0], ..TOUCHING };
        for floors in [[open, TOUCHING], [TOUCHING, open], [TOUCHING, TOUCHING]] {
            assert_eq!(compared(floors, 8, 4, [8, 9, 9, 36]), Err(Refusal::PinchedEnd));
        }
        for lengths in [short, [6, 7, 6, 24], [6, 6, 5, 24], [6, 6, 6, 23], [6, 6, 6, 25], [0, 0, 0, 0]] {
            assert_eq!(compared([OPEN, SHUT], 8, 0, lengths), Err(Refusal::BadSliceLength));
        }
    }

    #[test]
    fn streams() {
        let mut buffer = [7; 32];
        let mut stream = Stream::new(&mut buffer);
        assert_eq!(stream.bytes(), []);
        assert_eq!(stream.job(8, 0, 5), Err(Refusal::OutOfTurn));
        assert_eq!(stream.map(Floor { width: 32, ..SHUT }), Err(Refusal::BadSize));
        assert_eq!(stream.map(Floor { map: &[2, 0], ..SHUT }), Err(Refusal::BadMapLength));
        assert_eq!(stream.map(Floor { map: &[6], ..SHUT }), Err(Refusal::UnusedBit));
        assert_eq!(stream.map(SHUT), Ok(()));
        assert_eq!(stream.map(SHUT), Err(Refusal::OutOfTurn));
        assert_eq!(stream.job(8, 0, 5), Ok(()));
        assert_eq!(stream.job(255, 0x1234, u16::MAX), Ok(()));
        let wanted =
            [0x4D, 0x50, 2, 1, 0, 1, 0x4A, 0x42, 8, 0, 0, 5, 0, 0x4A, 0x42, 255, 0x34, 0x12, 0xFF, 0xFF];
        assert_eq!(stream.bytes(), wanted);
        assert_eq!(buffer[..20], wanted);
        assert_eq!(buffer[20..], [7; 12]);
    }

    /// The longest stream, in a buffer with no room past it and in one with room for a job more.
    #[test]
    fn longest_streams() {
        let map = pack(&[1; 961]);
        let floor = Floor { width: 31, height: 31, map: &map };
        for more in [0, 7] {
            let mut buffer = vec![7; LONGEST_STREAM + more];
            let mut stream = Stream::new(&mut buffer);
            assert_eq!(stream.map(floor), Ok(()));
            assert!((0..1000).all(|k| stream.job(8, k, 1023 - k).is_ok()));
            assert_eq!(stream.job(8, 0, 1023), Err(Refusal::OutOfTurn));
            assert_eq!(stream.bytes().len(), LONGEST_STREAM);
            assert_eq!(stream.bytes()[4..965], [1; 961]);
            assert_eq!(buffer[LONGEST_STREAM..], [7; 7][..more]);
        }
    }

    /// Writers with any numbers in them, and every room.
    #[test]
    fn writers() {
        for length in 0..16 {
            let mut buffer = vec![7; length];
            let taken = write_map(Writer::default(), OPEN, &mut buffer);
            assert_eq!(taken, if length < 6 { Err(Refusal::NoRoom) } else { Ok(Writer { at: 6, due: 1 }) });
            assert!(length >= 6 || buffer.iter().all(|&byte| byte == 7));
            let late = Writer { at: 3, due: 1000 };
            let taken = write_job(late, 8, 0, 5, &mut buffer);
            assert_eq!(taken, if length < 10 { Err(Refusal::NoRoom) } else { Ok(Writer { at: 10, due: 1001 }) });
        }
        let mut buffer = [7; 16];
        for at in [10, 16, 17, usize::MAX - 6, usize::MAX - 3, usize::MAX] {
            assert_eq!(write_job(Writer { at, due: 1 }, 8, 0, 5, &mut buffer), Err(Refusal::NoRoom));
            assert_eq!(write_map(Writer { at: at.max(11), due: 0 }, OPEN, &mut buffer), Err(Refusal::NoRoom));
        }
        for due in [1, 1000, 1001, usize::MAX] {
            assert_eq!(write_map(Writer { at: usize::MAX, due }, OPEN, &mut buffer), Err(Refusal::OutOfTurn));
        }
        for due in [0, 1001, usize::MAX] {
            assert_eq!(write_job(Writer { at: 0, due }, 8, 0, 5, &mut buffer), Err(Refusal::OutOfTurn));
        }
        assert_eq!(buffer, [7; 16]);
    }

    /// Each cell alone, on floors with every number of unused bits: it is in the way across itself and across no other.
    #[test]
    fn packed() {
        assert_eq!(pack(&[]), []);
        assert_eq!(pack(&[1, 0, 0, 1]), TOUCHING.map);
        assert_eq!(pack(&[0, 0, 0, 0, 0, 0, 0, 1, 1]), [128, 1]);
        assert_eq!(pack(&[7; 127 * 127])[2015..], [255, 1]);
        for width in 1..=16 {
            for blocked in 0..2 * width {
                let mut cells = vec![0; 2 * width as usize];
                cells[blocked as usize] = 1;
                let map = pack(&cells);
                let floor = Floor { width, height: 2, map: &map };
                for c in 0..2 * width {
                    let corner = c + c / width;
                    let found = if c == blocked { Obstacle::Cell(c) } else { Obstacle::Clear };
                    assert_eq!(obstacle(floor, corner, corner + width + 2), Ok(found));
                }
            }
        }
    }

    #[test]
    fn numbers() {
        for number in 1..=u8::MAX {
            assert_eq!(Refusal::from_number(number).number(), number);
        }
    }
}
