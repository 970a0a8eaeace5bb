//! Makes a job stream: floors, and for each one operations on it.

use crate::boundary;
use crate::closures::Table;
use crate::count;
use crate::floor::Floor;
use crate::format::{self, Damage, Record};
use crate::graph::{self, Distances, NEIGHBOURHOODS};
use crate::layouts::{self, Kind, KINDS};
use crate::neighbourhood_jobs::{floors_of_sixteen, other_neighbourhoods};
use crate::packed::PackedFloor;
use crate::random::Random;
use crate::sheet::{Request, Sheet, Solver, NO_WALK};
use crate::writer::Writer;
use crate::{sight, stream};

/// Lengths of d, e, f, b, route, next and the working slice.
pub type Lengths = [usize; 7];

pub fn good_lengths(count: usize) -> Lengths {
    [count, count, count, count, count, count, 4 * count]
}

/// Vertices above this make a floor large: fewer operations are made for it.
const LARGE: usize = 1500;

pub struct Maker {
    out: Vec<u8>,
    pub random: Random,
    // Generators of their own, so that the records of one part do not change those of another.
    /// For closures and obstacles.
    aside: Random,
    /// For costs that are not true.
    given: Random,
    /// For pinches.
    corners: Random,
    /// For faults of maps.
    bits: Random,
    /// For next vertices.
    pushed: Random,
    /// For mending.
    mended: Random,
    /// For neighbourhoods.
    steered: Random,
    /// For logs.
    driven: Random,
    /// For two floors.
    compared: Random,
    /// For the writer.
    written: Random,
    /// For fewest stops.
    chosen: Random,
    /// Whether numbers may pass 8 bits (sides, neighbourhood) and 16 bits (ends, n).
    wide: bool,
    /// The floor's map as the records leave it, and what the solver has of it.
    pub map: Vec<u8>,
    pub solver: Solver,
    /// The table as the records leave it.
    pub table: Table,
    /// The writer as the records leave it.
    pub writer: Writer,
}

/// The stream for a number of floors, and some more for each W·H modulo 8 and for neighbourhood 16.
pub fn make(seed: u64, count: u64, wide: bool) -> Vec<u8> {
    let [random, aside, given] = [seed, !seed, seed ^ u64::from(u32::MAX)].map(Random::new);
    let [corners, bits] = [!seed ^ u64::from(u32::MAX), seed.reverse_bits()].map(Random::new);
    let [pushed, steered] = [!seed.reverse_bits(), seed.swap_bytes() ^ 16].map(Random::new);
    let by_request = |request: u64| Random::new(seed.swap_bytes() ^ request);
    let [driven, compared, written, chosen] = [9, 10, 11, 12].map(by_request);
    let (solver, table) = (Solver::new(Floor::open(1, 1)), Table::empty());
    let (out, map) = (Vec::new(), vec![0]);
    let mut maker = Maker {
        out, random, aside, given, corners, bits, pushed, steered, driven, compared, written, chosen, wide, map, solver,
        table, writer: Writer::FRESH,
        mended: Random::new(seed.swap_bytes() ^ 14),
    };
    let fixed = fixed_floors(&mut maker.random).into_iter().take(count as usize);
    let mut floors: Vec<_> = fixed.map(|(floor, requests)| (PackedFloor::of(&floor), requests)).collect();
    for k in floors.len() as u64..count {
        let floor = maker.any_floor(k);
        let requests = corner_requests(&floor.floor());
        floors.push((floor, requests));
    }
    floors.extend(maker.floors_by_unused_bits().iter().map(|floor| (PackedFloor::of(floor), Vec::new())));
    floors.extend(floors_of_sixteen().into_iter().map(|(floor, requests)| (PackedFloor::of(&floor), requests)));
    for (floor, requests) in floors {
        maker.floor(floor, &requests);
    }
    maker.longest_run();
    maker.longest_lists();
    maker.record(format::END, &[], Vec::new());
    maker.out
}

pub fn request(neighbourhood: u64, start: u64, goal: u64) -> Request {
    Request { neighbourhood, start, goal }
}

/// Corner to corner on wide floors, where the total may be too large.
fn corner_requests(floor: &Floor) -> Vec<Request> {
    if floor.shape_fault().is_some() || floor.width.min(floor.height) < 20 {
        return Vec::new();
    }
    [4, 16].map(|neighbourhood| request(neighbourhood, 0, floor.vertex_count() as u64 - 1)).to_vec()
}

/// Floors that are in every stream, with requests to make of them.
fn fixed_floors(random: &mut Random) -> Vec<(Floor, Vec<Request>)> {
    let each = |start, goal| NEIGHBOURHOODS.map(|neighbourhood| request(neighbourhood, start, goal)).to_vec();
    let mut floors = vec![
        (Floor::open(1, 1), each(0, 3)),
        (Floor::new(1, 1, vec![1]), [each(0, 3), vec![request(4, 0, 0), request(8, 2, 2)]].concat()),
        (Floor::open(2, 1), each(0, 5)),
        (Floor::new(2, 1, vec![0, 1]), each(0, 5)),
        (Floor::new(2, 2, vec![1, 0, 0, 1]), each(2, 6)),
        (Floor::open(2, 2), each(0, 8)),
        (Floor::open(6, 3), each(0, 27)),
        (Floor::open(8, 4), each(0, 44)),
        // Choices beside the route: equals, and where the counts from the start alone would lead elsewhere.
        (Floor::with_blocked(4, 4, &[10]), each(0, 24)),
        (Floor::with_blocked(4, 4, &[5, 10]), each(0, 24)),
        (Floor::with_blocked(5, 5, &[7, 11]), each(0, 35)),
        (stream::halls_floor(), vec![request(4, 0, 767), request(8, 767, 0), request(16, 0, 767)]),
        (Floor::open(33, 34), vec![request(4, 0, 34 * 35 - 1)]),
        (Floor::open(34, 34), vec![request(4, 0, 35 * 35 - 1)]),
        (Floor::open(64, 32), vec![request(8, 0, 65 * 33 - 1)]),
        (Floor::open(127, 127), vec![request(4, 0, 1), request(4, 0, 16_383), request(16, 0, 130)]),
        (Floor::open(127, 1), each(0, 255)),
        (Floor::open(1, 127), each(0, 255)),
    ];
    let large = [
        (Kind::Maze, 127, 127),
        (Kind::Corridors, 127, 127),
        (Kind::Rooms, 127, 127),
        (Kind::Dense, 126, 127),
        (Kind::Diagonals, 127, 125),
        (Kind::Sparse, 119, 104),
        (Kind::Pairs, 127, 127),
        (Kind::Boards, 111, 127),
    ];
    let boundary = [boundary::doubling(63), boundary::doubling(64), boundary::product(16), boundary::product(17)];
    for case in boundary {
        let before = case.goal - (case.floor.width + 1);
        floors.push((case.floor, vec![request(4, case.start, case.goal), request(4, case.start, before)]));
    }
    for (kind, width, height) in large {
        floors.push((layouts::make(kind, random, width, height), Vec::new()));
    }
    floors
}

impl Maker {
    pub fn record(&mut self, operation: u8, words: &[u32], payload: Vec<u8>) {
        Record::new(operation, words, payload).write(&mut self.out);
    }

    /// The k-th floor: mostly small, some long and narrow, some of bad shape.
    fn any_floor(&mut self, k: u64) -> PackedFloor {
        let mut kind = KINDS[k as usize % KINDS.len()];
        let random = &mut self.random;
        let (width, height) = match k % 20 {
            7 | 17 => return self.bad_floor(k / 10),
            0..=10 => (random.within(1, 8), random.within(1, 8)),
            11 | 12 => (k * 53 % 127 + 1, random.within(1, 4)),
            13 | 14 => (random.within(1, 4), k * 53 % 127 + 1),
            15 | 16 | 18 => (random.within(9, 32), random.within(9, 32)),
            _ => {
                kind = random.pick(&[Kind::Open, Kind::Sparse, Kind::Corridors, Kind::Rooms, Kind::Pairs]);
                (random.within(20, 80), random.within(20, 80))
            }
        };
        PackedFloor::of(&layouts::make(kind, &mut self.random, width, height))
    }

    fn bad_floor(&mut self, k: u64) -> PackedFloor {
        let (width, height) = (self.random.within(1, 12), self.random.within(1, 12));
        let mut floor = PackedFloor::of(&layouts::make(Kind::Sparse, &mut self.random, width, height));
        let open = |width, height, length| PackedFloor::new(width, height, vec![0; length]);
        match k % if self.wide { 20 } else { 16 } {
            0 => floor.width = 0,
            1 => floor.height = 0,
            2 => return open(0, 0, 0),
            3 => return open(128, 1, 16),
            4 => return open(1, 128, 16),
            5 => return open(128, 128, 2048),
            6 => return PackedFloor::new(255, 3, vec![9; 96]),
            7 => floor.map.push(0),
            8 => drop(floor.map.pop()),
            9 => floor.map.clear(),
            10 => return PackedFloor::new(2, 1, vec![4]),
            11 => return PackedFloor::new(5, 3, vec![0, 128]),
            12 => return PackedFloor::new(11, 7, vec![255; 10]),
            13 => floor.map.extend([2, 2]),
            14 => return open(127, 127, 2016),
            15 => return PackedFloor::new(0, 200, vec![3]),
            16 => floor.width += 1 << 16,
            17 => floor.height += 1 << 8,
            18 => return open(1 << 31, 2, 0),
            _ => return open(u32::MAX.into(), u32::MAX.into(), 1),
        }
        floor
    }

    pub fn floor_record(&mut self, floor: PackedFloor) {
        self.record(format::FLOOR, &[floor.width as u32, floor.height as u32], floor.map.clone());
        self.solver = Solver::new(floor.floor());
        self.map = floor.map;
    }

    fn floor(&mut self, floor: PackedFloor, requests: &[Request]) {
        let is_good = floor.fault().is_none();
        self.floor_record(floor.clone());
        if is_good {
            let requests = self.good_operations(requests);
            self.pinch_operations();
            self.mend_operations(&requests);
            self.replay_operations(&requests);
            self.change_operations();
            self.writer_operations();
            self.legs_operations(&requests);
        } else {
            self.bad_operations();
            self.mends_on_bad_floor();
            self.logs_on_bad_floor();
            self.changes_on_bad_floor();
            self.writer_on_bad_floor();
            self.legs_on_bad_floor(6);
        }
        self.use_aside();
        if is_good {
            self.obstacle_pairs(if self.is_large() { 24 } else { 48 });
            self.closures_on_good_floor();
        } else {
            self.closures_on_bad_floor();
        }
        self.use_aside();
        if is_good {
            self.map_faults(&floor);
        }
    }

    /// Exchanges two generators.
    fn use_aside(&mut self) {
        std::mem::swap(&mut self.random, &mut self.aside);
    }

    pub fn use_given(&mut self) {
        std::mem::swap(&mut self.random, &mut self.given);
    }

    pub fn use_corners(&mut self) {
        std::mem::swap(&mut self.random, &mut self.corners);
    }

    pub fn use_bits(&mut self) {
        std::mem::swap(&mut self.random, &mut self.bits);
    }

    pub fn use_pushed(&mut self) {
        std::mem::swap(&mut self.random, &mut self.pushed);
    }

    pub fn use_mended(&mut self) {
        std::mem::swap(&mut self.random, &mut self.mended);
    }

    pub fn use_steered(&mut self) {
        std::mem::swap(&mut self.random, &mut self.steered);
    }

    pub fn use_driven(&mut self) {
        std::mem::swap(&mut self.random, &mut self.driven);
    }

    pub fn use_compared(&mut self) {
        std::mem::swap(&mut self.random, &mut self.compared);
    }

    pub fn use_written(&mut self) {
        std::mem::swap(&mut self.random, &mut self.written);
    }

    pub fn use_chosen(&mut self) {
        std::mem::swap(&mut self.random, &mut self.chosen);
    }

    pub fn is_large(&self) -> bool {
        self.count() > LARGE
    }

    pub fn is_pinch(&self, vertex: usize) -> bool {
        sight::is_pinch(&self.solver.floor, self.solver.floor.point(vertex))
    }

    pub fn count(&self) -> usize {
        self.solver.floor.vertex_count()
    }

    /// Makes the requests given and some more, and the other operations on a good floor. Returns the requests made.
    fn good_operations(&mut self, requests: &[Request]) -> Vec<Request> {
        let large = self.is_large();
        self.sight_pairs(if large { 24 } else { 48 });
        let requests = self.all_requests(requests, if large { 2 } else { 3 });
        for &request in &requests {
            self.job(request, if large { 4 } else { 5 });
        }
        for _ in 0..if large { 1 } else { 2 } {
            self.bad_plan();
        }
        self.stale_checks();
        if self.count() <= 30 {
            self.loaded_sheets();
        }
        self.sheets_by_other_rules();
        self.sheets_over_other_moves();
        self.lists(if large { 2 } else { 4 });
        requests
    }

    /// The requests given; one with 16, if they have none; and one with each other neighbourhood that is missing, while
    /// there are fewer than `least`.
    fn all_requests(&mut self, given: &[Request], least: usize) -> Vec<Request> {
        let mut requests = given.to_vec();
        for neighbourhood in if self.random.percent(50) { [16, 4, 8] } else { [16, 8, 4] } {
            let is_missing = requests.iter().all(|request| request.neighbourhood != neighbourhood);
            if is_missing && (neighbourhood == 16 || requests.len() < least) {
                requests.push(self.any_request_of(neighbourhood));
            }
        }
        requests
    }

    /// Costs from the start, what is refused of them, a good plan, and checks and thinnings of what it left. On a small
    /// floor before each of the three calls the same one with a neighbourhood that is refused.
    pub fn job(&mut self, request: Request, damaged: usize) {
        let good = good_lengths(self.count());
        let seed = self.random.next() as u32;
        let refused = if self.is_large() { None } else { Some(self.refused(request)) };
        refused.into_iter().for_each(|job| self.costs_record(job, good, seed));
        self.costs_record(request, good, seed);
        self.false_costs(request);
        self.next_of_other_lengths(request);
        refused.into_iter().for_each(|job| self.finish_record(job, good, seed, &[]));
        self.finish_record(request, good, seed, &[]);
        refused.into_iter().for_each(|job| self.check_record(job, good, None, &[]));
        self.check_record(request, good, None, &[]);
        let truth = self.solver.truth(request.neighbourhood, request.start as usize, request.goal as usize);
        let sheet = truth.sheet();
        for _ in 0..damaged {
            let damages = self.damages(sheet, request.neighbourhood);
            self.check_record(request, good, None, &damages);
        }
        self.other_checks(request, sheet.n as u32);
        self.next_checks(request, sheet);
        self.route_lists(sheet.n as u32);
    }

    /// The same sheet for another job, another n, or with slices cut or longer.
    fn other_checks(&mut self, request: Request, n: u32) {
        let count = self.count();
        let swapped = Request { start: request.goal, goal: request.start, ..request };
        self.check_record(swapped, good_lengths(count), None, &[]);
        if !self.is_large() {
            for neighbourhood in other_neighbourhoods(request.neighbourhood) {
                self.check_record(Request { neighbourhood, ..request }, good_lengths(count), None, &[]);
            }
        }
        let other_n = self.other_n(n, count);
        self.check_record(request, good_lengths(count), Some(other_n), &[]);
    }

    fn other_n(&mut self, n: u32, length: usize) -> u32 {
        let length = length as u32;
        let mut choices = vec![0, 1, n + 1, n.saturating_sub(1), length, length + 1, 65_535];
        if self.wide {
            choices.extend([n + 65_536, n + 256, u32::MAX]);
        }
        self.random.pick(&choices)
    }

    /// Checks of good and bad shape on whatever stands in the buffers.
    fn stale_checks(&mut self) {
        let count = self.count();
        let request = self.any_request();
        let n = self.random.below(count as u64 + 3) as u32;
        self.check_record(request, good_lengths(count), Some(n), &[]);
        let lengths = self.bad_lengths(6);
        self.check_record(request, lengths, None, &[]);
        let bad = self.bad_request();
        self.check_record(bad, good_lengths(count), None, &[]);
    }

    /// One to three faults at a time.
    fn bad_plan(&mut self) {
        let faults = self.random.within(1, 3);
        let request = if faults != 2 { self.bad_request() } else { self.any_request() };
        let lengths = if faults != 1 { self.bad_lengths(7) } else { good_lengths(self.count()) };
        self.plan_records(request, lengths);
    }

    fn bad_operations(&mut self) {
        for _ in 0..3 {
            let mut lengths = [0; 7];
            lengths.iter_mut().for_each(|length| *length = self.random.index(40));
            let ends = (self.random.below(20), self.random.below(20));
            let request = request(self.random.pick(&[4, 8, 16, 5, 0]), ends.0, ends.1);
            self.plan_records(request, lengths);
            self.check_record(request, lengths, None, &[]);
            let length = self.random.within(1, 9) as usize;
            let list: Vec<u16> = (0..length as u16).collect();
            let n = self.random.below(11) as u32;
            let out_length = length + self.random.index(2);
            self.list_record(&list, length, out_length, n);
        }
        let pairs = self.small_pairs();
        self.pairs_record(format::SIGHT, &pairs);
    }
}

/// Requests and slice lengths.
impl Maker {
    /// A request of good shape; in most of them a walk joins the ends.
    pub fn any_request_of(&mut self, neighbourhood: u64) -> Request {
        let count = self.count() as u64;
        let graphs = self.solver.graphs(neighbourhood);
        let mut start = self.random.below(count);
        for _ in 0..9 {
            if graphs.0.edges[start as usize].is_empty() {
                start = self.random.below(count);
            }
        }
        // The first vertex is at a corner of the floor.
        let start = if self.is_pinch(start as usize) { 0 } else { start };
        let distances = graph::distances(&graphs.0, start as usize);
        request(neighbourhood, start, self.any_goal(start, &distances))
    }

    /// The same of any neighbourhood.
    pub fn any_request(&mut self) -> Request {
        let neighbourhood = self.random.pick(&NEIGHBOURHOODS);
        self.any_request_of(neighbourhood)
    }

    /// Unreached, the start itself, any reached vertex, or a far one of some.
    fn any_goal(&mut self, start: u64, distances: &Distances) -> u64 {
        let all = 0..distances.len();
        let (reached, mut unreached): (Vec<usize>, Vec<usize>) = all.partition(|&v| distances[v].is_some());
        unreached.retain(|&v| !self.is_pinch(v));
        let choice = self.random.below(10);
        if choice < 2 && !unreached.is_empty() {
            return self.random.pick(&unreached) as u64;
        }
        if choice == 2 {
            return start;
        }
        let tries = if choice < 6 { 1 } else { 5 };
        let tried: Vec<usize> = (0..tries).map(|_| self.random.pick(&reached)).collect();
        tried.into_iter().max_by_key(|&v| distances[v]).unwrap_or(0) as u64
    }

    /// A request that answers 4 or 5.
    pub fn bad_request(&mut self) -> Request {
        let mut request = self.any_request();
        let fault = self.random.within(1, 3);
        if fault != 2 {
            request.neighbourhood = self.bad_neighbourhood();
        }
        if fault != 1 {
            let end = self.bad_end();
            if self.random.percent(50) {
                request.start = end;
            } else {
                request.goal = end;
            }
        }
        request
    }

    /// A side that answers 1.
    pub fn bad_side(&mut self) -> u64 {
        let mut choices = vec![0, 128, 129, 255];
        if self.wide {
            choices.extend([256, (1 << 16) + 3, (1 << 31) + 1, u64::from(u32::MAX)]);
        }
        self.random.pick(&choices)
    }

    pub fn bad_neighbourhood(&mut self) -> u64 {
        let mut choices = vec![0, 1, 2, 3, 5, 6, 7, 9, 12, 15, 17, 20, 24, 32, 84, 255];
        if self.wide {
            choices.extend([256, 260, 272, 65_544, 65_552, (1 << 31) + 4, (1 << 31) + 16, u64::from(u32::MAX)]);
        }
        self.random.pick(&choices)
    }

    pub fn bad_end(&mut self) -> u64 {
        let count = self.count() as u64;
        let mut choices = vec![count, count, count + 1, count + 40, 65_535];
        if self.wide {
            choices.extend([65_536, (1 << 31) + 1, u64::from(u32::MAX)]);
        }
        self.random.pick(&choices)
    }

    /// Lengths of which one of the first `slices` is not the good one.
    pub fn bad_lengths(&mut self, slices: usize) -> Lengths {
        let good = good_lengths(self.count());
        let mut lengths = good;
        while lengths == good {
            let k = self.random.index(slices);
            let room = if k == 6 { format::WORK_ROOM } else { format::SHEET_ROOM };
            let length = self.random.pick(&[0, good[k] - 1, good[k] + 1, good[k] / 2, good[k] / 4, 2 * good[k]]);
            lengths[k] = length.min(room);
        }
        lengths
    }
}

/// Single records.
impl Maker {
    /// Both operations, with the same lengths.
    pub fn plan_records(&mut self, request: Request, lengths: Lengths) {
        let seed = self.random.next() as u32;
        self.costs_record(request, lengths, seed);
        self.finish_record(request, lengths, seed, &[]);
    }

    pub fn costs_record(&mut self, request: Request, lengths: Lengths, seed: u32) {
        let words = [request.neighbourhood as u32, request.start as u32, lengths[0] as u32, lengths[6] as u32, seed];
        self.record(format::COSTS, &words, Vec::new());
    }

    pub fn finish_record(&mut self, request: Request, lengths: Lengths, seed: u32, damages: &[Damage]) {
        let mut words = request_words(request);
        words.extend(lengths.map(|length| length as u32));
        words.push(seed);
        self.record(format::FINISH, &words, format::damages_to_bytes(damages));
    }

    pub fn check_record(&mut self, request: Request, lengths: Lengths, n: Option<u32>, damages: &[Damage]) {
        let mut words = request_words(request);
        words.extend(lengths[..6].iter().map(|&length| length as u32));
        words.extend([u32::from(n.is_some()), n.unwrap_or(0)]);
        self.record(format::CHECK, &words, format::damages_to_bytes(damages));
    }

    pub fn load_record(&mut self, sheet: &Sheet) {
        let mut rows = Vec::new();
        for i in 0..sheet.d.len() {
            rows.extend(sheet.d[i].to_le_bytes());
            rows.extend(sheet.e[i].to_le_bytes());
            rows.extend(sheet.f[i].to_le_bytes());
            rows.extend(sheet.b[i].to_le_bytes());
            rows.extend(sheet.route[i].to_le_bytes());
            rows.extend(sheet.next[i].to_le_bytes());
        }
        self.record(format::LOAD, &[sheet.d.len() as u32, sheet.n as u32], rows);
    }

    pub fn list_record(&mut self, list: &[u16], length: usize, out_length: usize, n: u32) {
        let seed = self.random.next() as u32;
        let words = [0, length as u32, out_length as u32, 1, n, seed];
        self.record(format::THIN, &words, list.iter().flat_map(|v| v.to_le_bytes()).collect());
    }

    fn route_record(&mut self, out_length: usize, n: Option<u32>, damages: &[Damage]) {
        let seed = self.random.next() as u32;
        let length = self.count() as u32;
        let words = [1, length, out_length as u32, u32::from(n.is_some()), n.unwrap_or(0), seed];
        self.record(format::THIN, &words, format::damages_to_bytes(damages));
    }

    /// A record of pairs: sight or obstacle.
    pub fn pairs_record(&mut self, operation: u8, pairs: &[(u32, u32)]) {
        let bytes = pairs.iter().flat_map(|(from, to)| [from.to_le_bytes(), to.to_le_bytes()].concat()).collect();
        self.record(operation, &[pairs.len() as u32], bytes);
    }
}

fn request_words(request: Request) -> Vec<u32> {
    vec![request.neighbourhood as u32, request.start as u32, request.goal as u32]
}

/// Damage to a sheet.
impl Maker {
    fn damages(&mut self, sheet: &Sheet, neighbourhood: u64) -> Vec<Damage> {
        let found = match self.random.below(10) {
            0 => self.swapped_points(sheet),
            1 => self.other_middle_point(sheet, neighbourhood),
            2 => self.point_past_the_end(sheet),
            3 => self.count_off_the_way(sheet),
            4 => self.walk_where_none_is(sheet),
            5 => self.both_counts(sheet),
            _ => Vec::new(),
        };
        if found.is_empty() { vec![self.any_damage(sheet)] } else { found }
    }

    /// A value at any place changed a little or a lot; now and then not at all.
    fn any_damage(&mut self, sheet: &Sheet) -> Damage {
        let slice = self.random.index(6);
        let place = if slice == 4 && self.random.percent(70) {
            self.random.index((sheet.n as usize + 1).min(sheet.d.len()))
        } else {
            self.random.index(sheet.d.len())
        };
        let old = value_at(sheet, slice, place);
        let bits = [32, 32, 64, 64, 16, 16][slice];
        let flipped = old ^ (1 << self.random.below(bits));
        let choices = [old.wrapping_add(1), old.wrapping_sub(1), flipped, 0, u64::MAX, self.random.next(), old];
        let value = self.random.pick(&choices) & (u64::MAX >> (64 - bits));
        Damage { slice, place, value }
    }

    fn swapped_points(&mut self, sheet: &Sheet) -> Vec<Damage> {
        if sheet.n < 2 {
            return Vec::new();
        }
        let place = self.random.index(sheet.n as usize - 1);
        let put = |to: usize, from: usize| Damage { slice: 4, place: to, value: sheet.route[from].into() };
        vec![put(place, place + 1), put(place + 1, place)]
    }

    /// A route point replaced by another through which a cheapest walk runs.
    fn other_middle_point(&mut self, sheet: &Sheet, neighbourhood: u64) -> Vec<Damage> {
        let graphs = self.solver.graphs(neighbourhood);
        let mut found = Vec::new();
        for place in 1..(sheet.n as usize).saturating_sub(1) {
            let [before, at, after] = [0, 1, 2].map(|k| usize::from(sheet.route[place + k - 1]));
            for edge in &graphs.0.edges[before] {
                let cheapest = u64::from(sheet.d[before]) + edge.cost == u64::from(sheet.d[edge.to]);
                let joined = graphs.0.edges[edge.to].iter().any(|next| next.to == after);
                if edge.to != at && cheapest && joined && sheet.f[edge.to] > 0 {
                    found.push(vec![Damage { slice: 4, place, value: edge.to as u64 }]);
                }
            }
        }
        if found.is_empty() { Vec::new() } else { found.swap_remove(self.random.index(found.len())) }
    }

    fn point_past_the_end(&mut self, sheet: &Sheet) -> Vec<Damage> {
        let (n, length) = (sheet.n as usize, sheet.route.len());
        if n >= length {
            return Vec::new();
        }
        let place = n + self.random.index(length - n);
        let last = sheet.route[n.saturating_sub(1)];
        vec![Damage { slice: 4, place, value: self.random.pick(&[1, last, 65_535]).into() }]
    }

    fn count_off_the_way(&mut self, sheet: &Sheet) -> Vec<Damage> {
        let off: Vec<usize> = (0..sheet.f.len()).filter(|&v| sheet.f[v] == 0).collect();
        if off.is_empty() {
            return Vec::new();
        }
        let place = self.random.pick(&off);
        vec![Damage { slice: self.random.within(2, 3) as usize, place, value: 1 }]
    }

    fn walk_where_none_is(&mut self, sheet: &Sheet) -> Vec<Damage> {
        let (slice, costs) = self.random.pick(&[(0, &sheet.d), (1, &sheet.e)]);
        let off: Vec<usize> = (0..costs.len()).filter(|&v| costs[v] == NO_WALK).collect();
        if off.is_empty() {
            return Vec::new();
        }
        let value = self.random.pick(&[0, 408, 577, 1000, 2236, 9_452_991, 36_632_388, u64::from(NO_WALK) - 1]);
        vec![Damage { slice, place: self.random.pick(&off), value }]
    }

    /// f and b of a vertex on the way, each one more.
    fn both_counts(&mut self, sheet: &Sheet) -> Vec<Damage> {
        let on: Vec<usize> = (0..sheet.f.len()).filter(|&v| sheet.f[v] > 0).collect();
        if on.is_empty() {
            return Vec::new();
        }
        let place = self.random.pick(&on);
        let more = |slice: usize| Damage { slice, place, value: value_at(sheet, slice, place).wrapping_add(1) };
        vec![more(2), more(3)]
    }
}

pub fn value_at(sheet: &Sheet, slice: usize, place: usize) -> u64 {
    match slice {
        0 => sheet.d[place].into(),
        1 => sheet.e[place].into(),
        2 => sheet.f[place],
        3 => sheet.b[place],
        4 => sheet.route[place].into(),
        _ => sheet.next[place].into(),
    }
}

/// Whole sheets, for floors with few vertices.
impl Maker {
    fn loaded_sheets(&mut self) {
        let request = self.any_request();
        let truth = self.solver.truth(request.neighbourhood, request.start as usize, request.goal as usize);
        let sheet = truth.sheet();
        for _ in 0..3 {
            let changed = self.changed_sheet(sheet, request);
            self.load_record(&changed);
            self.check_record(request, good_lengths(self.count()), None, &[]);
            self.finish_record(request, good_lengths(self.count()), changed.d[0], &[]);
        }
    }

    fn changed_sheet(&mut self, sheet: &Sheet, request: Request) -> Sheet {
        let count = sheet.d.len();
        let mut changed = sheet.clone();
        match self.random.below(10) {
            0 => {}
            1 => changed = Sheet::zeros(count),
            2 => changed = Sheet { d: sheet.d.clone(), ..Sheet::zeros(count) },
            3 => changed.d.iter_mut().chain(&mut changed.e).for_each(|cost| *cost = cost.wrapping_add(408)),
            4 => changed.f.iter_mut().for_each(|walks| *walks = walks.wrapping_mul(2)),
            5 => std::mem::swap(&mut changed.f, &mut changed.b),
            6 => changed.d.fill(NO_WALK),
            7 => self.counts_everywhere(&mut changed, request),
            8 => self.walked_by_forward_counts(&mut changed, request),
            _ => self.scramble(&mut changed),
        }
        changed
    }

    /// f as the number of cheapest walks to every vertex, on the way or not.
    fn counts_everywhere(&mut self, sheet: &mut Sheet, request: Request) {
        let graphs = self.solver.graphs(request.neighbourhood);
        let distances = graph::distances(&graphs.0, request.start as usize);
        let counts = count::by_sums(&graphs.1, &distances, request.start as usize);
        sheet.f = counts.iter().map(|count| count.to_u64().unwrap_or(u64::MAX)).collect();
    }

    /// The route that goes by the highest f alone.
    fn walked_by_forward_counts(&mut self, sheet: &mut Sheet, request: Request) {
        let graphs = self.solver.graphs(request.neighbourhood);
        for place in 1..sheet.n as usize {
            let before = usize::from(sheet.route[place - 1]);
            let follows = |to: usize, cost: u64| u64::from(sheet.d[before]) + cost == u64::from(sheet.d[to]);
            let next = graphs.0.edges[before].iter().filter(|edge| follows(edge.to, edge.cost));
            if let Some(best) = next.max_by_key(|edge| sheet.f[edge.to]) {
                sheet.route[place] = best.to as u16;
            }
        }
    }

    fn scramble(&mut self, sheet: &mut Sheet) {
        sheet.n = self.random.below(sheet.d.len() as u64 + 2);
        for place in 0..sheet.d.len() {
            sheet.d[place] = self.random.pick(&[408, 1000]) * self.random.below(9) as u32;
            sheet.e[place] = self.random.pick(&[577, 1414, 2236]) * self.random.below(9) as u32;
            sheet.f[place] = self.random.below(4);
            sheet.b[place] = self.random.next();
            sheet.route[place] = self.random.below(sheet.d.len() as u64) as u16;
            sheet.next[place] = self.random.below(sheet.d.len() as u64) as u16;
        }
    }
}

/// Lists to thin, and pairs to ask about.
impl Maker {
    fn route_lists(&mut self, n: u32) {
        let count = self.count();
        self.route_record(count, None, &[]);
        let other_n = self.other_n(n, count);
        self.route_record(count, Some(other_n), &[]);
        if n < 2 {
            return;
        }
        let place = self.random.index(n as usize);
        let value = match self.random.below(4) {
            0 => count as u64,
            1 => 65_535,
            _ => self.random.below(count as u64),
        };
        self.route_record(count, None, &[Damage { slice: 4, place, value }]);
        if !self.is_large() && self.random.percent(25) {
            self.route_record(count - 1, None, &[]);
        }
    }

    /// A list of visible neighbours, with repeats, and lists made from it.
    fn lists(&mut self, others: usize) {
        let length = self.random.within(1, 40) as usize;
        let list = self.visible_list(length);
        self.list_record(&list, length, length, length as u32);
        for _ in 0..others {
            let length = self.random.within(1, 24) as usize;
            let list = self.visible_list(length);
            self.other_list(list);
        }
    }

    fn other_list(&mut self, mut list: Vec<u16>) {
        let length = list.len();
        let n = length as u32;
        let count = self.count() as u64;
        match self.random.below(12) {
            0 => self.list_record(&list, length, length, 0),
            1 => self.list_record(&list, length, length, n + 1),
            2 => self.list_record(&list, length, length + 1, n),
            3 => self.list_record(&list, length, length - 1, n),
            4 => self.list_record(&list, length + 9, length + 9, n),
            5 => {
                let shorter = self.random.within(1, n.into()) as u32;
                self.list_record(&list, length, length, shorter);
            }
            6 => {
                let place = self.random.index(length);
                list[place] = self.random.pick(&[count, count + 1, 65_535]) as u16;
                self.list_record(&list, length, length, n);
                self.list_record(&list, length, length, place as u32);
            }
            7 => {
                let place = self.random.index(length);
                list[place] = self.random.below(count) as u16;
                self.list_record(&list, length, length, n);
            }
            8 => {
                let doubled: Vec<u16> = list.iter().flat_map(|&v| [v, v]).collect();
                self.list_record(&doubled, 2 * length, 2 * length, 2 * n);
            }
            9 => {
                let back: Vec<u16> = list.iter().chain(list.iter().rev()).copied().collect();
                self.list_record(&back, 2 * length, 2 * length, 2 * n);
            }
            10 => self.long_slices(&list),
            _ => {
                let above = self.other_n(n, length);
                self.list_record(&[], 0, 0, above);
            }
        }
    }

    /// Slices at the longest length and one above it.
    fn long_slices(&mut self, list: &[u16]) {
        let length = format::SHEET_ROOM + self.random.index(3);
        self.list_record(list, length, length, list.len() as u32);
        self.list_record(list, format::SHEET_ROOM, format::SHEET_ROOM - 1, list.len() as u32);
    }

    pub fn visible_list(&mut self, length: usize) -> Vec<u16> {
        let mut at = self.random.index(self.count());
        let mut list = vec![at as u16];
        while list.len() < length {
            at = self.visible_from(at);
            list.push(at as u16);
        }
        list
    }

    /// A vertex seen from this one: far, near, or the same.
    fn visible_from(&mut self, at: usize) -> usize {
        for _ in 0..12 {
            let to = if self.random.percent(30) { self.random.index(self.count()) } else { self.near(at) };
            if sight::vertices_see(&self.solver.floor, at, to) {
                return to;
            }
        }
        at
    }

    pub fn near(&mut self, at: usize) -> usize {
        let (x, y) = self.solver.floor.point(at);
        let mut offset = || self.random.below(7) as i64 - 3;
        let (dx, dy) = (offset(), offset());
        self.solver.floor.vertex(x + dx, y + dy).unwrap_or(at)
    }

    pub fn sight_pairs(&mut self, number: usize) {
        let pairs: Vec<(u32, u32)> = (0..number).map(|_| self.sight_pair()).collect();
        self.pairs_record(format::SIGHT, &pairs);
    }

    /// Some pairs, and each of them the other way round.
    fn obstacle_pairs(&mut self, number: usize) {
        let pairs = (0..number / 2).map(|_| self.sight_pair());
        let both: Vec<(u32, u32)> = pairs.flat_map(|(from, to)| [(from, to), (to, from)]).collect();
        self.pairs_record(format::OBSTACLE, &both);
    }

    pub fn small_pairs(&mut self) -> [(u32, u32); 6] {
        [(); 6].map(|_| (self.random.below(30) as u32, self.random.below(30) as u32))
    }

    fn sight_pair(&mut self) -> (u32, u32) {
        let from = self.random.index(self.count());
        let to = match self.random.below(20) {
            0..=5 => self.random.index(self.count()),
            6..=13 => self.near(from),
            14..=17 => self.along_a_line(from),
            18 => from,
            _ => self.bad_end() as usize,
        };
        let pair = (from as u32, to as u32);
        if self.random.percent(50) { (pair.1, pair.0) } else { pair }
    }

    /// A vertex of the same column, row or diagonal.
    fn along_a_line(&mut self, from: usize) -> usize {
        let (x, y) = self.solver.floor.point(from);
        let steps = self.random.below(15) as i64 - 7;
        let (dx, dy) = self.random.pick(&[(1, 0), (0, 1), (1, 1), (1, -1)]);
        self.solver.floor.vertex(x + dx * steps, y + dy * steps).unwrap_or(from)
    }
}
