//! The part of a job stream about logs: cheapest ones and dearer ones, records that cannot follow, bad records, both,
//! and what is refused.

use crate::format;
use crate::graph::{self, NEIGHBOURHOODS};
use crate::jobs::Maker;
use crate::neighbourhood_jobs::other_neighbourhoods;
use crate::replay::{log_of, LONGEST};
use crate::sheet::{Request, Truth, NO_WALK};

/// Records of a drive at most, so that a log with some more is no longer than a payload may be.
const MOST_STOPS: usize = 1000;

/// A vertex that cannot follow another.
#[derive(Clone, Copy)]
enum Stray {
    /// Any vertex to which no move leads.
    Far,
    /// The end of a move that is not open.
    Shut,
    /// By number the end of a move, past the floor's edge.
    Wrapped,
    /// The end of an open move that another neighbourhood has.
    OtherMove,
    Pinch,
}

const STRAYS: [Stray; 5] = [Stray::Far, Stray::Shut, Stray::Wrapped, Stray::OtherMove, Stray::Pinch];

/// A record that is bad.
#[derive(Clone, Copy)]
enum Bad {
    FirstMark,
    SecondMark,
    MarksSwapped,
    /// A mark of the program's stream.
    OtherMarks,
    /// The first number that is no vertex's.
    Count,
    /// Any higher one.
    Above,
    /// A vertex number with its bytes swapped, on a small floor no vertex's.
    BigEndian,
}

const BADS: [Bad; 7] = [
    Bad::FirstMark,
    Bad::SecondMark,
    Bad::MarksSwapped,
    Bad::OtherMarks,
    Bad::Count,
    Bad::Above,
    Bad::BigEndian,
];

impl Maker {
    /// The logs of a good floor, with each neighbourhood: of a request given, if there is one.
    pub fn replay_operations(&mut self, requests: &[Request]) {
        self.use_driven();
        let long = self.random.pick(&NEIGHBOURHOODS);
        for neighbourhood in NEIGHBOURHOODS {
            let given = requests.iter().find(|request| request.neighbourhood == neighbourhood);
            let request = given.copied().unwrap_or_else(|| self.any_request_of(neighbourhood));
            let is_planned = given.is_some() || !self.is_large();
            let stops = if is_planned { self.central_stops(request) } else { self.any_cheapest_stops(request) };
            if self.is_large() {
                self.few_logs(neighbourhood, &stops);
            } else {
                self.drives(neighbourhood, &stops);
                self.unfollowed_logs(neighbourhood, &stops);
                self.broken_logs(neighbourhood, &stops);
            }
            if neighbourhood == long {
                self.long_logs(neighbourhood, &stops);
            }
        }
        self.refused_logs();
        self.use_driven();
    }

    /// Logs on a floor that is refused, alone and beside 4, 16 and 6.
    pub fn logs_on_bad_floor(&mut self) {
        self.use_driven();
        for length in [0, 8, 16_385] {
            let neighbourhood = self.random.pick(&[4, 8, 16, 5, 0]);
            let lengths = [(); 2].map(|()| self.random.index(40));
            self.replay_record(neighbourhood, log_of(&[0, 1]), length, lengths);
        }
        self.use_driven();
    }

    fn few_logs(&mut self, neighbourhood: u64, stops: &[u16]) {
        self.log_record(neighbourhood, log_of(stops));
        let dearer = self.dearer(neighbourhood, stops);
        self.log_record(neighbourhood, log_of(&dearer));
        let stray = self.random.pick(&STRAYS);
        if let Some(log) = self.with_stray(neighbourhood, stops, stray) {
            self.log_record(neighbourhood, log_of(&log));
        }
        let bad = self.random.pick(&BADS);
        let place = self.random.index(stops.len());
        let log = self.with_bad(stops, place, bad);
        self.log_record(neighbourhood, log);
    }
}

/// The stops of a drive.
impl Maker {
    /// The central route; where there is none the start alone.
    pub fn central_stops(&mut self, request: Request) -> Vec<u16> {
        let truth = self.solver.truth(request.neighbourhood, request.start as usize, request.goal as usize);
        match &*truth {
            Truth::Route { sheet, .. } => sheet.route[..(sheet.n as usize).min(MOST_STOPS)].to_vec(),
            Truth::NoRoute { .. } => vec![request.start as u16],
            Truth::TooMany { .. } => self.any_cheapest_stops(request),
        }
    }

    /// Any cheapest walk, from the goal back to the start.
    fn any_cheapest_stops(&mut self, request: Request) -> Vec<u16> {
        let (start, mut at) = (request.start as usize, request.goal as usize);
        let d = self.solver.costs(request.neighbourhood, start);
        let graphs = self.solver.graphs(request.neighbourhood);
        let mut stops = vec![];
        while d[at] != NO_WALK && at != start {
            stops.push(at as u16);
            let before = graphs.1.edges[at].iter().filter(|edge| u64::from(d[edge.to]) + edge.cost == u64::from(d[at]));
            let before: Vec<usize> = before.map(|edge| edge.to).collect();
            at = self.random.pick(&before);
        }
        stops.push(start as u16);
        stops.reverse();
        stops.truncate(MOST_STOPS);
        stops
    }

    /// Each stop once, twice or three times.
    fn rested(&mut self, stops: &[u16]) -> Vec<u16> {
        stops.iter().flat_map(|&stop| vec![stop; self.random.within(1, 3) as usize]).collect()
    }

    /// One move more, between two stops by way of a third, where there is such a way; else a move to a neighbour and
    /// back.
    fn dearer(&mut self, neighbourhood: u64, stops: &[u16]) -> Vec<u16> {
        let graphs = self.solver.graphs(neighbourhood);
        let ends = |from: u16| graphs.0.edges[usize::from(from)].iter().map(|edge| edge.to as u16);
        let first = self.random.index(stops.len());
        for place in (first..stops.len()).chain(0..first).filter(|&place| place + 1 < stops.len()) {
            let (from, to) = (stops[place], stops[place + 1]);
            let ways: Vec<u16> = ends(from).filter(|&way| ends(way).any(|end| end == to)).collect();
            if !ways.is_empty() {
                return [&stops[..=place], &[self.random.pick(&ways)], &stops[place + 1..]].concat();
            }
        }
        let ways: Vec<u16> = ends(stops[first]).collect();
        let way = if ways.is_empty() { stops[first] } else { self.random.pick(&ways) };
        [&stops[..=first], &[way], &stops[first..]].concat()
    }

    /// A walk by any open moves from a vertex, with rests.
    fn any_walk(&mut self, neighbourhood: u64, start: u16, length: usize) -> Vec<u16> {
        let graphs = self.solver.graphs(neighbourhood);
        let mut walk = vec![start];
        for place in 1..length {
            let edges = &graphs.0.edges[usize::from(walk[place - 1])];
            let stays = edges.is_empty() || self.random.percent(15);
            let to = if stays { walk[place - 1] } else { edges[self.random.index(edges.len())].to as u16 };
            walk.push(to);
        }
        walk
    }

    /// A vertex that cannot follow another.
    fn stray_from(&mut self, neighbourhood: u64, from: u16, stray: Stray) -> Option<u16> {
        let (graphs, from, count) = (self.solver.graphs(neighbourhood), usize::from(from), self.count());
        let (x, y) = self.solver.floor.point(from);
        let columns = self.solver.floor.width as i64 + 1;
        let moves = graph::moves_of(if matches!(stray, Stray::OtherMove) { 16 } else { neighbourhood });
        let on_floor = moves.iter().filter_map(|m| self.solver.floor.vertex(x + m.dx, y + m.dy));
        let mut found: Vec<usize> = match stray {
            Stray::Far => (0..8).map(|_| self.random.index(count)).collect(),
            Stray::Shut | Stray::OtherMove => on_floor.collect(),
            Stray::Wrapped => {
                let past = moves.iter().filter(|m| self.solver.floor.vertex(x + m.dx, y + m.dy).is_none());
                let numbers = past.map(|m| from as i64 + m.dy * columns + m.dx);
                numbers.filter(|number| (0..count as i64).contains(number)).map(|number| number as usize).collect()
            }
            Stray::Pinch => (0..count).filter(|&v| self.is_pinch(v)).collect(),
        };
        found.retain(|&to| to != from && graphs.0.edges[from].iter().all(|edge| edge.to != to));
        if found.is_empty() { None } else { Some(self.random.pick(&found) as u16) }
    }

    /// The drive with a stray after any of its stops, and on from there as before.
    fn with_stray(&mut self, neighbourhood: u64, stops: &[u16], stray: Stray) -> Option<Vec<u16>> {
        let place = self.random.index(stops.len());
        let stop = self.stray_from(neighbourhood, stops[place], stray)?;
        Some([&stops[..=place], &[stop], &stops[place + 1..]].concat())
    }

    /// The log of the drive with one record made bad.
    fn with_bad(&mut self, stops: &[u16], place: usize, bad: Bad) -> Vec<u8> {
        let mut log = log_of(stops);
        let count = self.count() as u64;
        let record = &mut log[4 * place..][..4];
        let number = match bad {
            Bad::FirstMark | Bad::SecondMark => {
                let byte = &mut record[usize::from(matches!(bad, Bad::SecondMark))];
                let choices = [0, 255, *byte ^ 1 << self.random.below(8), *byte ^ 0x20];
                *byte = self.random.pick(&choices);
                return log;
            }
            Bad::MarksSwapped | Bad::OtherMarks => {
                record[..2].copy_from_slice(if matches!(bad, Bad::MarksSwapped) { b"TV" } else { b"JB" });
                return log;
            }
            Bad::Count => count,
            Bad::Above => self.random.within(count, 65_535),
            Bad::BigEndian => self.random.below(count).max(1).swap_bytes() >> 48,
        };
        record[2..].copy_from_slice(&(number as u16).to_le_bytes());
        log
    }
}

/// The logs of a drive on a small floor.
impl Maker {
    fn drives(&mut self, neighbourhood: u64, stops: &[u16]) {
        self.log_record(neighbourhood, Vec::new());
        self.log_record(neighbourhood, log_of(stops));
        let (rested, dearer) = (self.rested(stops), self.dearer(neighbourhood, stops));
        self.log_record(neighbourhood, log_of(&rested));
        self.log_record(neighbourhood, log_of(&dearer));
        let alone = self.random.index(self.count()) as u16;
        self.log_record(neighbourhood, log_of(&[alone]));
        let length = self.random.within(2, 30) as usize;
        let walk = self.any_walk(neighbourhood, stops[0], length);
        self.log_record(neighbourhood, log_of(&walk));
        for other in other_neighbourhoods(neighbourhood) {
            self.log_record(other, log_of(stops));
        }
    }

    /// Strays after any stop, after the first and after the last; a second one; and pinches.
    fn unfollowed_logs(&mut self, neighbourhood: u64, stops: &[u16]) {
        for stray in STRAYS {
            if let Some(log) = self.with_stray(neighbourhood, stops, stray) {
                self.log_record(neighbourhood, log_of(&log));
            }
        }
        let kind = self.random.pick(&STRAYS);
        let (first, last) = (stops[0], stops[stops.len() - 1]);
        if let Some(stray) = self.stray_from(neighbourhood, first, kind) {
            self.log_record(neighbourhood, log_of(&[&[first, stray], stops].concat()));
        }
        if let Some(stray) = self.stray_from(neighbourhood, last, kind) {
            self.log_record(neighbourhood, log_of(&[stops, &[stray]].concat()));
            let walk = self.any_walk(neighbourhood, stray, 6);
            self.log_record(neighbourhood, log_of(&[stops, &walk, stops].concat()));
        }
        if let Some(pinch) = self.stray_from(neighbourhood, first, Stray::Pinch) {
            self.log_record(neighbourhood, log_of(&[&[pinch], stops].concat()));
            self.log_record(neighbourhood, log_of(&[pinch, pinch]));
            let (place, bad) = (self.random.within(1, 2) as usize, self.random.pick(&BADS));
            let log = self.with_bad(&[pinch, first, first], place, bad);
            self.log_record(neighbourhood, log);
            self.log_record(neighbourhood, log_of(&[stops, &[pinch, pinch], stops].concat()));
        }
    }

    /// Bad records at the start, at the end and between; cut ones; and both faults, either of them first.
    fn broken_logs(&mut self, neighbourhood: u64, stops: &[u16]) {
        let last = stops.len() - 1;
        let places = [0, last, self.random.index(stops.len())];
        for place in places {
            let bad = self.random.pick(&BADS);
            let log = self.with_bad(stops, place, bad);
            self.log_record(neighbourhood, log);
        }
        for left in 1..4 {
            let place = self.random.pick(&places);
            let mut log = log_of(stops);
            log.truncate(4 * place + left);
            self.log_record(neighbourhood, log);
        }
        let (kind, bad) = (self.random.pick(&STRAYS), self.random.pick(&BADS));
        let Some(stray) = self.stray_from(neighbourhood, stops[last], kind) else { return };
        let both = [stops, &[stray], stops].concat();
        let place = last + 2 + self.random.index(stops.len());
        for place in [place, self.random.index(last + 2)] {
            let log = self.with_bad(&both, place, bad);
            self.log_record(neighbourhood, log);
        }
        let cut = self.random.within(1, 3) as usize;
        let mut log = log_of(&both);
        log.truncate(4 * place + cut);
        self.log_record(neighbourhood, log);
    }

    /// A drive there and back again and again, in a log as long as may be and a little shorter and longer; and bytes
    /// that are no log.
    fn long_logs(&mut self, neighbourhood: u64, stops: &[u16]) {
        let good = self.good_replay_lengths();
        let there_and_back: Vec<u16> = stops.iter().chain(stops.iter().rev()).copied().collect();
        let log = log_of(&there_and_back);
        if self.random.percent(30) {
            let length = self.random.pick(&[LONGEST, LONGEST, LONGEST, LONGEST - 1, LONGEST - 2, LONGEST - 3]);
            self.replay_record(neighbourhood, log.clone(), length, good);
        }
        self.replay_record(neighbourhood, log, LONGEST + 1, good);
        let bytes: Vec<u8> = (0..7).map(|_| self.random.next() as u8).collect();
        let more = self.random.within(1, 8) as usize;
        for length in [LONGEST, LONGEST + more] {
            self.replay_record(neighbourhood, bytes.clone(), length, good);
        }
    }

    /// Lengths of each slice off by one; and 4, 16 and 6, each alone and beside the others.
    fn refused_logs(&mut self) {
        let good = self.good_replay_lengths();
        let [costs, work] = good;
        let neighbourhood = self.random.pick(&NEIGHBOURHOODS);
        let log = self.any_walk(neighbourhood, 0, 3);
        let by_one = [[costs - 1, work], [costs + 1, work], [costs, work - 1], [costs, work + 1]];
        let off = [&by_one[..], &[[0, work], [costs, costs]]].concat();
        for &lengths in &off {
            self.replay_record(neighbourhood, log_of(&log), 12, lengths);
        }
        for faults in 1..8 {
            let neighbourhood = if faults & 1 != 0 { self.bad_neighbourhood() } else { neighbourhood };
            let length = if faults & 2 != 0 { LONGEST + 1 } else { self.random.index(13) };
            let lengths = if faults & 4 != 0 { self.random.pick(&off) } else { good };
            self.replay_record(neighbourhood, log_of(&log), length, lengths);
        }
    }

    fn good_replay_lengths(&self) -> [usize; 2] {
        [self.count(), 4 * self.count()]
    }

    /// A log with slices of the good lengths.
    pub fn log_record(&mut self, neighbourhood: u64, log: Vec<u8>) {
        let (length, lengths) = (log.len(), self.good_replay_lengths());
        self.replay_record(neighbourhood, log, length, lengths);
    }

    /// A log of the given length, which is the bytes given again and again.
    pub fn replay_record(&mut self, neighbourhood: u64, bytes: Vec<u8>, length: usize, lengths: [usize; 2]) {
        let seed = self.random.next() as u32;
        assert!(length <= format::LOG_ROOM);
        let [costs, work] = [lengths[0].min(format::SHEET_ROOM), lengths[1].min(format::WORK_ROOM)];
        let words = [neighbourhood as u32, length as u32, costs as u32, work as u32, seed];
        self.record(format::REPLAY, &words, bytes);
    }
}
