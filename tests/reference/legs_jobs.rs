//! The part of a job stream about fewest stops: lists with what is proposed for them, other right choices, choices and
//! numbers that are false in one thing, and what is refused.

use crate::floor::Floor;
use crate::format::{self, Damage};
use crate::jobs::Maker;
use crate::legs::{Choices, LONGEST};
use crate::packed::PackedFloor;
use crate::sheet::Request;
use crate::{sight, stream, thin};
use std::rc::Rc;

/// The slices of a change.
const LIST: usize = 0;
const KEPT: usize = 1;
const NUMBERS: usize = 2;

/// Positions up to this many have every number changed.
const SMALL: usize = 12;

/// Lengths of the list, of the kept positions and of the numbers.
type Lengths = [usize; 3];

/// A list whose proposal stands in the buffers.
struct Proposed {
    list: Vec<u16>,
    lengths: Lengths,
    choices: Rc<Choices>,
    kept: Vec<u16>,
}

impl Proposed {
    fn count(&self) -> u32 {
        self.kept.len() as u32
    }

    fn last(&self) -> usize {
        self.list.len() - 1
    }

    /// The changes that make the kept positions these.
    fn kept_as(&self, kept: &[u16]) -> Vec<Damage> {
        let at = |positions: &[u16], place: usize| positions.get(place).copied().unwrap_or(0);
        let places = (0..self.kept.len().max(kept.len())).filter(|&place| at(&self.kept, place) != at(kept, place));
        places.map(|place| Damage { slice: KEPT, place, value: at(kept, place).into() }).collect()
    }

    /// The number at a position, with more added.
    fn number(&self, place: usize, more: i32) -> Damage {
        let value = (i32::from(self.choices.fewest[place]) + more) as u16;
        Damage { slice: NUMBERS, place, value: value.into() }
    }
}

impl Maker {
    /// For a good floor one list with all that is false about it, and some more lists.
    pub fn legs_operations(&mut self, requests: &[Request]) {
        self.use_chosen();
        let length = if self.is_large() { 8 } else { self.random.within(2, 16) as usize };
        let list = self.near_list(length);
        self.judged_list(&list, true);
        for list in self.other_lists(requests) {
            self.judged_list(&list, false);
        }
        self.bad_lists();
        self.use_chosen();
    }

    /// Lists on a floor that is refused, alone and beside 6, 10 and 19.
    pub fn legs_on_bad_floor(&mut self, lists: usize) {
        self.use_chosen();
        for _ in 0..lists {
            let (length, n) = (self.random.index(4), self.random.pick(&[0, 1, 3, 9]));
            let lengths = self.random.pick(&[[3; 3], [3, length, 3], [length; 3]]);
            let list = [0, 1, self.random.below(9) as u16];
            self.propose_record(&list, lengths, 3.min(lengths[0]), n);
            let count = self.random.pick(&[0, 2, 4]);
            self.legs_record(lengths, n, count, &[]);
        }
        self.use_chosen();
    }

    /// Lists of as many places as may be, and of one more, whose vertices come again and again; and a long way through
    /// halls.
    pub fn longest_lists(&mut self) {
        self.use_chosen();
        self.floor_record(PackedFloor::of(&Floor::with_blocked(3, 3, &[4])));
        let list = [0, 3, 15, 12, 13, 12, 0];
        for (length, n) in [(LONGEST, LONGEST), (LONGEST, LONGEST - 1), (LONGEST + 1, 7)] {
            self.propose_record(&list, [length; 3], length, n as u32);
            for count in [2, 3] {
                self.legs_record([length; 3], n as u32, count, &[]);
            }
            for (slice, place, value) in [(NUMBERS, n - 1, 1), (NUMBERS, 0, 2), (KEPT, LONGEST - 1, 1)] {
                self.legs_record([length; 3], n as u32, 2, &[Damage { slice, place, value }]);
            }
        }
        self.floor_record(PackedFloor::of(&stream::halls_floor()));
        let way = self.central_stops(Request { neighbourhood: 8, start: 0, goal: 767 });
        self.judged_list(&way, false);
        self.use_chosen();
    }

    /// A list of which each vertex is near to the one before.
    fn near_list(&mut self, length: usize) -> Vec<u16> {
        let mut list = vec![self.random.index(self.count())];
        for place in 1..length {
            let from = list[place - 1];
            let tries: Vec<usize> = (0..12).map(|_| self.near(from)).collect();
            let sees = |&to: &usize| sight::vertices_see(&self.solver.floor, from, to);
            // Now and then the vertex may come again.
            let stays = self.random.percent(10);
            let to = tries.into_iter().filter(|&to| stays || to != from).find(sees).unwrap_or(from);
            list.push(to);
        }
        list.into_iter().map(|vertex| vertex as u16).collect()
    }

    /// A route or a part of one, lists there and back, with each vertex twice, of one vertex, round a pinch, of any
    /// vertices that see each other.
    fn other_lists(&mut self, requests: &[Request]) -> Vec<Vec<u16>> {
        let longest = if self.is_large() { 12 } else { 24 };
        let mut lists = Vec::new();
        if let Some(&request) = requests.iter().find(|request| request.fault(&self.solver.floor).is_none()) {
            let stops = self.central_stops(request);
            lists.push(stops[..stops.len().min(longest)].to_vec());
        }
        let there = self.near_list(longest / 3);
        lists.push(there.iter().chain(there.iter().rev()).copied().collect());
        lists.push(there.iter().flat_map(|&vertex| [vertex; 2]).collect());
        lists.push(vec![there[0]; self.random.within(1, 4) as usize]);
        if !self.is_large() {
            let length = self.random.within(2, 10) as usize;
            lists.push(self.visible_list(length));
            lists.extend(self.lists_round_pinches());
        }
        lists
    }

    /// A pinch alone, and lists of two vertices with one between them and of those that see both.
    fn lists_round_pinches(&mut self) -> Vec<Vec<u16>> {
        let pinches: Vec<usize> = (0..self.count()).filter(|&v| self.is_pinch(v)).collect();
        if pinches.is_empty() {
            return Vec::new();
        }
        let pinch = self.random.pick(&pinches);
        let mut lists = vec![vec![pinch as u16; self.random.within(1, 3) as usize]];
        let (from, to) = self.pair_through(pinch);
        let tries: Vec<usize> = (0..20).map(|_| self.near(pinch)).collect();
        let floor = &self.solver.floor;
        let joins = |&via: &usize| sight::vertices_see(floor, from, via) && sight::vertices_see(floor, via, to);
        if let Some(via) = tries.into_iter().find(joins) {
            let [from, via, to] = [from, via, to].map(|vertex| vertex as u16);
            lists.extend([vec![from, via, to], vec![from, via, to, via, from], vec![from, from, via, to, to]]);
        }
        lists
    }
}

/// One list.
impl Maker {
    /// Proposes for a list, with some places more in every slice, and judges: the proposal, other right choices, and
    /// false ones, all of them or a few.
    fn judged_list(&mut self, list: &[u16], all: bool) {
        let more = if all { 2 } else { self.random.pick(&[0, 0, 1, 3]) };
        let lengths = [list.len() + more; 3];
        self.propose_record(list, lengths, list.len(), list.len() as u32);
        let choices = self.solver.choices(list);
        let kept = choices.farthest();
        let proposed = Proposed { list: list.to_vec(), lengths, choices, kept };
        self.judge(&proposed, proposed.count(), &[]);
        for kept in self.right_choices(&proposed) {
            self.judge(&proposed, kept.len() as u32, &proposed.kept_as(&kept));
        }
        let mut false_ones = self.false_choices(&proposed);
        false_ones.extend(self.false_numbers(&proposed, all));
        false_ones.extend(false_zeros(&proposed));
        for (count, changes) in false_ones {
            if all || self.random.percent(20) {
                self.judge(&proposed, count, &changes);
            }
        }
        self.other_counts(&proposed, all);
    }

    fn judge(&mut self, proposed: &Proposed, count: u32, changes: &[Damage]) {
        self.legs_record(proposed.lengths, proposed.list.len() as u32, count, changes);
    }

    /// The nearest choice each time, and some others of as few legs.
    fn right_choices(&mut self, proposed: &Proposed) -> Vec<Vec<u16>> {
        let mut found: Vec<Vec<u16>> = Vec::new();
        for k in 0..4 {
            let (mut kept, mut at) = (vec![0], 0);
            while at < proposed.last() {
                let next = proposed.choices.next(at);
                at = if k == 0 { next[0] } else { self.random.pick(&next) };
                kept.push(at as u16);
            }
            if kept != proposed.kept && !found.contains(&kept) {
                found.push(kept);
            }
        }
        found
    }

    /// Kept positions that are no choice of as few legs, with their count; the numbers are the true ones, or go with
    /// the kept positions at the first place.
    fn false_choices(&mut self, proposed: &Proposed) -> Vec<(u32, Vec<Damage>)> {
        let mut lists = self.longer_choices(proposed);
        let kept = &proposed.kept;
        let n = proposed.list.len() as u16;
        let with = |place: usize, position: u16| {
            let mut other = kept.clone();
            other[place] = position;
            other
        };
        let place = self.random.index(kept.len());
        // Out of sight, or anywhere; past the list.
        let unseen = (1..n).filter(|&to| !proposed.choices.is_leg(kept[0].into(), to.into())).collect::<Vec<u16>>();
        if kept.len() > 2 && !unseen.is_empty() {
            lists.push(with(1, self.random.pick(&unseen)));
        }
        if kept.len() > 2 {
            let middle = self.random.within(1, kept.len() as u64 - 2) as usize;
            lists.push([&kept[..middle], &kept[middle + 1..]].concat());
            let mut swapped = kept.clone();
            swapped.swap(middle, self.random.pick(&[middle - 1, middle + 1]));
            lists.push(swapped);
        }
        lists.extend([with(place, self.random.below(n.into()) as u16), with(place, n), with(place, 65_535)]);
        lists.extend([with(0, 1), with(kept.len() - 1, n.wrapping_sub(2)), kept[..kept.len() - 1].to_vec()]);
        lists.push([&kept[..=place], &kept[place..]].concat());
        lists.retain(|list| list != kept);
        let mut found = Vec::new();
        for list in lists {
            let changes = proposed.kept_as(&list);
            if changes.iter().all(|change| change.place < proposed.lengths[1]) {
                let more = list.len() as i32 - kept.len() as i32;
                found.push((list.len() as u32, changes.clone()));
                if more != 0 {
                    found.push((list.len() as u32, [&changes[..], &[proposed.number(0, more)]].concat()));
                }
            }
        }
        found
    }

    /// A clear choice of a leg more, by way of another position; that of the thinner; and every position.
    fn longer_choices(&mut self, proposed: &Proposed) -> Vec<Vec<u16>> {
        let (kept, choices) = (&proposed.kept, &proposed.choices);
        let mut between = Vec::new();
        for (place, pair) in kept.windows(2).enumerate() {
            let (from, to) = (usize::from(pair[0]), usize::from(pair[1]));
            let ways = (from + 1..to).filter(|&way| choices.is_leg(from, way) && choices.is_leg(way, to));
            between.extend(ways.map(|way| [&kept[..=place], &[way as u16], &kept[place + 1..]].concat()));
        }
        let mut lists = Vec::new();
        if !between.is_empty() {
            lists.push(between.swap_remove(self.random.index(between.len())));
        }
        let thinned = thin::kept_positions(&self.solver.floor, &proposed.list);
        lists.push(thinned.into_iter().map(|position| position as u16).collect());
        lists.push((0..proposed.list.len() as u16).collect());
        lists.retain(|list| list.len() > kept.len());
        lists
    }

    /// Each number one more and one less, on short lists; on others that of some positions; and far numbers.
    fn false_numbers(&mut self, proposed: &Proposed, every: bool) -> Vec<(u32, Vec<Damage>)> {
        let n = proposed.list.len();
        let mut places: Vec<usize> = if every && n <= SMALL { (0..n).collect() } else { vec![0, n - 1] };
        places.push(self.random.index(n));
        let by_one = |&place: &usize| [1, -1].map(|more| proposed.number(place, more));
        let mut changes: Vec<Damage> = places.iter().flat_map(by_one).collect();
        for more in [256, -256, 0x7FFF, 2] {
            changes.push(proposed.number(self.random.index(n), more));
        }
        let far = self.random.index(n);
        changes.extend([0, 65_535].map(|value| Damage { slice: NUMBERS, place: far, value }));
        changes.retain(|change| change.value != u64::from(proposed.choices.fewest[change.place]));
        let mut all: Vec<Vec<Damage>> = changes.into_iter().map(|change| vec![change]).collect();
        // All of them one more, but for the last.
        all.push((0..n - 1).map(|place| proposed.number(place, 1)).collect());
        all.into_iter().map(|changes| (proposed.count(), changes)).collect()
    }

    /// Kept counts that are not the proposal's, and lists with another n.
    fn other_counts(&mut self, proposed: &Proposed, all: bool) {
        let (count, n, length) = (proposed.count(), proposed.list.len() as u32, proposed.lengths[1] as u32);
        let counts = [0, count - 1, count + 1, length, length + 1, count + 65_536, u32::MAX];
        for other in counts {
            if other != count && (all || self.random.percent(20)) {
                self.judge(proposed, other, &[]);
            }
        }
        for other in [n - 1, n + 1, 0, length + 1] {
            if all || self.random.percent(10) {
                self.legs_record(proposed.lengths, other, count, &[]);
            }
        }
        if all {
            self.other_lengths(proposed);
        }
    }

    /// Each slice's length off by one, alone and beside a list that is not joined and a false choice; then such a list
    /// beside a false choice.
    fn other_lengths(&mut self, proposed: &Proposed) {
        let (n, [length, ..]) = (proposed.list.len() as u32, proposed.lengths);
        let off = self.random.pick(&[self.count(), 65_535]) as u64;
        let unjoined = Damage { slice: LIST, place: self.random.index(proposed.list.len()), value: off };
        let false_number = proposed.number(0, 1);
        for slice in 0..3 {
            for other in [length - 1, length + 1] {
                let mut lengths = [length; 3];
                lengths[slice] = other;
                let n = n.min(other as u32);
                self.legs_record(lengths, n, proposed.count(), &[]);
            }
        }
        let mut lengths = [length; 3];
        lengths[self.random.index(3)] += 1;
        self.legs_record(lengths, n, proposed.count(), &[unjoined, false_number]);
        self.legs_record(lengths, n, 0, &[]);
        self.legs_record(proposed.lengths, n, proposed.count(), &[unjoined]);
        self.legs_record(proposed.lengths, n, proposed.count(), &[unjoined, false_number]);
        self.legs_record(proposed.lengths, n + length as u32, 0, &[false_number]);
    }

    /// Proposals for lists that are refused, by length and as lists, and what is judged of them.
    fn bad_lists(&mut self) {
        let list = self.near_list(4);
        let far = self.random.index(self.count()) as u16;
        let others = [[4, 3, 4], [4, 5, 4], [4, 4, 3], [4, 4, 5], [3, 4, 4], [5, 4, 4], [0; 3], [4; 3]];
        for lengths in others {
            let n = self.random.pick(&[4, 4, 0, 5]);
            self.propose_record(&list, lengths, 4.min(lengths[0]), n);
        }
        let count = self.count() as u16;
        for other in [far, count, count + 1, 65_535] {
            let place = self.random.index(4);
            let mut list = list.clone();
            list[place] = other;
            let lengths = self.random.pick(&[[4; 3], [4; 3], [4, 4, 5]]);
            self.propose_record(&list, lengths, 4, 4);
            self.legs_record(lengths, 4, 2, &[]);
            self.propose_record(&list, [4; 3], 4, place as u32);
            self.legs_record([4; 3], place as u32, 1, &[]);
        }
    }
}

/// A number past n, and a position past the kept ones: at the first such place and at the last.
fn false_zeros(proposed: &Proposed) -> Vec<(u32, Vec<Damage>)> {
    let (n, count, [_, length, _]) = (proposed.list.len(), proposed.kept.len(), proposed.lengths);
    let places = [(NUMBERS, n), (NUMBERS, length - 1), (KEPT, count), (KEPT, length - 1)];
    let values = [1, n as u64 - 1, 65_535];
    let mut changes: Vec<Damage> = Vec::new();
    for (slice, place) in places {
        let first = if slice == KEPT { count } else { n };
        let value = values[(place + slice) % 3].max(1);
        if place >= first && place < length {
            changes.push(Damage { slice, place, value });
        }
    }
    changes.into_iter().map(|change| (proposed.count(), vec![change])).collect()
}

/// Single records.
impl Maker {
    /// The first places of the list are the numbers given, again and again.
    fn propose_record(&mut self, list: &[u16], lengths: Lengths, given: usize, n: u32) {
        let seed = self.random.next() as u32;
        let [list_length, kept, legs] = lengths.map(|length| length.min(format::LIST_ROOM) as u32);
        let words = [list_length, kept, legs, n, seed, given as u32];
        self.record(format::PROPOSE, &words, list.iter().flat_map(|vertex| vertex.to_le_bytes()).collect());
    }

    fn legs_record(&mut self, lengths: Lengths, n: u32, count: u32, changes: &[Damage]) {
        let [list, kept, legs] = lengths.map(|length| length.min(format::LIST_ROOM) as u32);
        self.record(format::LEGS, &[list, kept, legs, n, count], format::places_to_bytes(changes));
    }
}
