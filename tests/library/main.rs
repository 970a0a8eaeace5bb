//! Runs a job stream (tests/reference/FORMAT.md) through the static library, by the wrapper of examples/rust and by
//! calls of its own, and writes the line that each record asks for. It computes no answer itself: an answer is that of
//! a call, a digest that of a lent slice.

mod calls;
#[allow(dead_code)]
#[path = "../../examples/rust/lurfanzi.rs"]
mod lurfanzi;
mod mending;

use calls::{TwoCosts, WriteResult, Writer};
use lurfanzi::{Closures, Floor, Job, Obstacle, Rectangle, Refusal, Replay, Sheet, SheetMut, Verdict};
use std::io::{self, Error, ErrorKind, Read, Write};

/// The number that some bytes make, the lowest first.
fn number(bytes: &[u8]) -> u64 {
    bytes.iter().rev().fold(0, |high, &byte| high << 8 | u64::from(byte))
}

/// A number of a slice, with the slice's width.
trait Element: Copy + Into<u64> {
    fn cut(number: u64) -> Self;
}

impl Element for u8 {
    fn cut(number: u64) -> u8 {
        number as u8
    }
}

impl Element for u16 {
    fn cut(number: u64) -> u16 {
        number as u16
    }
}

impl Element for u32 {
    fn cut(number: u64) -> u32 {
        number as u32
    }
}

impl Element for u64 {
    fn cut(number: u64) -> u64 {
        number
    }
}

/// The first places of a slice, with the pattern of a seed in them.
fn patterned<T: Element>(slice: &mut [T], length: usize, seed: u32) -> &mut [T] {
    let part = &mut slice[..length];
    let mut number = u64::from(seed);
    for element in part.iter_mut() {
        *element = T::cut(number);
        number += 2_654_435_761;
    }
    part
}

fn digest<T: Element>(slice: &[T]) -> u64 {
    let parts = if size_of::<T>() == 8 { 2 } else { 1 };
    slice.iter().fold(7, |h, &element| {
        let whole: u64 = element.into();
        let halves = [whole & 0xFFFF_FFFF, whole >> 32];
        halves[..parts].iter().fold(h, |h, half| (h * 1_000_003 + half + 1) % 4_294_967_291)
    })
}

struct Record {
    header: [u8; 64],
    payload: Vec<u8>,
}

impl Record {
    fn read(from: &mut impl Read) -> io::Result<Record> {
        let mut header = [0; 64];
        from.read_exact(&mut header)?;
        let mut payload = vec![0; number(&header[4..8]) as usize];
        from.read_exact(&mut payload)?;
        Ok(Record { header, payload })
    }

    fn word(&self, k: usize) -> u32 {
        number(&self.header[8 + 4 * k..][..4]) as u32
    }

    fn length(&self, k: usize) -> usize {
        self.word(k) as usize
    }

    fn job(&self) -> Job {
        Job { neighbourhood: self.word(0), a: self.word(1), b: self.word(2) }
    }

    /// The floor and the payload's floor, in the order that the record gives.
    fn two_floors<'a>(&'a self, ground: &'a Ground) -> [Floor<'a>; 2] {
        let other = Floor { width: self.word(0), height: self.word(1), map: &self.payload };
        if self.word(2) == 1 { [other, ground.floor()] } else { [ground.floor(), other] }
    }

    /// The two vertices of each pair.
    fn pairs(&self) -> impl Iterator<Item = (u32, u32)> + '_ {
        self.payload.chunks_exact(8).map(|pair| (number(&pair[..4]) as u32, number(&pair[4..]) as u32))
    }

    fn changes(&self) -> impl Iterator<Item = (u64, usize, u64)> + '_ {
        changes_in(&self.payload)
    }
}

/// The changes of a payload: slice, place, value.
fn changes_in(rows: &[u8]) -> impl Iterator<Item = (u64, usize, u64)> + '_ {
    let change = |row: &[u8]| (number(&row[..4]), number(&row[4..8]) as usize, number(&row[8..]));
    rows.chunks_exact(16).map(change)
}

#[derive(Clone)]
struct Slices {
    d: Vec<u32>,
    e: Vec<u32>,
    f: Vec<u64>,
    back: Vec<u64>,
    route: Vec<u16>,
    next: Vec<u16>,
}

impl Slices {
    fn change(&mut self, slice: u64, place: usize, value: u64) {
        match slice {
            0 => self.d[place] = Element::cut(value),
            1 => self.e[place] = Element::cut(value),
            2 => self.f[place] = value,
            3 => self.back[place] = value,
            4 => self.route[place] = Element::cut(value),
            _ => self.next[place] = Element::cut(value),
        }
    }
}

struct Ground {
    width: u32,
    height: u32,
    map: Vec<u8>,
}

impl Ground {
    fn floor(&self) -> Floor<'_> {
        Floor { width: self.width, height: self.height, map: &self.map }
    }
}

/// How many places past the part that is lent to the writer go into a digest.
const PAST: usize = 8;

struct Driver {
    ground: Ground,
    slices: Slices,
    points: usize,
    work: Vec<u32>,
    list: Vec<u16>,
    out: Vec<u16>,
    slots: [u32; 64],
    working: Vec<u8>,
    changes: Vec<u8>,
    legs: Vec<u16>,
    writer: Writer,
    written: Vec<u8>,
}

/// The header's number for a result, 0 where it is good.
fn answer<T>(result: Result<T, Refusal>) -> u8 {
    result.map_or_else(Refusal::number, |_| 0)
}

impl Driver {
    fn new() -> Driver {
        let (v, longest, longest_map) = (16_384, 16_392, 2_056);
        let (costs, counts, points) = (vec![0; v], vec![0; v], vec![0; v]);
        let (d, f, route) = (costs.clone(), counts.clone(), points.clone());
        let slices = Slices { d, e: costs, f, back: counts, route, next: points };
        let ground = Ground { width: 0, height: 0, map: Vec::new() };
        let (work, list, out, legs) = (vec![0; 4 * v], vec![0; longest], vec![0; longest], vec![0; longest]);
        let (working, changes, slots) = (vec![0; longest_map], vec![0; longest], [0; 64]);
        let (writer, written) = (Writer { at: 0, due: 0 }, vec![0; 8_192 + PAST]);
        Driver { ground, slices, points: 0, work, list, out, slots, working, changes, legs, writer, written }
    }

    fn line(&mut self, record: &Record) -> io::Result<String> {
        Ok(match record.header[0] {
            0 => "end".to_string(),
            1 => self.take_floor(record),
            2 => self.costs(record),
            3 => self.load(record),
            4 => format!("check {}", self.check(record)),
            5 => self.thin(record),
            6 => format!("sight {}", self.sight(record)),
            7 => self.table(record),
            8 => self.post(record),
            9 => self.strike(record),
            10 => self.working(record),
            11 => self.obstacle(record),
            12 => self.finish(record),
            13 => self.replay(record),
            14 => self.changes(record),
            15 => self.report(record),
            16 => self.take_writer(record),
            17 => self.write_map(record),
            18 => self.write_job(record),
            19 => self.propose(record),
            20 => format!("legs {}", self.legs(record)),
            21 => self.mend(record),
            _ => return Err(Error::new(ErrorKind::InvalidData, "a record of no known operation")),
        })
    }

    fn take_floor(&mut self, record: &Record) -> String {
        let (width, height, map) = (record.word(0), record.word(1), record.payload.clone());
        let line = format!("floor {width} {height} {} {}", map.len(), digest(&map));
        self.ground = Ground { width, height, map };
        line
    }

    fn costs(&mut self, record: &Record) -> String {
        let floor = self.ground.floor();
        let d = patterned(&mut self.slices.d, record.length(2), record.word(4));
        let work = patterned(&mut self.work, record.length(3), record.word(4));
        let filled = lurfanzi::costs(floor, record.word(0), record.word(1), d, work);
        format!("costs {} {} {}", answer(filled), digest(d), digest(work))
    }

    /// The log is the payload again and again, up to its length.
    fn replay(&mut self, record: &Record) -> String {
        let floor = self.ground.floor();
        let costs = patterned(&mut self.slices.d, record.length(2), record.word(4));
        let work = patterned(&mut self.work, record.length(3), record.word(4));
        let log: Vec<u8> = record.payload.iter().copied().cycle().take(record.length(1)).collect();
        let replayed = lurfanzi::replay(floor, record.word(0), &log, costs, work);
        let answer = replayed.map_or_else(Refusal::number, |told| told.number());
        let Replay { read, cost, unfollowed, bad, cheapest } = replayed.unwrap_or_default();
        let [unfollowed, bad] = [unfollowed, bad].map(|record| record.map_or(0, usize::from));
        let records = format!("{read} {cost} {unfollowed} {bad} {}", u8::from(cheapest));
        format!("replay {answer} {records} {} {}", digest(costs), digest(work))
    }

    fn changes(&mut self, record: &Record) -> String {
        let [first, second] = record.two_floors(&self.ground);
        let cells = patterned(&mut self.out, record.length(3), record.word(4));
        let told = calls::changes(first, second, cells);
        let digests = format!("{} {} {}", digest(&self.ground.map), digest(&record.payload), digest(cells));
        format!("changes {} {} {} {digests}", told.answer, told.closed, told.opened)
    }

    fn report(&mut self, record: &Record) -> String {
        let [first, second] = record.two_floors(&self.ground);
        let seed = record.word(9);
        let mut lent = TwoCosts {
            costs: patterned(&mut self.slices.d, record.length(5), seed),
            new_costs: patterned(&mut self.slices.e, record.length(6), seed),
            changes: patterned(&mut self.changes, record.length(7), seed),
            work: patterned(&mut self.work, record.length(8), seed),
        };
        let answer = calls::cost_changes(first, second, record.word(3), record.word(4), &mut lent);
        let maps = format!("{} {}", digest(&self.ground.map), digest(&record.payload));
        let (d, e) = (digest(lent.costs), digest(lent.new_costs));
        format!("report {answer} {maps} {d} {e} {} {}", digest(lent.changes), digest(lent.work))
    }

    fn take_writer(&mut self, record: &Record) -> String {
        let [at, due] = [8, 16].map(|place| number(&record.header[place..][..8]) as usize);
        self.writer = Writer { at, due };
        let room = self.written.len();
        patterned(&mut self.written, room, record.word(4));
        format!("writer {at} {due}")
    }

    /// Takes the writer handed back: the answer, the writer, and the digest of the lent part and of what is past it.
    fn wrote(&mut self, result: WriteResult, room: usize) -> (u8, String) {
        self.writer = result.writer;
        let Writer { at, due } = result.writer;
        (result.answer, format!("{at} {due} {}", digest(&self.written[..room + PAST])))
    }

    fn write_map(&mut self, record: &Record) -> String {
        let floor = Floor { width: record.word(0), height: record.word(1), map: &record.payload };
        let room = record.length(2);
        let result = calls::write_map(self.writer, floor, &mut self.written[..room]);
        let (answer, left) = self.wrote(result, room);
        format!("write-map {answer} {} {left}", digest(&record.payload))
    }

    fn write_job(&mut self, record: &Record) -> String {
        let (neighbourhood, a, b) = (record.word(0) as u8, record.word(1) as u16, record.word(2) as u16);
        let room = record.length(3);
        let result = calls::write_job(self.writer, neighbourhood, a, b, &mut self.written[..room]);
        let (answer, left) = self.wrote(result, room);
        format!("write-job {answer} {left}")
    }

    /// The list begins with the payload's numbers again and again.
    fn propose(&mut self, record: &Record) -> String {
        let (floor, seed) = (self.ground.floor(), record.word(4));
        let list = patterned(&mut self.list, record.length(0), seed);
        let kept = patterned(&mut self.out, record.length(1), seed);
        let legs = patterned(&mut self.legs, record.length(2), seed);
        let given = record.payload.chunks_exact(2).map(|pair| Element::cut(number(pair))).cycle();
        list[..record.length(5)].iter_mut().zip(given).for_each(|(place, vertex)| *place = vertex);
        let told = calls::fewest_legs(floor, list, kept, legs, record.length(3));
        format!("propose {} {} {} {} {}", told.answer, told.kept, digest(list), digest(kept), digest(legs))
    }

    /// The slices are copies with the changes made, so that nothing has to be put back.
    fn legs(&self, record: &Record) -> u8 {
        let whole = [&self.list, &self.out, &self.legs];
        let mut parts = [0, 1, 2].map(|k| whole[k][..record.length(k)].to_vec());
        record.changes().for_each(|(slice, place, value)| parts[slice as usize][place] = Element::cut(value));
        let [list, kept, legs] = parts;
        calls::check_legs(self.ground.floor(), &list, record.length(3), &kept, record.length(4), &legs)
    }

    /// The costs handed in are a copy with the changes made, so that nothing has to be put back.
    fn finish(&mut self, record: &Record) -> String {
        let floor = self.ground.floor();
        let (slices, seed) = (&mut self.slices, record.word(10));
        let mut d = slices.d.clone();
        record.changes().for_each(|(_, place, value)| d[place] = Element::cut(value));
        let d = &d[..record.length(3)];
        let mut sheet = SheetMut {
            e: patterned(&mut slices.e, record.length(4), seed),
            f: patterned(&mut slices.f, record.length(5), seed),
            back: patterned(&mut slices.back, record.length(6), seed),
            route: patterned(&mut slices.route, record.length(7), seed),
            next: patterned(&mut slices.next, record.length(8), seed),
        };
        let work = patterned(&mut self.work, record.length(9), seed);
        let planned = lurfanzi::finish(floor, record.job(), d, &mut sheet, work);
        let (cost, total, points) = planned.map_or((0, 0, 0), |plan| (plan.cost, plan.total, plan.points));
        self.points = points;
        let (d, e, f) = (digest(d), digest(sheet.e), digest(sheet.f));
        let (back, route, next, work) = (digest(sheet.back), digest(sheet.route), digest(sheet.next), digest(work));
        format!("finish {} {cost} {total} {points} {d} {e} {f} {back} {route} {next} {work}", answer(planned))
    }

    fn load(&mut self, record: &Record) -> String {
        for (place, row) in record.payload.chunks_exact(28).enumerate() {
            let columns = [&row[..4], &row[4..8], &row[8..16], &row[16..24], &row[24..26], &row[26..]];
            for (slice, column) in (0..).zip(columns) {
                self.slices.change(slice, place, number(column));
            }
        }
        self.points = record.length(1);
        format!("load {}", record.word(0))
    }

    /// The sheet is a copy with the changes made, so that nothing has to be put back.
    fn check(&self, record: &Record) -> u8 {
        let floor = self.ground.floor();
        let mut slices = self.slices.clone();
        record.changes().for_each(|(slice, place, value)| slices.change(slice, place, value));
        let (d, e) = (&slices.d[..record.length(3)], &slices.e[..record.length(4)]);
        let (f, back) = (&slices.f[..record.length(5)], &slices.back[..record.length(6)]);
        let (route, next) = (&slices.route[..record.length(7)], &slices.next[..record.length(8)]);
        let points = if record.word(9) == 1 { record.length(10) } else { self.points };
        match lurfanzi::check(floor, record.job(), Sheet { d, e, f, back, route, next, points }) {
            Ok(Verdict::NoRoute) => 7,
            Ok(Verdict::FalseSheet) => 9,
            other => answer(other),
        }
    }

    fn thin(&mut self, record: &Record) -> String {
        let floor = self.ground.floor();
        let list = patterned(&mut self.list, record.length(1), record.word(5));
        let out = patterned(&mut self.out, record.length(2), record.word(5));
        if record.word(0) == 1 {
            list.copy_from_slice(&self.slices.route[..list.len()]);
            record.changes().for_each(|(_, place, value)| list[place] = Element::cut(value));
        } else {
            let given = record.payload.chunks_exact(2).map(|pair| Element::cut(number(pair)));
            list.iter_mut().zip(given).for_each(|(place, vertex)| *place = vertex);
        }
        let n = if record.word(3) == 1 { record.length(4) } else { self.points };
        let thinned = lurfanzi::thin(floor, list, out, n);
        format!("thin {} {} {}", answer(thinned), thinned.unwrap_or(0), digest(out))
    }

    fn sight(&self, record: &Record) -> String {
        let floor = self.ground.floor();
        let ask = |(a, b)| match lurfanzi::sight(floor, a, b) {
            Ok(true) => "y".to_string(),
            Ok(false) => "n".to_string(),
            Err(refusal) => refusal.number().to_string(),
        };
        record.pairs().map(ask).collect()
    }

    fn obstacle(&self, record: &Record) -> String {
        let floor = self.ground.floor();
        let ask = |(a, b)| match lurfanzi::obstacle(floor, a, b) {
            Ok(Obstacle::Clear) => " y".to_string(),
            Ok(Obstacle::Cell(cell)) => format!(" c{cell}"),
            Ok(Obstacle::Step(vertex)) => format!(" s{vertex}"),
            Ok(Obstacle::Pinch(vertex)) => format!(" p{vertex}"),
            Err(refusal) => format!(" {}", refusal.number()),
        };
        let words: String = record.pairs().map(ask).collect();
        format!("obstacle {}{words}", digest(floor.map))
    }

    fn table(&mut self, record: &Record) -> String {
        let given = record.payload.chunks_exact(4).map(|bytes| Element::cut(number(bytes)));
        self.slots.iter_mut().zip(given).for_each(|(place, given)| *place = given);
        format!("table {}", digest(&self.slots))
    }

    /// The table, for the sides of the floor.
    fn closures(&self) -> Closures {
        Closures { width: self.ground.width, height: self.ground.height, slots: self.slots }
    }

    fn post(&mut self, record: &Record) -> String {
        let [column, row, columns, rows] = [0, 1, 2, 3].map(|k| record.word(k));
        let mut table = self.closures();
        let posted = table.post(Rectangle { column, row, columns, rows });
        self.slots = table.slots;
        format!("post {} {} {}", answer(posted), posted.unwrap_or(0), digest(&self.slots))
    }

    fn strike(&mut self, record: &Record) -> String {
        let mut table = self.closures();
        let struck = table.strike(record.word(0));
        self.slots = table.slots;
        format!("strike {} {}", answer(struck), digest(&self.slots))
    }

    fn working(&mut self, record: &Record) -> String {
        let table = self.closures();
        let base = if record.word(2) == 1 { &record.payload } else { &self.ground.map };
        let room = self.working.len();
        let map = &mut patterned(&mut self.working, room, record.word(1))[..record.length(0)];
        let written = table.working_map(base, map);
        let drawn = map.to_vec();
        let digests = (digest(&table.slots), digest(base), digest(&self.working));
        if written.is_ok() && record.word(3) == 1 {
            self.ground.map = drawn;
        }
        format!("working {} {} {} {}", answer(written), digests.0, digests.1, digests.2)
    }
}

fn main() -> io::Result<()> {
    let (mut input, mut output) = (io::stdin().lock(), io::BufWriter::new(io::stdout().lock()));
    let mut driver = Driver::new();
    loop {
        let record = Record::read(&mut input)?;
        writeln!(output, "{}", driver.line(&record)?)?;
        if record.header[0] == 0 {
            return output.flush();
        }
    }
}
