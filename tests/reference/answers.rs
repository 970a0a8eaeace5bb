//! Runs a job stream and writes the expected text.

use crate::changes;
use crate::closures::{Rectangle, Table};
use crate::format::{self, Damage, Digest, Record};
use crate::legs;
use crate::mend::{self, Second};
use crate::packed::{self, PackedFloor};
use crate::replay;
use crate::sheet::{self, Handed, Lent, Request, Solver};
use crate::sight::{self, Obstacle};
use crate::thin;
use crate::writer::{Job, Writer};

/// The buffers that a harness has, all 0 at the start.
struct Buffers {
    d: Vec<u32>,
    e: Vec<u32>,
    f: Vec<u64>,
    b: Vec<u64>,
    route: Vec<u16>,
    next: Vec<u16>,
    n: u64,
    work: Vec<u32>,
    list: Vec<u16>,
    output: Vec<u16>,
    table: Table,
    working: Vec<u8>,
    changes: Vec<u8>,
    legs: Vec<u16>,
    writer: Writer,
    written: Vec<u8>,
}

impl Buffers {
    fn new() -> Buffers {
        let room = format::SHEET_ROOM;
        Buffers {
            d: vec![0; room],
            e: vec![0; room],
            f: vec![0; room],
            b: vec![0; room],
            route: vec![0; room],
            next: vec![0; room],
            n: 0,
            work: vec![0; format::WORK_ROOM],
            list: vec![0; format::LIST_ROOM],
            output: vec![0; format::LIST_ROOM],
            table: Table::empty(),
            working: vec![0; format::WORKING_ROOM],
            changes: vec![0; format::CHANGES_ROOM],
            legs: vec![0; format::LIST_ROOM],
            writer: Writer::FRESH,
            written: vec![0; format::WRITTEN_ROOM + format::WRITTEN_PAST],
        }
    }

    /// Puts the value and returns what was there.
    fn put(&mut self, damage: Damage) -> Damage {
        let Damage { slice, place, value } = damage;
        let old = match slice {
            0 => u64::from(std::mem::replace(&mut self.d[place], value as u32)),
            1 => u64::from(std::mem::replace(&mut self.e[place], value as u32)),
            2 => std::mem::replace(&mut self.f[place], value),
            3 => std::mem::replace(&mut self.b[place], value),
            4 => u64::from(std::mem::replace(&mut self.route[place], value as u16)),
            5 => u64::from(std::mem::replace(&mut self.next[place], value as u16)),
            _ => panic!("no slice {slice}"),
        };
        Damage { slice, place, value: old }
    }

    /// Puts the value in a list, its kept positions or the numbers of their legs, and returns what was there.
    fn put_in_choice(&mut self, damage: Damage) -> Damage {
        let slice = match damage.slice {
            0 => &mut self.list,
            1 => &mut self.output,
            2 => &mut self.legs,
            other => panic!("no slice {other}"),
        };
        let old = std::mem::replace(&mut slice[damage.place], damage.value as u16);
        Damage { value: old.into(), ..damage }
    }

    /// The writer, and the digest of the lent part of what it writes to and of a few places past it.
    fn written_digest(&self, room: usize) -> String {
        let digest = digest8(&self.written[..room + format::WRITTEN_PAST]);
        format!("{} {} {digest}", self.writer.at, self.writer.due)
    }

    /// n as given, or the n of the sheet where `given` is 0.
    fn point_count(&self, given: u32, n: u32) -> u64 {
        if given == 0 { self.n } else { u64::from(n) }
    }
}

fn fill32(slice: &mut [u32], seed: u32) {
    slice.iter_mut().enumerate().for_each(|(i, x)| *x = format::pattern(seed, i) as u32);
}

fn fill64(slice: &mut [u64], seed: u32) {
    slice.iter_mut().enumerate().for_each(|(i, x)| *x = format::pattern(seed, i));
}

fn fill16(slice: &mut [u16], seed: u32) {
    slice.iter_mut().enumerate().for_each(|(i, x)| *x = format::pattern(seed, i) as u16);
}

fn fill8(slice: &mut [u8], seed: u32) {
    slice.iter_mut().enumerate().for_each(|(i, x)| *x = format::pattern(seed, i) as u8);
}

fn digest8(slice: &[u8]) -> u64 {
    Digest::of(slice.iter().map(|&x| u32::from(x)))
}

fn digest32(slice: &[u32]) -> u64 {
    Digest::of(slice.iter().copied())
}

fn digest16(slice: &[u16]) -> u64 {
    Digest::of(slice.iter().map(|&x| u32::from(x)))
}

/// The numbers in decimal, with a space between two of them.
fn joined(numbers: &[u64]) -> String {
    numbers.iter().map(u64::to_string).collect::<Vec<String>>().join(" ")
}

/// The floor and the other one, in the order that the record gives.
fn in_order<'a>(record: &Record, own: &'a mut Solver, other: &'a mut Solver) -> [&'a mut Solver; 2] {
    if record.words[2] == 1 { [other, own] } else { [own, other] }
}

fn request_of(record: &Record) -> Request {
    let word = |k: usize| u64::from(record.words[k]);
    Request { neighbourhood: word(0), start: word(1), goal: word(2) }
}

/// The two vertices of each pair.
fn pairs_of(record: &Record) -> impl Iterator<Item = (u64, u64)> + '_ {
    let number = |bytes: &[u8]| u64::from(u32::from_le_bytes(bytes.try_into().unwrap()));
    record.payload.chunks_exact(8).map(move |pair| (number(&pair[..4]), number(&pair[4..])))
}

struct Runner {
    /// The floor as it is handed in, and what the solver works on.
    packed: PackedFloor,
    solver: Solver,
    /// The other floor of the last record about two floors, as it is handed in, and what the solver works on.
    other_packed: PackedFloor,
    other_solver: Solver,
    buffers: Buffers,
}

impl Runner {
    fn run(&mut self, record: &Record) -> String {
        match record.operation {
            format::FLOOR => self.floor(record),
            format::COSTS => self.costs(record),
            format::FINISH => self.finish(record),
            format::LOAD => self.load(record),
            format::CHECK => self.check(record),
            format::MEND => self.mend(record),
            format::THIN => self.thin(record),
            format::SIGHT => self.sight(record),
            format::TABLE => self.table(record),
            format::POST => self.post(record),
            format::STRIKE => self.strike(record),
            format::WORKING => self.working(record),
            format::OBSTACLE => self.obstacle(record),
            format::REPLAY => self.replay(record),
            format::CHANGES => self.changes(record),
            format::REPORT => self.report(record),
            format::WRITER => self.writer(record),
            format::WRITE_MAP => self.write_map(record),
            format::WRITE_JOB => self.write_job(record),
            format::PROPOSE => self.propose(record),
            format::LEGS => self.legs(record),
            other => panic!("no operation {other}"),
        }
    }

    fn floor(&mut self, record: &Record) -> String {
        let (width, height) = (record.words[0], record.words[1]);
        self.take_floor(PackedFloor::new(width.into(), height.into(), record.payload.clone()));
        format!("floor {width} {height} {} {}", record.payload.len(), digest8(&record.payload))
    }

    fn take_floor(&mut self, packed: PackedFloor) {
        self.solver = Solver::new(packed.floor());
        self.packed = packed;
    }

    fn costs(&mut self, record: &Record) -> String {
        let at = &mut self.buffers;
        let (d, work) = (&mut at.d[..record.word(2)], &mut at.work[..record.word(3)]);
        fill32(d, record.words[4]);
        fill32(work, record.words[4]);
        let (neighbourhood, start) = (record.words[0].into(), record.words[1].into());
        let answer = sheet::costs(&mut self.solver, neighbourhood, start, d, work);
        format!("costs {answer} {} {}", digest32(d), digest32(work))
    }

    /// The log is the payload again and again, up to its length.
    fn replay(&mut self, record: &Record) -> String {
        let at = &mut self.buffers;
        let (costs, work) = (&mut at.d[..record.word(2)], &mut at.work[..record.word(3)]);
        fill32(costs, record.words[4]);
        fill32(work, record.words[4]);
        let log: Vec<u8> = record.payload.iter().copied().cycle().take(record.word(1)).collect();
        let told = replay::replay(&mut self.solver, record.words[0].into(), &log, costs, work);
        let records = format!("{} {} {}", told.cost, told.unfollowed, told.bad);
        let digests = format!("{} {}", digest32(costs), digest32(work));
        format!("replay {} {} {records} {} {digests}", told.answer, told.read, u8::from(told.cheapest))
    }

    /// Takes the payload's floor as the other one.
    fn take_other(&mut self, record: &Record) {
        let other = PackedFloor::new(record.words[0].into(), record.words[1].into(), record.payload.clone());
        if other != self.other_packed {
            self.other_solver = Solver::new(other.floor());
            self.other_packed = other;
        }
    }

    fn changes(&mut self, record: &Record) -> String {
        self.take_other(record);
        let cells = &mut self.buffers.output[..record.word(3)];
        fill16(cells, record.words[4]);
        let [first, second] = in_order(record, &mut self.solver, &mut self.other_solver);
        let told = changes::changes(&first.floor, &second.floor, cells);
        let digests = [digest8(&self.packed.map), digest8(&self.other_packed.map), digest16(cells)];
        format!("changes {} {} {} {}", told.answer, told.closed, told.opened, joined(&digests))
    }

    fn report(&mut self, record: &Record) -> String {
        self.take_other(record);
        let (at, seed) = (&mut self.buffers, record.words[9]);
        let (before, after) = (&mut at.d[..record.word(5)], &mut at.e[..record.word(6)]);
        let (changes, work) = (&mut at.changes[..record.word(7)], &mut at.work[..record.word(8)]);
        fill32(before, seed);
        fill32(after, seed);
        fill8(changes, seed);
        fill32(work, seed);
        let [first, second] = in_order(record, &mut self.solver, &mut self.other_solver);
        let (neighbourhood, start) = (record.words[3].into(), record.words[4].into());
        let lent = changes::Lent { before, after, changes, work };
        let answer = changes::report(first, second, neighbourhood, start, lent);
        let digests = [
            digest8(&self.packed.map),
            digest8(&self.other_packed.map),
            digest32(&at.d[..record.word(5)]),
            digest32(&at.e[..record.word(6)]),
            digest8(&at.changes[..record.word(7)]),
            digest32(&at.work[..record.word(8)]),
        ];
        format!("report {answer} {}", joined(&digests))
    }

    fn writer(&mut self, record: &Record) -> String {
        let number = |low: usize| u64::from(record.words[low]) + (u64::from(record.words[low + 1]) << 32);
        let at = &mut self.buffers;
        at.writer = Writer { at: number(0), due: number(2) };
        fill8(&mut at.written, record.words[4]);
        format!("writer {} {}", at.writer.at, at.writer.due)
    }

    fn write_map(&mut self, record: &Record) -> String {
        let floor = PackedFloor::new(record.words[0].into(), record.words[1].into(), record.payload.clone());
        let at = &mut self.buffers;
        let answer = at.writer.write_map(&floor, &mut at.written[..record.word(2)]);
        format!("write-map {answer} {} {}", digest8(&floor.map), at.written_digest(record.word(2)))
    }

    fn write_job(&mut self, record: &Record) -> String {
        let (neighbourhood, start, goal) = (record.words[0] as u8, record.words[1] as u16, record.words[2] as u16);
        let at = &mut self.buffers;
        let answer = at.writer.write_job(Job { neighbourhood, start, goal }, &mut at.written[..record.word(3)]);
        format!("write-job {answer} {}", at.written_digest(record.word(3)))
    }

    /// The list begins with the payload's numbers again and again.
    fn propose(&mut self, record: &Record) -> String {
        let (at, seed) = (&mut self.buffers, record.words[4]);
        let list = &mut at.list[..record.word(0)];
        let (kept, legs) = (&mut at.output[..record.word(1)], &mut at.legs[..record.word(2)]);
        fill16(list, seed);
        fill16(kept, seed);
        fill16(legs, seed);
        let numbers = record.payload.chunks_exact(2).map(|bytes| u16::from_le_bytes(bytes.try_into().unwrap())).cycle();
        list[..record.word(5)].iter_mut().zip(numbers).for_each(|(place, number)| *place = number);
        let (answer, count) = legs::propose(&mut self.solver, list, kept, legs, record.words[3].into());
        format!("propose {answer} {count} {} {} {}", digest16(list), digest16(kept), digest16(legs))
    }

    fn legs(&mut self, record: &Record) -> String {
        let at = &mut self.buffers;
        let damages = format::damages_from_bytes(&record.payload);
        let undo: Vec<Damage> = damages.iter().map(|&damage| at.put_in_choice(damage)).collect();
        let (list, kept) = (&at.list[..record.word(0)], &at.output[..record.word(1)]);
        let (n, count) = (record.words[3].into(), record.words[4].into());
        let answer = legs::check(&mut self.solver, list, n, kept, count, &at.legs[..record.word(2)]);
        undo.iter().rev().for_each(|&old| {
            at.put_in_choice(old);
        });
        format!("legs {answer}")
    }

    fn finish(&mut self, record: &Record) -> String {
        let seed = record.words[10];
        let at = &mut self.buffers;
        let damages = format::damages_from_bytes(&record.payload);
        let undo: Vec<Damage> = damages.iter().map(|&damage| at.put(damage)).collect();
        let (d, e) = (&at.d[..record.word(3)], &mut at.e[..record.word(4)]);
        let (f, b) = (&mut at.f[..record.word(5)], &mut at.b[..record.word(6)]);
        let (route, next) = (&mut at.route[..record.word(7)], &mut at.next[..record.word(8)]);
        let work = &mut at.work[..record.word(9)];
        fill32(e, seed);
        fill64(f, seed);
        fill64(b, seed);
        fill16(route, seed);
        fill16(next, seed);
        fill32(work, seed);
        let lent = Lent { e, f, b, route, next, work };
        let answer = sheet::finish(&mut self.solver, request_of(record), d, lent);
        at.n = answer.n;
        let digests = [
            digest32(&at.d[..record.word(3)]),
            digest32(&at.e[..record.word(4)]),
            Digest::of_wide(&at.f[..record.word(5)]),
            Digest::of_wide(&at.b[..record.word(6)]),
            digest16(&at.route[..record.word(7)]),
            digest16(&at.next[..record.word(8)]),
            digest32(&at.work[..record.word(9)]),
        ];
        undo.iter().rev().for_each(|&old| {
            at.put(old);
        });
        let (number, cost, total, n) = (answer.answer, answer.cost, answer.total, answer.n);
        format!("finish {number} {cost} {total} {n} {}", joined(&digests))
    }

    fn load(&mut self, record: &Record) -> String {
        let at = &mut self.buffers;
        for (i, row) in record.payload.chunks_exact(28).enumerate() {
            at.d[i] = u32::from_le_bytes(row[0..4].try_into().unwrap());
            at.e[i] = u32::from_le_bytes(row[4..8].try_into().unwrap());
            at.f[i] = u64::from_le_bytes(row[8..16].try_into().unwrap());
            at.b[i] = u64::from_le_bytes(row[16..24].try_into().unwrap());
            at.route[i] = u16::from_le_bytes(row[24..26].try_into().unwrap());
            at.next[i] = u16::from_le_bytes(row[26..28].try_into().unwrap());
        }
        at.n = u64::from(record.words[1]);
        format!("load {}", record.words[0])
    }

    fn check(&mut self, record: &Record) -> String {
        let at = &mut self.buffers;
        let damages = format::damages_from_bytes(&record.payload);
        let undo: Vec<Damage> = damages.iter().map(|&damage| at.put(damage)).collect();
        let handed = Handed {
            d: &at.d[..record.word(3)],
            e: &at.e[..record.word(4)],
            f: &at.f[..record.word(5)],
            b: &at.b[..record.word(6)],
            route: &at.route[..record.word(7)],
            next: &at.next[..record.word(8)],
            n: at.point_count(record.words[9], record.words[10]),
        };
        let answer = sheet::check(&mut self.solver, request_of(record), &handed);
        undo.iter().rev().for_each(|&old| {
            at.put(old);
        });
        format!("check {answer}")
    }

    /// The second set and its working slice are made for the call, with the pattern in them.
    fn mend(&mut self, record: &Record) -> String {
        let at = &mut self.buffers;
        let ([d, e, f, b, route, next], damages) = mend::from_payload(&record.payload);
        let undo: Vec<Damage> = damages.iter().map(|&damage| at.put(damage)).collect();
        let (d, e, f, b) = (&at.d[..d], &at.e[..e], &at.f[..f], &at.b[..b]);
        let old = Handed { d, e, f, b, route: &at.route[..route], next: &at.next[..next], n: at.n };
        let mut second = Second::patterned([3, 4, 5, 6, 7, 8, 9].map(|k| record.word(k)), record.words[10]);
        let told = mend::mend(&mut self.solver, request_of(record), &old, &mut second);
        undo.iter().rev().for_each(|&old| {
            at.put(old);
        });
        let numbers = [&[told.answer.into(), told.n], &told.differing[..], &second.digests()].concat();
        format!("mend {}", joined(&numbers))
    }

    fn thin(&mut self, record: &Record) -> String {
        let at = &mut self.buffers;
        let (from_route, length, out_length) = (record.words[0] == 1, record.word(1), record.word(2));
        let n = at.point_count(record.words[3], record.words[4]);
        let seed = record.words[5];
        fill16(&mut at.list[..length], seed);
        fill16(&mut at.output[..out_length], seed);
        if from_route {
            at.list[..length].copy_from_slice(&at.route[..length]);
            for damage in format::damages_from_bytes(&record.payload) {
                at.list[damage.place] = damage.value as u16;
            }
        } else {
            for (place, bytes) in at.list.iter_mut().zip(record.payload.chunks_exact(2)) {
                *place = u16::from_le_bytes(bytes.try_into().unwrap());
            }
        }
        let output = &mut at.output[..out_length];
        let (answer, kept) = thin::thin(&self.solver.floor, &at.list[..length], output, n);
        format!("thin {answer} {kept} {}", digest16(output))
    }

    fn sight(&mut self, record: &Record) -> String {
        let floor = &self.solver.floor;
        let letter = |(from, to)| match sight::question(floor, from, to) {
            Ok(true) => 'y',
            Ok(false) => 'n',
            Err(refusal) => char::from(b'0' + refusal),
        };
        format!("sight {}", pairs_of(record).map(letter).collect::<String>())
    }

    fn obstacle(&mut self, record: &Record) -> String {
        let floor = &self.solver.floor;
        let word = |(from, to)| match sight::obstacle_question(floor, from, to) {
            Ok(Obstacle::Clear) => " y".to_string(),
            Ok(Obstacle::Cell(number)) => format!(" c{number}"),
            Ok(Obstacle::Step(number)) => format!(" s{number}"),
            Ok(Obstacle::Pinch(number)) => format!(" p{number}"),
            Err(refusal) => format!(" {refusal}"),
        };
        format!("obstacle {}{}", digest8(&self.packed.map), pairs_of(record).map(word).collect::<String>())
    }

    fn table(&mut self, record: &Record) -> String {
        let numbers = &mut self.buffers.table.numbers;
        for (place, bytes) in numbers.iter_mut().zip(record.payload.chunks_exact(4)) {
            *place = u32::from_le_bytes(bytes.try_into().unwrap());
        }
        format!("table {}", digest32(numbers))
    }

    fn post(&mut self, record: &Record) -> String {
        let [column, row, columns, rows] = [0, 1, 2, 3].map(|k: usize| record.words[k]);
        let (floor, table) = (&self.solver.floor, &mut self.buffers.table);
        let posted = table.post(floor.width, floor.height, Rectangle { column, row, columns, rows });
        let (answer, slot) = posted.map_or_else(|refusal| (refusal, 0), |slot| (0, slot));
        format!("post {answer} {slot} {}", digest32(&table.numbers))
    }

    fn strike(&mut self, record: &Record) -> String {
        let (floor, table) = (&self.solver.floor, &mut self.buffers.table);
        let struck = table.strike(floor.width, floor.height, record.words[0]);
        format!("strike {} {}", struck.err().unwrap_or(0), digest32(&table.numbers))
    }

    fn working(&mut self, record: &Record) -> String {
        let at = &mut self.buffers;
        fill8(&mut at.working, record.words[1]);
        let working = &mut at.working[..record.word(0)];
        let mut base = self.packed.clone();
        if record.words[2] == 1 {
            base.map.clone_from(&record.payload);
        }
        let written = packed::working_map(&at.table, &base, working);
        let map = working.to_vec();
        let digests = (digest32(&at.table.numbers), digest8(&base.map), digest8(&at.working));
        if written.is_ok() && record.words[3] == 1 {
            self.take_floor(PackedFloor { map, ..base });
        }
        format!("working {} {} {} {}", written.err().unwrap_or(0), digests.0, digests.1, digests.2)
    }
}

/// The text for a whole stream, or None where a record is cut short.
pub fn run(mut input: &[u8]) -> Option<String> {
    let packed = PackedFloor::new(0, 0, Vec::new());
    let [solver, other_solver] = [(); 2].map(|()| Solver::new(packed.floor()));
    let mut runner = Runner { other_packed: packed.clone(), packed, solver, other_solver, buffers: Buffers::new() };
    let mut text = String::new();
    loop {
        let record = Record::read(&mut input)?;
        if record.operation == format::END {
            return Some(text + "end\n");
        }
        text += &runner.run(&record);
        text.push('\n');
    }
}
