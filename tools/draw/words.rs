//! What a picture says in words.

use crate::lurfanzi::{Job, Rectangle, Refusal};
use crate::night_log::{Drive, Hindrance};
use crate::planning::{Failure, Planned, Route};
use crate::sides::{Point, Sides};
use crate::sighting::{InTheWay, Sighting};
use crate::working_floor::{Ground, WorkingFloor};

/// A space at which no line ends.
const TIE: char = '\u{a0}';

/// Words with plain spaces alone.
pub fn plain(words: &str) -> String {
    words.replace(TIE, " ")
}

/// A number with a comma before each group of three digits.
pub fn grouped(number: u64) -> String {
    let digits = number.to_string();
    let mut text = String::new();
    for (k, digit) in digits.chars().enumerate() {
        if k > 0 && (digits.len() - k) % 3 == 0 {
            text.push(',');
        }
        text.push(digit);
    }
    text
}

/// A number and its noun, with an s where the number is not 1.
pub fn counted(number: usize, noun: &str) -> String {
    format!("{} {noun}{}", grouped(number as u64), if number == 1 { "" } else { "s" })
}

pub fn point(point: Point) -> String {
    format!("({},{})", point.x, point.y)
}

/// A cost in cell sides, with one decimal, rounded down.
fn cell_sides(cost: u32, neighbourhood: u32) -> String {
    let side = if neighbourhood == 16 { 1000 } else { 408 };
    let tenths = u64::from(cost) * 10 / side;
    format!("{}.{}", grouped(tenths / 10), tenths % 10)
}

/// The name of a floor, its sides and its closures.
pub fn title(name: &str, floor: &WorkingFloor) -> String {
    let Sides { width, height } = floor.sides;
    let closures = match floor.closures.len() {
        0 => String::new(),
        some => format!(", {}", counted(some, "closure")),
    };
    format!("{name}: {width} by {height} cells{closures}")
}

/// The closures of a floor, if it has some.
pub fn closures(floor: &WorkingFloor) -> Option<String> {
    let listed = floor.closures.iter().enumerate().map(|(slot, closure)| {
        let Rectangle { column, row, columns, rows } = closure;
        format!("{slot} is {columns} by {rows} cells from column {column}, row {row} on")
    });
    (!floor.closures.is_empty()).then(|| format!("Closures: {}.", listed.collect::<Vec<_>>().join("; ")))
}

/// What came of a job. `rule` says by which rule the points are kept.
pub fn job(sides: Sides, job: Job, planned: &Planned, rule: &str) -> Vec<String> {
    let [a, b] = [job.a, job.b].map(|end| point(sides.point(end)));
    let from = format!("From {a} to {b} with {} moves", job.neighbourhood);
    match planned {
        Planned::Route(route) => route_words(sides, job, route, &from, rule),
        Planned::NoRoute { .. } => vec![
            format!("{from}: no open walk joins the ends (7)."),
            "Checked: the checker accepts the sheet as that of a job without a route.".to_string(),
        ],
        Planned::TooMany { .. } => vec![
            format!("{from}: the cheapest routes number more than 2^64 - 1 (8), so none is central."),
            "Not checked: the checker accepts no sheet of such a job.".to_string(),
        ],
    }
}

/// Why there is nothing to draw of a job with these ends.
pub fn failure(floor: &WorkingFloor, ends: [Point; 2], failure: Failure) -> String {
    let off = ends.into_iter().find_map(|end| floor.vertex(end).err());
    let pinch = ends.into_iter().find(|&end| floor.is_pinch(end));
    match (failure, off, pinch) {
        (Failure::Refused(Refusal::BadEnd), Some(words), _) => words,
        (Failure::Refused(Refusal::PinchedEnd), _, Some(end)) => {
            format!("{} cannot be an end: two blocked cells touch there, a pinch (11)", point(end))
        }
        (Failure::Refused(refusal), _, _) => refusal.to_string(),
        (Failure::NotAccepted(words), _, _) => words,
    }
}

fn route_words(sides: Sides, job: Job, route: &Route, from: &str, rule: &str) -> Vec<String> {
    let cost = grouped(route.plan.cost.into());
    let long = cell_sides(route.plan.cost, job.neighbourhood);
    let total = grouped(route.plan.total);
    let points = counted(route.vertices.len(), "point");
    let kept = route.kept.len();
    let are = if kept == 1 { "is" } else { "are" };
    let listed = (1..).zip(&route.kept).map(|(number, &position)| {
        let vertex = route.vertices[usize::from(position)];
        format!("{number}{TIE}{}{TIE}={TIE}{vertex}", point(sides.point(vertex.into())))
    });
    vec![
        format!("{from}: cost {cost}, or {long} cell sides; cheapest routes: {total}."),
        format!("The central route has {points}, of which {kept} {are} kept {rule}."),
        "Checked: the checker accepts the sheet, so every cost, count and point is the true one.".to_string(),
        format!("Kept points and their vertex numbers: {}.", listed.collect::<Vec<_>>().join("; ")),
    ]
}

/// What is in the way, as the end of a sentence.
fn in_the_way(floor: &WorkingFloor, found: InTheWay) -> String {
    match found {
        InTheWay::Nothing => "nothing is in the way".to_string(),
        InTheWay::Cell(cell) => {
            let why = match floor.ground(cell) {
                Ground::Closed(slot) => format!("closure {slot} covers it"),
                _ => "it is blocked".to_string(),
            };
            format!("the cell in column {}, row {} is in the way: {why}", cell.column, cell.row)
        }
        InTheWay::Step(begin, end) => {
            format!("the step from {} to {} is shut: both sides of it are blocked", point(begin), point(end))
        }
        InTheWay::Pinch(at) => format!("the pinch {} is in the way: two blocked cells touch there", point(at)),
    }
}

/// What is in the way between two points.
pub fn sighting(floor: &WorkingFloor, asked: &Sighting) -> String {
    format!("From {} to {}: {}.", point(asked.from), point(asked.to), in_the_way(floor, asked.found))
}

/// What a log tells.
pub fn drive(floor: &WorkingFloor, drive: &Drive) -> Vec<String> {
    let mut said = vec![driven(drive)];
    if let (Some(record), Some(hindrance)) = (drive.told.unfollowed, drive.hindrance) {
        let why = match hindrance {
            Hindrance::OnPinch => "no cart can be there, on a pinch".to_string(),
            Hindrance::InTheWay(sighting) => in_the_way(floor, sighting.found),
            Hindrance::NoMove => "no move leads so far".to_string(),
        };
        let at = drive.unfollowed().map(point).unwrap_or_default();
        said.push(format!("Record {record}, at {at}, cannot follow: {why}."));
    }
    said.extend(drive.told.bad.map(|record| format!("Record {record} is bad, and nothing after it was read (17).")));
    said
}

/// What was driven.
fn driven(drive: &Drive) -> String {
    let read = counted(drive.told.read, "record");
    let cost = grouped(drive.told.cost.into());
    match (drive.driven(), drive.least) {
        ([], _) => format!("The log: {read} read, nothing driven."),
        ([first, .., last], None) | ([first @ last], None) => {
            format!("The log: {read} read, driven from {} to {} at cost {cost}.", point(*first), point(*last))
        }
        ([first, .., last], Some(least)) | ([first @ last], Some(least)) => {
            let judged = match drive.told.cost - least {
                0 => "as cheap as can be".to_string(),
                more => format!("{} above the least", grouped(more.into())),
            };
            format!("The log: {read} read, driven from {} to {} at cost {cost}, {judged}.", point(*first), point(*last))
        }
    }
}

#[cfg(test)]
mod tests {
    use super::*;
    use crate::night_log::tests::drive as replayed;
    use crate::planning::{planned, FARTHEST};
    use crate::working_floor::tests::floor_of;

    #[test]
    fn numbers() {
        let numbers = [(0, "0"), (999, "999"), (1000, "1,000"), (123_456, "123,456"), (1 << 20, "1,048,576")];
        for (number, text) in numbers {
            assert_eq!(grouped(number), text);
        }
        assert_eq!((counted(1, "point"), counted(1234, "point")), ("1 point".to_string(), "1,234 points".to_string()));
        assert_eq!((cell_sides(985, 8), cell_sides(2236, 16)), ("2.4".to_string(), "2.2".to_string()));
    }

    fn said(rows: &[&str], asked: Job) -> Vec<String> {
        let floor = floor_of(rows, &[]);
        job(floor.sides, asked, &planned(floor.floor(), asked, &FARTHEST).expect("good shape"), "by the rule")
    }

    #[test]
    fn jobs() {
        let asked = Job { neighbourhood: 8, a: 0, b: 5 };
        let words = said(&[".."], asked);
        assert_eq!(words[0], "From (0,0) to (2,1) with 8 moves: cost 985, or 2.4 cell sides; cheapest routes: 2.");
        assert_eq!(words[1], "The central route has 3 points, of which 2 are kept by the rule.");
        assert!(words[2].starts_with("Checked: the checker accepts"));
        assert_eq!(plain(&words[3]), "Kept points and their vertex numbers: 1 (0,0) = 0; 2 (2,1) = 5.");
        let alone = said(&[".."], Job { b: 0, ..asked });
        assert_eq!(alone[1], "The central route has 1 point, of which 1 is kept by the rule.");
        assert!(said(&[".#"], asked)[0].ends_with("no open walk joins the ends (7)."));
    }

    #[test]
    fn sightings() {
        let floor = floor_of(&["...#", ".#..", "...."], &[Rectangle { column: 0, row: 2, columns: 1, rows: 1 }]);
        let said = |from: (u32, u32), to: (u32, u32)| {
            let at = |(x, y)| Point { x, y };
            sighting(&floor, &Sighting::asked(&floor, at(from), at(to)).expect("points of the floor"))
        };
        assert_eq!(said((0, 0), (3, 1)), "From (0,0) to (3,1): nothing is in the way.");
        assert!(said((0, 0), (3, 3)).ends_with("the cell in column 1, row 1 is in the way: it is blocked."));
        assert!(said((0, 3), (1, 2)).ends_with("the cell in column 0, row 2 is in the way: closure 0 covers it."));
        assert!(said((0, 0), (4, 0)).ends_with("the step from (3,0) to (4,0) is shut: both sides of it are blocked."));
        assert!(said((0, 1), (2, 3)).ends_with("the pinch (1,2) is in the way: two blocked cells touch there."));
    }

    #[test]
    fn logs() {
        let floor = floor_of(&[".#..", "..#."], &[]);
        let said = |stops: &[u16], bytes| drive(&floor, &replayed(stops, bytes));
        assert_eq!(said(&[], 0), ["The log: 0 records read, nothing driven."]);
        let alone = said(&[5], 4);
        assert_eq!(alone, ["The log: 1 record read, driven from (0,1) to (0,1) at cost 0, as cheap as can be."]);
        assert!(said(&[0, 5, 11, 10], 16)[0].ends_with("at cost 1,393, 577 above the least."));
        let far = said(&[0, 11, 12], 10);
        assert_eq!(far[0], "The log: 2 records read, driven from (0,0) to (0,0) at cost 0.");
        assert_eq!(far[1], "Record 2, at (1,2), cannot follow: no move leads so far.");
        assert_eq!(far[2], "Record 3 is bad, and nothing after it was read (17).");
        assert!(said(&[0, 1, 2], 12)[1].contains("cannot follow: the step from (1,0) to (2,0) is shut"));
        assert!(said(&[7], 4)[1].ends_with("no cart can be there, on a pinch."));
    }
}
