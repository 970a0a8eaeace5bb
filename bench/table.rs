//! Measures, and prints the tables.

use crate::agree;
use crate::floors::{Case, Kind, KINDS, SIDES};
use crate::programs::{Bench, Operation, Program, LIBRARY, OPERATIONS, TUNED};
use std::time::Instant;

/// Nanoseconds of one operation, for each program in turn; none for a program that does not have the neighbourhood.
type Times = Vec<Option<f64>>;

/// A timed stretch lasts at least this long, so that the clock's own steps do not count.
const STRETCH: f64 = 20_000.0;

fn timed(bench: &mut Bench, program: &Program, operation: Operation, runs: usize) -> f64 {
    let start = Instant::now();
    for _ in 0..runs {
        bench.run(program, operation);
    }
    start.elapsed().as_nanos() as f64 / (runs * bench.count(operation)) as f64
}

/// The least of many rounds. In a round each program runs once; which one is first changes from round to round.
pub fn measure(bench: &mut Bench, programs: &[Program], operation: Operation, rounds: usize) -> Vec<f64> {
    let mut runs_to_fill = |program: &Program| {
        let one = timed(bench, program, operation, 1).min(timed(bench, program, operation, 1));
        (STRETCH / (one * bench.count(operation) as f64)).ceil().max(1.0) as usize
    };
    let runs: Vec<usize> = programs.iter().map(&mut runs_to_fill).collect();
    let mut least = vec![f64::INFINITY; programs.len()];
    for round in 0..rounds {
        for place in 0..programs.len() {
            let k = (round + place) % programs.len();
            least[k] = least[k].min(timed(bench, &programs[k], operation, runs[k]));
        }
    }
    least
}

/// Measures the operation's programs, those that have the neighbourhood.
fn measure_all(bench: &mut Bench, operation: Operation, rounds: usize) -> Times {
    let neighbourhood = bench.case.job.neighbourhood;
    let has = |program: &Program| program.has(operation, neighbourhood);
    let programs: Vec<Program> = operation.programs().iter().copied().filter(has).collect();
    let mut times = measure(bench, &programs, operation, rounds).into_iter();
    operation.programs().iter().map(|program| if has(program) { times.next() } else { None }).collect()
}

struct Row {
    operation: Operation,
    kind: Kind,
    neighbourhood: u32,
    by_side: Vec<Times>,
}

/// The floors with the neighbourhoods that the library has.
fn floors() -> impl Iterator<Item = (Kind, u32)> {
    let known = |neighbourhood: &u32| LIBRARY.has(Operation::Plan, *neighbourhood);
    KINDS.into_iter().flat_map(move |kind| [8, 4, 16].into_iter().filter(known).map(move |moves| (kind, moves)))
}

/// Whether the operation is measured on the floor with the neighbourhood: with one of them where it does not matter.
fn is_measured(operation: Operation, kind: Kind, neighbourhood: u32) -> bool {
    operation.is_on(kind) && (neighbourhood == 8 || operation.has_neighbourhood())
}

fn rows(rounds: usize) -> Vec<Row> {
    let mut rows: Vec<Row> = Vec::new();
    for (kind, neighbourhood) in floors() {
        let mut by_operation: Vec<Vec<Times>> = vec![Vec::new(); OPERATIONS.len()];
        for side in SIDES {
            let case = Case::new(kind, side, neighbourhood);
            agree::agree_on_case(&case);
            let mut bench = Bench::new(&case);
            for (operation, by_side) in OPERATIONS.into_iter().zip(&mut by_operation) {
                if is_measured(operation, kind, neighbourhood) {
                    // Forty jobs take as long as many rounds of the others.
                    let rounds = if operation == Operation::FortyJobs { rounds.div_ceil(10) } else { rounds };
                    by_side.push(measure_all(&mut bench, operation, rounds));
                }
            }
        }
        for (operation, by_side) in OPERATIONS.into_iter().zip(by_operation).filter(|(_, by_side)| !by_side.is_empty()) {
            rows.push(Row { operation, kind, neighbourhood, by_side });
        }
    }
    rows
}

fn title(operation: Operation) -> &'static str {
    match operation {
        Operation::Plan => "Whole plan",
        Operation::Costs => "Costs from one end",
        Operation::Finish => "Finish from given costs",
        Operation::FalseCosts => "Finish refused, for a false cost of the last vertex",
        Operation::FortyJobs => "Forty jobs from one dock",
        Operation::Check => "Checker, on the true sheet",
        Operation::Thin => "Thinning of the central route",
        Operation::Replay => "Replay of the central route as a log",
        Operation::CostChanges => "Change of the costs between two floors",
        Operation::Mend => "Mending of a damaged sheet",
        Operation::ShortSight => "Sight question, at most 8 cells",
        Operation::LongSight => "Sight question, at least half the side",
        Operation::FlatSight => "Sight question, one row and the whole side",
        Operation::SteepSight => "Sight question, one column and the whole side",
        Operation::RowLineSight => "Sight question, along a row line inside the floor",
        Operation::ColumnLineSight => "Sight question, along a column line inside the floor",
        Operation::DiagonalSight => "Sight question, along a diagonal of at least half the side",
    }
}

fn cells(values: impl Iterator<Item = Option<f64>>, places: usize) -> String {
    values.map(|value| value.map_or(" |".to_string(), |value| format!(" {value:.places$} |"))).collect()
}

/// The quotient of two times that are there.
fn ratio(time: Option<f64>, to: Option<f64>) -> Option<f64> {
    Some(time? / to?)
}

fn name(row: &Row) -> String {
    match row.operation.has_neighbourhood() {
        true => format!("{} {}", row.kind.name(), row.neighbourhood),
        false => row.kind.name().to_string(),
    }
}

/// A table with a row for each floor that has a value in it.
fn print_table(title: &str, columns: &[String], rows: &[&Row], values: impl Fn(&Row) -> Vec<Option<f64>>, places: usize) {
    println!("{title}\n\n| floor | {} |\n|---|{}", columns.join(" | "), "---|".repeat(columns.len()));
    for row in rows {
        let values = values(row);
        if values.iter().any(Option::is_some) {
            println!("| {} |{}", name(row), cells(values.into_iter(), places));
        }
    }
    println!();
}

/// What else the library's time at 127 cells a side is divided by.
fn beside_name(operation: Operation) -> Option<&'static str> {
    match operation {
        Operation::Plan => Some("one heap search"),
        Operation::Mend => Some("the library's costs and finish without the test"),
        _ if operation.is_of_library_alone() => Some("the library's costs from one end"),
        _ => None,
    }
}

/// The time that `beside_name` names, on a row's floor in the same run. A heap search is that of the textbook program,
/// for the costs from one end. The library's finish without the test of the costs is the whole of it, less a finish
/// that a false cost ends after the test.
fn beside(rows: &[Row], of: &Row) -> Option<f64> {
    let time = |operation: Operation, program: usize| {
        let same = |row: &&Row| {
            (row.operation, row.kind, row.neighbourhood) == (operation, of.kind, of.neighbourhood)
        };
        rows.iter().find(same)?.by_side[SIDES.len() - 1][program]
    };
    let costs = |program: usize| time(Operation::Costs, program);
    match of.operation {
        Operation::Plan => costs(1),
        Operation::Mend => Some(costs(0)? + time(Operation::Finish, 0)? - time(Operation::FalseCosts, 0)?),
        operation if operation.is_of_library_alone() => costs(0),
        _ => None,
    }
}

fn largest(row: &Row) -> &Times {
    &row.by_side[SIDES.len() - 1]
}

/// The tables of an operation, one comparison in each.
fn print_operation(operation: Operation, all: &[Row]) {
    println!("### {}\n", title(operation));
    if operation.programs().len() > 1 && LIBRARY.has(operation, 16) && !TUNED.has(operation, 16) {
        println!("The tuned planner is for 4 and 8 alone: its canonical ordering is a law of 8.\n");
    }
    let rows: Vec<&Row> = all.iter().filter(|row| row.operation == operation).collect();
    let names: Vec<&str> = operation.programs().iter().map(|program| program.name).collect();
    for (other, name) in names.iter().enumerate().skip(1) {
        let ratios = |row: &Row| row.by_side.iter().map(|times| ratio(times[0], times[other])).collect();
        print_table(&format!("To {name}, by cells a side:"), &SIDES.map(|side| side.to_string()), &rows, ratios, 2);
    }
    if let Some(name) = beside_name(operation) {
        let to_beside = |row: &Row| vec![ratio(largest(row)[0], beside(all, row))];
        print_table(&format!("To {name}, at 127:"), &["127".to_string()], &rows, to_beside, 2);
    }
    let times = |row: &Row| largest(row).iter().map(|&time| ratio(time, Some(1000.0))).collect();
    let columns: Vec<String> = names.iter().map(|name| format!("{name} μs, 127")).collect();
    print_table("Microseconds at 127:", &columns, &rows, times, 2);
    let growth = |row: &Row| largest(row).iter().zip(&row.by_side[0]).map(|(&most, &least)| ratio(most, least)).collect();
    let columns: Vec<String> = names.iter().map(|name| name.to_string()).collect();
    print_table("Growth from 16 to 127:", &columns, &rows, growth, 0);
}

pub fn print(rounds: usize) {
    let rows = rows(rounds);
    for operation in OPERATIONS {
        print_operation(operation, &rows);
    }
}

/// Prints the name of every measurement of the table, in the order of its rows.
pub fn list() {
    for operation in OPERATIONS {
        for (kind, neighbourhood) in floors().filter(|&(kind, moves)| is_measured(operation, kind, moves)) {
            for side in SIDES {
                println!("{} {} {side} {neighbourhood}", operation.name(), kind.name());
            }
        }
    }
}
