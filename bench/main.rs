//! The benchmark: the library against a textbook program and two hand-written for speed, each doing the same jobs.
//!
//!     bench agree FLOORS
//!     bench table ROUNDS
//!     bench list
//!     bench measure OPERATION FLOOR SIDE NEIGHBOURHOOD ROUNDS
//!     bench repeat PROGRAM OPERATION FLOOR SIDE NEIGHBOURHOOD TIMES
//!     bench segment PROGRAM COLUMNS ROWS TIMES
//!     bench legs ROUNDS
//!     bench legs-list
//!     bench legs-repeat PROGRAM OPERATION LIST POSITIONS TIMES
//!
//! A measurement's name is the four words OPERATION FLOOR SIDE NEIGHBOURHOOD. `list` prints every name, a line each,
//! with the neighbourhoods that the library has; `measure` prints the name and the library's nanoseconds. bench/beside
//! relies on both, and on `repeat`, which fails where the program does not have the neighbourhood. The last three
//! measure fewest legs over long lists; their PROGRAM is library or copy, their OPERATION check or propose.

#[allow(dead_code)]
#[path = "../examples/rust/lurfanzi.rs"]
mod lurfanzi;

mod agree;
mod buckets;
mod copied_sight;
mod floors;
mod legs;
mod moves;
mod programs;
mod shape;
mod table;
mod textbook;
mod tuned;
mod tuned_check;
mod tuned_sight;

use floors::{Case, KINDS};
use lurfanzi::Floor;
use programs::{Bench, Operation, LIBRARY, OPERATIONS, PROGRAMS};
use std::hint::black_box;
use std::process::ExitCode;

fn number(word: &str) -> Option<usize> {
    word.parse().ok()
}

/// What a measurement's name says.
fn named(words: &[&str]) -> Option<(Operation, Case)> {
    let &[operation, floor, side, neighbourhood] = words else { return None };
    let operation = *OPERATIONS.iter().find(|known| known.name() == operation)?;
    let kind = *KINDS.iter().find(|known| known.name() == floor)?;
    let side = number(side).filter(|side| (1..=127).contains(side))?;
    let neighbourhood = number(neighbourhood).filter(|moves| [4, 8, 16].contains(moves))?;
    Some((operation, Case::new(kind, side, neighbourhood as u32)))
}

/// Times the library alone.
fn measure(words: &[&str]) -> Option<()> {
    let [name @ .., rounds] = words else { return None };
    let (operation, case) = named(name).filter(|(operation, case)| LIBRARY.has(*operation, case.job.neighbourhood))?;
    let times = table::measure(&mut Bench::new(&case), &[LIBRARY], operation, number(rounds)?);
    println!("{} {:.2}", name.join(" "), times[0]);
    Some(())
}

/// Runs one program on one floor a number of times, for a tool that counts instructions.
fn repeat(words: &[&str]) -> Option<()> {
    let [program, name @ .., times] = words else { return None };
    let program = PROGRAMS.iter().find(|known| known.name == *program)?;
    let (operation, case) = named(name).filter(|(operation, case)| program.has(*operation, case.job.neighbourhood))?;
    let mut bench = Bench::new(&case);
    for _ in 0..number(times)? {
        bench.run(program, operation);
    }
    Some(())
}

/// Asks one program a number of times whether the first vertex of an open floor sees the one so many columns and rows
/// away.
fn segment(words: &[&str]) -> Option<()> {
    let &[program, columns, rows, times] = words else { return None };
    let program = PROGRAMS.iter().find(|known| known.name == program)?;
    let side: usize = 127;
    let [columns, rows] = [number(columns)?, number(rows)?];
    let map = vec![0; (side * side).div_ceil(8)];
    let floor = Floor { width: side as u32, height: side as u32, map: &map };
    let end = (columns <= side && rows <= side).then_some((rows * (side + 1) + columns) as u32)?;
    for _ in 0..number(times)? {
        _ = black_box((program.sight)(floor, 0, black_box(end)));
    }
    Some(())
}

fn main() -> ExitCode {
    let words: Vec<String> = std::env::args().skip(1).collect();
    let words: Vec<&str> = words.iter().map(String::as_str).collect();
    let done = match words.as_slice() {
        ["agree", floors] => number(floors).map(agree::agree),
        ["table", rounds] => number(rounds).map(table::print),
        ["list"] => Some(table::list()),
        ["measure", rest @ ..] => measure(rest),
        ["repeat", rest @ ..] => repeat(rest),
        ["segment", rest @ ..] => segment(rest),
        ["legs", rounds] => number(rounds).map(legs::print),
        ["legs-list"] => Some(legs::list()),
        ["legs-repeat", program, operation, list, n, times] => number(n)
            .zip(number(times))
            .and_then(|(n, times)| legs::repeat(program, operation, list, n, times)),
        _ => None,
    };
    if done.is_none() {
        eprintln!("bench agree FLOORS | table ROUNDS | list | measure OPERATION FLOOR SIDE NEIGHBOURHOOD ROUNDS");
        eprintln!("    | repeat PROGRAM OPERATION FLOOR SIDE NEIGHBOURHOOD TIMES | segment PROGRAM COLUMNS ROWS TIMES");
        eprintln!("    | legs ROUNDS | legs-list | legs-repeat PROGRAM OPERATION LIST POSITIONS TIMES");
        return ExitCode::FAILURE;
    }
    ExitCode::SUCCESS
}
