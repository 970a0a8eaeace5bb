//! An independent second program for the route planner, its checker, the mending of sheets, the
//! thinner, the sight questions, the closures, the replay, the comparison of two
//! floors, the fewest stops, the program and the writer of its input. Subcommands:
//!
//! vectors                 runs known answers and self checks
//! program                 record stream on standard input, lines out
//! program-stream [K]      writes the long record stream, or the K-th short one
//! records SEED            writes a record stream of any seed
//! jobs SEED COUNT [wide]  writes a job stream (FORMAT.md)
//! answers                 job stream on standard input, expected text out

mod answers;
mod boundary;
mod change_checks;
mod change_jobs;
mod changes;
mod closure_jobs;
mod closures;
mod cost_jobs;
mod count;
mod floor;
mod flow_checks;
mod format;
mod graph;
mod jobs;
mod layouts;
mod legs;
mod legs_checks;
mod legs_jobs;
mod map_jobs;
mod mend;
mod mend_checks;
mod mend_jobs;
mod natural;
mod neighbourhood_jobs;
mod next_jobs;
mod packed;
mod pinch_jobs;
mod program;
mod random;
mod records;
mod replay;
mod replay_jobs;
mod self_checks;
mod sheet;
mod sight;
mod sixteen;
mod stream;
mod thin;
mod vectors;
mod writer;
mod writer_checks;
mod writer_jobs;

use std::io::{Read, Write};
use std::process::ExitCode;

const USAGE: &str = "usage: vectors | program | program-stream [K] | records SEED | jobs SEED COUNT [wide] | answers";

fn input() -> std::io::Result<Vec<u8>> {
    let mut bytes = Vec::new();
    std::io::stdin().read_to_end(&mut bytes)?;
    Ok(bytes)
}

fn invalid(message: &str) -> std::io::Error {
    std::io::Error::new(std::io::ErrorKind::InvalidInput, message)
}

fn number(argument: &str) -> std::io::Result<u64> {
    argument.parse().map_err(|_| invalid("a number was expected"))
}

fn short_stream(argument: &str) -> std::io::Result<Vec<u8>> {
    let k = number(argument)? as usize;
    let streams = stream::short_streams();
    streams.get(k).cloned().ok_or_else(|| invalid(&format!("short streams go from 0 to {}", streams.len() - 1)))
}

/// The bytes that a subcommand writes.
fn output(arguments: &[&str]) -> std::io::Result<Vec<u8>> {
    match arguments {
        ["program"] => Ok(program::run(&input()?).into_bytes()),
        ["program-stream"] => Ok(stream::long_stream()),
        ["program-stream", k] => short_stream(k),
        ["records", seed] => Ok(records::make(number(seed)?)),
        ["jobs", seed, count] => Ok(jobs::make(number(seed)?, number(count)?, false)),
        ["jobs", seed, count, "wide"] => Ok(jobs::make(number(seed)?, number(count)?, true)),
        ["answers"] => answers::run(&input()?).map(String::into_bytes).ok_or_else(|| invalid("a record is cut short")),
        _ => Err(invalid(USAGE)),
    }
}

fn main() -> ExitCode {
    let arguments: Vec<String> = std::env::args().skip(1).collect();
    let arguments: Vec<&str> = arguments.iter().map(String::as_str).collect();
    if arguments == ["vectors"] {
        return if vectors::run() { ExitCode::SUCCESS } else { ExitCode::FAILURE };
    }
    match output(&arguments).and_then(|bytes| std::io::stdout().write_all(&bytes)) {
        Ok(()) => ExitCode::SUCCESS,
        Err(error) => {
            eprintln!("{error}");
            ExitCode::FAILURE
        }
    }
}
