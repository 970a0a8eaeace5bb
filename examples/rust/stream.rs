//! Makes a record stream for the program from a drawing. It reads text from standard input: the rows of a floor, `.`
//! for an open cell and `#` for a blocked one, and after them a line for each job, its neighbourhood, start and end. It
//! writes the stream to standard output.
//!
//!     printf '..\n.#\n8 0 5\n' | stream | route

// Not every item of the wrapper is used here.
#[allow(dead_code)]
mod lurfanzi;

use lurfanzi::{pack, Floor, Stream, LONGEST_STREAM};
use std::error::Error;
use std::io::{self, Write};

/// The cells of the rows, a byte each, with the number of columns.
fn drawn(rows: &[&str]) -> Result<(usize, Vec<u8>), Box<dyn Error>> {
    let columns = rows.first().map_or(0, |row| row.len());
    if rows.iter().any(|row| row.len() != columns) {
        return Err("the rows differ in length".into());
    }
    let cells = rows.concat();
    if let Some(other) = cells.chars().find(|cell| !".#".contains(*cell)) {
        return Err(format!("a cell is drawn as {other}").into());
    }
    Ok((columns, cells.bytes().map(|cell| u8::from(cell == b'#')).collect()))
}

fn main() -> Result<(), Box<dyn Error>> {
    let text = io::read_to_string(io::stdin())?;
    let lines: Vec<&str> = text.lines().map(str::trim).filter(|line| !line.is_empty()).collect();
    let height = lines.iter().take_while(|line| line.starts_with(['.', '#'])).count();
    let (rows, jobs) = lines.split_at(height);
    let (width, cells) = drawn(rows)?;

    let mut buffer = [0; LONGEST_STREAM];
    let mut stream = Stream::new(&mut buffer);
    stream.map(Floor { width: width as u32, height: height as u32, map: &pack(&cells) })?;
    for job in jobs {
        let numbers: Vec<u16> = job.split_whitespace().map(str::parse).collect::<Result<_, _>>()?;
        let [neighbourhood, a, b] = numbers[..] else {
            return Err(format!("a job is neighbourhood, start and end, not {job}").into());
        };
        stream.job(neighbourhood.try_into()?, a, b)?;
    }
    io::stdout().write_all(stream.bytes())?;
    Ok(())
}
