//! Draws a floor that is given as text: the route that is planned on it, what a cart's log tells, what is in the way
//! between two points. `tools/draw/build` builds it, and `draw --help` says what it takes.

mod arguments;
mod characters;
mod fewest;
mod floor_text;
mod heat;
mod labels;
mod layout;
mod legend;
mod night_log;
mod palette;
mod planning;
mod scene;
mod sides;
mod sighting;
mod stream;
mod svg;
mod symbols;
mod words;
mod working_floor;
mod xml;

// Not every item of the wrapper is used here.
#[allow(dead_code)]
#[path = "../../examples/rust/lurfanzi.rs"]
mod lurfanzi;

use std::io::Write;
use std::process::ExitCode;

use arguments::{Arguments, Command};
use scene::Scene;
use working_floor::WorkingFloor;

/// Reads a file; an error has its name.
fn read(name: &str) -> Result<Vec<u8>, String> {
    std::fs::read(name).map_err(|error| format!("{name}: {error}"))
}

/// The floor that is asked for, with its closures.
fn floor_of(arguments: &Arguments) -> Result<WorkingFloor, String> {
    let name = &arguments.floor;
    let text = floor_text::read(&read(name)?).map_err(|error| format!("{name}: {error}"))?;
    WorkingFloor::new(text, &arguments.closures)
}

/// The scene that is asked for.
fn composed(arguments: &Arguments, floor: WorkingFloor) -> Result<Scene, String> {
    let name = &arguments.floor;
    let shown = std::path::Path::new(name).file_name().map_or(name.into(), |name| name.to_string_lossy());
    let thinning = if arguments.fewest { fewest::FEWEST } else { planning::FARTHEST };
    let mut scene = Scene::new(&shown, floor);
    if let Some(&ends) = arguments.jobs.get(arguments.job - 1) {
        if arguments.jobs.len() > 1 {
            scene.caption.push(format!("Job {} of {}.", arguments.job, arguments.jobs.len()));
        }
        scene.add_job(arguments.neighbourhood, ends, &thinning)?;
    }
    if let Some(points) = arguments.why {
        scene.add_sighting(points)?;
    }
    if let Some(log) = &arguments.log {
        scene.add_log(arguments.neighbourhood, &read(log)?)?;
    }
    Ok(scene)
}

/// Writes the record stream of the floor and all its jobs into a file.
fn write_stream(arguments: &Arguments, floor: &WorkingFloor, file: &str) -> Result<(), String> {
    let bytes = stream::written(floor, arguments.neighbourhood, &arguments.jobs)?;
    std::fs::write(file, &bytes).map_err(|error| format!("{file}: {error}"))?;
    let jobs = words::counted(arguments.jobs.len(), "job");
    print(&format!("{file}: a floor and {jobs} in {}\n", words::counted(bytes.len(), "byte")))
}

/// Writes the drawing, and what it says in words: the words go to standard output where the drawing goes into a file,
/// to standard error where an SVG picture goes to standard output, and are part of a drawing in characters.
fn write(arguments: &Arguments, scene: &Scene) -> Result<(), String> {
    let drawing = if arguments.text { characters::drawn(scene) } else { svg::drawn(scene) };
    let words: String = scene.words().map(|line| format!("{line}\n")).collect();
    match &arguments.out {
        Some(file) => {
            std::fs::write(file, drawing).map_err(|error| format!("{file}: {error}"))?;
            print(&words)
        }
        None => {
            if !arguments.text {
                eprint!("{words}");
            }
            print(&drawing)
        }
    }
}

/// Writes to standard output.
fn print(text: &str) -> Result<(), String> {
    std::io::stdout().write_all(text.as_bytes()).map_err(|error| format!("standard output: {error}"))
}

/// Writes what is asked for. Returns the refusals among the answers.
fn draw(arguments: &Arguments) -> Result<Vec<String>, String> {
    let floor = floor_of(arguments)?;
    if let Some(file) = &arguments.stream {
        write_stream(arguments, &floor, file)?;
        if arguments.out.is_none() && !arguments.text {
            return Ok(Vec::new());
        }
    }
    let scene = composed(arguments, floor)?;
    write(arguments, &scene)?;
    Ok(scene.refusals)
}

/// Does what the command line asks for. Returns the refusals among the answers.
fn run() -> Result<Vec<String>, String> {
    let words: Result<Vec<String>, _> = std::env::args_os().skip(1).map(|word| word.into_string()).collect();
    let words = words.map_err(|word| format!("{word:?} is no text"))?;
    match arguments::parse(words)? {
        Command::Help => print(arguments::HELP).map(|()| Vec::new()),
        Command::Draw(arguments) => draw(&arguments),
    }
}

fn main() -> ExitCode {
    let said = run().unwrap_or_else(|error| vec![error]);
    for words in &said {
        eprintln!("draw: {words}");
    }
    if said.is_empty() { ExitCode::SUCCESS } else { ExitCode::FAILURE }
}
