//! The command line.

use crate::lurfanzi::Rectangle;
use crate::sides::Point;

/// One screen of help.
pub const HELP: &str = "\
usage: draw FLOOR [A B]... [OPTION]...

Draws a floor as an SVG picture, with the central route from point A to point B.
FLOOR is a file of rows of . (open) and # (blocked), or a .map file. A point is
x,y: the cell corner in column x, row y, from 0,0 at the upper left.

  --moves N            the neighbourhood: 4, 8 or 16 moves (8)
  --close X,Y,W,H      a closure: W by H cells from column X and row Y on;
                       up to 16, each with an option of its own
  --log FILE           the walk that a cart's night log tells
  --why P Q            what is in the way from point P to point Q
  --fewest             keeps the fewest points that can be
  --text               a drawing in characters in place of the SVG
  --job N              of several jobs A B the one that is drawn (1)
  -o FILE              the drawing goes into FILE, and what it says in words to
                       standard output; else the drawing goes there
  --stream FILE        writes floor and jobs as a record stream for `route`, and
                       draws nothing without -o or --text

The planner's sheet is checked before it is drawn. Errors and refusals go to
standard error, a refusal's number in brackets, and the exit status is 1;
with 7 (no route), 8 (too many routes) and 17 (a bad record of a log) there is a
picture all the same.
";

/// What is to be drawn.
#[derive(Debug, PartialEq, Eq)]
pub struct Arguments {
    /// The name of the floor's file.
    pub floor: String,
    /// The ends of each job.
    pub jobs: Vec<(Point, Point)>,
    /// The number of the job that is drawn, from 1.
    pub job: usize,
    pub neighbourhood: u32,
    pub closures: Vec<Rectangle>,
    pub log: Option<String>,
    pub why: Option<(Point, Point)>,
    pub fewest: bool,
    pub text: bool,
    pub out: Option<String>,
    pub stream: Option<String>,
}

/// What the command line asks for.
#[derive(Debug, PartialEq, Eq)]
pub enum Command {
    Help,
    Draw(Arguments),
}

/// The command of the words after the program's name.
pub fn parse(words: impl IntoIterator<Item = String>) -> Result<Command, String> {
    let mut words = words.into_iter();
    let mut arguments = Arguments {
        floor: String::new(),
        jobs: Vec::new(),
        job: 1,
        neighbourhood: 8,
        closures: Vec::new(),
        log: None,
        why: None,
        fewest: false,
        text: false,
        out: None,
        stream: None,
    };
    let mut plain = Vec::new();
    while let Some(word) = words.next() {
        let mut value = || words.next().ok_or_else(|| format!("{word} wants something after it"));
        match word.as_str() {
            "--help" | "-h" => return Ok(Command::Help),
            "--moves" => arguments.neighbourhood = number(&value()?)?,
            "--close" => arguments.closures.push(rectangle(&value()?)?),
            "--log" => arguments.log = Some(value()?),
            "--why" => arguments.why = Some((point(&value()?)?, point(&value()?)?)),
            "--fewest" => arguments.fewest = true,
            "--text" => arguments.text = true,
            "--job" => arguments.job = number(&value()?)? as usize,
            "-o" => arguments.out = Some(value()?),
            "--stream" => arguments.stream = Some(value()?),
            other if other.starts_with('-') => return Err(format!("there is no option {other}; draw --help has all")),
            _ => plain.push(word),
        }
    }
    let Some((floor, points)) = plain.split_first() else {
        return Err("which floor? draw --help says how to ask".to_string());
    };
    arguments.floor = floor.clone();
    arguments.jobs = jobs(points)?;
    if arguments.job == 0 || arguments.job > arguments.jobs.len().max(1) {
        return Err(format!("there is no job {}: {} given", arguments.job, arguments.jobs.len()));
    }
    Ok(Command::Draw(arguments))
}

/// The jobs of a list of points, two for each.
fn jobs(words: &[String]) -> Result<Vec<(Point, Point)>, String> {
    let pair = |ends: &[String]| match ends {
        [a, b] => Ok((point(a)?, point(b)?)),
        _ => Err(format!("a job has two ends: {} has no other", ends.join(" "))),
    };
    words.chunks(2).map(pair).collect()
}

/// A whole number.
fn number(word: &str) -> Result<u32, String> {
    let digits = !word.is_empty() && word.bytes().all(|byte| byte.is_ascii_digit());
    word.parse().ok().filter(|_| digits).ok_or_else(|| format!("`{word}` is no number from 0 to {}", u32::MAX))
}

/// The numbers of a word that has N of them, with commas between.
fn numbers<const N: usize>(word: &str, form: &str) -> Result<[u32; N], String> {
    let wrong = || format!("`{word}` is not {form}: {N} numbers with commas between, and no space");
    let found: Vec<u32> = word.split(',').map(number).collect::<Result<_, _>>().map_err(|_| wrong())?;
    found.try_into().map_err(|_| wrong())
}

fn point(word: &str) -> Result<Point, String> {
    numbers(word, "a point x,y").map(|[x, y]| Point { x, y })
}

fn rectangle(word: &str) -> Result<Rectangle, String> {
    let [column, row, columns, rows] = numbers(word, "a closure X,Y,W,H")?;
    Ok(Rectangle { column, row, columns, rows })
}

#[cfg(test)]
mod tests {
    use super::*;

    fn asked(line: &str) -> Result<Command, String> {
        parse(line.split_whitespace().map(String::from))
    }

    fn arguments(line: &str) -> Arguments {
        match asked(line) {
            Ok(Command::Draw(arguments)) => arguments,
            other => panic!("{other:?}"),
        }
    }

    #[test]
    fn all_options() {
        let found = arguments(
            "--moves 16 ward.txt 0,1 2,3 --close 1,2,3,4 --close 5,6,7,8 --log n.log --why 9,8 7,6 --text 4,5 6,7 \
             --job 2 -o w.svg --fewest --stream w.bin",
        );
        let closure = |column, row, columns, rows| Rectangle { column, row, columns, rows };
        let at = |x, y| Point { x, y };
        let wanted = Arguments {
            floor: "ward.txt".to_string(),
            jobs: vec![(at(0, 1), at(2, 3)), (at(4, 5), at(6, 7))],
            job: 2,
            neighbourhood: 16,
            closures: vec![closure(1, 2, 3, 4), closure(5, 6, 7, 8)],
            log: Some("n.log".to_string()),
            why: Some((at(9, 8), at(7, 6))),
            fewest: true,
            text: true,
            out: Some("w.svg".to_string()),
            stream: Some("w.bin".to_string()),
        };
        assert_eq!(found, wanted);
    }

    #[test]
    fn no_options() {
        let found = arguments("ward.txt");
        assert_eq!((found.jobs.len(), found.job, found.neighbourhood, found.text), (0, 1, 8, false));
        assert_eq!(asked("ward.txt --help"), Ok(Command::Help));
    }

    #[test]
    fn wrong_words() {
        let lines = [
            ("", "which floor?"),
            ("f 1,2", "1,2 has no other"),
            ("f 1,2 3", "`3` is not a point x,y"),
            ("f 1,2 3,", "`3,` is not a point x,y"),
            ("f 1,2 3,-4", "`3,-4` is not a point x,y"),
            ("f 1,2 3,+4", "`3,+4` is not a point x,y"),
            ("f 1,2 3,4,5", "`3,4,5` is not a point x,y"),
            ("f 1,2 3,4294967296", "is not a point"),
            ("f --close 1,2,3", "`1,2,3` is not a closure X,Y,W,H"),
            ("f --moves", "--moves wants something after it"),
            ("f --moves eight", "`eight` is no number"),
            ("f --why 1,2", "--why wants something after it"),
            ("f --wy 1,2", "there is no option --wy"),
            ("f --job 2 1,2 3,4", "there is no job 2: 1 given"),
            ("f --job 0 1,2 3,4", "there is no job 0"),
        ];
        for (line, part) in lines {
            let said = asked(line).expect_err(line);
            assert!(said.contains(part), "{line}: {said}");
        }
    }

    /// The help fits a terminal of 24 lines and 80 columns.
    #[test]
    fn help_on_one_screen() {
        assert!(HELP.lines().count() <= 24 && HELP.lines().all(|line| line.chars().count() <= 80));
    }
}
