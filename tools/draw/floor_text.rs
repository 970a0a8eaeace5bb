//! Floors as text: plain rows of `.` and `#`, or the field's `.map` files.
//!
//! A `.map` file opens with the lines `type octile`, `height H`, `width W` and `map`; H rows of W characters follow, of
//! which `.` and `G` are open and `@`, `O`, `T` and `W` blocked. Every other text is read as plain rows. Lines end with
//! a line feed, or with a carriage return and a line feed; the last one may end with the text.

use crate::sides::Sides;

/// The highest side of a floor.
const HIGHEST_SIDE: usize = 127;

/// A floor as its text has it: the sides, and for each cell, row by row, whether it is blocked.
#[derive(Debug, PartialEq, Eq)]
pub struct FloorText {
    pub sides: Sides,
    pub blocked: Vec<bool>,
}

/// What is wrong with a text, and where: line and column are counted from 1, columns in characters.
#[derive(Debug, PartialEq, Eq)]
pub struct TextError {
    pub line: usize,
    pub column: usize,
    pub what: String,
}

impl std::fmt::Display for TextError {
    fn fmt(&self, to: &mut std::fmt::Formatter<'_>) -> std::fmt::Result {
        write!(to, "line {}, column {}: {}", self.line, self.column, self.what)
    }
}

fn error<T>(line: usize, column: usize, what: impl Into<String>) -> Result<T, TextError> {
    Err(TextError { line, column, what: what.into() })
}

/// The floor of a text.
pub fn read(bytes: &[u8]) -> Result<FloorText, TextError> {
    let lines = lines_of(bytes)?;
    match lines.first() {
        None => error(1, 1, "the file is empty; a floor has at least one row (1)"),
        Some(first) if first.starts_with("type") => read_map(&lines),
        Some(first) => {
            let width = first.chars().count();
            read_rows(&lines, 1, width, lines.len(), Alphabet::PLAIN)
        }
    }
}

/// The lines of a text, without their ends.
fn lines_of(bytes: &[u8]) -> Result<Vec<&str>, TextError> {
    match std::str::from_utf8(bytes) {
        Ok(text) => Ok(text.lines().collect()),
        Err(fault) => {
            let before = String::from_utf8_lossy(&bytes[..fault.valid_up_to()]);
            let line = before.matches('\n').count() + 1;
            let column = before.chars().rev().take_while(|&c| c != '\n').count() + 1;
            error(line, column, format!("the byte {:02x} hex is no text", bytes[fault.valid_up_to()]))
        }
    }
}

/// Which characters are open cells, and which are blocked ones.
#[derive(Clone, Copy)]
struct Alphabet {
    open: &'static str,
    blocked: &'static str,
}

impl Alphabet {
    const PLAIN: Alphabet = Alphabet { open: ".", blocked: "#" };
    const MAP: Alphabet = Alphabet { open: ".G", blocked: "@OTW" };

    /// Whether the cell of a character is blocked; none for any other character.
    fn blocked(self, character: char) -> Option<bool> {
        match (self.open.contains(character), self.blocked.contains(character)) {
            (true, _) => Some(false),
            (_, true) => Some(true),
            _ => None,
        }
    }
}

/// The floor of a `.map` file's lines.
fn read_map(lines: &[&str]) -> Result<FloorText, TextError> {
    header_line(lines, 1, "type octile")?;
    let height = header_side(lines, 2, "height")?;
    let width = header_side(lines, 3, "width")?;
    header_line(lines, 4, "map")?;
    read_rows(&lines[4..], 5, width, height, Alphabet::MAP)
}

/// The line with a number, from 1; it is empty past the last one.
fn line_at<'a>(lines: &[&'a str], number: usize) -> &'a str {
    lines.get(number - 1).copied().unwrap_or_default()
}

/// Whether the line with a number is as wanted; where it is not, the error is at the first character that differs.
fn header_line(lines: &[&str], number: usize, wanted: &str) -> Result<(), TextError> {
    let found = line_at(lines, number);
    if found == wanted {
        return Ok(());
    }
    let same = found.chars().zip(wanted.chars()).take_while(|(a, b)| a == b).count();
    error(number, same + 1, format!("line {number} of a .map file is `{wanted}`"))
}

/// The side that the line with a number gives after its name.
fn header_side(lines: &[&str], number: usize, name: &str) -> Result<usize, TextError> {
    let Some(rest) = line_at(lines, number).strip_prefix(name).and_then(|rest| rest.strip_prefix(' ')) else {
        return error(number, 1, format!("line {number} of a .map file is `{name}` and a number"));
    };
    let column = name.len() + 2;
    if rest.is_empty() || !rest.bytes().all(|byte| byte.is_ascii_digit()) {
        return error(number, column, format!("`{}` is no number", rest.escape_debug()));
    }
    match rest.parse() {
        Ok(side) if (1..=HIGHEST_SIDE).contains(&side) => Ok(side),
        _ => error(number, column, format!("the {name} is {rest}; a side is 1 to {HIGHEST_SIDE} (1)")),
    }
}

/// The floor of `height` rows of `width` characters and nothing after them. The first of them is line `first`.
fn read_rows(
    rows: &[&str], first: usize, width: usize, height: usize, alphabet: Alphabet,
) -> Result<FloorText, TextError> {
    let mut blocked = Vec::new();
    for (line, row) in (first..).zip(rows) {
        if line - first == height {
            return error(line, 1, format!("the map has more rows than its height, {height}"));
        }
        if line - first == HIGHEST_SIDE {
            return error(line, 1, format!("the floor has more than {HIGHEST_SIDE} rows (1)"));
        }
        read_row(row, line, width, alphabet, &mut blocked)?;
    }
    if rows.len() < height {
        return error(first + rows.len(), 1, format!("the map ends after row {}; its height is {height}", rows.len()));
    }
    Ok(FloorText { sides: Sides { width: width as u32, height: height as u32 }, blocked })
}

/// Adds the cells of one row.
fn read_row(
    row: &str, line: usize, width: usize, alphabet: Alphabet, blocked: &mut Vec<bool>,
) -> Result<(), TextError> {
    let mut cells = 0;
    for (column, character) in (1..).zip(row.chars()) {
        let Some(cell) = alphabet.blocked(character) else {
            return error(line, column, unknown(character, alphabet));
        };
        if column > HIGHEST_SIDE {
            return error(line, column, format!("the row has more than {HIGHEST_SIDE} cells (1)"));
        }
        if column > width {
            return error(line, column, format!("the row goes on after {width} cells, the width of the floor"));
        }
        blocked.push(cell);
        cells = column;
    }
    match cells {
        0 => error(line, 1, "an empty line; a row has at least one cell (1)"),
        _ if cells < width => error(line, cells + 1, format!("the row ends here; the floor's width is {width}")),
        _ => Ok(()),
    }
}

/// What is said of a character that is no cell.
fn unknown(character: char, alphabet: Alphabet) -> String {
    let list = |text: &str| text.chars().map(String::from).collect::<Vec<_>>().join(" ");
    let (open, blocked) = (list(alphabet.open), list(alphabet.blocked));
    format!("`{}` is no cell: open is {open}, blocked is {blocked}", character.escape_debug())
}

#[cfg(test)]
mod tests {
    use super::*;

    /// The floor of a text that has one: its sides, and the numbers of its blocked cells.
    fn floor(text: &str) -> (u32, u32, Vec<usize>) {
        let found = read(text.as_bytes()).expect("a floor");
        assert_eq!(found.blocked.len(), (found.sides.width * found.sides.height) as usize);
        let blocked = (0..found.blocked.len()).filter(|&c| found.blocked[c]).collect();
        (found.sides.width, found.sides.height, blocked)
    }

    /// Where a text is wrong, and a part of what is said.
    fn wrong(text: impl AsRef<[u8]>, line: usize, column: usize, part: &str) {
        let fault = read(text.as_ref()).expect_err("no floor");
        assert_eq!((fault.line, fault.column), (line, column), "{fault}");
        assert!(fault.what.contains(part), "{fault}");
    }

    fn map(head: &str, rows: &str) -> String {
        format!("type octile\n{head}\nmap\n{rows}")
    }

    #[test]
    fn plain_floors() {
        assert_eq!(floor("."), (1, 1, vec![]));
        assert_eq!(floor("#\n"), (1, 1, vec![0]));
        assert_eq!(floor("..#\n#..\n"), (3, 2, vec![2, 3]));
        assert_eq!(floor("..#\r\n#..\r\n"), (3, 2, vec![2, 3]));
        let highest = format!("{}\n", ".".repeat(127)).repeat(127);
        assert_eq!(floor(&highest), (127, 127, vec![]));
    }

    #[test]
    fn map_floors() {
        assert_eq!(floor(&map("height 2\nwidth 6", ".G@OTW\n......\n")), (6, 2, vec![2, 3, 4, 5]));
        assert_eq!(floor(&map("height 1\r\nwidth 1\r", "@").replace("octile\n", "octile\r\n")), (1, 1, vec![0]));
    }

    #[test]
    fn wrong_plain_floors() {
        wrong("", 1, 1, "empty");
        wrong("\n", 1, 1, "an empty line");
        wrong("...\n..x\n", 2, 3, "`x` is no cell: open is ., blocked is #");
        wrong("..@\n", 1, 3, "`@`");
        wrong("...\n.\t.\n", 2, 2, "`\\t`");
        wrong("..é\n", 1, 3, "`é`");
        wrong("...\n..\n", 2, 3, "the row ends here; the floor's width is 3");
        wrong("...\n....\n", 2, 4, "goes on after 3 cells");
        wrong("...\n\n", 2, 1, "an empty line");
        wrong("...\n...\n\n", 3, 1, "an empty line");
        wrong(".".repeat(128), 1, 128, "more than 127 cells (1)");
        wrong(".\n".repeat(128), 128, 1, "more than 127 rows (1)");
        wrong(b"..\n.\xff\n", 2, 2, "the byte ff hex");
        wrong(" ..\n", 1, 1, "` `");
    }

    #[test]
    fn wrong_map_floors() {
        wrong("type\n", 1, 5, "`type octile`");
        wrong("type tile\n", 1, 6, "`type octile`");
        wrong("type octile \n", 1, 12, "`type octile`");
        wrong("type octile\n", 2, 1, "`height` and a number");
        wrong("type octile\nwidth 3\n", 2, 1, "`height` and a number");
        wrong("type octile\nheight\n", 2, 1, "`height` and a number");
        wrong("type octile\nheight two\n", 2, 8, "`two` is no number");
        wrong("type octile\nheight +2\n", 2, 8, "`+2` is no number");
        wrong("type octile\nheight 0\n", 2, 8, "a side is 1 to 127 (1)");
        wrong("type octile\nheight 128\n", 2, 8, "the height is 128; a side is 1 to 127 (1)");
        wrong("type octile\nheight 99999999999999999999999\n", 2, 8, "a side is 1 to 127 (1)");
        wrong("type octile\nheight 2\nwidth 512\n", 3, 7, "the width is 512");
        wrong("type octile\nheight 2\nwidth 2\nmaps\n", 4, 4, "`map`");
        wrong(map("height 2\nwidth 2", "..\n.#\n"), 6, 2, "`#` is no cell: open is . G, blocked is @ O T W");
        wrong(map("height 2\nwidth 2", "..\n.S\n"), 6, 2, "`S`");
        wrong(map("height 2\nwidth 2", "..\n"), 6, 1, "ends after row 1; its height is 2");
        wrong(map("height 2\nwidth 2", "..\n..\n..\n"), 7, 1, "more rows than its height, 2");
        wrong(map("height 2\nwidth 2", "..\n.\n"), 6, 2, "the row ends here");
        wrong(map("height 2\nwidth 2", "..\n...\n"), 6, 3, "goes on after 2 cells");
    }
}
