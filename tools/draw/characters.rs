//! A scene in characters, for a terminal.
//!
//! A point of the floor, (x, y), is the character in column 2x of line 2y; the characters between are the cells and
//! their sides. So every move has a character of its own, at its middle.

use crate::scene::Scene;
use crate::sides::Point;
use crate::sighting::InTheWay;
use crate::words;
use crate::working_floor::Ground;

/// The characters of the classes of shading.
const CLASSES: [char; 8] = ['a', 'b', 'c', 'd', 'e', 'f', 'g', 'h'];

const WALL: char = '#';
const CLOSURE: char = '%';
const POINT: char = '.';
const PINCH: char = 'X';
const ROUTE: char = 'o';
const DRIVEN: char = '+';
const BOTH: char = '*';
const UNFOLLOWED: char = '?';
const SIGHT: char = '@';
const IN_THE_WAY: char = '!';

/// The width of the rows' numbers.
const RULER: usize = 5;

/// The drawing of a scene, with what it says in words.
pub fn drawn(scene: &Scene) -> String {
    let mut canvas = Canvas::of(scene);
    canvas.shading();
    canvas.route();
    canvas.drive();
    canvas.sighting();
    canvas.kept();
    let mut lines = vec![scene.title.clone(), String::new()];
    lines.extend(canvas.lines());
    lines.push(String::new());
    lines.extend(legend(scene));
    lines.extend(scene.caption.iter().cloned());
    words::plain(&lines.join("\n")) + "\n"
}

/// The characters of a drawing.
struct Canvas<'a> {
    scene: &'a Scene,
    rows: Vec<Vec<char>>,
}

/// The place of a point.
fn place(point: Point) -> (usize, usize) {
    (2 * point.x as usize, 2 * point.y as usize)
}

/// The place halfway between two points.
fn halfway(a: Point, b: Point) -> (usize, usize) {
    ((a.x + b.x) as usize, (a.y + b.y) as usize)
}

impl<'a> Canvas<'a> {
    /// The floor: its points, its blocked cells and their sides, its pinches.
    fn of(scene: &'a Scene) -> Canvas<'a> {
        let sides = scene.floor.sides;
        let (right, bottom) = place(Point { x: sides.width, y: sides.height });
        // A column more, so that a number of two digits has room at the right side.
        let mut canvas = Canvas { scene, rows: vec![vec![' '; right + 2]; bottom + 1] };
        for point in sides.points() {
            let around = scene.floor.around(point);
            let (x, y) = place(point);
            canvas.put((x, y), blocked(&around).unwrap_or(POINT));
            if x < right {
                canvas.put((x + 1, y), blocked(&[around[1], around[3]]).unwrap_or(' '));
            }
            if y < bottom {
                canvas.put((x, y + 1), blocked(&[around[2], around[3]]).unwrap_or(' '));
            }
            if x < right && y < bottom {
                canvas.put((x + 1, y + 1), blocked(&[around[3]]).unwrap_or(' '));
            }
        }
        for &pinch in &scene.pinches {
            canvas.put(place(pinch), PINCH);
        }
        canvas
    }

    fn put(&mut self, (x, y): (usize, usize), character: char) {
        self.rows[y][x] = character;
    }

    fn at(&self, (x, y): (usize, usize)) -> char {
        self.rows[y][x]
    }

    fn shading(&mut self) {
        let Some(shading) = &self.scene.shading else { return };
        for (point, class) in self.scene.floor.sides.points().zip(&shading.class_at) {
            if let Some(class) = class {
                self.put(place(point), CLASSES[*class]);
            }
        }
    }

    fn route(&mut self) {
        for &point in &self.scene.route {
            self.put(place(point), ROUTE);
        }
        for step in self.scene.route.windows(2) {
            self.put(halfway(step[0], step[1]), stroke(step[0], step[1]));
        }
    }

    fn drive(&mut self) {
        let Some(drive) = &self.scene.drive else { return };
        for step in drive.driven().windows(2) {
            let middle = halfway(step[0], step[1]);
            if step[0] != step[1] && self.at(middle) == ' ' {
                self.put(middle, stroke(step[0], step[1]));
            }
        }
        for &stop in drive.driven() {
            let both = [ROUTE, BOTH].contains(&self.at(place(stop)));
            self.put(place(stop), if both { BOTH } else { DRIVEN });
        }
        if let Some(stop) = drive.unfollowed() {
            self.put(place(stop), UNFOLLOWED);
        }
    }

    fn sighting(&mut self) {
        let Some(sighting) = &self.scene.sighting else { return };
        self.put(place(sighting.from), SIGHT);
        self.put(place(sighting.to), SIGHT);
        match sighting.found {
            InTheWay::Nothing => {}
            InTheWay::Cell(cell) => self.put((2 * cell.column as usize + 1, 2 * cell.row as usize + 1), IN_THE_WAY),
            InTheWay::Step(begin, end) => self.put(halfway(begin, end), IN_THE_WAY),
            InTheWay::Pinch(point) => self.put(place(point), IN_THE_WAY),
        }
    }

    /// The numbers of the kept points, each from its point on to the right; from 100 on their last two digits.
    fn kept(&mut self) {
        let ends = self.scene.ends.filter(|_| self.scene.kept.is_empty());
        if let Some((a, b)) = ends {
            self.put(place(a), 'A');
            self.put(place(b), 'B');
        }
        for (number, &point) in (1..).zip(&self.scene.kept) {
            let (x, y) = place(point);
            let digits = if number < 100 { format!("{number}") } else { format!("{:02}", number % 100) };
            for (k, digit) in digits.chars().enumerate() {
                self.put((x + k, y), digit);
            }
        }
    }

    /// The lines, with the numbers of the columns above and of the rows before them.
    fn lines(&self) -> Vec<String> {
        let sides = self.scene.floor.sides;
        let columns: String = (0..=sides.width).step_by(5).map(|x| format!("{x:<10}")).collect();
        let mut lines = vec![format!("{:RULER$}{columns}", "").trim_end().to_string()];
        for (y, row) in self.rows.iter().enumerate() {
            let number = if y % 10 == 0 { (y / 2).to_string() } else { String::new() };
            let row: String = row.iter().collect();
            lines.push(format!("{number:>width$} {row}", width = RULER - 1).trim_end().to_string());
        }
        lines
    }
}

/// The character of a place with these cells round it, where all of them are blocked.
fn blocked(cells: &[Ground]) -> Option<char> {
    if cells.contains(&Ground::Open) {
        return None;
    }
    Some(if cells.iter().all(|&cell| cell == Ground::Wall) { WALL } else { CLOSURE })
}

/// The character of a move.
fn stroke(a: Point, b: Point) -> char {
    match (a.x == b.x, a.y == b.y) {
        (_, true) => '-',
        (true, _) => '|',
        _ if (a.x < b.x) == (a.y < b.y) => '\\',
        _ => '/',
    }
}

/// The characters that the scene has, each with its meaning.
fn legend(scene: &Scene) -> Vec<String> {
    let drive = scene.drive.as_ref();
    let signs = [
        (true, format!("{WALL} blocked")),
        (!scene.floor.closures.is_empty(), format!("{CLOSURE} closure")),
        (!scene.pinches.is_empty(), format!("{PINCH} pinch")),
        (!scene.route.is_empty(), format!("{ROUTE} central route")),
        (!scene.kept.is_empty(), "1, 2, ... kept points".to_string()),
        (scene.ends.is_some() && scene.kept.is_empty(), "A start, B end".to_string()),
        (drive.is_some(), format!("{DRIVEN} driven")),
        (drive.is_some() && !scene.route.is_empty(), format!("{BOTH} driven and central route")),
        (drive.is_some_and(|drive| drive.unfollowed().is_some()), format!("{UNFOLLOWED} record that cannot follow")),
        (scene.sighting.is_some(), format!("{SIGHT} ends of the line of sight")),
        (scene.sighting.is_some(), format!("{IN_THE_WAY} in the way")),
    ];
    let signs: Vec<String> = signs.into_iter().filter_map(|(there, sign)| there.then_some(sign)).collect();
    let shades = scene.shading.as_ref().map(|shading| {
        let labels = CLASSES.iter().zip(&shading.classes).map(|(sign, class)| format!("{sign} {}", class.name));
        format!("{} {}.", shading.title, labels.collect::<Vec<_>>().join("; "))
    });
    shades.into_iter().chain([format!("{}.", signs.join("; "))]).collect()
}

#[cfg(test)]
mod tests {
    use super::*;
    use crate::lurfanzi::log_of;
    use crate::planning::FARTHEST;
    use crate::scene::tests::{at, full_scene, scene_of};

    /// The lines of the floor, without rulers.
    fn floor_lines(scene: &Scene) -> Vec<String> {
        let height = 2 * scene.floor.sides.height as usize + 1;
        drawn(scene).lines().skip(3).take(height).map(|line| line[RULER.min(line.len())..].to_string()).collect()
    }

    #[test]
    fn cells_and_their_sides() {
        assert_eq!(floor_lines(&scene_of(&["#.", ".#"], &[])), ["##. .", "##", ". X .", "   ##", ". .##"]);
        assert_eq!(floor_lines(&scene_of(&["."], &[])), [". .", "", ". ."]);
    }

    #[test]
    fn a_route() {
        let mut scene = scene_of(&[".#.", "..."], &[]);
        scene.add_job(8, (at(0, 0), at(3, 0)), &FARTHEST).expect("a job");
        assert_eq!(floor_lines(&scene), ["1 .#. 4", " \\ # /", ". 2-3 .", "", ". . . ."]);
        let mut fine = scene_of(&["...."], &[]);
        fine.add_job(16, (at(0, 1), at(4, 0)), &FARTHEST).expect("a job");
        assert_eq!(floor_lines(&fine), [". . f o-2", "    /", "1-o f . ."]);
    }

    /// The tenth kept point is at the right side.
    #[test]
    fn two_digits_at_the_right_side() {
        let rows = ["....#....", ".##.#.##.", ".##.#.##.", ".##...##."];
        let mut scene = scene_of(&rows, &[]);
        scene.kept = vec![at(0, 0); 9];
        scene.kept.push(at(9, 4));
        assert!(floor_lines(&scene)[8].ends_with(" 10"));
    }

    #[test]
    fn both_ends_without_a_route() {
        let mut scene = scene_of(&[".#."], &[]);
        scene.add_job(4, (at(0, 0), at(3, 1)), &FARTHEST).expect("a job");
        assert_eq!(floor_lines(&scene), ["A a#b b", "   #", "a a#b B"]);
    }

    #[test]
    fn a_log() {
        let mut scene = scene_of(&["...", "..."], &[]);
        scene.add_log(8, &log_of(&[0, 5, 5, 6, 3, 11, 0])).expect("a log");
        assert_eq!(floor_lines(&scene), ["+ . . +", " \\   /", ". +-+ .", "", ". . . ?"]);
    }

    #[test]
    fn everything() {
        let text = drawn(&full_scene());
        for part in ["% closure", "X pinch", "* driven and central route", "? record", "! in the way"] {
            assert!(text.contains(part), "{part}\n{text}");
        }
        assert!(text.lines().all(|line| line == line.trim_end()) && text.is_ascii());
    }
}
