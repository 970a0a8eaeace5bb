//! Where things stand in a picture, in pixels, and how its words break into lines.

use crate::labels::{Area, Pixel};
use crate::sides::{Point, Sides};

/// The size of the words, and how far apart their lines are.
pub const FONT: i64 = 13;
pub const LINE: i64 = 19;

/// The space on the left of the floor, where the rows' numbers stand, and above it, for the title and the columns'
/// numbers.
const LEFT: i64 = 44;
const TOP: i64 = 68;

/// The space round the picture.
const MARGIN: i64 = 20;

/// The least width of a picture, so that its words have room.
const LEAST_WIDTH: i64 = 720;

/// The places of a picture of a floor.
#[derive(Clone, Copy, Debug)]
pub struct Layout {
    pub sides: Sides,
    /// The side of a cell; it is even.
    pub unit: i64,
    /// The upper left corner of the floor.
    pub corner: Pixel,
    /// The width of the picture.
    pub width: i64,
    /// How many cells apart the lines of the grid are, and the numbers of the rulers.
    pub grid_step: usize,
    pub ruler_step: usize,
}

impl Layout {
    /// The layout of a floor: its cells are as large as fits into some 900 pixels, but neither tiny nor huge.
    pub fn of(sides: Sides) -> Layout {
        let longest = i64::from(sides.width.max(sides.height));
        let unit = (900 / longest).clamp(8, 72) / 2 * 2;
        let floor_width = unit * i64::from(sides.width);
        let width = (LEFT + floor_width + MARGIN).max(LEAST_WIDTH);
        let corner = Pixel { x: LEFT.max((width - floor_width) / 2), y: TOP };
        let (grid_step, ruler_step) = match unit {
            ..14 => (10, 10),
            14..36 => (1, 5),
            _ => (1, 1),
        };
        Layout { sides, unit, corner, width, grid_step, ruler_step }
    }

    /// The pixel of a point.
    pub fn pixel(&self, point: Point) -> Pixel {
        Pixel { x: self.corner.x + self.unit * i64::from(point.x), y: self.corner.y + self.unit * i64::from(point.y) }
    }

    pub fn pixels(&self, points: &[Point]) -> Vec<Pixel> {
        points.iter().map(|&point| self.pixel(point)).collect()
    }

    /// The floor's width and height.
    pub fn floor_size(&self) -> (i64, i64) {
        (self.unit * i64::from(self.sides.width), self.unit * i64::from(self.sides.height))
    }

    /// How thick the wall round the floor is.
    pub fn frame(&self) -> i64 {
        (self.unit / 2).min(10)
    }

    /// The floor with the wall round it.
    pub fn floor_area(&self) -> Area {
        let (width, height) = self.floor_size();
        let middle = Pixel { x: self.corner.x + width / 2, y: self.corner.y + height / 2 };
        Area { middle, half_width: width / 2 + self.frame(), half_height: height / 2 + self.frame() }
    }

    /// How large the mark of a point is.
    pub fn radius(&self) -> i64 {
        (self.unit / 4).clamp(4, 6)
    }

    /// Where the title stands.
    pub fn title(&self) -> Pixel {
        Pixel { x: MARGIN, y: 28 }
    }

    /// Where lines of words begin, how much room they have, and where the first one below the floor stands.
    pub fn words_left(&self) -> i64 {
        MARGIN
    }

    pub fn words_width(&self) -> i64 {
        self.width - 2 * MARGIN
    }

    pub fn below(&self) -> i64 {
        self.corner.y + self.floor_size().1 + self.frame() + 30
    }
}

/// About how wide words are, in whatever font.
pub fn words_wide(words: &str) -> i64 {
    words.chars().count() as i64 * FONT * 55 / 100
}

/// Words as lines that have room in a width. A word that is wider has a line of its own.
pub fn wrapped(words: &str, width: i64) -> Vec<String> {
    let mut lines: Vec<String> = Vec::new();
    for word in words.split(' ') {
        match lines.last_mut() {
            Some(line) if words_wide(line) + words_wide(" ") + words_wide(word) <= width => {
                line.push(' ');
                line.push_str(word);
            }
            _ => lines.push(word.to_string()),
        }
    }
    lines
}

#[cfg(test)]
mod tests {
    use super::*;

    #[test]
    fn sizes() {
        for (width, height) in [(1, 1), (127, 127), (127, 1), (1, 127), (56, 30), (31, 26)] {
            let layout = Layout::of(Sides { width, height });
            assert!(layout.unit % 2 == 0 && (8..=72).contains(&layout.unit));
            assert!(layout.width >= LEAST_WIDTH && layout.corner.x >= LEFT);
            assert!(layout.corner.x + layout.floor_size().0 + layout.frame() <= layout.width);
            assert!(layout.width.max(layout.floor_size().1) <= 1100);
        }
    }

    #[test]
    fn lines_of_words() {
        assert_eq!(wrapped("one two three", words_wide("one two")), ["one two", "three"]);
        assert_eq!(wrapped("one two three", 0), ["one", "two", "three"]);
        assert_eq!(wrapped("one", 1000), ["one"]);
    }
}
