//! Where labels stand beside their points, so that they cover neither each other nor the lines, where there is room.

/// A place in pixels.
#[derive(Clone, Copy, Debug, PartialEq, Eq)]
pub struct Pixel {
    pub x: i64,
    pub y: i64,
}

/// A rectangle of pixels, by its middle and half its sides.
#[derive(Clone, Copy, Debug, PartialEq, Eq)]
pub struct Area {
    pub middle: Pixel,
    pub half_width: i64,
    pub half_height: i64,
}

impl Area {
    fn meets(&self, other: &Area) -> bool {
        (self.middle.x - other.middle.x).abs() < self.half_width + other.half_width
            && (self.middle.y - other.middle.y).abs() < self.half_height + other.half_height
    }

    fn has(&self, at: Pixel) -> bool {
        (self.middle.x - at.x).abs() <= self.half_width && (self.middle.y - at.y).abs() <= self.half_height
    }

    fn lies_in(&self, outer: &Area) -> bool {
        (self.middle.x - outer.middle.x).abs() + self.half_width <= outer.half_width
            && (self.middle.y - outer.middle.y).abs() + self.half_height <= outer.half_height
    }
}

/// A label that is to stand beside a point, with half the sides that its words take.
#[derive(Clone, Debug)]
pub struct Label {
    pub at: Pixel,
    pub words: String,
    pub half_width: i64,
    pub half_height: i64,
}

/// A label in its place. A far one wants a line to its point.
#[derive(Clone, Debug)]
pub struct Placed {
    pub label: Label,
    pub area: Area,
    pub far: bool,
}

/// What a label must not cover.
pub struct Surroundings {
    /// The rectangle that the labels stay in.
    pub inside: Area,
    /// What may not be covered.
    pub marks: Vec<Area>,
    /// Pixels of lines, which are better not covered.
    pub lines: Vec<Pixel>,
}

/// Directions from a point to a label's middle, in halves of the way to a corner, the better ones first.
const DIRECTIONS: [(i64, i64); 16] = [
    (2, -2), (-2, -2), (2, 2), (-2, 2), (0, -2), (0, 2), (2, 0), (-2, 0),
    (1, -2), (-1, -2), (1, 2), (-1, 2), (2, -1), (-2, -1), (2, 1), (-2, 1),
];

/// How far a label may stand from its point; from the third place on it is far.
const DISTANCES: [i64; 6] = [6, 10, 18, 28, 40, 54];

/// Puts the labels into place one after the other, each where it covers least.
pub fn placed(labels: Vec<Label>, surroundings: &Surroundings) -> Vec<Placed> {
    let mut done: Vec<Placed> = Vec::new();
    for label in labels {
        let cost = |(preference, area, _): &(i64, Area, bool)| preference + covered(area, &done, surroundings);
        let best = candidates(&label).min_by_key(cost);
        done.extend(best.map(|(_, area, far)| Placed { label, area, far }));
    }
    done
}

/// The places where a label may stand: each with how far down the order of preference it is, and whether it is far.
fn candidates(label: &Label) -> impl Iterator<Item = (i64, Area, bool)> + use<'_> {
    (0..).zip(DISTANCES).flat_map(move |(ring, distance)| {
        (0..).zip(DIRECTIONS).map(move |(rank, (dx, dy))| {
            let x = label.at.x + dx * (distance + label.half_width) / 2;
            let y = label.at.y + dy * (distance + label.half_height) / 2;
            let (half_width, half_height) = (label.half_width, label.half_height);
            (40 * ring + rank, Area { middle: Pixel { x, y }, half_width, half_height }, ring > 1)
        })
    })
}

/// How much an area covers that it should not.
fn covered(area: &Area, done: &[Placed], surroundings: &Surroundings) -> i64 {
    let labels = done.iter().filter(|placed| placed.area.meets(area)).count() as i64;
    let marks = surroundings.marks.iter().filter(|mark| mark.meets(area)).count() as i64;
    let lines = surroundings.lines.iter().filter(|&&at| area.has(at)).count() as i64;
    let outside = i64::from(!area.lies_in(&surroundings.inside));
    4000 * (labels + outside) + 2000 * marks + 30 * lines
}

#[cfg(test)]
mod tests {
    use super::*;

    fn label(x: i64, y: i64) -> Label {
        Label { at: Pixel { x, y }, words: "12".to_string(), half_width: 9, half_height: 7 }
    }

    fn dot(label: &Label) -> Area {
        Area { middle: label.at, half_width: 4, half_height: 4 }
    }

    const INSIDE: Area = Area { middle: Pixel { x: 500, y: 500 }, half_width: 500, half_height: 500 };

    /// Labels of points that stand close in a row cover neither each other nor a point.
    #[test]
    fn close_points() {
        let labels: Vec<Label> = (0..12).map(|k| label(300 + 10 * k, 400)).collect();
        let marks: Vec<Area> = labels.iter().map(dot).collect();
        let found = placed(labels, &Surroundings { inside: INSIDE, marks: marks.clone(), lines: Vec::new() });
        assert_eq!(found.len(), 12);
        for (k, one) in found.iter().enumerate() {
            assert!(found[..k].iter().all(|other| !other.area.meets(&one.area)));
            assert!(marks.iter().all(|mark| !mark.meets(&one.area)));
        }
    }

    #[test]
    fn at_the_corner_and_beside_a_line() {
        let lines = (0..100).map(|k| Pixel { x: 10 * k, y: 500 }).collect();
        let labels = vec![label(2, 2), label(500, 500)];
        let found = placed(labels, &Surroundings { inside: INSIDE, marks: Vec::new(), lines });
        assert!(found.iter().all(|placed| placed.area.lies_in(&INSIDE) && !placed.far));
        assert!(found[1].area.middle.y != 500);
    }
}
