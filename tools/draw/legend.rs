//! The legend of a picture: the shades and signs that stand in it, each with its meaning.

use crate::labels::Pixel;
use crate::layout::{words_wide, Layout, LINE};
use crate::palette;
use crate::scene::Scene;
use crate::sighting::InTheWay;
use crate::symbols;
use crate::xml::Xml;

/// The width of a sign, the space after its words, and how far apart the rows are.
const SIGN: i64 = 30;
const SPACE: i64 = 16;
const ROW: i64 = LINE + 4;

/// A sign of the legend.
#[derive(Clone, Copy)]
enum Sign {
    /// No sign: words alone.
    None,
    Shade(&'static str),
    Closure,
    Pinch,
    Route,
    Kept,
    Legs,
    Driven,
    Unfollowed,
    Sight,
    InTheWay(InTheWay),
}

impl Sign {
    /// How far the words stand from the place where the sign begins.
    fn wide(self) -> i64 {
        if matches!(self, Sign::None) { 0 } else { SIGN }
    }

    /// Draws the sign beside words whose line is at a place.
    fn draw(self, xml: &mut Xml, at: Pixel) {
        let middle = Pixel { x: at.x + 12, y: at.y - 5 };
        let line = [Pixel { x: at.x + 2, ..middle }, Pixel { x: at.x + 22, ..middle }];
        match self {
            Sign::None => {}
            Sign::Shade(colour) => swatch(xml, at, colour, palette::WALL),
            Sign::Closure => swatch(xml, at, "url(#hatching)", palette::HATCHING),
            Sign::Pinch => symbols::pinch(xml, middle, 7),
            Sign::Route => symbols::route(xml, &line, 24),
            Sign::Kept => symbols::kept(xml, middle, 5),
            Sign::Legs => symbols::legs(xml, &line),
            Sign::Driven => symbols::driven(xml, &line),
            Sign::Unfollowed => symbols::unfollowed(xml, middle, 8),
            Sign::Sight => symbols::sight_line(xml, &line),
            Sign::InTheWay(InTheWay::Step(..)) => symbols::step_in_the_way(xml, &line),
            Sign::InTheWay(InTheWay::Pinch(_)) => symbols::ring(xml, middle, 7),
            Sign::InTheWay(_) => symbols::cell_in_the_way(xml, Pixel { x: at.x + 5, y: at.y - 12 }, 14),
        }
    }
}

fn swatch(xml: &mut Xml, at: Pixel, inside: &str, edge: &str) {
    xml.leaf("rect", &[
        ("x", &at.x),
        ("y", &(at.y - 12)),
        ("width", &24),
        ("height", &14),
        ("fill", &inside),
        ("stroke", &edge),
    ]);
}

/// A sign with its words.
type Item = (Sign, String);

/// The items of a legend, each with its place from the legend's corner on.
pub struct Legend {
    placed: Vec<(Item, Pixel)>,
    left: i64,
    rows: i64,
}

impl Legend {
    /// The legend of a scene, in rows that have room in the picture.
    pub fn of(scene: &Scene, layout: &Layout) -> Legend {
        let mut legend = Legend { placed: Vec::new(), left: layout.words_left(), rows: 0 };
        for items in [shading_title(scene), shades(scene), signs(scene)] {
            legend.add(items, layout.words_width());
        }
        legend
    }

    /// The height that the legend takes.
    pub fn height(&self) -> i64 {
        self.rows * ROW + 4
    }

    /// Adds items in rows of their own.
    fn add(&mut self, items: Vec<Item>, width: i64) {
        self.rows += i64::from(!items.is_empty());
        let mut x = 0;
        for item in items {
            let wide = item.0.wide() + words_wide(&item.1);
            if x > 0 && x + wide > width {
                x = 0;
                self.rows += 1;
            }
            self.placed.push((item, Pixel { x, y: (self.rows - 1) * ROW }));
            x += wide + SPACE;
        }
    }

    /// Draws the legend with its first row at a height.
    pub fn draw(&self, xml: &mut Xml, top: i64) {
        for ((sign, words), place) in &self.placed {
            let at = Pixel { x: self.left + place.x, y: top + place.y };
            sign.draw(xml, at);
            xml.words("text", &[("x", &(at.x + sign.wide())), ("y", &at.y)], words);
        }
    }
}

fn shading_title(scene: &Scene) -> Vec<Item> {
    scene.shading.iter().map(|shading| (Sign::None, shading.title.to_string())).collect()
}

fn shades(scene: &Scene) -> Vec<Item> {
    let classes = scene.shading.iter().flat_map(|shading| &shading.classes);
    classes.map(|class| (Sign::Shade(palette::SHADES[class.shade]), class.name.clone())).collect()
}

/// The signs that the scene has.
fn signs(scene: &Scene) -> Vec<Item> {
    let drive = scene.drive.as_ref();
    let found = scene.sighting.map_or(InTheWay::Nothing, |sighting| sighting.found);
    let several = scene.kept.len() > 1;
    [
        (true, Sign::Shade(palette::WALL), "blocked"),
        (several, Sign::Route, "central route"),
        (!scene.kept.is_empty(), Sign::Kept, "kept point"),
        (several, Sign::Legs, "leg from one to the next"),
        (!scene.floor.closures.is_empty(), Sign::Closure, "closure"),
        (!scene.pinches.is_empty(), Sign::Pinch, "pinch"),
        (drive.is_some_and(|drive| !drive.driven().is_empty()), Sign::Driven, "driven"),
        (drive.is_some_and(|drive| drive.unfollowed().is_some()), Sign::Unfollowed, "record that cannot follow"),
        (scene.sighting.is_some(), Sign::Sight, "line of sight"),
        (found != InTheWay::Nothing, Sign::InTheWay(found), "in the way"),
    ]
    .into_iter()
    .filter_map(|(there, sign, words)| there.then(|| (sign, words.to_string())))
    .collect()
}

#[cfg(test)]
mod tests {
    use super::*;
    use crate::scene::tests::{full_scene, scene_of};

    fn words(scene: &Scene) -> Vec<String> {
        let legend = Legend::of(scene, &Layout::of(scene.floor.sides));
        legend.placed.iter().map(|((_, words), _)| words.clone()).collect()
    }

    #[test]
    fn signs_that_are_there() {
        assert_eq!(words(&scene_of(&["."], &[])), ["blocked"]);
        let all = words(&full_scene());
        assert_eq!(all.len(), 1 + 8 + 10);
        assert!(all.iter().any(|words| words == "record that cannot follow"));
    }

    /// No item is wider than the picture, and none begins before the one on its left ends.
    #[test]
    fn rows() {
        let scene = full_scene();
        let layout = Layout::of(scene.floor.sides);
        let legend = Legend::of(&scene, &layout);
        for ((sign, words), place) in &legend.placed {
            assert!(place.x + sign.wide() + words_wide(words) <= layout.words_width());
        }
        for pair in legend.placed.windows(2) {
            let ((sign, words), place) = &pair[0];
            assert!(pair[1].1.y > place.y || pair[1].1.x >= place.x + sign.wide() + words_wide(words));
        }
        assert_eq!(legend.height(), legend.rows * ROW + 4);
    }
}
