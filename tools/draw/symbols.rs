//! The signs that stand in a picture and in its legend.

use crate::labels::{Pixel, Placed};
use crate::palette;
use crate::xml::Xml;

/// The side of the squares of the hatching.
const HATCHING_SIDE: i64 = 7;

/// A line through some pixels, with round corners.
fn line(xml: &mut Xml, pixels: &[Pixel], colour: &str, width: i64, dashes: Option<&str>) {
    let command = |k: usize| if k == 0 { 'M' } else { 'L' };
    let path: String = pixels.iter().enumerate().map(|(k, at)| format!("{}{} {}", command(k), at.x, at.y)).collect();
    if path.is_empty() {
        return;
    }
    let dashes = dashes.unwrap_or("none");
    xml.leaf("path", &[
        ("fill", &"none"),
        ("stroke", &colour),
        ("stroke-width", &width),
        ("stroke-linejoin", &"round"),
        ("stroke-dasharray", &dashes),
        ("d", &path),
    ]);
}

/// Outlines, first wide and white and then as they are, so that they stand out from whatever is below.
fn outlined(xml: &mut Xml, path: &str, colour: &str, width: i64) {
    for (colour, width) in [(palette::PAPER, width + 3), (colour, width)] {
        xml.leaf("path", &[("fill", &"none"), ("stroke", &colour), ("stroke-width", &width), ("d", &path)]);
    }
}

/// Defines the filling of closures, `url(#hatching)`.
pub fn define_hatching(xml: &mut Xml) {
    xml.open("pattern", &[
        ("id", &"hatching"),
        ("width", &HATCHING_SIDE),
        ("height", &HATCHING_SIDE),
        ("patternUnits", &"userSpaceOnUse"),
        ("patternTransform", &"rotate(45)"),
    ]);
    let stripe = format!("M0 0v{HATCHING_SIDE}");
    xml.leaf("path", &[("stroke", &palette::HATCHING), ("stroke-width", &3), ("d", &stripe)]);
    xml.close();
}

/// The central route, where cells have a side.
pub fn route(xml: &mut Xml, pixels: &[Pixel], unit: i64) {
    let width = (unit / 4).clamp(4, 7);
    line(xml, pixels, palette::PAPER, width + 4, None);
    line(xml, pixels, palette::ROUTE, width, None);
}

/// The straight legs between kept points.
pub fn legs(xml: &mut Xml, pixels: &[Pixel]) {
    line(xml, pixels, palette::PAPER, 4, None);
    line(xml, pixels, palette::INK, 2, None);
}

/// The walk that was driven: between its dashes one sees what is below, the central route as well.
pub fn driven(xml: &mut Xml, pixels: &[Pixel]) {
    line(xml, pixels, palette::PAPER, 6, Some("10 4"));
    line(xml, pixels, palette::DRIVEN, 3, Some("9 5"));
}

/// The way from the last stop that was driven to the one that can't follow.
pub fn undriven(xml: &mut Xml, pixels: &[Pixel]) {
    line(xml, pixels, palette::DRIVEN, 2, Some("2 4"));
}

/// The stop that can't follow: a cross in a ring.
pub fn unfollowed(xml: &mut Xml, at: Pixel, radius: i64) {
    ring(xml, at, radius);
    let (x, y, arm) = (at.x, at.y, radius - 3);
    let path = format!("M{0} {2}L{1} {3}M{0} {3}L{1} {2}", x - arm, x + arm, y - arm, y + arm);
    xml.leaf("path", &[("stroke", &palette::DRIVEN), ("stroke-width", &3), ("d", &path)]);
}

pub fn ring(xml: &mut Xml, at: Pixel, radius: i64) {
    let path = format!("M{} {}a{radius} {radius} 0 1 0 {} 0a{radius} {radius} 0 1 0 {} 0z", at.x - radius, at.y,
        2 * radius, -2 * radius);
    outlined(xml, &path, palette::WARNING, 3);
}

pub fn pinch(xml: &mut Xml, at: Pixel, radius: i64) {
    let diamond = format!("M{} {}l{radius} {radius}l-{radius} {radius}l-{radius} -{radius}z", at.x, at.y - radius);
    xml.leaf("path", &[("fill", &palette::WARNING), ("stroke", &palette::PAPER), ("d", &diamond)]);
}

pub fn kept(xml: &mut Xml, at: Pixel, radius: i64) {
    dot(xml, at, radius, palette::PAPER, palette::INK);
}

fn dot(xml: &mut Xml, at: Pixel, radius: i64, inside: &str, edge: &str) {
    xml.leaf("circle", &[
        ("cx", &at.x),
        ("cy", &at.y),
        ("r", &radius),
        ("fill", &inside),
        ("stroke", &edge),
        ("stroke-width", &2),
    ]);
}

/// The straight line between the two points of a sight question.
pub fn sight_line(xml: &mut Xml, ends: &[Pixel]) {
    line(xml, ends, palette::PAPER, 5, None);
    line(xml, ends, palette::WARNING, 2, Some("6 3"));
    for &end in ends {
        dot(xml, end, 4, palette::WARNING, palette::PAPER);
    }
}

/// The cell that is in the way: a cross in its frame.
pub fn cell_in_the_way(xml: &mut Xml, corner: Pixel, unit: i64) {
    let (x, y) = (corner.x, corner.y);
    let path = format!("M{x} {y}h{unit}v{unit}h-{unit}zl{unit} {unit}M{x} {}l{unit} -{unit}", y + unit);
    outlined(xml, &path, palette::WARNING, 3);
}

/// The step that is shut.
pub fn step_in_the_way(xml: &mut Xml, ends: &[Pixel]) {
    line(xml, ends, palette::PAPER, 9, None);
    line(xml, ends, palette::WARNING, 6, None);
}

/// A label with a white edge, and a line to its point where it is far.
pub fn label(xml: &mut Xml, placed: &Placed) {
    let middle = placed.area.middle;
    if placed.far {
        line(xml, &[placed.label.at, middle], palette::INK, 1, None);
    }
    let attributes: crate::xml::Attributes = &[
        ("x", &middle.x),
        ("y", &(middle.y + 5)),
        ("text-anchor", &"middle"),
        ("font-weight", &"bold"),
        ("stroke", &palette::PAPER),
        ("stroke-width", &4),
        ("stroke-linejoin", &"round"),
        ("paint-order", &"stroke"),
    ];
    xml.words("text", attributes, &placed.label.words);
}
