//! A scene as an SVG picture.

use crate::labels::{placed, Area, Label, Pixel, Surroundings};
use crate::layout::{words_wide, wrapped, Layout, FONT, LINE};
use crate::legend::Legend;
use crate::palette;
use crate::scene::Scene;
use crate::sides::{Cell, Point};
use crate::sighting::InTheWay;
use crate::symbols;
use crate::words;
use crate::working_floor::Ground;
use crate::xml::Xml;

/// The picture of a scene.
pub fn drawn(scene: &Scene) -> String {
    let layout = Layout::of(scene.floor.sides);
    let legend = Legend::of(scene, &layout);
    let caption: Vec<String> = scene.caption.iter().flat_map(|words| wrapped(words, layout.words_width())).collect();
    let caption_top = layout.below() + legend.height();
    let mut picture = Picture { scene, layout, xml: Xml::new() };
    picture.begin(caption_top + LINE * caption.len() as i64);
    picture.ground();
    picture.closures();
    picture.rulers();
    picture.sighting();
    picture.route();
    picture.drive();
    picture.marks();
    picture.labels();
    legend.draw(&mut picture.xml, layout.below());
    picture.caption(&caption, caption_top);
    picture.xml.finish()
}

/// A picture that is being drawn.
struct Picture<'a> {
    scene: &'a Scene,
    layout: Layout,
    xml: Xml,
}

impl Picture<'_> {
    /// The root element, what the picture is in words, the hatching, and a white sheet with the title.
    fn begin(&mut self, height: i64) {
        let (scene, xml, width) = (self.scene, &mut self.xml, self.layout.width);
        xml.open("svg", &[
            ("xmlns", &"http://www.w3.org/2000/svg"),
            ("width", &width),
            ("height", &height),
            ("viewBox", &format!("0 0 {width} {height}")),
            ("role", &"img"),
            ("font-family", &"Helvetica, Arial, sans-serif"),
            ("font-size", &FONT),
            ("fill", &palette::INK),
        ]);
        xml.words("title", &[], &scene.title);
        xml.words("desc", &[], &scene.caption.join(" "));
        symbols::define_hatching(xml);
        xml.leaf("rect", &[("width", &width), ("height", &height), ("fill", &palette::PAPER)]);
        let place = self.layout.title();
        xml.open("g", &[("font-size", &17), ("font-weight", &"bold")]);
        xml.words("text", &[("x", &place.x), ("y", &place.y)], &scene.title);
        xml.close();
    }

    /// The wall round the floor, the grid, the shaded points and the blocked cells.
    fn ground(&mut self) {
        self.rectangle(self.layout.frame(), palette::WALL);
        self.rectangle(0, palette::PAPER);
        self.grid();
        self.shading();
        let Layout { corner, unit, sides, .. } = self.layout;
        let floor = &self.scene.floor;
        let closed = |column, row| matches!(floor.ground(Cell { column, row }), Ground::Closed(_));
        let wall = |column, row| floor.ground(Cell { column, row }) == Ground::Wall;
        let place = format!("translate({} {}) scale({unit})", corner.x, corner.y);
        self.xml.open("g", &[("transform", &place)]);
        self.xml.leaf("path", &[("fill", &palette::CLOSED), ("d", &runs(sides.width, sides.height, closed))]);
        self.xml.leaf("path", &[("fill", &palette::WALL), ("d", &runs(sides.width, sides.height, wall))]);
        self.xml.close();
    }

    /// The floor's rectangle with a margin round it.
    fn rectangle(&mut self, margin: i64, colour: &str) {
        let (corner, (width, height)) = (self.layout.corner, self.layout.floor_size());
        self.xml.leaf("rect", &[
            ("x", &(corner.x - margin)),
            ("y", &(corner.y - margin)),
            ("width", &(width + 2 * margin)),
            ("height", &(height + 2 * margin)),
            ("fill", &colour),
        ]);
    }

    /// Lines between the cells, or between groups of cells where these are small.
    fn grid(&mut self) {
        let Layout { sides, grid_step, .. } = self.layout;
        let (width, height) = self.layout.floor_size();
        let mut path = String::new();
        for x in (0..sides.width).step_by(grid_step).skip(1) {
            let at = self.layout.pixel(Point { x, y: 0 });
            path.push_str(&format!("M{} {}v{height}", at.x, at.y));
        }
        for y in (0..sides.height).step_by(grid_step).skip(1) {
            let at = self.layout.pixel(Point { x: 0, y });
            path.push_str(&format!("M{} {}h{width}", at.x, at.y));
        }
        self.xml.leaf("path", &[("stroke", &palette::GRID), ("d", &path)]);
    }

    /// A square round each point that has a class, in its shade. What leaves the floor is cut off.
    fn shading(&mut self) {
        let Some(shading) = &self.scene.shading else { return };
        let Layout { corner, unit, sides, .. } = self.layout;
        self.xml.open("clipPath", &[("id", &"floor")]);
        self.rectangle(0, palette::PAPER);
        self.xml.close();
        self.xml.open("g", &[("clip-path", &"url(#floor)")]);
        let place = format!("translate({} {}) scale({unit})", corner.x - unit / 2, corner.y - unit / 2);
        self.xml.open("g", &[("transform", &place)]);
        for (k, class) in shading.classes.iter().enumerate() {
            let has_class = |x, y| {
                let vertex = sides.vertex(Point { x, y });
                vertex.is_some_and(|vertex| shading.class_at[vertex as usize] == Some(k))
            };
            let squares = runs(sides.width + 1, sides.height + 1, has_class);
            self.xml.leaf("path", &[("fill", &palette::SHADES[class.shade]), ("d", &squares)]);
        }
        self.xml.close();
        self.xml.close();
    }

    /// The closures, hatched.
    fn closures(&mut self) {
        for closure in &self.scene.floor.closures {
            let at = self.layout.pixel(Point { x: closure.column, y: closure.row });
            self.xml.leaf("rect", &[
                ("x", &at.x),
                ("y", &at.y),
                ("width", &(self.layout.unit * i64::from(closure.columns))),
                ("height", &(self.layout.unit * i64::from(closure.rows))),
                ("fill", &"url(#hatching)"),
                ("stroke", &palette::HATCHING),
                ("stroke-width", &2),
            ]);
        }
    }

    /// The numbers of the columns above the floor, and of the rows on its left.
    fn rulers(&mut self) {
        let Layout { sides, ruler_step, .. } = self.layout;
        let outside = self.layout.frame() + 5;
        self.xml.open("g", &[("font-size", &11), ("text-anchor", &"middle")]);
        for x in (0..=sides.width).step_by(ruler_step) {
            let at = self.layout.pixel(Point { x, y: 0 });
            self.xml.words("text", &[("x", &at.x), ("y", &(at.y - outside))], &x.to_string());
        }
        self.xml.close();
        self.xml.open("g", &[("font-size", &11), ("text-anchor", &"end")]);
        for y in (0..=sides.height).step_by(ruler_step) {
            let at = self.layout.pixel(Point { x: 0, y });
            self.xml.words("text", &[("x", &(at.x - outside)), ("y", &(at.y + 4))], &y.to_string());
        }
        self.xml.close();
    }

    /// The straight line between two points, and what is in its way.
    fn sighting(&mut self) {
        let Some(sighting) = &self.scene.sighting else { return };
        let unit = self.layout.unit;
        symbols::sight_line(&mut self.xml, &self.layout.pixels(&[sighting.from, sighting.to]));
        match sighting.found {
            InTheWay::Nothing => {}
            InTheWay::Cell(cell) => {
                let at = self.layout.pixel(Point { x: cell.column, y: cell.row });
                symbols::cell_in_the_way(&mut self.xml, at, unit);
            }
            InTheWay::Step(begin, end) => {
                symbols::step_in_the_way(&mut self.xml, &self.layout.pixels(&[begin, end]));
            }
            InTheWay::Pinch(at) => symbols::ring(&mut self.xml, self.layout.pixel(at), unit / 2 + 4),
        }
    }

    /// The straight legs between the kept points, and over them the central route.
    fn route(&mut self) {
        symbols::legs(&mut self.xml, &self.layout.pixels(&self.scene.kept));
        symbols::route(&mut self.xml, &self.layout.pixels(&self.scene.route), self.layout.unit);
    }

    /// The walk that was driven, and the way to the stop that can't follow.
    fn drive(&mut self) {
        let Some(drive) = &self.scene.drive else { return };
        let driven = self.layout.pixels(drive.driven());
        symbols::driven(&mut self.xml, &driven);
        if let Some(at) = drive.unfollowed().map(|stop| self.layout.pixel(stop)) {
            symbols::undriven(&mut self.xml, &[driven.last().copied().unwrap_or(at), at]);
            symbols::unfollowed(&mut self.xml, at, self.layout.radius() + 5);
        }
    }

    /// The pinches, the ends and the kept points.
    fn marks(&mut self) {
        let radius = self.layout.radius();
        for &pinch in &self.scene.pinches {
            symbols::pinch(&mut self.xml, self.layout.pixel(pinch), radius + 1);
        }
        let ends = self.scene.ends.map_or(Vec::new(), |(a, b)| vec![a, b]);
        for &point in ends.iter().chain(&self.scene.kept) {
            symbols::kept(&mut self.xml, self.layout.pixel(point), radius);
        }
    }

    /// The labels, beside the points that they belong to.
    fn labels(&mut self) {
        let label = |(point, words): (Point, String)| Label {
            at: self.layout.pixel(point),
            half_width: words_wide(&words) / 2 + 2,
            half_height: 7,
            words,
        };
        let labels: Vec<Label> = wanted_labels(self.scene).into_iter().map(label).collect();
        let radius = self.layout.radius() + 1;
        let mark = |at: Pixel| Area { middle: at, half_width: radius, half_height: radius };
        let pinches = self.layout.pixels(&self.scene.pinches);
        let marks = labels.iter().map(|label| label.at).chain(pinches).map(mark).collect();
        let lines = lines_of(self.scene).iter().flat_map(|line| along(&self.layout.pixels(line))).collect();
        for label in placed(labels, &Surroundings { inside: self.layout.floor_area(), marks, lines }) {
            symbols::label(&mut self.xml, &label);
        }
    }

    fn caption(&mut self, lines: &[String], top: i64) {
        for (k, line) in (0..).zip(lines) {
            self.xml.words("text", &[("x", &self.layout.words_left()), ("y", &(top + LINE * k))], line);
        }
    }
}

/// The labels of the kept points, the ends, the record that can't follow, and the points of a sight question.
fn wanted_labels(scene: &Scene) -> Vec<(Point, String)> {
    let last = scene.kept.len();
    let name = |number: usize| match number {
        1 if last == 1 => "1 start and end".to_string(),
        1 => "1 start".to_string(),
        _ if number == last => format!("{number} end"),
        _ => number.to_string(),
    };
    let mut wanted: Vec<_> = (1..).zip(&scene.kept).map(|(number, &point)| (point, name(number))).collect();
    if let (Some((a, b)), 0) = (scene.ends, last) {
        wanted.extend([(a, "start".to_string()), (b, "end".to_string())]);
    }
    if let Some(drive) = &scene.drive {
        let record = drive.unfollowed().zip(drive.told.unfollowed);
        wanted.extend(record.map(|(stop, record)| (stop, format!("record {record}"))));
    }
    if let Some(sighting) = &scene.sighting {
        wanted.extend([sighting.from, sighting.to].map(|point| (point, words::point(point))));
    }
    wanted
}

/// The lines of a scene: the route and its legs, the walk that was driven, the line of sight.
fn lines_of(scene: &Scene) -> Vec<Vec<Point>> {
    let driven = scene.drive.as_ref().map_or(Vec::new(), |drive| drive.driven().to_vec());
    let sight = scene.sighting.map_or(Vec::new(), |sighting| vec![sighting.from, sighting.to]);
    vec![scene.route.clone(), scene.kept.clone(), driven, sight]
}

/// A path of the squares of a grid for which something holds, each run of a row as one rectangle.
fn runs(width: u32, height: u32, holds: impl Fn(u32, u32) -> bool) -> String {
    let mut path = String::new();
    for row in 0..height {
        let mut column = 0;
        while column < width {
            let length = (column..width).take_while(|&at| holds(at, row)).count() as u32;
            if length > 0 {
                path.push_str(&format!("M{column} {row}h{length}v1h-{length}z"));
            }
            column += length + 1;
        }
    }
    path
}

/// Pixels along a line, at most four apart.
fn along(line: &[Pixel]) -> Vec<Pixel> {
    let between = |ends: &[Pixel]| {
        let (from, to) = (ends[0], ends[1]);
        let steps = ((to.x - from.x).abs().max((to.y - from.y).abs()) / 4).max(1);
        let at = move |k| Pixel { x: from.x + (to.x - from.x) * k / steps, y: from.y + (to.y - from.y) * k / steps };
        (0..=steps).map(at)
    };
    line.windows(2).flat_map(between).collect()
}

#[cfg(test)]
mod tests {
    use super::*;
    use crate::planning::FARTHEST;
    use crate::scene::tests::{at, full_scene, scene_of};
    use crate::xml::tests::well_formed;

    #[test]
    fn runs_of_rows() {
        let cells = [[1, 1, 0, 1], [0, 0, 0, 0], [1, 1, 1, 1]];
        let path = runs(4, 3, |column, row| cells[row as usize][column as usize] == 1);
        assert_eq!(path, "M0 0h2v1h-2zM3 0h1v1h-1zM0 2h4v1h-4z");
    }

    #[test]
    fn pixels_of_lines() {
        let at = |x, y| Pixel { x, y };
        assert_eq!(along(&[at(0, 0), at(8, 4)]), [at(0, 0), at(4, 2), at(8, 4)]);
        assert_eq!(along(&[at(3, 3), at(3, 3)]), [at(3, 3), at(3, 3)]);
        assert_eq!(along(&[at(3, 3)]), []);
    }

    #[test]
    fn everything_well_formed() {
        let text = drawn(&full_scene());
        assert_eq!(well_formed(&text), Ok(()));
        let parts = ["hatching", "Checked: the checker accepts", ">record 3<", ">1 start<", "6 by 4 cells", ">(0,4)<"];
        for part in parts {
            assert!(text.contains(part), "{part}");
        }
    }

    #[test]
    fn names_are_escaped() {
        let floor = crate::working_floor::tests::floor_of(&["."], &[]);
        assert_eq!(well_formed(&drawn(&Scene::new("a<b>&\"'\u{1}.txt", floor))), Ok(()));
    }

    #[test]
    fn smallest_and_largest() {
        let row = ".".repeat(127);
        for rows in [vec!["."; 1], vec!["#"; 1], vec![row.as_str(); 127]] {
            assert_eq!(well_formed(&drawn(&scene_of(&rows, &[]))), Ok(()));
        }
        let mut alone = scene_of(&["."], &[]);
        alone.add_job(4, (at(1, 1), at(1, 1)), &FARTHEST).expect("a job");
        assert!(drawn(&alone).contains(">1 start and end<"));
    }

    #[test]
    fn without_a_route() {
        let mut scene = scene_of(&[".#."], &[]);
        scene.add_job(8, (at(0, 0), at(3, 1)), &FARTHEST).expect("a job");
        let text = drawn(&scene);
        assert!(well_formed(&text).is_ok() && text.contains(">start<") && text.contains(">end<"));
        assert!(!text.contains(palette::ROUTE));
    }
}
