//! Everything that a picture shows, in SVG or in characters.

use crate::heat;
use crate::lurfanzi::Job;
use crate::night_log::{self, Drive};
use crate::planning::{planned, Planned, Thinning};
use crate::sides::Point;
use crate::sighting::Sighting;
use crate::words;
use crate::working_floor::WorkingFloor;

/// A class of points: its name, and its shade by its place in the palette, from light to dark.
#[derive(Debug, PartialEq, Eq)]
pub struct Class {
    pub name: String,
    pub shade: usize,
}

/// The points that are shaded: each vertex has one of the classes, by its place, or none.
#[derive(Debug, PartialEq, Eq)]
pub struct Shading {
    pub title: &'static str,
    pub classes: Vec<Class>,
    pub class_at: Vec<Option<usize>>,
}

/// What a picture shows.
pub struct Scene {
    pub title: String,
    /// What the picture says in words, a sentence or a few in each place.
    pub caption: Vec<String>,
    /// The answers among these that are refusals.
    pub refusals: Vec<String>,
    pub floor: WorkingFloor,
    pub pinches: Vec<Point>,
    /// The ends of the job that is drawn.
    pub ends: Option<(Point, Point)>,
    pub shading: Option<Shading>,
    /// The points of the central route, and those of them that are kept.
    pub route: Vec<Point>,
    pub kept: Vec<Point>,
    pub drive: Option<Drive>,
    pub sighting: Option<Sighting>,
}

impl Scene {
    /// A floor with its closures and pinches.
    pub fn new(name: &str, floor: WorkingFloor) -> Scene {
        Scene {
            title: words::title(name, &floor),
            caption: words::closures(&floor).into_iter().collect(),
            refusals: Vec::new(),
            pinches: floor.pinches(),
            floor,
            ends: None,
            shading: None,
            route: Vec::new(),
            kept: Vec::new(),
            drive: None,
            sighting: None,
        }
    }

    /// The title and the caption, as lines with plain spaces.
    pub fn words(&self) -> impl Iterator<Item = String> + use<'_> {
        std::iter::once(&self.title).chain(&self.caption).map(|words| words::plain(words))
    }

    /// Adds a job, planned and checked.
    pub fn add_job(&mut self, neighbourhood: u32, (a, b): (Point, Point), thinning: &Thinning) -> Result<(), String> {
        // A point off the floor is no vertex: it gets a number that is none either, and the library's refusals keep
        // their order.
        let [vertex_a, vertex_b] = [a, b].map(|end| self.floor.sides.vertex(end).unwrap_or(u32::MAX));
        let job = Job { neighbourhood, a: vertex_a, b: vertex_b };
        let planned = planned(self.floor.floor(), job, thinning);
        let planned = planned.map_err(|failure| words::failure(&self.floor, [a, b], failure))?;
        let said = words::job(self.floor.sides, job, &planned, thinning.rule);
        if let Planned::Route(route) = &planned {
            self.route = route.vertices.iter().map(|&vertex| self.floor.sides.point(vertex.into())).collect();
            self.kept = route.kept.iter().map(|&position| self.route[usize::from(position)]).collect();
        } else {
            self.refusals.extend(said.first().cloned());
        }
        self.ends = Some((a, b));
        self.shading = Some(shading(planned));
        self.caption.extend(said);
        Ok(())
    }

    /// Adds what is in the way between two points.
    pub fn add_sighting(&mut self, (from, to): (Point, Point)) -> Result<(), String> {
        let sighting = Sighting::asked(&self.floor, from, to)?;
        self.caption.push(words::sighting(&self.floor, &sighting));
        self.sighting = Some(sighting);
        Ok(())
    }

    /// Adds what a night log tells.
    pub fn add_log(&mut self, neighbourhood: u32, log: &[u8]) -> Result<(), String> {
        let drive = night_log::replayed(&self.floor, neighbourhood, log)?;
        let said = words::drive(&self.floor, &drive);
        if drive.told.bad.is_some() {
            self.refusals.extend(said.last().cloned());
        }
        self.caption.extend(said);
        self.drive = Some(drive);
        Ok(())
    }
}

/// The shading of what came of a job: by the traversal counts, or flat where there are none.
fn shading(planned: Planned) -> Shading {
    let class = |(name, shade): (&str, usize)| Class { name: name.to_string(), shade };
    let flat = |inside: Vec<bool>, class| inside.into_iter().map(move |inside| inside.then_some(class));
    match planned {
        Planned::Route(route) => {
            let classes = (0..).zip(heat::labels()).map(|(shade, name)| Class { name, shade }).collect();
            let class_of = |&count: &u64| (count > 0).then(|| heat::class_of(count, route.plan.total));
            let class_at = route.counts.iter().map(class_of).collect();
            Shading { title: "Share of the cheapest routes through a point, at least:", classes, class_at }
        }
        Planned::NoRoute { from_start, from_end } => {
            let class_at = flat(from_start, 0).zip(flat(from_end, 1)).map(|(start, end)| start.or(end)).collect();
            Shading { title: "Reached from:", classes: [("start", 1), ("end", 4)].map(class).into(), class_at }
        }
        Planned::TooMany { on_way } => {
            let class_at = flat(on_way, 0).collect();
            Shading { title: "Points on:", classes: [("a cheapest route", 2)].map(class).into(), class_at }
        }
    }
}

#[cfg(test)]
pub mod tests {
    use super::*;
    use crate::lurfanzi::{log_of, Rectangle};
    use crate::planning::FARTHEST;
    use crate::working_floor::tests::floor_of;

    pub fn at(x: u32, y: u32) -> Point {
        Point { x, y }
    }

    /// The scene of a floor of rows, named `test`.
    pub fn scene_of(rows: &[&str], closures: &[Rectangle]) -> Scene {
        Scene::new("test", floor_of(rows, closures))
    }

    /// A scene with everything in it: a closure, a pinch, a job, a sighting, and a log with both faults.
    pub fn full_scene() -> Scene {
        let closure = Rectangle { column: 2, row: 2, columns: 2, rows: 1 };
        let mut scene = scene_of(&["......", "#.....", ".#....", "......"], &[closure]);
        scene.add_job(8, (at(1, 0), at(6, 4)), &FARTHEST).expect("a job");
        scene.add_sighting((at(0, 4), at(5, 1))).expect("a sighting");
        scene.add_log(8, &log_of(&[3, 11, 25, 26, 99])).expect("a log");
        scene
    }

    #[test]
    fn everything() {
        let scene = full_scene();
        assert_eq!(scene.title, "test: 6 by 4 cells, 1 closure");
        assert_eq!(scene.pinches, [at(1, 2)]);
        assert_eq!((scene.route.first(), scene.route.last()), (Some(&at(1, 0)), Some(&at(6, 4))));
        assert_eq!((scene.kept.first(), scene.kept.last()), (Some(&at(1, 0)), Some(&at(6, 4))));
        assert_eq!(scene.refusals, ["Record 5 is bad, and nothing after it was read (17)."]);
        assert_eq!(scene.caption.len(), 9);
    }

    #[test]
    fn shadings() {
        let mut scene = scene_of(&[".."], &[]);
        scene.add_job(8, (at(0, 0), at(2, 1)), &FARTHEST).expect("a job");
        let shading = scene.shading.expect("a shading");
        assert_eq!(shading.classes.len(), 8);
        assert_eq!(shading.class_at, [Some(7), Some(6), None, None, Some(6), Some(7)]);
        let mut scene = scene_of(&[".#."], &[]);
        scene.add_job(8, (at(0, 0), at(3, 1)), &FARTHEST).expect("a job");
        let shading = scene.shading.expect("a shading");
        assert_eq!(shading.class_at, [0, 0, 1, 1, 0, 0, 1, 1].map(Some));
        assert_eq!((scene.route.len(), scene.refusals.len()), (0, 1));
        assert!(scene.refusals[0].ends_with("(7)."));
    }

    #[test]
    fn refusals() {
        let mut scene = scene_of(&["#.", ".#"], &[]);
        let mut refused = |a, b| scene.add_job(8, (a, b), &FARTHEST).expect_err("a refusal");
        assert!(refused(at(0, 0), at(1, 1)).starts_with("(1,1) cannot be an end"));
        assert!(refused(at(1, 1), at(0, 3)).starts_with("(0,3) is off the floor"));
        assert!(refused(at(3, 0), at(1, 1)).starts_with("(3,0) is off the floor"));
        assert!(scene.add_job(5, (at(9, 9), at(1, 1)), &FARTHEST).is_err_and(|said| said.ends_with("(4)")));
        assert!(scene.add_log(8, &[0; 16_385]).is_err_and(|said| said.ends_with("(16)")));
        assert!(scene.add_sighting((at(0, 0), at(3, 0))).is_err_and(|said| said.ends_with("(5)")));
    }
}
