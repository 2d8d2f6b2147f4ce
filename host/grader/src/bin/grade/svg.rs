//! A picture of a course and of a run on it.
use crate::args::Failure;
use crate::text;
use grader::{Course, Curb, Point, Quad};
use std::fmt::Write;

/// The picture's width and the head above the course, in its own units.
const WIDTH: f64 = 1200.0;
const HEAD: f64 = 64.0;
/// Room around the course, and how far beside the road's middle a number stands, in the course's units.
const MARGIN: f64 = 24.0;
const BESIDE: f64 = 14.0;
/// Half the road's width (TRACK_WIDTH of the reference).
const HALF_ROAD: f64 = 40.0 / 6.0;
/// Every so many tiles have their number.
const EVERY: usize = 20;

const STYLE: &str = "\
<style>
  text { font: 15px sans-serif; fill: #333; text-anchor: middle; dominant-baseline: central }
  .title { font-size: 24px; text-anchor: start } .key { text-anchor: start } .start { font-weight: bold; font-size: 18px; fill: #000 }
  .tile { fill: #c3c6cd; stroke: #fff; stroke-width: .7 } .credited { fill: #7db8f0; stroke: #fff; stroke-width: .7 }
  .red { fill: #d8231f; stroke: #7a1512; stroke-width: .5 } .white { fill: #fff; stroke: #777; stroke-width: .5 }
  .mark { fill: none; stroke: #333; stroke-width: 1.4 }
  .line { stroke: #000; stroke-width: 4 } .arrow { fill: #000 }
  .path { fill: none; stroke: #14213d; stroke-width: 2.2; stroke-linejoin: round } .last { fill: #ffb000; stroke: #14213d; stroke-width: 2 }
</style>
";

/// What is drawn: the course, and of a run its credited tiles and the hull's path, if any.
pub struct Picture {
    points: Vec<Point>,
    tiles: Vec<Quad>,
    curbs: Vec<Curb>,
    pub credited: Vec<bool>,
    pub path: Vec<[f64; 2]>,
}

/// From the course's plane, y upwards, to the picture's, y downwards.
struct Plane {
    left: f64,
    top: f64,
    scale: f64,
    height: f64,
}

impl Picture {
    pub fn of(course: &Course) -> Result<Picture, Failure> {
        let curbs = course.curbs().map_err(|r| Failure::Work(format!("the curbs are {}", text::refusal(&r))))?;
        let tiles = (0..course.n()).map(|i| course.tile(i)).collect();
        Ok(Picture { points: course.points(), tiles, curbs, credited: Vec::new(), path: Vec::new() })
    }

    pub fn drawn(&self, title: &str) -> String {
        let plane = self.plane();
        let mut out = format!(
            "<svg xmlns=\"http://www.w3.org/2000/svg\" width=\"{WIDTH}\" height=\"{h:.0}\" viewBox=\"0 0 {WIDTH} {h:.0}\">\n<title>{title}</title>\n{STYLE}<rect width=\"{WIDTH}\" height=\"{h:.0}\" fill=\"#d5e5c8\"/>\n",
            h = plane.height
        );
        self.road(&plane, &mut out);
        self.numbers(&plane, &mut out);
        self.start(&plane, &mut out);
        self.hull(&plane, &mut out);
        self.head(title, &mut out);
        out + "</svg>\n"
    }

    /// The plane that holds all tiles, and the path as far as it stays on the field.
    fn plane(&self) -> Plane {
        let far = 400.0;
        let near = self.path.iter().copied().filter(|p| p[0].abs() <= far && p[1].abs() <= far);
        let all: Vec<[f64; 2]> = self.tiles.iter().flatten().copied().chain(near).collect();
        let least = |k: usize| all.iter().map(|p| p[k]).fold(f64::INFINITY, f64::min) - MARGIN;
        let most = |k: usize| all.iter().map(|p| p[k]).fold(f64::NEG_INFINITY, f64::max) + MARGIN;
        let scale = WIDTH / (most(0) - least(0));
        Plane { left: least(0), top: most(1), scale, height: HEAD + scale * (most(1) - least(1)) }
    }

    fn road(&self, plane: &Plane, out: &mut String) {
        for (i, quad) in self.tiles.iter().enumerate() {
            let class = if self.credited.get(i) == Some(&true) { "credited" } else { "tile" };
            plane.polygon(class, quad, out);
        }
        for curb in &self.curbs {
            plane.polygon(if curb.white { "white" } else { "red" }, &curb.quad, out);
        }
    }

    /// A line across the road at the first point, an arrow along it, and the word.
    fn start(&self, plane: &Plane, out: &mut String) {
        let p = self.points[0];
        let (along, across) = ([-p.beta.sin(), p.beta.cos()], [p.beta.cos(), p.beta.sin()]);
        let at = |a: f64, b: f64| [p.x + a * along[0] + b * across[0], p.y + a * along[1] + b * across[1]];
        let [[x1, y1], [x2, y2]] = [at(0.0, -HALF_ROAD), at(0.0, HALF_ROAD)].map(|q| plane.at(q));
        let _ = writeln!(out, "<line class=\"line\" x1=\"{x1:.1}\" y1=\"{y1:.1}\" x2=\"{x2:.1}\" y2=\"{y2:.1}\"/>");
        plane.polygon("arrow", &[at(12.0, 0.0), at(4.0, 4.0), at(5.5, 0.0), at(4.0, -4.0)], out);
        let side = -self.side(0);
        plane.label("start", at(0.0, side * (BESIDE + 6.0)), "start", out);
    }

    fn hull(&self, plane: &Plane, out: &mut String) {
        let Some(&last) = self.path.last() else { return };
        let line: Vec<String> = self.path.iter().map(|&p| plane.at(p)).map(|[x, y]| format!("{x:.1},{y:.1}")).collect();
        let _ = writeln!(out, "<polyline class=\"path\" points=\"{}\"/>", line.join(" "));
        let [x, y] = plane.at(last);
        let _ = writeln!(out, "<circle class=\"last\" cx=\"{x:.1}\" cy=\"{y:.1}\" r=\"6\"/>");
    }

    fn numbers(&self, plane: &Plane, out: &mut String) {
        for (i, p) in self.points.iter().enumerate().step_by(EVERY) {
            plane.polygon("mark", &self.tiles[i], out);
            let by = self.side(i) * BESIDE;
            plane.label("number", [p.x + by * p.beta.cos(), p.y + by * p.beta.sin()], &i.to_string(), out);
        }
    }

    /// The side of point i, 1 or -1 along its line across, on which no other part of the course is near.
    fn side(&self, i: usize) -> f64 {
        let p = self.points[i];
        let room = |side: f64| {
            let (x, y) = (p.x + side * BESIDE * p.beta.cos(), p.y + side * BESIDE * p.beta.sin());
            self.points.iter().map(|q| (q.x - x).hypot(q.y - y)).fold(f64::INFINITY, f64::min)
        };
        if room(1.0) >= room(-1.0) - 0.5 {
            1.0
        } else {
            -1.0
        }
    }

    /// Title and key.
    fn head(&self, title: &str, out: &mut String) {
        let _ = writeln!(out, "<text class=\"title\" x=\"20\" y=\"26\">{title}</text>");
        let mut keys = vec![("tile", "tile")];
        if !self.credited.is_empty() {
            keys = vec![("credited", "credited tile"), ("tile", "tile not credited")];
        }
        keys.extend([("red", "curb, red and white"), ("arrow", "start, direction")]);
        if !self.path.is_empty() {
            keys.extend([("last", "path of the hull and its end")]);
        }
        for (k, (class, name)) in keys.iter().enumerate() {
            let x = 20 + 200 * k;
            let _ = writeln!(out, "<rect class=\"{class}\" x=\"{x}\" y=\"44\" width=\"18\" height=\"12\"/>");
            let _ = writeln!(out, "<text class=\"key\" x=\"{}\" y=\"51\">{name}</text>", x + 26);
        }
    }
}

impl Plane {
    fn at(&self, p: [f64; 2]) -> [f64; 2] {
        [(p[0] - self.left) * self.scale, HEAD + (self.top - p[1]) * self.scale]
    }
    fn polygon(&self, class: &str, corners: &Quad, out: &mut String) {
        let points = corners.map(|p| self.at(p)).map(|[x, y]| format!("{x:.1},{y:.1}"));
        let _ = writeln!(out, "<polygon class=\"{class}\" points=\"{}\"/>", points.join(" "));
    }
    fn label(&self, class: &str, at: [f64; 2], text: &str, out: &mut String) {
        let [x, y] = self.at(at);
        let _ = writeln!(out, "<text class=\"{class}\" x=\"{x:.1}\" y=\"{y:.1}\">{text}</text>");
    }
}
