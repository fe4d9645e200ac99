//! The growth of the cost as an SVG: panels side by side, both axes logarithmic.

use std::fmt::Write;

use crate::measure::{Each, NAMES};
use crate::numbers::grouped;

const COLOURS: Each<&str> = ["#0a7d4b", "#c2570c", "#3b5bdb"];

/// Pixels of a panel's drawing and of what is around it.
const WIDTH: f64 = 360.0;
const HEIGHT: f64 = 300.0;
const LEFT: f64 = 72.0;
const TOP: f64 = 64.0;
const BELOW: f64 = 56.0;
const BETWEEN: f64 = 88.0;

/// What grows along the x axis, and the instructions of a contraction there.
pub struct Panel {
    pub title: &'static str,
    pub x_axis: &'static str,
    pub lines: Each<Vec<(f64, f64)>>,
}

/// An axis from one power of ten to another, over some pixels.
struct Axis {
    low: i32,
    high: i32,
    pixels: f64,
}

impl Axis {
    /// The axis for values above 0, one at least.
    fn new(values: impl Iterator<Item = f64>, pixels: f64) -> Axis {
        let logs: Vec<f64> = values.map(f64::log10).collect();
        let low = logs.iter().copied().fold(f64::INFINITY, f64::min);
        let high = logs.iter().copied().fold(f64::NEG_INFINITY, f64::max);
        let low = low.floor() as i32;
        Axis {
            low,
            high: (high.ceil() as i32).max(low + 1),
            pixels,
        }
    }

    fn place(&self, value: f64) -> f64 {
        let part = value.log10() - f64::from(self.low);
        part / f64::from(self.high - self.low) * self.pixels
    }

    /// The powers of ten, with their places.
    fn marks(&self) -> impl Iterator<Item = (f64, String)> + '_ {
        (self.low..=self.high).map(|power| {
            let value = 10_f64.powi(power);
            (self.place(value), grouped(value as usize))
        })
    }
}

/// The panels in one picture, with one y axis for all. Every line has points.
pub fn svg(panels: &[Panel]) -> String {
    let count = panels.len() as f64;
    let width = LEFT + count * WIDTH + (count - 1.0) * BETWEEN + 24.0;
    let height = TOP + HEIGHT + BELOW;
    let points = || panels.iter().flat_map(|panel| panel.lines.iter().flatten());
    let y = Axis::new(points().map(|point| point.1), HEIGHT);
    let mut svg = format!(
        "<svg xmlns=\"http://www.w3.org/2000/svg\" viewBox=\"0 0 {width} {height}\" \
         font-family=\"sans-serif\" font-size=\"12\" fill=\"#222\">\n\
         <rect width=\"{width}\" height=\"{height}\" fill=\"#fff\"/>\n"
    );
    for (name, (colour, nth)) in NAMES.iter().zip(COLOURS.iter().zip(0..)) {
        let x = LEFT + 90.0 * f64::from(nth);
        legend(&mut svg, name, colour, x);
    }
    for (panel, nth) in panels.iter().zip(0..) {
        let left = LEFT + f64::from(nth) * (WIDTH + BETWEEN);
        panel.draw(&mut svg, left, &y);
    }
    svg + "</svg>\n"
}

fn legend(svg: &mut String, name: &str, colour: &str, x: f64) {
    line(svg, (x, 16.0), (x + 24.0, 16.0), colour, 2.0);
    text(svg, (x + 30.0, 20.0), "start", name);
}

impl Panel {
    fn draw(&self, svg: &mut String, left: f64, y: &Axis) {
        let bottom = TOP + HEIGHT;
        let x = Axis::new(self.lines.iter().flatten().map(|point| point.0), WIDTH);
        text(svg, (left, TOP - 18.0), "start", self.title);
        for (place, name) in x.marks() {
            line(
                svg,
                (left + place, TOP),
                (left + place, bottom),
                "#ddd",
                1.0,
            );
            text(svg, (left + place, bottom + 18.0), "middle", &name);
        }
        for (place, name) in y.marks() {
            let at = bottom - place;
            line(svg, (left, at), (left + WIDTH, at), "#ddd", 1.0);
            text(svg, (left - 8.0, at + 4.0), "end", &name);
        }
        let middle = left + WIDTH / 2.0;
        text(svg, (middle, bottom + 40.0), "middle", self.x_axis);
        for (points, colour) in self.lines.iter().zip(COLOURS) {
            let place = |point: &(f64, f64)| (left + x.place(point.0), bottom - y.place(point.1));
            curve(svg, points.iter().map(place), colour);
        }
    }
}

fn curve(svg: &mut String, points: impl Iterator<Item = (f64, f64)>, colour: &str) {
    let mut path = String::new();
    let mut marks = String::new();
    for (x, y) in points {
        // Writing to a string cannot fail.
        let _ = write!(path, "{x:.1},{y:.1} ");
        let _ = writeln!(
            marks,
            "<circle cx=\"{x:.1}\" cy=\"{y:.1}\" r=\"3\" fill=\"{colour}\"/>"
        );
    }
    let path = path.trim_end();
    *svg += &format!(
        "<polyline points=\"{path}\" fill=\"none\" stroke=\"{colour}\" stroke-width=\"2\"/>\n"
    );
    *svg += &marks;
}

fn line(svg: &mut String, from: (f64, f64), to: (f64, f64), colour: &str, width: f64) {
    let ((x1, y1), (x2, y2)) = (from, to);
    *svg += &format!(
        "<line x1=\"{x1:.1}\" y1=\"{y1:.1}\" x2=\"{x2:.1}\" y2=\"{y2:.1}\" \
         stroke=\"{colour}\" stroke-width=\"{width}\"/>\n"
    );
}

fn text(svg: &mut String, at: (f64, f64), anchor: &str, text: &str) {
    let (x, y) = at;
    *svg += &format!("<text x=\"{x:.1}\" y=\"{y:.1}\" text-anchor=\"{anchor}\">{text}</text>\n");
}

#[cfg(test)]
mod tests {
    use super::*;

    #[test]
    fn an_axis_goes_from_one_power_of_ten_to_another() {
        let axis = Axis::new([20.0, 7_000.0].into_iter(), 300.0);
        let marks: Vec<(f64, String)> = axis.marks().collect();
        let names: Vec<&str> = marks.iter().map(|(_, name)| name.as_str()).collect();
        assert_eq!(names, ["10", "100", "1,000", "10,000"]);
        assert_eq!(marks[0].0, 0.0);
        assert!((marks[3].0 - 300.0).abs() < 1e-9);
        assert!((axis.place(1_000.0) - 200.0).abs() < 1e-9);
    }

    #[test]
    fn one_value_has_an_axis() {
        let axis = Axis::new([100.0].into_iter(), 10.0);
        assert_eq!((axis.low, axis.high), (2, 3));
    }

    #[test]
    fn every_point_is_drawn() {
        let line = vec![(1.0, 10.0), (10.0, 100.0)];
        let panel = Panel {
            title: "title",
            x_axis: "x",
            lines: [line.clone(), line.clone(), line],
        };
        let svg = svg(&[panel]);
        assert_eq!(svg.matches("<circle").count(), 6);
        assert_eq!(svg.matches("<polyline").count(), 3);
        for name in NAMES {
            assert!(svg.contains(&format!(">{name}<")));
        }
        assert!(svg.ends_with("</svg>\n"));
    }

    #[test]
    fn every_point_stands_where_its_numbers_say() {
        // One y axis, from 10 to 1,000; the x axes go from 1 to 10 and from 1 to 100.
        let first = Panel {
            title: "first",
            x_axis: "x",
            lines: [
                vec![(1.0, 10.0), (10.0, 1_000.0)],
                vec![(10.0, 100.0)],
                vec![(1.0, 1_000.0)],
            ],
        };
        let second = Panel {
            title: "second",
            x_axis: "x",
            lines: [
                vec![(1.0, 100.0), (100.0, 10.0)],
                vec![(10.0, 10.0)],
                vec![(10.0, 100.0)],
            ],
        };
        let svg = svg(&[first, second]);
        assert!(svg.contains("viewBox=\"0 0 904 420\""), "{svg}");
        // The first drawing goes from 72 to 432, the second from 520 to 880, both from 364 up to 64.
        for (points, colour) in [
            ("72.0,364.0 432.0,64.0", COLOURS[0]),
            ("432.0,214.0", COLOURS[1]),
            ("72.0,64.0", COLOURS[2]),
            ("520.0,214.0 880.0,364.0", COLOURS[0]),
            ("700.0,364.0", COLOURS[1]),
            ("700.0,214.0", COLOURS[2]),
        ] {
            let line = format!("<polyline points=\"{points}\" fill=\"none\" stroke=\"{colour}\"");
            assert!(svg.contains(&line), "{line}\n{svg}");
        }
        for (x, y, name) in [
            (64.0, 368.0, "10"),
            (64.0, 218.0, "100"),
            (64.0, 68.0, "1,000"),
            (432.0, 382.0, "10"),
            (880.0, 382.0, "100"),
        ] {
            let mark = format!("<text x=\"{x:.1}\" y=\"{y:.1}\" ");
            let is_there =
                |line: &str| line.starts_with(&mark) && line.contains(&format!(">{name}<"));
            assert!(svg.lines().any(is_there), "{mark}{name}\n{svg}");
        }
    }
}
