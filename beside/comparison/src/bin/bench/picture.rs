//! The picture of the main rows, as SVG: for each row a bar for the Rust and one for the port, on a logarithmic scale.

use std::collections::HashSet;
use std::fmt::Write;

use crate::page::{Row, nanoseconds};

const WIDTH: f64 = 1000.0;
/// Where the bars begin and where the longest ends; names stand to the left, numbers to the right.
const LEFT: f64 = 380.0;
const RIGHT: f64 = 920.0;
const TOP: f64 = 84.0;
const GROUP: f64 = 30.0;
const ROW: f64 = 30.0;
const BAR: f64 = 11.0;
const RUST: &str = "#c8763a";
const PORT: &str = "#2f6f9f";

/// Rows under a title.
pub struct Group<'a> {
    pub title: &'a str,
    pub rows: &'a [Row],
}

/// A name that two rows have.
pub fn name_twice<'a>(groups: &[Group<'a>]) -> Option<&'a str> {
    let mut seen = HashSet::new();
    let mut names = groups
        .iter()
        .flat_map(|group| group.rows)
        .map(|row| row.name.as_str());
    names.find(|name| !seen.insert(*name))
}

/// The powers of ten between which all values lie.
struct Scale {
    low: i32,
    high: i32,
}

impl Scale {
    fn of(groups: &[Group]) -> Self {
        let values = || {
            groups
                .iter()
                .flat_map(|group| group.rows)
                .flat_map(|row| [row.rust.value, row.port.value])
        };
        let least = values().fold(f64::INFINITY, f64::min);
        let most = values().fold(1.0, f64::max);
        let low = least.log10().floor() as i32;
        let high = (most.log10().ceil() as i32).max(low + 1);
        Self { low, high }
    }

    fn place(&self, value: f64) -> f64 {
        let part = (value.log10() - f64::from(self.low)) / f64::from(self.high - self.low);
        LEFT + part * (RIGHT - LEFT)
    }
}

pub fn draw(groups: &[Group]) -> String {
    let scale = Scale::of(groups);
    let heights = groups
        .iter()
        .map(|group| GROUP + group.rows.len() as f64 * ROW);
    let bottom = TOP + heights.sum::<f64>();
    let mut svg = opening(bottom + 36.0);
    axis(&mut svg, &scale, bottom);
    let mut y = TOP;
    for group in groups {
        text(&mut svg, (16.0, y + 20.0), "start", TITLE, group.title);
        y += GROUP;
        for row in group.rows {
            bars(&mut svg, &scale, row, y);
            y += ROW;
        }
    }
    svg + "</svg>\n"
}

const TITLE: &str = "font-size=\"13\" font-weight=\"bold\" fill=\"#222\"";
const NAME: &str = "font-size=\"12\" fill=\"#222\"";
const NUMBER: &str = "font-size=\"10\" fill=\"#444\"";

/// The white ground, the title, the units and what the colours mean.
fn opening(height: f64) -> String {
    let mut svg = format!(
        "<svg xmlns=\"http://www.w3.org/2000/svg\" width=\"{WIDTH}\" height=\"{height}\" \
         viewBox=\"0 0 {WIDTH} {height}\" font-family=\"sans-serif\">\n"
    );
    let title = "What a call costs: the Rust and the port";
    writeln!(svg, "<title>{title}</title>").expect("a string takes all");
    rectangle(&mut svg, (0.0, 0.0), (WIDTH, height), "#ffffff");
    let large = "font-size=\"17\" font-weight=\"bold\" fill=\"#111\"";
    text(&mut svg, (16.0, 28.0), "start", large, title);
    let units = "nanoseconds a call, logarithmic scale; shorter is faster";
    text(&mut svg, (16.0, 48.0), "start", NAME, units);
    for (x, colour, side) in [
        (LEFT + 380.0, RUST, "the Rust"),
        (LEFT + 470.0, PORT, "the port"),
    ] {
        rectangle(&mut svg, (x, 17.0), (12.0, 12.0), colour);
        text(&mut svg, (x + 18.0, 27.0), "start", NAME, side);
    }
    svg
}

fn axis(svg: &mut String, scale: &Scale, bottom: f64) {
    for power in scale.low..=scale.high {
        let x = scale.place(10f64.powi(power));
        writeln!(
            svg,
            "<line x1=\"{x:.1}\" y1=\"{TOP}\" x2=\"{x:.1}\" y2=\"{bottom}\" stroke=\"#ddd\"/>"
        )
        .expect("a string takes all");
        for y in [TOP - 6.0, bottom + 16.0] {
            text(svg, (x, y), "middle", NUMBER, &unit(power));
        }
    }
}

/// A power of ten of nanoseconds, in its unit.
fn unit(power: i32) -> String {
    let (power, unit) = match power {
        ..3 => (power, "ns"),
        3..6 => (power - 3, "µs"),
        6..9 => (power - 6, "ms"),
        _ => (power - 9, "s"),
    };
    format!("{} {unit}", 10f64.powi(power))
}

fn bars(svg: &mut String, scale: &Scale, row: &Row, y: f64) {
    text(svg, (LEFT - 8.0, y + 16.0), "end", NAME, &row.name);
    let sides = [(row.rust, RUST, y + 1.0), (row.port, PORT, y + 2.0 + BAR)];
    for (cost, colour, y) in sides {
        let value = cost.value;
        let end = scale.place(value);
        rectangle(svg, (LEFT, y), (end - LEFT, BAR), colour);
        let number = nanoseconds(value);
        text(svg, (end + 4.0, y + BAR - 2.0), "start", NUMBER, &number);
    }
}

fn rectangle(svg: &mut String, (x, y): (f64, f64), (width, height): (f64, f64), colour: &str) {
    writeln!(
        svg,
        "<rect x=\"{x:.1}\" y=\"{y:.1}\" width=\"{width:.1}\" height=\"{height:.1}\" fill=\"{colour}\"/>"
    )
    .expect("a string takes all");
}

fn text(svg: &mut String, (x, y): (f64, f64), anchor: &str, style: &str, words: &str) {
    let words = words
        .replace('&', "&amp;")
        .replace('<', "&lt;")
        .replace('>', "&gt;");
    writeln!(
        svg,
        "<text x=\"{x:.1}\" y=\"{y:.1}\" text-anchor=\"{anchor}\" {style}>{words}</text>"
    )
    .expect("a string takes all");
}
