//! The cost by size as a picture: SVG, one panel for each unit, both axes logarithmic, a line for each row and contestant.

use crate::sizes::{Line, Row, SIZES};
use std::fmt::Write;

const WIDTH: f64 = 960.0;
const HEIGHT: f64 = 560.0;
/// Where a panel's axes are: from its own left edge, and from the picture's upper one.
const PANEL: f64 = WIDTH / 2.0;
const LEFT: f64 = 76.0;
const RIGHT: f64 = PANEL - 20.0;
const TOP: f64 = 84.0;
const BOTTOM: f64 = 424.0;
/// Dark enough on white to be told apart.
const COLOURS: [&str; 5] = ["#1f5fa8", "#c2571a", "#1b7f4d", "#8a3fa0", "#b3261e"];
const INK: &str = "#222222";
const GRID: &str = "#dddddd";

/// A logarithmic axis, from one number at one end to another at the other.
struct Axis {
    from: f64,
    to: f64,
    begin: f64,
    end: f64,
}

impl Axis {
    fn at(&self, value: f64) -> f64 {
        self.begin + (self.end - self.begin) * (value / self.from).ln() / (self.to / self.from).ln()
    }
}

/// 1, 2, 5, 10, 20 and so on, from the last that is at most the least value to the first that is at least the greatest.
fn ticks(least: f64, greatest: f64) -> Vec<f64> {
    let all: Vec<f64> = (-3..12).flat_map(|power| [1.0, 2.0, 5.0].map(|digit| digit * 10f64.powi(power))).collect();
    let first = all.iter().rposition(|&tick| tick <= least).unwrap_or(0);
    let last = all.iter().position(|&tick| tick >= greatest).unwrap_or(all.len() - 1);
    all[first..=last.max(first + 1)].to_vec()
}

/// With a comma after the thousands.
fn named(number: f64) -> String {
    if number < 1000.0 {
        return format!("{number}");
    }
    let whole = number.round() as u64;
    let (above, below) = (whole / 1000, whole % 1000);
    format!("{},{below:03}", named(above as f64))
}

fn text(out: &mut String, x: f64, y: f64, anchor: &str, words: &str) {
    writeln!(out, r#"<text x="{x:.1}" y="{y:.1}" text-anchor="{anchor}">{words}</text>"#).expect("a string");
}

fn segment(out: &mut String, (x1, y1): (f64, f64), (x2, y2): (f64, f64), colour: &str) {
    writeln!(out, r#"<line x1="{x1:.1}" y1="{y1:.1}" x2="{x2:.1}" y2="{y2:.1}" stroke="{colour}"/>"#).expect("a string");
}

/// A contestant's line: the library's is whole and has full dots, the others' are dashed and have empty ones.
fn curve(out: &mut String, points: &[(f64, f64, String)], colour: &str, whole: bool) {
    let path: Vec<String> = points.iter().map(|(x, y, _)| format!("{x:.1},{y:.1}")).collect();
    let (dashes, fill) = if whole { ("", colour) } else { (r#" stroke-dasharray="6 4""#, "#ffffff") };
    writeln!(out, r#"<polyline points="{}" fill="none" stroke="{colour}" stroke-width="2"{dashes}/>"#, path.join(" ")).expect("a string");
    for (x, y, says) in points {
        let title = if says.is_empty() { String::new() } else { format!("<title>{says}</title>") };
        writeln!(out, r#"<circle cx="{x:.1}" cy="{y:.1}" r="4" fill="{fill}" stroke="{colour}" stroke-width="1.5">{title}</circle>"#)
            .expect("a string");
    }
}

/// One unit's rows, with the colours that they have; the panel begins at `x`.
fn panel(out: &mut String, x: f64, unit: &str, rows: &[(&Row, &str)]) {
    let values: Vec<f64> =
        rows.iter().flat_map(|(row, _)| &row.lines).flat_map(|line| line.ns.iter().copied()).filter(|&ns| ns > 0.0).collect();
    let ticks = ticks(values.iter().copied().fold(f64::INFINITY, f64::min), values.iter().copied().fold(0.0, f64::max));
    let sizes = Axis { from: SIZES[0] as f64 / 1.3, to: SIZES[SIZES.len() - 1] as f64 * 1.3, begin: x + LEFT, end: x + RIGHT };
    let costs = Axis { from: ticks[0], to: ticks[ticks.len() - 1], begin: BOTTOM, end: TOP };
    text(out, x + LEFT, TOP - 14.0, "start", &format!("nanoseconds a {unit}"));
    for &tick in &ticks {
        let y = costs.at(tick);
        segment(out, (x + LEFT, y), (x + RIGHT, y), GRID);
        // Of many lines only the powers of ten are named.
        if ticks.len() <= 9 || (tick.log10() - tick.log10().round()).abs() < 1e-9 {
            text(out, x + LEFT - 8.0, y + 4.0, "end", &named(tick));
        }
    }
    for size in SIZES {
        let at = sizes.at(size as f64);
        segment(out, (at, TOP), (at, BOTTOM), GRID);
        text(out, at, BOTTOM + 20.0, "middle", &named(size as f64));
    }
    segment(out, (x + LEFT, TOP), (x + LEFT, BOTTOM), INK);
    segment(out, (x + LEFT, BOTTOM), (x + RIGHT, BOTTOM), INK);
    text(out, x + (LEFT + RIGHT) / 2.0, BOTTOM + 42.0, "middle", "C, slots");
    for (row, colour) in rows {
        for (i, Line { contestant, ns }) in row.lines.iter().enumerate() {
            let points = SIZES.iter().zip(ns).filter(|(_, &ns)| ns > 0.0);
            let says = |size: f64, ns: f64| format!("{}, {contestant}, C = {}: {ns:.1} ns a {unit}", row.name, named(size));
            let points: Vec<_> = points.map(|(&size, &ns)| (sizes.at(size as f64), costs.at(ns), says(size as f64, ns))).collect();
            curve(out, &points, colour, i == 0);
        }
    }
    for (i, (row, colour)) in rows.iter().enumerate() {
        legend(out, x + LEFT, BOTTOM + 70.0 + 20.0 * i as f64, row.name, colour, true);
    }
}

fn legend(out: &mut String, x: f64, y: f64, name: &str, colour: &str, whole: bool) {
    curve(out, &[(x, y - 4.0, String::new()), (x + 36.0, y - 4.0, String::new())], colour, whole);
    text(out, x + 48.0, y, "start", name);
}

/// The whole picture, on white whatever it is shown on.
pub fn svg(rows: &[Row]) -> String {
    let mut out = format!(
        r#"<svg xmlns="http://www.w3.org/2000/svg" viewBox="0 0 {WIDTH} {HEIGHT}" width="{WIDTH}" height="{HEIGHT}" font-family="system-ui, 'DejaVu Sans', sans-serif" font-size="13" fill="{INK}">
<title>Cost against size: nanoseconds by the number of slots, for the library and its cousin</title>
<rect width="{WIDTH}" height="{HEIGHT}" fill="white"/>
"#
    );
    text(&mut out, LEFT, 34.0, "start", "Cost against size: C slots, filled with (C + 1) / 2 keys");
    let coloured: Vec<(&Row, &str)> = rows.iter().zip(COLOURS).collect();
    for (i, unit) in ["slot", "step"].into_iter().enumerate() {
        let some: Vec<_> = coloured.iter().copied().filter(|(row, _)| row.unit == unit).collect();
        panel(&mut out, i as f64 * PANEL, unit, &some);
    }
    for (i, line) in rows[0].lines.iter().enumerate() {
        legend(&mut out, PANEL + LEFT + 150.0 * i as f64, 34.0, line.contestant, INK, i == 0);
    }
    out + "</svg>\n"
}
