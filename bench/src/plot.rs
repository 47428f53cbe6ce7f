//! Line plots as SVG: the cost of a step against a size, one panel each.

use crate::growth::Point;
use std::fmt::Write;

pub struct Panel {
    pub title: &'static str,
    pub points: Vec<Point>,
}

const WIDTH: f64 = 300.0;
const HEIGHT: f64 = 240.0;
const LEFT: f64 = 60.0;
const RIGHT: f64 = 15.0;
const TOP: f64 = 40.0;
const BOTTOM: f64 = 40.0;
const LOOKUP: &str = "#1b6ca8";
const EARS: &str = "#c2571a";

/// The lines of a panel: a colour, and a point's value.
type Line = (&'static str, fn(&Point) -> f64);
const LINES: [Line; 2] = [(LOOKUP, |p| p.lookup), (EARS, |p| p.ears)];

/// Panels side by side, with one scale upwards.
pub fn draw(panels: &[Panel]) -> String {
    let values = panels
        .iter()
        .flat_map(|p| p.points.iter())
        .flat_map(|p| [p.lookup, p.ears]);
    let top = scale(values.fold(0.0, f64::max));
    let (width, height) = (WIDTH * panels.len() as f64, HEIGHT + 25.0);
    let mut out = format!(
        "<svg xmlns=\"http://www.w3.org/2000/svg\" viewBox=\"0 0 {width} {height}\" font-family=\"sans-serif\" font-size=\"11\">\n\
         <rect width=\"{width}\" height=\"{height}\" fill=\"white\"/>\n"
    );
    for (i, panel) in panels.iter().enumerate() {
        draw_panel(&mut out, panel, i as f64 * WIDTH, top);
    }
    legend(&mut out, HEIGHT + 12.0);
    out.push_str("</svg>\n");
    out
}

/// A round number at or above the largest value.
fn scale(largest: f64) -> f64 {
    let unit = 10f64.powf(largest.log10().floor());
    (largest / unit).ceil() * unit
}

fn draw_panel(out: &mut String, panel: &Panel, left: f64, top: f64) {
    let (x0, x1) = (left + LEFT, left + WIDTH - RIGHT);
    let (y0, y1) = (HEIGHT - BOTTOM, TOP);
    let count = panel.points.len() as f64;
    let x = |i: usize| x0 + (x1 - x0) * (i as f64 + 0.5) / count;
    let y = |v: f64| y0 + (y1 - y0) * v / top;
    let _ = writeln!(
        out,
        "<text x=\"{x0}\" y=\"{}\" font-weight=\"bold\">{}</text>",
        TOP - 15.0,
        panel.title
    );
    for part in 0..=4 {
        let v = top * part as f64 / 4.0;
        let _ = writeln!(
            out,
            "<line x1=\"{x0}\" x2=\"{x1}\" y1=\"{0:.1}\" y2=\"{0:.1}\" stroke=\"#ddd\"/>",
            y(v)
        );
        let _ = writeln!(
            out,
            "<text x=\"{}\" y=\"{:.1}\" text-anchor=\"end\">{v:.0} ns</text>",
            x0 - 4.0,
            y(v) + 4.0
        );
    }
    for (i, point) in panel.points.iter().enumerate() {
        let _ = writeln!(
            out,
            "<text x=\"{:.1}\" y=\"{}\" text-anchor=\"middle\">{}</text>",
            x(i),
            y0 + 16.0,
            point.at
        );
    }
    for (colour, value) in LINES {
        let line: Vec<String> = panel
            .points
            .iter()
            .enumerate()
            .map(|(i, p)| format!("{:.1},{:.1}", x(i), y(value(p))))
            .collect();
        let _ = writeln!(
            out,
            "<polyline points=\"{}\" fill=\"none\" stroke=\"{colour}\" stroke-width=\"2\"/>",
            line.join(" ")
        );
        for place in &line {
            let (cx, cy) = place.split_once(',').expect("two numbers");
            let _ = writeln!(
                out,
                "<circle cx=\"{cx}\" cy=\"{cy}\" r=\"3\" fill=\"{colour}\"/>"
            );
        }
    }
}

fn legend(out: &mut String, y: f64) {
    for (x, colour, words) in [
        (LEFT, LOOKUP, "steps of lookups"),
        (LEFT + 140.0, EARS, "steps of both ears"),
    ] {
        let _ = writeln!(
            out,
            "<circle cx=\"{x}\" cy=\"{}\" r=\"4\" fill=\"{colour}\"/>",
            y - 4.0
        );
        let _ = writeln!(out, "<text x=\"{}\" y=\"{y}\">{words}</text>", x + 8.0);
    }
}
