//! The picture: for each workload a bar a kernel, as times the faster baseline.

use crate::report::Row;
use std::fmt::Write;

const LEFT: f64 = 330.0;
const WIDTH: f64 = 520.0;
const RIGHT: f64 = 90.0;
const TOP: f64 = 70.0;
const BAR: f64 = 11.0;
const GAP: f64 = 14.0;
const COLOURS: [(&str, &str); 4] =
    [("product", "#1b6ca8"), ("Rust", "#d9822b"), ("C", "#8a8f98"), ("C switch", "#c3c7cd")];

/// The picture of all rows, as SVG.
pub fn picture(names: &[&str], rows: &[Row]) -> String {
    let height = TOP + rows.len() as f64 * row_height(names) + 40.0;
    let most = rows.iter().flat_map(|row| &row.times).fold(1.5, |most: f64, times| most.max(*times));
    let scale = WIDTH / most;
    let mut svg = String::new();
    let total = LEFT + WIDTH + RIGHT;
    let _ = writeln!(
        svg,
        "<svg xmlns=\"http://www.w3.org/2000/svg\" width=\"{total}\" height=\"{height}\" font-family=\"sans-serif\" font-size=\"12\">\n\
         <rect width=\"100%\" height=\"100%\" fill=\"white\"/>\n\
         <text x=\"16\" y=\"24\" font-size=\"15\">Time an event or call, as times the faster of the two baselines (shorter is faster)</text>"
    );
    legend(&mut svg, names);
    axis(&mut svg, most, scale, height);
    for (k, row) in rows.iter().enumerate() {
        bars(&mut svg, names, row, TOP + 12.0 + k as f64 * row_height(names), scale);
    }
    svg.push_str("</svg>\n");
    svg
}

fn row_height(names: &[&str]) -> f64 {
    names.len() as f64 * BAR + GAP
}

fn colour(name: &str) -> &'static str {
    COLOURS.iter().find(|(known, _)| *known == name).map_or("black", |(_, colour)| colour)
}

fn legend(svg: &mut String, names: &[&str]) {
    for (k, name) in names.iter().enumerate() {
        let x = LEFT + 110.0 * k as f64;
        let fill = colour(name);
        let _ = writeln!(
            svg,
            "<rect x=\"{x}\" y=\"36\" width=\"12\" height=\"12\" fill=\"{fill}\"/><text x=\"{}\" y=\"46\">{name}</text>",
            x + 17.0
        );
    }
}

/// A thin line at each half, a strong one at 1.00.
fn axis(svg: &mut String, most: f64, scale: f64, height: f64) {
    let step = if most > 6.0 { 1.0 } else { 0.5 };
    for k in 0..=(most / step) as usize {
        let times = k as f64 * step;
        let x = LEFT + times * scale;
        let (colour, width) = if times == 1.0 { ("#b00020", 1.5) } else { ("#dddddd", 1.0) };
        let _ = writeln!(
            svg,
            "<line x1=\"{x:.1}\" y1=\"{TOP}\" x2=\"{x:.1}\" y2=\"{:.1}\" stroke=\"{colour}\" stroke-width=\"{width}\"/>\
             <text x=\"{x:.1}\" y=\"{:.1}\" text-anchor=\"middle\" fill=\"#555555\">{times:.2}</text>",
            height - 30.0,
            height - 14.0
        );
    }
}

/// The bars of one workload, each with its nanoseconds.
fn bars(svg: &mut String, names: &[&str], row: &Row, y: f64, scale: f64) {
    let middle = y + names.len() as f64 * BAR / 2.0 + 4.0;
    let _ = writeln!(svg, "<text x=\"{:.1}\" y=\"{middle:.1}\" text-anchor=\"end\">{}</text>", LEFT - 10.0, row.name);
    for (k, name) in names.iter().enumerate() {
        let (top, width) = (y + k as f64 * BAR, row.times[k] * scale);
        let _ = writeln!(
            svg,
            "<rect x=\"{LEFT}\" y=\"{top:.1}\" width=\"{width:.1}\" height=\"{:.1}\" fill=\"{}\"/>\
             <text x=\"{:.1}\" y=\"{:.1}\" font-size=\"9\">{} ns, {:.2}</text>",
            BAR - 1.0,
            colour(name),
            LEFT + width + 4.0,
            top + 8.5,
            row.shown(k),
            row.times[k]
        );
    }
}
