//! Draws panels of lines as an SVG picture: three in a row, and a legend in the next place.

use std::fmt::Write;

/// How a line is drawn, and what the legend calls it.
#[derive(Clone, Copy, PartialEq)]
pub struct Style {
    pub name: &'static str,
    pub colour: &'static str,
    /// Lengths of strokes and gaps; empty for a solid line.
    pub dashes: &'static str,
}

/// Lines over the same places, both axes from 0.
pub struct Panel {
    pub title: &'static str,
    pub down: &'static str,
    pub across: &'static str,
    pub places: Vec<usize>,
    pub lines: Vec<(Style, Vec<f64>)>,
}

type Point = (f64, f64);

const WIDTH: f64 = 300.0;
const HEIGHT: f64 = 220.0;
const LEFT: f64 = 64.0;
const TOP: f64 = 48.0;
const STRIDE: Point = (LEFT + WIDTH + 24.0, TOP + HEIGHT + 64.0);
const IN_A_ROW: usize = 3;

/// Where the axes of the panel at a place begin.
fn corner(place: usize) -> Point {
    let (row, column) = (place / IN_A_ROW, place % IN_A_ROW);
    let x = LEFT + STRIDE.0 * column as f64;
    (x, TOP + STRIDE.1 * row as f64)
}

/// The picture of all panels; the note's lines stand above the legend.
pub fn drawn(panels: &[Panel], note: &[&str]) -> String {
    let rows = panels.len() / IN_A_ROW + 1;
    let (wide, high) = (STRIDE.0 * IN_A_ROW as f64, STRIDE.1 * rows as f64);
    let mut svg = format!(
        "<svg xmlns=\"http://www.w3.org/2000/svg\" viewBox=\"0 0 {wide} {high}\" \
         width=\"{wide}\" height=\"{high}\" font-family=\"sans-serif\" font-size=\"12\">\n\
         <rect width=\"{wide}\" height=\"{high}\" fill=\"white\"/>\n"
    );
    for (place, panel) in panels.iter().enumerate() {
        draw_panel(&mut svg, panel, corner(place));
    }
    draw_legend(&mut svg, panels, note, corner(panels.len()));
    svg + "</svg>\n"
}

/// Every style once, in the order of first use.
fn draw_legend(svg: &mut String, panels: &[Panel], note: &[&str], (left, top): Point) {
    let mut styles: Vec<Style> = Vec::new();
    for (style, _) in panels.iter().flat_map(|panel| &panel.lines) {
        if !styles.contains(style) {
            styles.push(*style);
        }
    }
    let mut y = top + 8.0;
    for line in note {
        draw_text(svg, (left, y), "start", line);
        y += 16.0;
    }
    for style in styles {
        y += 22.0;
        let middle = y - 4.0;
        draw_series(svg, &style, &[(left + 4.0, middle), (left + 64.0, middle)]);
        draw_text(svg, (left + 78.0, y), "start", style.name);
    }
}

fn draw_panel(svg: &mut String, panel: &Panel, (left, top): Point) {
    let values = panel.lines.iter().flat_map(|(_, values)| values);
    let most = values.copied().fold(0.0, f64::max);
    let unit = tick(most);
    let marks = (most / unit).ceil();
    let last = panel.places.last().copied().unwrap_or(1);
    let x = |place: usize| left + WIDTH * place as f64 / last as f64;
    let y = |value: f64| top + HEIGHT * (1.0 - value / (unit * marks));
    draw_text(svg, (left, top - 28.0), "start", panel.title);
    draw_text(svg, (left, top - 12.0), "start", panel.down);
    for value in (0..=marks as usize).map(|mark| unit * mark as f64) {
        draw_path(svg, (left, y(value)), &format!("h{WIDTH}"), "#ddd");
        let beside = (left - 6.0, y(value) + 4.0);
        draw_text(svg, beside, "end", &label(value, unit));
    }
    draw_path(svg, (left, top), &format!("v{HEIGHT} h{WIDTH}"), "#333");
    let under = top + HEIGHT + 18.0;
    for &place in &panel.places {
        draw_text(svg, (x(place), under), "middle", &place.to_string());
    }
    let middle = left + WIDTH / 2.0;
    draw_text(svg, (middle, under + 20.0), "middle", panel.across);
    for (style, values) in &panel.lines {
        let places = panel.places.iter().map(|&place| x(place));
        let points: Vec<Point> = places.zip(values.iter().map(|&v| y(v))).collect();
        draw_series(svg, style, &points);
    }
}

fn draw_path(svg: &mut String, (x, y): Point, way: &str, colour: &str) {
    let way = format!("M{x:.1} {y:.1} {way}");
    let _ = writeln!(svg, "<path d=\"{way}\" fill=\"none\" stroke=\"{colour}\"/>");
}

fn draw_text(svg: &mut String, (x, y): Point, anchor: &str, text: &str) {
    let _ = writeln!(
        svg,
        "<text x=\"{x:.1}\" y=\"{y:.1}\" text-anchor=\"{anchor}\">{text}</text>"
    );
}

fn draw_series(svg: &mut String, style: &Style, points: &[Point]) {
    let Style { colour, dashes, .. } = style;
    let path: Vec<String> = points
        .iter()
        .map(|(x, y)| format!("{x:.1},{y:.1}"))
        .collect();
    let path = path.join(" ");
    let _ = writeln!(
        svg,
        "<polyline points=\"{path}\" fill=\"none\" stroke=\"{colour}\" stroke-width=\"2\" \
         stroke-dasharray=\"{dashes}\"/>"
    );
    for (x, y) in points {
        let _ = writeln!(
            svg,
            "<circle cx=\"{x:.1}\" cy=\"{y:.1}\" r=\"3\" fill=\"{colour}\"/>"
        );
    }
}

/// A round distance of axis marks, so that there are four to ten of them.
fn tick(most: f64) -> f64 {
    let power = 10f64.powf(most.max(1e-3).log10().floor());
    let units = [0.1, 0.2, 0.5, 1.0, 2.0];
    let unit = units
        .iter()
        .map(|unit| unit * power)
        .find(|unit| most / unit <= 8.0);
    unit.unwrap_or(power)
}

/// A value on an axis, with a comma before its thousands.
fn label(value: f64, unit: f64) -> String {
    if unit < 1.0 {
        return format!("{value:.1}");
    }
    let whole = value.round() as usize;
    match whole / 1_000 {
        0 => whole.to_string(),
        thousands => format!("{thousands},{:03}", whole % 1_000),
    }
}
