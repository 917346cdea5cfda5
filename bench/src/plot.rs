//! The plot of growth: mean times against the count of literals, on a scale of powers of ten.

use crate::measure::Growth;
use std::fmt::Write;

const WIDE: f64 = 820.0;
const HIGH: f64 = 500.0;
const LEFT: f64 = 90.0;
const RIGHT: f64 = 620.0;
const TOP: f64 = 60.0;
const BOTTOM: f64 = 430.0;
/// The least distance of two labels.
const GAP: f64 = 20.0;

struct Line {
    label: &'static str,
    colour: &'static str,
    dashes: &'static str,
    points: Vec<(usize, f64)>,
}

fn lines(growth: &Growth) -> Vec<Line> {
    let covers = "none";
    let joins = "7 4";
    let line = |label, colour, dashes, points| Line { label, colour, dashes, points };
    let rows = &growth.literals;
    vec![
        line("join, library", "#b3261e", joins, rows.iter().map(|r| (r.0, r.2.library.mean)).collect()),
        line("join, plain Rust", "#1f5fa8", joins, rows.iter().map(|r| (r.0, r.2.plain.mean)).collect()),
        line("covers, library", "#b3261e", covers, rows.iter().map(|r| (r.0, r.1.library.mean)).collect()),
        line("covers, plain Rust", "#1f5fa8", covers, rows.iter().map(|r| (r.0, r.1.plain.mean)).collect()),
    ]
}

/// Where values stand in the plot.
struct Scale {
    least: usize,
    most: usize,
    low: i32,
    high: i32,
}

impl Scale {
    fn of(lines: &[Line]) -> Scale {
        let points = || lines.iter().flat_map(|line| &line.points);
        let logs = || points().map(|point| point.1.log10());
        Scale {
            least: points().map(|point| point.0).min().unwrap_or(0),
            most: points().map(|point| point.0).max().unwrap_or(1),
            low: logs().fold(f64::INFINITY, f64::min).floor() as i32,
            high: logs().fold(f64::NEG_INFINITY, f64::max).ceil() as i32,
        }
    }

    fn x(&self, literals: usize) -> f64 {
        LEFT + (RIGHT - LEFT) * (literals - self.least) as f64 / (self.most - self.least) as f64
    }

    fn y(&self, time: f64) -> f64 {
        BOTTOM - (BOTTOM - TOP) * (time.log10() - self.low as f64) / (self.high - self.low) as f64
    }
}

pub fn growth(growth: &Growth) -> String {
    let lines = lines(growth);
    let scale = Scale::of(&lines);
    let mut svg = format!(
        "<svg xmlns=\"http://www.w3.org/2000/svg\" viewBox=\"0 0 {WIDE} {HIGH}\" width=\"{WIDE}\" height=\"{HIGH}\" \
         font-family=\"sans-serif\" font-size=\"15\">\n\
         <title>Mean time of a call against the count of literals of each record</title>\n\
         <rect width=\"{WIDE}\" height=\"{HIGH}\" fill=\"white\"/>\n\
         <text x=\"{LEFT}\" y=\"32\" font-size=\"17\">Mean time of a call, by the count of literals of each record</text>\n"
    );
    let counts = growth.literals.iter().map(|row| row.0);
    axes(&mut svg, &scale, counts).expect("text can be written");
    for line in &lines {
        draw(&mut svg, &scale, line).expect("text can be written");
    }
    labels(&mut svg, &scale, &lines).expect("text can be written");
    svg + "</svg>\n"
}

fn axes(svg: &mut String, scale: &Scale, counts: impl Iterator<Item = usize>) -> std::fmt::Result {
    for power in scale.low..=scale.high {
        let y = scale.y(10f64.powi(power));
        writeln!(svg, "<line x1=\"{LEFT}\" y1=\"{y:.1}\" x2=\"{RIGHT}\" y2=\"{y:.1}\" stroke=\"#ccc\"/>")?;
        let label = unit(power);
        writeln!(svg, "<text x=\"{:.1}\" y=\"{:.1}\" text-anchor=\"end\">{label}</text>", LEFT - 10.0, y + 5.0)?;
    }
    for count in counts {
        let x = scale.x(count);
        writeln!(
            svg,
            "<line x1=\"{x:.1}\" y1=\"{BOTTOM}\" x2=\"{x:.1}\" y2=\"{:.1}\" stroke=\"#666\"/>",
            BOTTOM + 6.0
        )?;
        writeln!(svg, "<text x=\"{x:.1}\" y=\"{:.1}\" text-anchor=\"middle\">{count}</text>", BOTTOM + 24.0)?;
    }
    let middle = (LEFT + RIGHT) / 2.0;
    writeln!(svg, "<text x=\"{middle:.1}\" y=\"{:.1}\" text-anchor=\"middle\">literals</text>", BOTTOM + 50.0)
}

/// A power of ten, of microseconds.
fn unit(power: i32) -> String {
    match power {
        3.. => format!("{} ms", 10i64.pow(power as u32 - 3)),
        0..=2 => format!("{} µs", 10i64.pow(power as u32)),
        _ => format!("{} ns", 10f64.powi(power + 3)),
    }
}

fn draw(svg: &mut String, scale: &Scale, line: &Line) -> std::fmt::Result {
    let places: Vec<(f64, f64)> = line.points.iter().map(|&(count, time)| (scale.x(count), scale.y(time))).collect();
    let joined: Vec<String> = places.iter().map(|(x, y)| format!("{x:.1},{y:.1}")).collect();
    let (colour, dashes) = (line.colour, line.dashes);
    writeln!(
        svg,
        "<polyline points=\"{}\" fill=\"none\" stroke=\"{colour}\" stroke-width=\"2\" stroke-dasharray=\"{dashes}\"/>",
        joined.join(" ")
    )?;
    for (x, y) in places {
        writeln!(svg, "<circle cx=\"{x:.1}\" cy=\"{y:.1}\" r=\"3.5\" fill=\"{colour}\"/>")?;
    }
    Ok(())
}

/// A label beside the end of each line, moved down where it would touch the one above.
fn labels(svg: &mut String, scale: &Scale, lines: &[Line]) -> std::fmt::Result {
    let end = |line: &Line| line.points.last().map_or(BOTTOM, |point| scale.y(point.1));
    let mut sorted: Vec<&Line> = lines.iter().collect();
    sorted.sort_by(|a, b| end(a).total_cmp(&end(b)));
    let mut free = TOP;
    for line in sorted {
        let y = end(line).max(free);
        free = y + GAP;
        let (x, colour, label) = (RIGHT + 14.0, line.colour, line.label);
        writeln!(svg, "<text x=\"{x:.1}\" y=\"{:.1}\" fill=\"{colour}\">{label}</text>", y + 5.0)?;
    }
    Ok(())
}
