//! The ratios as an SVG: a panel for each part, both axes logarithmic, a line for each call with its name at the right end.

use std::fmt::Write;

use super::measure::{Figures, number};

const COLORS: [&str; 11] = [
    "#0072b2", "#d55e00", "#009e73", "#882255", "#56a0d3", "#b8860b", "#cc79a7", "#332288", "#666666", "#117733",
    "#aa4499",
];
// In pixels: a panel, the space above and below it, and to its left (ticks) and right (names).
const WIDTH: f64 = 270.0;
const HEIGHT: f64 = 400.0;
const ABOVE: f64 = 76.0;
const BELOW: f64 = 60.0;
const LEFT: f64 = 82.0;
const RIGHT: f64 = 118.0;
// How far apart names stand at the least.
const LINE: f64 = 15.0;

/// What a panel's columns are, from left to right.
#[derive(Clone, Copy)]
pub struct Axis<'a> {
    pub name: &'a str,
    pub places: &'a [usize],
}

impl Axis<'_> {
    // Where a number lies in a panel, from its left.
    fn across(&self, size: usize) -> f64 {
        let [first, last] = [self.places[0], self.places[self.places.len() - 1]].map(|s| (s as f64).ln());
        WIDTH * ((size as f64).ln() - first) / (last - first)
    }
}

pub struct Panel<'a> {
    pub title: &'a str,
    pub figures: &'a Figures,
    pub axis: Axis<'a>,
}

// Moves places apart that are in order, as little as that takes, so that none is below the lowest.
fn apart(places: &mut [f64], lowest: f64) {
    for i in 1..places.len() {
        places[i] = places[i].max(places[i - 1] + LINE);
    }
    let mut limit = lowest;
    for place in places.iter_mut().rev() {
        *place = place.min(limit);
        limit = *place - LINE;
    }
}

// Ratios for the axis, from the least to the most: 1, 2 and 5 of each power of ten, or the powers alone where those are many.
fn ticks(least: f64, most: f64) -> Vec<f64> {
    let among = |steps: &[f64]| -> Vec<f64> {
        let powers = (-3..7).map(|power| 10f64.powi(power));
        let all: Vec<f64> = powers.flat_map(|p| steps.iter().map(move |s| s * p)).collect();
        let first = all.iter().rposition(|t| *t <= least).unwrap_or(0);
        let last = all.iter().position(|t| *t >= most).unwrap_or(all.len() - 1).max(first + 1);
        all[first..=last].to_vec()
    };
    let fine = among(&[1.0, 2.0, 5.0]);
    if fine.len() <= 10 { fine } else { among(&[1.0]) }
}

fn panel(svg: &mut String, panel: &Panel, from: f64) -> std::fmt::Result {
    let ratios = |label: usize| panel.figures.columns.iter().map(move |c| c[label].ratio());
    let labels = panel.figures.labels;
    let (least, most) =
        (0..labels.len()).flat_map(ratios).fold((1.0f64, 1.0f64), |(least, most), r| (least.min(r), most.max(r)));
    let ticks = ticks(least, most);
    let (bottom, top) = (ticks[0].log10(), ticks[ticks.len() - 1].log10());
    let down = |ratio: f64| ABOVE + HEIGHT * (top - ratio.log10()) / (top - bottom);
    let right = from + WIDTH;
    let below = ABOVE + HEIGHT;

    writeln!(svg, r#"<text x="{from}" y="{:.1}" class="title">{}</text>"#, ABOVE - 16.0, panel.title)?;
    for &size in panel.axis.places {
        let x = from + panel.axis.across(size);
        writeln!(svg, r#"<line x1="{x:.1}" y1="{ABOVE}" x2="{x:.1}" y2="{below}" class="grid"/>"#)?;
        let told = number(size as f64);
        writeln!(svg, r#"<text x="{x:.1}" y="{:.1}" class="middle">{told}</text>"#, below + 18.0)?;
    }
    for ratio in ticks {
        let y = down(ratio);
        let class = if ratio == 1.0 { "one" } else { "grid" };
        let told = if ratio < 100.0 { format!("{ratio}") } else { number(ratio) };
        writeln!(svg, r#"<line x1="{from}" y1="{y:.1}" x2="{right}" y2="{y:.1}" class="{class}"/>"#)?;
        writeln!(svg, r#"<text x="{:.1}" y="{:.1}" class="left">{told}</text>"#, from - 8.0, y + 4.0)?;
    }
    writeln!(
        svg,
        r#"<text x="{:.1}" y="{:.1}" class="middle">{}</text>"#,
        from + WIDTH / 2.0,
        below + 38.0,
        panel.axis.name
    )?;

    let last = |label: usize| down(ratios(label).next_back().unwrap_or(1.0));
    let mut order: Vec<usize> = (0..labels.len()).collect();
    order.sort_by(|a, b| last(*a).total_cmp(&last(*b)));
    let mut places: Vec<f64> = order.iter().map(|label| last(*label)).collect();
    apart(&mut places, below);
    for (label, place) in order.into_iter().zip(places) {
        let color = COLORS[label % COLORS.len()];
        let points: Vec<String> = panel
            .axis
            .places
            .iter()
            .zip(ratios(label))
            .map(|(size, ratio)| format!("{:.1},{:.1}", from + panel.axis.across(*size), down(ratio)))
            .collect();
        writeln!(svg, r#"<polyline points="{}" stroke="{color}" class="ratio"/>"#, points.join(" "))?;
        for point in &points {
            let (x, y) = point.split_once(',').unwrap_or_default();
            writeln!(svg, r#"<circle cx="{x}" cy="{y}" r="2.6" fill="{color}"/>"#)?;
        }
        let (x, y) = (right + 16.0, last(label));
        writeln!(
            svg,
            r#"<line x1="{:.1}" y1="{y:.1}" x2="{:.1}" y2="{place:.1}" stroke="{color}" stroke-width="0.8"/>"#,
            right + 4.0,
            x - 2.0
        )?;
        writeln!(svg, r#"<text x="{x:.1}" y="{:.1}" fill="{color}">{}</text>"#, place + 4.0, labels[label])?;
    }
    Ok(())
}

fn draw(panels: &[Panel]) -> Result<String, std::fmt::Error> {
    let each = LEFT + WIDTH + RIGHT;
    let (width, height) = (each * panels.len() as f64, ABOVE + HEIGHT + BELOW);
    let mut svg = String::new();
    writeln!(
        svg,
        r#"<svg xmlns="http://www.w3.org/2000/svg" width="{width}" height="{height}" viewBox="0 0 {width} {height}">"#
    )?;
    svg.push_str(
        "<style>
text { font: 12px sans-serif; } .title { font: bold 13px sans-serif; } .head { font: bold 15px sans-serif; }
.left { text-anchor: end; fill: #444; } .middle { text-anchor: middle; fill: #444; }
.grid { stroke: #e2e2e2; } .one { stroke: #333; stroke-width: 1.4; } .ratio { fill: none; stroke-width: 1.8; }
</style>
",
    );
    writeln!(svg, r##"<rect width="{width}" height="{height}" fill="#ffffff"/>"##)?;
    writeln!(
        svg,
        r#"<text x="{LEFT}" y="26" class="head">Time of the library / time of IntervalBitSet (below 1 the library is faster)</text>"#
    )?;
    for (i, p) in panels.iter().enumerate() {
        panel(&mut svg, p, each * i as f64 + LEFT)?;
    }
    svg.push_str("</svg>\n");
    Ok(svg)
}

/// Writes the panels to a file.
pub fn write(path: &str, panels: &[Panel]) {
    let svg = draw(panels).expect("a string takes all");
    if let Err(error) = std::fs::write(path, svg) {
        eprintln!("{path}: {error}");
    }
}
