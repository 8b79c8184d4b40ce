//! The chart, as SVG: the ratio of every case as a bar, and below them how the
//! cost of a call grows with its input.

use crate::growth::Series;
use std::fmt::Write;

const LEFT: f64 = 170.0;
const WIDTH: f64 = 430.0;
const RIGHT: f64 = 60.0;
const TOP: f64 = 50.0;
const ROW: f64 = 22.0;
const BAR: f64 = 14.0;
/// Bars of higher ratios are cut off here, with a gap near their end: the others
/// would be too short to tell apart.
const MOST: f64 = 1.5;

const PLAIN: &str = "#999";
const PROVED: &str = "#4a7aa7";

/// The panels of the growths: three in a row, each a square of lines with room
/// for its labels.
const PANELS: usize = 3;
const PANEL: f64 = 220.0;
const PANEL_LEFT: f64 = 52.0;
const PANEL_TOP: f64 = 34.0;
const LINES: f64 = 140.0;

/// The whole chart. Writing to a string does not fail, so what it says is not
/// looked at.
pub fn draw(ratios: &[(&str, f64)], mean: f64, series: &[Series]) -> String {
    let bars_end = TOP + ROW * ratios.len() as f64 + 40.0;
    let panels_end = bars_end + 40.0 + PANEL * series.len().div_ceil(PANELS) as f64;
    let (width, height) = (LEFT + WIDTH + RIGHT, panels_end);
    let mut svg = format!(
        r##"<svg xmlns="http://www.w3.org/2000/svg" viewBox="0 0 {width} {height}" width="{width}" height="{height}" font-family="sans-serif" font-size="12">
<rect width="100%" height="100%" fill="#fff"/>
"##
    );
    bars(&mut svg, ratios, mean);
    let _ = writeln!(
        svg,
        r##"<text x="20" y="{:.1}" font-size="14">Instructions per call by size, both logarithmic: <tspan fill="{PLAIN}">plain</tspan>, <tspan fill="{PROVED}">proved</tspan></text>"##,
        bars_end + 24.0
    );
    for (i, series) in series.iter().enumerate() {
        let x = PANEL * (i % PANELS) as f64;
        let y = bars_end + 40.0 + PANEL * (i / PANELS) as f64;
        panel(&mut svg, series, x, y);
    }
    svg.push_str("</svg>\n");
    svg
}

/// A bar for each case, as long as its ratio, and lines at 1, where both sides
/// cost the same, and at the mean.
fn bars(svg: &mut String, ratios: &[(&str, f64)], mean: f64) {
    let longest = ratios.iter().map(|&(_, ratio)| ratio).fold(1.0, f64::max).min(MOST);
    let x = |ratio: f64| LEFT + WIDTH * ratio.min(longest) / longest;
    let bottom = TOP + ROW * ratios.len() as f64;
    let _ = writeln!(
        svg,
        r##"<text x="20" y="24" font-size="14">Instructions per call, proved over plain</text>"##
    );
    for (i, &(name, ratio)) in ratios.iter().enumerate() {
        let y = TOP + ROW * i as f64;
        let base = y + BAR - 3.0;
        let _ = writeln!(
            svg,
            r##"<text x="{:.1}" y="{base:.1}" text-anchor="end">{name}</text>
<rect x="{LEFT:.1}" y="{y:.1}" width="{:.1}" height="{BAR:.1}" fill="{PROVED}"/>
<text x="{:.1}" y="{base:.1}">{ratio:.2}</text>"##,
            LEFT - 8.0,
            x(ratio) - LEFT,
            x(ratio) + 5.0,
        );
        if ratio > longest {
            let (gap, height) = (x(ratio) - 20.0, BAR + 4.0);
            let _ = writeln!(
                svg,
                r##"<path d="M{gap:.1} {:.1}l6 -{height:.1}" stroke="#fff" stroke-width="3"/>"##,
                y + BAR + 2.0
            );
        }
    }
    for (ratio, colour, label_y, label) in [
        (1.0, "#333", bottom + 14.0, "1".to_string()),
        (mean, "#b5482a", bottom + 30.0, format!("geometric mean {mean:.2}")),
    ] {
        let x = x(ratio);
        let from = TOP - 6.0;
        let _ = writeln!(
            svg,
            r##"<line x1="{x:.1}" y1="{from:.1}" x2="{x:.1}" y2="{bottom:.1}" stroke="{colour}" stroke-dasharray="4 3"/>
<text x="{x:.1}" y="{label_y:.1}" text-anchor="middle" fill="{colour}">{label}</text>"##
        );
    }
}

/// The lines of one growth, with its sizes below and powers of ten beside them.
fn panel(svg: &mut String, series: &Series, left: f64, top: f64) {
    let (left, right) = (left + PANEL_LEFT, left + PANEL_LEFT + LINES);
    let (top, bottom) = (top + PANEL_TOP, top + PANEL_TOP + LINES);
    // One more than the size, so that a size of 0 has a place.
    let across = |size: usize| (size as f64 + 1.0).ln();
    let sizes = || series.points.iter().map(|point| across(point.size));
    let (least, most) = (sizes().fold(f64::MAX, f64::min), sizes().fold(0.0, f64::max));
    let x = |size: usize| left + (right - left) * (across(size) - least) / (most - least);
    let costs = || series.points.iter().flat_map(|point| [Some(point.plain), point.proved]);
    let low = costs().flatten().fold(f64::MAX, f64::min).log10().floor();
    let high = costs().flatten().fold(1.0, f64::max).log10().ceil();
    let y = |cost: f64| bottom - (bottom - top) * (cost.log10() - low) / (high - low);

    let _ = writeln!(
        svg,
        r##"<text x="{left:.1}" y="{:.1}">{}</text>
<path d="M{left:.1} {top:.1}V{bottom:.1}H{right:.1}" fill="none" stroke="#333"/>"##,
        top - 10.0,
        series.name
    );
    for power in low as i32..=high as i32 {
        let y = y(10f64.powi(power));
        let _ = writeln!(
            svg,
            r##"<text x="{:.1}" y="{:.1}" text-anchor="end" font-size="10">10<tspan dy="-4" font-size="8">{power}</tspan></text>
<line x1="{left:.1}" y1="{y:.1}" x2="{right:.1}" y2="{y:.1}" stroke="#ddd"/>"##,
            left - 5.0,
            y + 4.0,
        );
    }
    // From the largest size down, and none too close to the one before it.
    let mut last = f64::MAX;
    for point in series.points.iter().rev() {
        let x = x(point.size);
        if last - x < 28.0 {
            continue;
        }
        last = x;
        let _ = writeln!(
            svg,
            r##"<text x="{x:.1}" y="{:.1}" text-anchor="middle" font-size="10">{}</text>"##,
            bottom + 14.0,
            point.size
        );
    }
    let line = |costs: Vec<(usize, f64)>, colour: &str| {
        let at = |&(size, cost): &(usize, f64)| format!("{:.1},{:.1}", x(size), y(cost));
        let path: Vec<String> = costs.iter().map(at).collect();
        let dots: String = path
            .iter()
            .filter_map(|at| at.split_once(','))
            .map(|(x, y)| format!(r##"<circle cx="{x}" cy="{y}" r="2.5" fill="{colour}"/>"##))
            .collect();
        let path = path.join(" ");
        format!(
            r##"<polyline points="{path}" fill="none" stroke="{colour}" stroke-width="1.5"/>{dots}
"##
        )
    };
    let plain = series.points.iter().map(|point| (point.size, point.plain)).collect();
    let proved =
        series.points.iter().filter_map(|point| Some((point.size, point.proved?))).collect();
    svg.push_str(&line(plain, PLAIN));
    svg.push_str(&line(proved, PROVED));
}
