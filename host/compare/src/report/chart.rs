//! The chart of the calls as SVG: for each call beside the Rust where its ratios lie. It has a ground of its own, so
//! that it can be read on any page, and turns dark where the reader's system is.

use std::fmt::Write;

use super::rows::{Beside, Row};
use super::table::{by_call, milliseconds, Summary};

/// The picture's width, the plot's left and right edges, its top, and the height of a call's band.
const WIDE: f64 = 920.0;
const LEFT: f64 = 140.0;
const RIGHT: f64 = 690.0;
const TOP: f64 = 114.0;
const BAND: f64 = 28.0;
/// Below the plot: the axis with its numbers and its name.
const FOOT: f64 = 66.0;
/// The right edges of the columns of numbers.
const COLUMNS: [(f64, &str); 3] = [(748.0, "median"), (812.0, "worst"), (896.0, "ms a frame")];

const STYLE: &str = "
  text { font: 13px system-ui, 'Segoe UI', Roboto, Helvetica, Arial, sans-serif; fill: #1f2328; }
  .title { font-size: 17px; font-weight: 600; }
  .small, .number { font-size: 12px; }
  .small { fill: #57606a; }
  .end { text-anchor: end; }
  .middle { text-anchor: middle; }
  .ground { fill: #ffffff; stroke: #d0d7de; }
  .grid { stroke: #d8dee4; }
  .reach { stroke: #57606a; stroke-width: 1.5; }
  .half { fill: #54aeae; }
  .median { fill: #0a3069; stroke: #ffffff; stroke-width: 1.5; }
  .even { stroke: #cf222e; stroke-width: 1.5; stroke-dasharray: 5 4; }
  .even-name { fill: #cf222e; }
  @media (prefers-color-scheme: dark) {
    text { fill: #e6edf3; }
    .small { fill: #9ea7b3; }
    .ground { fill: #0d1117; stroke: #30363d; }
    .grid { stroke: #272d35; }
    .reach { stroke: #9ea7b3; }
    .half { fill: #2f7f86; }
    .median { fill: #cae8ff; stroke: #0d1117; }
    .even { stroke: #ff7b72; }
    .even-name { fill: #ff7b72; }
  }
";

/// The ratios from 0 to the right edge, with a step between two numbers of the axis.
struct Axis {
    most: f64,
    step: f64,
}

impl Axis {
    /// From 0 to 1, the Rust's time, and so far beyond as the worst ratio needs; at most ten numbers.
    fn of(worst: f64) -> Self {
        let steps = [0.1, 0.2, 0.5, 1.0, 2.0, 5.0, 10.0];
        let step = steps.into_iter().find(|step| worst.max(1.0) / step <= 10.0);
        let step = step.unwrap_or(worst / 10.0);
        let most = (worst.max(1.0) / step - 1e-9).ceil() * step;
        Self { most, step }
    }

    fn x(&self, ratio: f64) -> f64 {
        LEFT + (RIGHT - LEFT) * ratio / self.most
    }

    fn ticks(&self) -> impl Iterator<Item = f64> + '_ {
        let count = (self.most / self.step).round() as usize;
        (0..=count).map(|number| number as f64 * self.step)
    }
}

/// The chart of these rows; none where nothing stands beside the Rust.
pub fn chart(rows: &[Row]) -> Option<String> {
    let calls = by_call(rows, Beside::Rust);
    if calls.is_empty() {
        return None;
    }
    let worst = calls.iter().map(|call| call.worst().ratio);
    let axis = Axis::of(worst.fold(0.0, f64::max));
    let bottom = TOP + BAND * calls.len() as f64;
    let high = bottom + FOOT;
    let mut svg = format!(
        "<svg xmlns=\"http://www.w3.org/2000/svg\" viewBox=\"0 0 {WIDE} {high}\" width=\"{WIDE}\" height=\"{high}\" \
         role=\"img\" aria-labelledby=\"name\">\n<title id=\"name\">{}</title>\n<style>{STYLE}</style>\n",
        alone(&calls)
    );
    let _ = writeln!(
        svg,
        "<rect class=\"ground\" x=\"0.5\" y=\"0.5\" width=\"{}\" height=\"{}\" rx=\"6\"/>",
        WIDE - 1.0,
        high - 1.0
    );
    head(&mut svg);
    scale(&mut svg, &axis, bottom);
    for (number, call) in calls.iter().enumerate() {
        band(&mut svg, &axis, call, TOP + BAND * (number as f64 + 0.5));
    }
    Some(svg + "</svg>\n")
}

/// What the chart shows, for a reader who does not see it.
fn alone(calls: &[Summary<'_>]) -> String {
    let ratio = |call: &Summary<'_>| format!("{} {:.2}", escaped(call.call), call.ratio(50));
    let ratios: Vec<String> = calls.iter().map(ratio).collect();
    format!(
        "Time of each call as a share of the Rust's, median: {}",
        ratios.join(", ")
    )
}

fn head(svg: &mut String) {
    text(
        svg,
        "title",
        (20.0, 32.0),
        "Time of each call as a share of the Rust's time",
    );
    let words = [
        "Dot: the median of all workloads and sizes. Bar: their middle half. Line: the least to the worst.",
        "ms a frame: our time for a frame of 1920×1080.",
    ];
    for (words, y) in words.into_iter().zip([54.0, 72.0]) {
        text(svg, "small", (20.0, y), words);
    }
    for (x, name) in COLUMNS {
        text(svg, "small end", (x, TOP - 12.0), name);
    }
}

/// The grid, the numbers of the axis and its name, and the line where both sides take the same time.
fn scale(svg: &mut String, axis: &Axis, bottom: f64) {
    for ratio in axis.ticks() {
        let x = axis.x(ratio);
        line(svg, "grid", (x, TOP), (x, bottom + 4.0));
        text(
            svg,
            "number middle",
            (x, bottom + 20.0),
            &format!("{ratio:.1}"),
        );
    }
    let middle = (LEFT + RIGHT) / 2.0;
    let name = "ours / Rust (1 is the same time; the further left, the faster)";
    text(svg, "small middle", (middle, bottom + 46.0), name);
    let even = axis.x(1.0);
    line(svg, "even", (even, TOP - 6.0), (even, bottom));
    text(svg, "small end even-name", (even, TOP - 12.0), "the Rust");
}

/// One call's band, about this height.
fn band(svg: &mut String, axis: &Axis, call: &Summary<'_>, y: f64) {
    let at = |hundredths: usize| axis.x(call.ratio(hundredths));
    text(svg, "end", (LEFT - 12.0, y + 4.5), call.call);
    line(svg, "reach", (at(0), y), (at(100), y));
    for end in [at(0), at(100)] {
        line(svg, "reach", (end, y - 4.0), (end, y + 4.0));
    }
    let wide = (at(75) - at(25)).max(1.0);
    let _ = writeln!(
        svg,
        "<rect class=\"half\" x=\"{:.1}\" y=\"{:.1}\" width=\"{wide:.1}\" height=\"12\" rx=\"2\"/>",
        at(25),
        y - 6.0
    );
    let _ = writeln!(
        svg,
        "<circle class=\"median\" cx=\"{:.1}\" cy=\"{y:.1}\" r=\"5\"/>",
        at(50)
    );
    let frame = call.frame();
    let frame = frame.map_or("-".to_owned(), |(ours, _)| milliseconds(ours));
    let numbers = [
        format!("{:.2}", call.ratio(50)),
        format!("{:.2}", call.worst().ratio),
        frame,
    ];
    for ((x, _), number) in COLUMNS.into_iter().zip(numbers) {
        text(svg, "number end", (x, y + 4.5), &number);
    }
}

fn line(svg: &mut String, class: &str, from: (f64, f64), to: (f64, f64)) {
    let _ = writeln!(
        svg,
        "<line class=\"{class}\" x1=\"{:.1}\" y1=\"{:.1}\" x2=\"{:.1}\" y2=\"{:.1}\"/>",
        from.0, from.1, to.0, to.1
    );
}

fn text(svg: &mut String, class: &str, (x, y): (f64, f64), words: &str) {
    let words = escaped(words);
    let _ = writeln!(
        svg,
        "<text class=\"{class}\" x=\"{x:.1}\" y=\"{y:.1}\">{words}</text>"
    );
}

fn escaped(words: &str) -> String {
    let words = words.replace('&', "&amp;");
    words.replace('<', "&lt;").replace('>', "&gt;")
}

#[cfg(test)]
mod tests {
    use super::{chart, Axis};
    use crate::report::rows::tests::row;
    use crate::report::rows::Beside;

    /// The numbers of an attribute, in order.
    fn numbers(svg: &str, before: &str) -> Vec<f64> {
        let parts = svg.split(before).skip(1);
        let number = |part: &str| part.split('"').next().and_then(|text| text.parse().ok());
        parts.map(|part| number(part).expect("a number")).collect()
    }

    #[test]
    fn the_axis_reaches_to_the_rust_and_the_worst() {
        let of = |worst| {
            let axis = Axis::of(worst);
            (axis.most, axis.ticks().count())
        };
        assert_eq!(of(0.3), (1.0, 11));
        assert_eq!(of(1.0), (1.0, 11));
        let (most, ticks) = of(1.05);
        assert!((most - 1.2).abs() < 1e-9 && ticks == 7);
        assert_eq!(of(7.3), (8.0, 9));
        assert!(of(300.0).0 >= 300.0);
    }

    #[test]
    fn each_call_stands_where_its_ratios_are() {
        let rows = [
            row("peel", "a", (64, 64), 1.0, 2.0),
            row("a<b", "a", (64, 64), 1.0, 1.0),
        ];
        let svg = chart(&rows).expect("calls beside the Rust");
        assert_eq!(numbers(&svg, " cx=\""), [415.0, 690.0]);
        assert!(svg.contains(">a&lt;b</text>") && !svg.contains("a<b"));
        assert!(svg.contains("median: peel 0.50, a&lt;b 1.00</title>"));
    }

    /// It is of shares of the Rust's time: what stands beside a copy is not in it.
    #[test]
    fn copies_are_not_in_it() {
        let rust = row("peel", "a", (64, 64), 1.0, 2.0);
        let mut copy = row("parcel_read", "a", (64, 64), 9.0, 1.0);
        copy.beside = Beside::Copy;
        let both = [rust.clone(), copy.clone()];
        assert_eq!(chart(&both), chart(&[rust]));
        assert_eq!(chart(&[copy]), None);
    }

    #[test]
    fn nothing_lies_outside_and_no_band_upon_another() {
        let calls: Vec<String> = (0..13).map(|number| format!("call {number}")).collect();
        let rows: Vec<_> = calls
            .iter()
            .enumerate()
            .map(|(at, call)| row(call, "a", (64, 64), at as f64, 6.0))
            .collect();
        let svg = chart(&rows).expect("calls beside the Rust");
        let (wide, high) = (
            numbers(&svg, " width=\"")[0],
            numbers(&svg, " height=\"")[0],
        );
        for (attribute, most) in [
            (" x=\"", wide),
            (" x1=\"", wide),
            (" x2=\"", wide),
            (" cx=\"", wide),
            (" y=\"", high),
            (" y1=\"", high),
            (" y2=\"", high),
        ] {
            let all = numbers(&svg, attribute);
            assert!(
                !all.is_empty() && all.iter().all(|&at| (0.0..=most).contains(&at)),
                "{attribute}: {all:?}"
            );
        }
        let bands = numbers(&svg, " cy=\"");
        assert_eq!(bands.len(), 13);
        assert!(bands.windows(2).all(|pair| pair[1] - pair[0] >= 20.0));
    }
}
