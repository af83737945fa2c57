//! A drawing of the running rates over time, for print: black lines that differ in their dashes
//! and, from the ninth on, in their width. Of several circuits it has a cell each, with a scale of
//! its own.

use crate::measured::{Measured, Window};
use crate::text::{decimal, short_stop};
use std::fmt::Write as _;

/// The size of what is drawn of a run, and where things stand in it.
struct Sheet {
    width: f64,
    height: f64,
    left: f64,
    right: f64,
    top: f64,
    bottom: f64,
    /// Where the first line of its title stands.
    title: [f64; 2],
    anchor: &'static str,
    /// Whether the rate 0 is there in any case, with a darker line, and a margin above and below.
    zero: bool,
}

/// A run alone.
const ALONE: Sheet = Sheet {
    width: 900.0,
    height: 520.0,
    left: 80.0,
    right: 640.0,
    top: 50.0,
    bottom: 455.0,
    title: [360.0, 28.0],
    anchor: "middle",
    zero: false,
};

/// A circuit of several.
const CELL: Sheet = Sheet {
    width: 690.0,
    height: 410.0,
    left: 80.0,
    right: 430.0,
    top: 74.0,
    bottom: 354.0,
    title: [80.0, 30.0],
    anchor: "start",
    zero: true,
};

/// The most points of a line: more can't be told apart.
const MAX_POINTS: usize = 800;

const DASHES: [&str; 8] = [
    "none",
    "9 4",
    "2 3",
    "12 3 2 3",
    "5 2",
    "16 6",
    "1 6",
    "8 3 1 3 1 3",
];

/// The cells beside each other.
const COLUMNS: usize = 2;

/// The circuit without a name alone, or several with a cell each.
pub fn drawing(measured: &[Measured]) -> String {
    let named = measured.iter().any(|one| one.circuit.name.is_some());
    let sheet = if named { &CELL } else { &ALONE };
    let columns = measured.len().clamp(1, COLUMNS);
    let width = sheet.width * columns as f64;
    let height = sheet.height * measured.len().div_ceil(columns) as f64;
    let mut svg = format!(
        "<svg xmlns=\"http://www.w3.org/2000/svg\" viewBox=\"0 0 {width} {height}\" \
         width=\"{width}\" height=\"{height}\" font-family=\"sans-serif\" font-size=\"13\">\n\
         <rect width=\"{width}\" height=\"{height}\" fill=\"white\"/>\n"
    );
    for (at, one) in measured.iter().enumerate() {
        if named {
            cell(&mut svg, [at % columns, at / columns], one);
        } else {
            run(&mut svg, sheet, one);
        }
    }
    svg.push_str("</svg>\n");
    svg
}

/// A circuit in its column and row; nothing of it reaches into another cell.
fn cell(svg: &mut String, place: [usize; 2], measured: &Measured) {
    let (width, height) = (CELL.width, CELL.height);
    let [x, y] = [width * place[0] as f64, height * place[1] as f64];
    let _ = writeln!(
        svg,
        "<svg x=\"{x}\" y=\"{y}\" width=\"{width}\" height=\"{height}\">"
    );
    run(svg, &CELL, measured);
    svg.push_str("</svg>\n");
}

/// The windows of a run, with a line down where it and its continuations end.
fn run(svg: &mut String, sheet: &Sheet, measured: &Measured) {
    for (at, words) in title(measured).iter().enumerate() {
        let [x, y] = sheet.title;
        label(svg, [x, y + 17.0 * at as f64], sheet.anchor, words);
    }
    frame(svg, sheet);
    let points = thinned(measured);
    let Some(last) = points.last() else {
        let middle = sheet.at([0.5, 0.5]);
        return label(svg, middle, "middle", "no measured window was finished");
    };
    let times = Axis::over(points.iter().map(|window| window.end_time));
    let values = points.iter().flat_map(|window| window.running).copied();
    let rates = match sheet.zero {
        true => Axis::over(values.chain([0.0])).with_margin(),
        false => Axis::over(values),
    };
    axes(svg, sheet, &times, &rates);
    for (time, name) in measured.ends() {
        end(svg, sheet, times.part(time), &name);
    }
    for direction in 0..last.running.len() {
        line(svg, direction, &points, |window, rate| {
            sheet.at([times.part(window.end_time), rates.part(rate)])
        });
        legend(svg, sheet, direction, last.running);
    }
}

/// The lines above the frame. A run alone that is refused shows its windows only.
fn title(measured: &Measured) -> Vec<String> {
    let circuit = measured.circuit;
    let bold = |name| format!("<tspan font-weight=\"bold\">{name}</tspan>");
    let name = circuit.name.as_ref().map(bold);
    let told = name.is_some() || measured.interrupted();
    let stop = short_stop(measured).filter(|_| told);
    let words = [circuit.choice.title()].into_iter().chain(stop);
    name.into_iter()
        .chain(words.map(|words| escaped(&words)))
        .collect()
}

/// At most `MAX_POINTS` windows and the last one.
fn thinned<'a>(measured: &'a Measured) -> Vec<Window<'a>> {
    let count = measured.windows().count();
    let stride = count.div_ceil(MAX_POINTS).max(1);
    let is_kept = |at: usize| at.is_multiple_of(stride) || at + 1 == count;
    let windows = measured.windows().enumerate();
    let kept = windows.filter(|(at, _)| is_kept(*at));
    kept.map(|(_, window)| window).collect()
}

/// The values that a side of the drawing spans.
struct Axis {
    low: f64,
    high: f64,
}

impl Axis {
    /// Over the finite ones of `values`.
    fn over(values: impl Iterator<Item = f64>) -> Self {
        let (mut low, mut high) = (f64::INFINITY, f64::NEG_INFINITY);
        for value in values.filter(|value| value.is_finite()) {
            low = low.min(value);
            high = high.max(value);
        }
        if low > high {
            return Self {
                low: 0.0,
                high: 1.0,
            };
        }
        if low == high {
            let beside = (low.abs() * 0.1).max(1.0);
            low = (low - beside).max(f64::MIN);
            high = (high + beside).min(f64::MAX);
        }
        Self { low, high }
    }

    /// A little longer at both ends.
    fn with_margin(&self) -> Self {
        let margin = (self.high / 2.0 - self.low / 2.0) * 0.1;
        Self {
            low: (self.low - margin).max(f64::MIN),
            high: (self.high + margin).min(f64::MAX),
        }
    }

    /// Where a value stands, from 0 to 1. Halves, so that no difference overflows.
    fn part(&self, value: f64) -> f64 {
        (value / 2.0 - self.low / 2.0) / (self.high / 2.0 - self.low / 2.0)
    }

    /// Some whole multiples of 1, 2 or 5 times a power of ten, for a side of this length.
    fn ticks(&self, length: f64, apart: f64) -> Vec<f64> {
        let parts = (length / apart).floor();
        let rough = self.high / parts - self.low / parts;
        let power = 10_f64.powf(rough.log10().floor());
        let fits = |factor: &f64| factor * power >= rough;
        let step = [1.0, 2.0, 5.0].into_iter().find(fits).unwrap_or(10.0) * power;
        if !step.is_finite() || step <= 0.0 {
            return vec![self.low, self.high];
        }
        let first = (self.low / step).ceil();
        (0..20)
            .map(|i| (first + f64::from(i)) * step)
            .take_while(|value| *value <= self.high)
            .collect()
    }
}

/// A tick's number, without digits that only show how it was rounded.
fn short(value: f64) -> String {
    let digits = format!("{value:.9e}");
    let rounded: f64 = digits.parse().unwrap_or(value);
    if rounded != 0.0 && !(1e-4..1e7).contains(&rounded.abs()) {
        format!("{rounded:e}")
    } else {
        format!("{}", rounded + 0.0)
    }
}

impl Sheet {
    /// The point of the frame with these parts of its width and its height.
    fn at(&self, [across, up]: [f64; 2]) -> [f64; 2] {
        [
            self.left + (self.right - self.left) * across,
            self.bottom - (self.bottom - self.top) * up,
        ]
    }
}

fn frame(svg: &mut String, sheet: &Sheet) {
    let Sheet { left, top, .. } = *sheet;
    let (width, height) = (sheet.right - left, sheet.bottom - top);
    let _ = writeln!(
        svg,
        "<rect x=\"{left}\" y=\"{top}\" width=\"{width}\" height=\"{height}\" fill=\"none\" \
         stroke=\"black\"/>"
    );
}

/// What stands at the sides of the frame, and the lines across it.
fn axes(svg: &mut String, sheet: &Sheet, times: &Axis, rates: &Axis) {
    let Sheet {
        left,
        right,
        top,
        bottom,
        ..
    } = *sheet;
    for time in times.ticks(right - left, 70.0) {
        let [x, _] = sheet.at([times.part(time), 0.0]);
        stroke(svg, [x, bottom, x, bottom + 6.0], "black");
        label(svg, [x, bottom + 21.0], "middle", &short(time));
    }
    for rate in rates.ticks(bottom - top, 46.0) {
        let [_, y] = sheet.at([0.0, rates.part(rate)]);
        let zero = sheet.zero && rate == 0.0;
        stroke(
            svg,
            [left, y, right, y],
            if zero { "#777777" } else { "#cccccc" },
        );
        stroke(svg, [left - 6.0, y, left, y], "black");
        label(svg, [left - 10.0, y + 4.0], "end", &short(rate));
    }
    label(svg, [(left + right) / 2.0, bottom + 45.0], "middle", "time");
    let _ = writeln!(
        svg,
        "<text transform=\"translate(22 {:.1}) rotate(-90)\" text-anchor=\"middle\">running rate, \
         1 / time</text>",
        (top + bottom) / 2.0
    );
}

/// A line down, with its name along it, so that near ends have room beside each other.
fn end(svg: &mut String, sheet: &Sheet, part: f64, name: &str) {
    let ([x, top], [_, bottom]) = (sheet.at([part, 1.0]), sheet.at([part, 0.0]));
    stroke(svg, [x, top, x, bottom], "#777777");
    let _ = writeln!(
        svg,
        "<text transform=\"translate({:.1} {:.1}) rotate(-90)\" text-anchor=\"end\">{name}</text>",
        x - 3.0,
        top + 5.0
    );
}

/// The running rates of a direction, each where `at` says; those that are not finite are left out.
fn line(
    svg: &mut String,
    direction: usize,
    points: &[Window],
    at: impl Fn(&Window, f64) -> [f64; 2],
) {
    let mut text = String::new();
    for window in points {
        let rate = window.running[direction];
        if rate.is_finite() {
            let [x, y] = at(window, rate);
            let _ = write!(text, "{x:.2},{y:.2} ");
        }
    }
    let text = text.trim_end();
    let look = look(direction);
    let _ = writeln!(svg, "<polyline points=\"{text}\" fill=\"none\" {look}/>");
}

fn look(direction: usize) -> String {
    let dashes = DASHES[direction % DASHES.len()];
    let width = if direction < DASHES.len() { 1.4 } else { 3.0 };
    format!("stroke=\"black\" stroke-width=\"{width}\" stroke-dasharray=\"{dashes}\"")
}

/// The line of a direction, with its last rate. All of them have room beside the frame.
fn legend(svg: &mut String, sheet: &Sheet, direction: usize, rates: &[f64]) {
    let apart = f64::min(24.0, (sheet.bottom - sheet.top) / rates.len() as f64);
    let y = sheet.top + 14.0 + apart * direction as f64;
    let (x, end) = (sheet.right + 14.0, sheet.right + 64.0);
    let look = look(direction);
    let _ = writeln!(
        svg,
        "<line x1=\"{x}\" y1=\"{y}\" x2=\"{end}\" y2=\"{y}\" {look}/>"
    );
    let words = format!("direction {direction}: {}", decimal(rates[direction], 5));
    label(svg, [end + 8.0, y + 4.0], "start", &words);
}

fn stroke(svg: &mut String, ends: [f64; 4], colour: &str) {
    let [x1, y1, x2, y2] = ends;
    let _ = writeln!(
        svg,
        "<line x1=\"{x1:.2}\" y1=\"{y1:.2}\" x2=\"{x2:.2}\" y2=\"{y2:.2}\" stroke=\"{colour}\"/>"
    );
}

fn label(svg: &mut String, at: [f64; 2], anchor: &str, words: &str) {
    let [x, y] = at;
    let _ = writeln!(
        svg,
        "<text x=\"{x:.2}\" y=\"{y:.2}\" text-anchor=\"{anchor}\">{words}</text>"
    );
}

fn escaped(words: &str) -> String {
    words
        .replace('&', "&amp;")
        .replace('<', "&lt;")
        .replace('>', "&gt;")
}

#[cfg(test)]
mod tests {
    use super::*;

    fn axis(values: &[f64]) -> Axis {
        Axis::over(values.iter().copied())
    }

    #[test]
    fn ticks_are_few_and_inside() {
        let ranges = [
            [0.0, 1.0],
            [-14.6, 0.9],
            [1e9, 1e9 + 1.0],
            [5e-324, 1e-323],
            [f64::MIN, f64::MAX],
            [f64::MAX, f64::MAX],
            [f64::NAN, f64::INFINITY],
        ];
        for range in ranges {
            let axis = axis(&range);
            assert!(axis.low < axis.high);
            for axis in [axis.with_margin(), axis] {
                let ticks = axis.ticks(405.0, 46.0);
                assert!((1..=20).contains(&ticks.len()), "{range:?}: {ticks:?}");
                for tick in ticks {
                    let part = axis.part(tick);
                    assert!((-1e-9..=1.0 + 1e-9).contains(&part), "{range:?}: {tick}");
                }
            }
        }
    }

    #[test]
    fn ticks_are_round() {
        assert_eq!(
            axis(&[0.0, 1.0]).ticks(405.0, 46.0),
            [0.0, 0.2, 0.4, 0.6000000000000001, 0.8, 1.0]
        );
        assert_eq!(short(0.6000000000000001), "0.6");
        assert_eq!(short(-0.0), "0");
        assert_eq!(short(-15.0), "-15");
        assert_eq!(short(2e-9), "2e-9");
    }
}
