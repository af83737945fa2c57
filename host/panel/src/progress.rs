//! How far the runs are: a table on a terminal, which is drawn over itself while they run and is
//! gone when they are over.

use crate::text::{decimal, grouped};
use field_lyapunov::BenettinConfig;
use std::io::{stderr, IsTerminal as _, Write as _};
use std::time::{Duration, Instant};

/// A circuit in the table.
pub struct Line<'a> {
    pub name: &'a str,
    pub state: State<'a>,
}

pub enum State<'a> {
    /// With the windows that it began, warm-up included, and its rates so far.
    UnderWay {
        begun: u64,
        config: &'a BenettinConfig,
        rates: &'a [f64],
    },
    /// With its rates.
    Ended(&'a [f64]),
    Refused,
}

/// How long a table stays as it is. One of runs that take no longer is never drawn.
const STAYS: Duration = Duration::from_millis(200);

pub struct Table {
    began: Instant,
    due: Instant,
    /// The lines on the terminal.
    height: usize,
}

impl Table {
    /// Where it is wanted, and standard error is a terminal.
    pub fn on_terminal(wanted: bool) -> Option<Self> {
        let began = Instant::now();
        (wanted && stderr().is_terminal()).then(|| Self {
            began,
            due: began + STAYS,
            height: 0,
        })
    }

    /// Draws the lines where the table has stayed long enough.
    pub fn refresh<'a>(&mut self, lines: impl FnOnce() -> Vec<Line<'a>>) {
        let now = Instant::now();
        if now < self.due {
            return;
        }
        self.due = now + STAYS;
        let rows = rows(&lines(), now - self.began);
        // No line wraps: one that is too long ends at the edge, so that the height is known.
        let mut drawn = format!("{}\x1b[?7l", up(self.height));
        for row in &rows {
            drawn += &format!("{row}\x1b[K\n");
        }
        self.height = rows.len();
        write(&(drawn + "\x1b[?7h"));
    }
}

/// Only the results stay.
impl Drop for Table {
    fn drop(&mut self) {
        if self.height > 0 {
            write(&format!("{}\x1b[J", up(self.height)));
        }
    }
}

/// To the start of the line so many lines above.
fn up(lines: usize) -> String {
    match lines {
        0 => String::new(),
        _ => format!("\r\x1b[{lines}A"),
    }
}

/// A terminal that is gone is no reason to stop.
fn write(text: &str) {
    let _ = stderr().write_all(text.as_bytes());
}

/// The least widths of the columns before the rates, so that they seldom move.
const LEAST: [usize; 3] = [8, 24, 11];

/// The table after so much time, a heading first.
fn rows(lines: &[Line], elapsed: Duration) -> Vec<String> {
    let cells = |line: &Line| {
        let [windows, left, rates] = cells(&line.state, elapsed);
        [line.name.to_string(), windows, left, rates]
    };
    let heading = ["circuit", "windows", "time left", "rates so far"].map(String::from);
    let cells: Vec<_> = [heading]
        .into_iter()
        .chain(lines.iter().map(cells))
        .collect();
    let width = |column: usize| {
        let widths = cells.iter().map(|row| row[column].chars().count());
        widths.fold(LEAST[column], usize::max)
    };
    let widths = [0, 1, 2].map(width);
    let row = |[name, windows, left, rates]: &[String; 4]| {
        let [a, b, c] = widths;
        format!("{name:<a$}  {windows:>b$}  {left:>c$}  {rates}")
    };
    cells
        .iter()
        .map(|cells| row(cells).trim_end().to_string())
        .collect()
}

/// The windows, the time left and the rates.
fn cells(state: &State, elapsed: Duration) -> [String; 3] {
    match state {
        State::Refused => ["", "refused", ""].map(String::from),
        State::Ended(rates) => [String::new(), "ended".to_string(), listed(rates)],
        State::UnderWay {
            begun,
            config,
            rates,
        } => {
            let (warm_up, windows) = (config.transient_windows() as u64, config.windows() as u64);
            let done = match begun.checked_sub(warm_up) {
                Some(measured) => of(measured, windows),
                None => format!("warm-up {}", of(*begun, warm_up)),
            };
            let (done_steps, all) = (steps(config, *begun), steps(config, warm_up + windows));
            [done, left(elapsed, done_steps, all), listed(rates)]
        }
    }
}

/// The steps of so many windows from the first on.
fn steps(config: &BenettinConfig, windows: u64) -> u64 {
    let warm_up = windows.min(config.transient_windows() as u64);
    let measured = windows - warm_up;
    warm_up * config.steps_per_transient_window() as u64
        + measured * config.steps_per_window() as u64
}

fn of(done: u64, all: u64) -> String {
    format!("{} of {}", grouped(done), grouped(all))
}

fn listed(rates: &[f64]) -> String {
    let rates: Vec<String> = rates.iter().map(|rate| decimal(*rate, 4)).collect();
    rates.join("  ")
}

/// The time for the steps that are left, by that for those so far.
fn left(elapsed: Duration, done: u64, all: u64) -> String {
    if done == 0 {
        return String::new();
    }
    let seconds = (elapsed.as_secs_f64() * (all - done) as f64 / done as f64).ceil() as u64;
    match (seconds / 3600, seconds / 60 % 60, seconds % 60) {
        (0, 0, seconds) => format!("{seconds} s"),
        (0, minutes, seconds) => format!("{minutes} min {seconds} s"),
        (hours, minutes, _) => format!("{} h {minutes} min", grouped(hours)),
    }
}

#[cfg(test)]
mod tests {
    use super::*;

    #[test]
    fn a_line_has_windows_time_left_and_rates() {
        let config = BenettinConfig::new(2, 0.01, 10, 3_000).unwrap();
        let config = config.with_transient_windows(1_000);
        let line = |name, begun, rates| Line {
            name,
            state: State::UnderWay {
                begun,
                config: &config,
                rates,
            },
        };
        let ended = |name, rates| Line {
            name,
            state: State::Ended(rates),
        };
        let refused = Line {
            name: "bad",
            state: State::Refused,
        };
        let lines = [
            line("new", 0, &[]),
            line("settles", 999, &[]),
            line("measured", 2_000, &[0.9, -14.57]),
            ended("a-long-name", &[0.5]),
            refused,
        ];
        let rows = rows(&lines, Duration::from_secs(100));
        assert_eq!(
            rows,
            [
                "circuit                       windows    time left  rates so far",
                "new                warm-up 0 of 1,000",
                "settles          warm-up 999 of 1,000    5 min 1 s",
                "measured               1,000 of 3,000   1 min 40 s  0.9000  -14.5700",
                "a-long-name                                  ended  0.5000",
                "bad                                        refused",
            ]
        );
    }

    /// 10 warm-up windows of 900 steps, and 1,000 measured ones of 9.
    #[test]
    fn windows_count_by_their_steps() {
        let config = BenettinConfig::new(1, 0.01, 9, 1_000).unwrap();
        let config = config
            .with_transient_windows(10)
            .with_steps_per_transient_window(900);
        let done = [0, 1, 10, 11, 1_010].map(|windows| steps(&config, windows));
        assert_eq!(done, [0, 900, 9_000, 9_009, 18_000]);
    }

    #[test]
    fn the_time_left_is_by_the_speed_so_far() {
        let minute = Duration::from_secs(60);
        assert_eq!(left(minute, 1, 2), "1 min 0 s");
        assert_eq!(left(minute, 60, 90), "30 s");
        assert_eq!(left(minute, 1, 181), "3 h 0 min");
        assert_eq!(left(minute, 0, 181), "");
        assert_eq!(left(minute, 1, 1 << 25), "559,240 h 31 min");
    }
}
