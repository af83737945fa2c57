//! Two sides, timed in turn.

use std::fmt;
use std::time::Instant;

/// How often each side is timed. Many short turns find moments in which nothing else runs.
pub const TURNS: usize = 41;

type Side = Box<dyn FnMut()>;

/// The Rust source, where it is at hand.
pub type Reference = Option<&'static dyn oracle::Source>;

/// The most that is aimed at.
#[derive(Clone, Copy)]
pub enum Target {
    Ratio(f64),
    /// So many nanoseconds a call more than the other side.
    More(f64),
}

impl Target {
    /// What it is compared with, of the nanoseconds of both sides.
    fn measured(self, library: f64, other: f64) -> Self {
        match self {
            Self::Ratio(_) => Self::Ratio(library / other),
            Self::More(_) => Self::More(library - other),
        }
    }

    fn limit(self) -> f64 {
        let (Self::Ratio(limit) | Self::More(limit)) = self;
        limit
    }
}

impl fmt::Display for Target {
    fn fmt(&self, out: &mut fmt::Formatter<'_>) -> fmt::Result {
        match self {
            Self::Ratio(ratio) => write!(out, "{ratio:.2}"),
            Self::More(more) => write!(out, "{more:+.0} ns"),
        }
    }
}

pub struct Race {
    pub name: String,
    pub target: Option<Target>,
    /// Calls in one go of a side.
    pub calls: usize,
    pub library: Side,
    pub other: Option<Side>,
}

impl Race {
    /// A line of the table.
    pub fn run(mut self) -> String {
        let (library, other) = least(&mut self.library, self.other.as_mut());
        let each = |seconds: f64| seconds * 1e9 / self.calls as f64;
        let target = self
            .target
            .map_or(String::new(), |target| target.to_string());
        let (name, library) = (&self.name, each(library));
        let Some(other) = other.map(each) else {
            return format!("| {name} | {library:.1} | – | – | {target} | |");
        };
        let wanted = self.target.unwrap_or(Target::Ratio(f64::INFINITY));
        let measured = wanted.measured(library, other);
        let met = match self.target {
            Some(target) if measured.limit() <= target.limit() => "met",
            Some(_) => "missed",
            None => "",
        };
        format!("| {name} | {library:.1} | {other:.1} | {measured} | {target} | {met} |")
    }
}

/// The least seconds of each side, taken in turn so that both meet the same disturbances.
fn least(library: &mut Side, mut other: Option<&mut Side>) -> (f64, Option<f64>) {
    let mut best = (f64::INFINITY, f64::INFINITY);
    for _ in 0..TURNS {
        best.0 = best.0.min(seconds(library));
        if let Some(other) = &mut other {
            best.1 = best.1.min(seconds(other));
        }
    }
    (best.0, other.map(|_| best.1))
}

/// The seconds of one go.
pub fn seconds(side: &mut dyn FnMut()) -> f64 {
    let start = Instant::now();
    side();
    start.elapsed().as_secs_f64()
}

/// An error where two results differ in a bit.
pub fn same_bits(name: &str, left: &[f64], right: &[f64]) -> Result<(), String> {
    let bits = |list: &[f64]| list.iter().map(|x| x.to_bits()).collect::<Vec<u64>>();
    if bits(left) == bits(right) {
        Ok(())
    } else {
        Err(format!("{name}: the results differ"))
    }
}
