//! The command line.

use crate::choice::{Choice, Offer, OFFERS};
use crate::circuit::{self, Circuit};
use field_lyapunov::{BenettinConfig, Rk4, DEFAULT_SEED};
use std::path::PathBuf;

pub const HELP: &str = "\
usage: panel [OPTION VALUE]...    the Lyapunov spectrum of one system
       panel --circuits FILE ...  those of up to eight circuits side by side
       panel spectra              known spectra beside measured ones

the system
  --system NAME        lorenz, rossler, van-der-pol, linear or lorenz96 (lorenz)
  --parameters A,B,C   sigma,rho,beta (10,28,8/3) or a,b,c (0.2,0.2,5.7) or mu (1)
                       or, of a lorenz96 ring, forcing (8)
  --matrix A,B,...     of a linear system, row by row
  --dimension N        of a linear system (the root of the number of its entries), or the cells
                       of a ring, 4 to 16 (8)
  --state X,Y,...      where it starts (1,1,..; van-der-pol 2,0; lorenz96 the forcing F in all
                       cells but the first, which is F+0.01)
  --time T             when it starts (0)
the run
  -k, --top-k N        how many rates (the dimension)
  --step H             size of a step (0.01)
  --steps N            steps a window (10)
  --windows N          measured windows (50000)
  --warm-up N          windows before them that are not measured (1000)
  --warm-up-steps N    steps of each of these (those of a measured window). For a circuit that settles
                       slowly: settle it in few long windows, measure it in short ones
  --seed S             of the directions, decimal or 0x.. (0x4c594150554e4f56)
  --then B,B,...       continuations: goes on from the measured windows by so many more, each
                       time from the same end, and shows the rates beside each other
several circuits
  --circuits FILE      a text file with a line for each circuit, at most eight: its name (letters,
                       digits and - _ .), then options of its system and its run, except --then.
                       Blank lines and lines that begin with # are passed over. For example:

                         # two oscillators and a ring
                         weak    --system van-der-pol --parameters 0.5
                         strong  --system van-der-pol --parameters 4 --windows 20000
                         ring    --system lorenz96 --dimension 5 -k 2

                       Such options on the command line hold for every circuit whose line does
                       not have them.
what is written
  --rows FILE          the measured windows as comma-separated values; of several circuits with
                       the name first
  --svg FILE           a drawing of the running rates; of several circuits one with a cell each
  --json               the results for programs, instead of the text
  --no-progress        no table on the terminal of how far the runs are
  --help               this text

Where an option is given twice, the last one holds. A refused run prints no results; --rows and
--svg then have the windows that it finished, and are not written where it finished none. With
--then they go on through the longest continuation, in which the others end. A refused
continuation is told with its option, and the rest is printed. So is a refused circuit of several
with its name: the others go on.
Ctrl-C stops the runs after the window under way. What they have finished is printed and written,
and told as such. A second Ctrl-C ends the panel at once, and so does the first with --then.
Exit status: 0, 1 where a known spectrum is missed, 2 for unfit input and refused runs, 130 where
Ctrl-C stopped a run.
";

/// What is asked for.
pub enum Command {
    Help,
    Spectra,
    Run(Options),
}

pub struct Options {
    /// One without a name, or those of a file.
    pub circuits: Vec<Circuit>,
    pub around: Around,
}

/// What is asked for around the runs.
#[derive(Default, PartialEq)]
pub struct Around {
    circuits: Option<PathBuf>,
    /// The windows of each continuation.
    pub then: Vec<usize>,
    pub rows: Option<PathBuf>,
    pub svg: Option<PathBuf>,
    pub json: bool,
    pub no_progress: bool,
}

/// The options of a run as they are given.
#[derive(Clone, Default)]
struct Given {
    offer: Option<&'static Offer>,
    parameters: Option<Vec<f64>>,
    matrix: Option<Vec<f64>>,
    dimension: Option<usize>,
    state: Option<Vec<f64>>,
    time: Option<f64>,
    top_k: Option<usize>,
    step: Option<f64>,
    steps: Option<usize>,
    windows: Option<usize>,
    warm_up: Option<usize>,
    warm_up_steps: Option<usize>,
    seed: Option<u64>,
}

pub fn read(words: &[String]) -> Result<Command, String> {
    if words.iter().any(|word| word == "--help" || word == "-h") {
        return Ok(Command::Help);
    }
    if words.first().is_some_and(|word| word == "spectra") {
        return match words.get(1) {
            None => Ok(Command::Spectra),
            Some(word) => Err(format!("spectra takes no option, and {word} follows it")),
        };
    }
    let words = words.iter().map(String::as_str);
    let (given, around) = given(words, Given::default())?;
    let circuits = match &around.circuits {
        None => vec![fitted(None, given)?],
        Some(_) if !around.then.is_empty() => return Err("--then goes with one run only".into()),
        Some(file) => circuit::listed(file, |name, words| {
            let (given, around) = self::given(words, given.clone())?;
            if around != Around::default() {
                return Err("a line has options of the system and the run, except --then".into());
            }
            fitted(Some(name), given)
        })?,
    };
    Ok(Command::Run(Options { circuits, around }))
}

/// What the words say; of a run, over what was given before.
fn given<'a>(
    mut words: impl Iterator<Item = &'a str>,
    mut given: Given,
) -> Result<(Given, Around), String> {
    let mut around = Around::default();
    while let Some(word) = words.next() {
        let (option, attached) = match word.split_once('=') {
            Some((option, value)) => (option, Some(value)),
            None => (word, None),
        };
        match word {
            "--json" => around.json = true,
            "--no-progress" => around.no_progress = true,
            _ if !is_option(option) => return Err(format!("{word} is no option")),
            _ => {
                let value = attached.or_else(|| words.next());
                let value = value.ok_or_else(|| format!("{option} needs a value"))?;
                set(&mut given, &mut around, option, value)
                    .map_err(|message| format!("{option}: {message}"))?;
            }
        }
    }
    Ok((given, around))
}

/// The options with a value.
fn is_option(word: &str) -> bool {
    const OPTIONS: [&str; 18] = [
        "--system",
        "--parameters",
        "--matrix",
        "--dimension",
        "--state",
        "--time",
        "-k",
        "--top-k",
        "--step",
        "--steps",
        "--windows",
        "--warm-up",
        "--warm-up-steps",
        "--seed",
        "--then",
        "--circuits",
        "--rows",
        "--svg",
    ];
    OPTIONS.contains(&word)
}

fn set(given: &mut Given, around: &mut Around, option: &str, value: &str) -> Result<(), String> {
    match option {
        "--system" => given.offer = Some(Offer::read(value)?),
        "--parameters" => given.parameters = Some(floats(value)?),
        "--matrix" => given.matrix = Some(floats(value)?),
        "--dimension" => given.dimension = Some(count(value)?),
        "--state" => given.state = Some(floats(value)?),
        "--time" => given.time = Some(float(value)?),
        "-k" | "--top-k" => given.top_k = Some(count(value)?),
        "--step" => given.step = Some(float(value)?),
        "--steps" => given.steps = Some(count(value)?),
        "--windows" => given.windows = Some(count(value)?),
        "--warm-up" => given.warm_up = Some(count(value)?),
        "--warm-up-steps" => given.warm_up_steps = Some(count(value)?),
        "--seed" => given.seed = Some(seed(value)?),
        "--then" => around.then = value.split(',').map(count).collect::<Result<_, _>>()?,
        "--circuits" => around.circuits = Some(PathBuf::from(value)),
        "--rows" => around.rows = Some(PathBuf::from(value)),
        _ => around.svg = Some(PathBuf::from(value)),
    }
    Ok(())
}

/// What is given, with the rest filled in.
fn fitted(name: Option<&str>, given: Given) -> Result<Circuit, String> {
    let offer = given.offer.unwrap_or(&OFFERS[0]);
    let choice = Choice::of(offer, given.parameters, given.dimension, given.matrix)?;
    let config = BenettinConfig::new(
        given.top_k.unwrap_or(choice.system.dimension().max(1)),
        given.step.unwrap_or(0.01),
        given.steps.unwrap_or(10),
        given.windows.unwrap_or(50_000),
    );
    let rest = |config: BenettinConfig| {
        let warm_up_steps = given.warm_up_steps.unwrap_or(config.steps_per_window());
        config
            .with_transient_windows(given.warm_up.unwrap_or(1_000))
            .with_steps_per_transient_window(warm_up_steps)
            .with_seed(given.seed.unwrap_or(DEFAULT_SEED))
    };
    Ok(Circuit {
        name: name.map(String::from),
        stepper: Rk4::new(choice.system.clone()),
        state: given.state.unwrap_or_else(|| choice.start()),
        time: given.time.unwrap_or(0.0),
        config: config.map(rest),
        choice,
    })
}

fn float(word: &str) -> Result<f64, String> {
    let word = word.trim();
    word.parse()
        .map_err(|_| format!("\"{word}\" is no decimal number"))
}

fn floats(words: &str) -> Result<Vec<f64>, String> {
    words.split(',').map(float).collect()
}

fn count(word: &str) -> Result<usize, String> {
    word.trim()
        .parse()
        .map_err(|_| format!("\"{word}\" is no whole number that fits"))
}

fn seed(word: &str) -> Result<u64, String> {
    let word = word.trim();
    let number = match word.strip_prefix("0x") {
        Some(digits) => u64::from_str_radix(digits, 16),
        None => word.parse(),
    };
    number.map_err(|_| format!("\"{word}\" is no number of 64 bits, decimal or 0x.."))
}
