//! The system that is picked on the command line, and what is taken where nothing else is said.

use field_lyapunov::{System, MAX_DIMENSION};
use std::fmt::Write as _;

/// A system that can be picked by its name.
pub struct Offer {
    pub name: &'static str,
    /// The names of the parameters, with the values that are taken where none are given.
    parameters: &'static [(&'static str, f64)],
    size: Size,
    /// The system with these parameters and, where they are given, its dimension and its matrix.
    system: fn(&[f64], usize, Vec<f64>) -> System,
    /// From where its own motion is reached soon, with these parameters and this dimension.
    start: fn(&[f64], usize) -> Vec<f64>,
}

/// What says how many entries a state has.
#[derive(Clone, Copy, PartialEq, Eq)]
enum Size {
    Fixed,
    /// The matrix, which has to be given.
    Matrix,
    /// The number of cells, which is this one where none is given.
    Cells(usize),
}

fn ones(_: &[f64], dimension: usize) -> Vec<f64> {
    vec![1.0; dimension]
}

/// Cells that all equal the forcing rest, so one of them is moved. A forcing that is not finite is
/// left out of the state, so that the refusal is that of the motion.
fn moved_cell(parameters: &[f64], dimension: usize) -> Vec<f64> {
    let forcing = Some(parameters[0]).filter(|x| x.is_finite());
    let mut cells = vec![forcing.unwrap_or(0.0); dimension];
    if let Some(first) = cells.first_mut() {
        *first += 0.01;
    }
    cells
}

pub const OFFERS: [Offer; 5] = [
    Offer {
        name: "lorenz",
        parameters: &[("sigma", 10.0), ("rho", 28.0), ("beta", 8.0 / 3.0)],
        size: Size::Fixed,
        system: |x, _, _| System::Lorenz {
            sigma: x[0],
            rho: x[1],
            beta: x[2],
        },
        start: ones,
    },
    Offer {
        name: "rossler",
        parameters: &[("a", 0.2), ("b", 0.2), ("c", 5.7)],
        size: Size::Fixed,
        system: |x, _, _| System::Rossler {
            a: x[0],
            b: x[1],
            c: x[2],
        },
        start: ones,
    },
    Offer {
        name: "van-der-pol",
        parameters: &[("mu", 1.0)],
        size: Size::Fixed,
        system: |x, _, _| System::VanDerPol { mu: x[0] },
        start: |_, _| vec![2.0, 0.0],
    },
    Offer {
        name: "linear",
        parameters: &[],
        size: Size::Matrix,
        system: |_, dimension, matrix| System::Linear { dimension, matrix },
        start: ones,
    },
    Offer {
        name: "lorenz96",
        parameters: &[("forcing", 8.0)],
        size: Size::Cells(8),
        system: |x, cells, _| System::Lorenz96 {
            cells,
            forcing: x[0],
        },
        start: moved_cell,
    },
];

impl Offer {
    pub fn read(word: &str) -> Result<&'static Self, String> {
        let offer = OFFERS.iter().find(|offer| offer.name == word);
        offer.ok_or_else(|| format!("{word} is no system: {}", names()))
    }

    fn has_matrix(&self) -> bool {
        self.size == Size::Matrix
    }

    fn has_dimension(&self) -> bool {
        self.size != Size::Fixed
    }
}

/// The names, parted by commas and `or`.
fn names() -> String {
    let names = OFFERS.map(|offer| offer.name);
    let [first @ .., last] = &names;
    format!("{} or {last}", first.join(", "))
}

/// A system with its parameters.
#[derive(Clone)]
pub struct Choice {
    pub offer: &'static Offer,
    pub parameters: Vec<f64>,
    pub matrix: Vec<f64>,
    pub system: System,
}

impl Choice {
    /// The system that the words say; a message where they do not go together.
    pub fn of(
        offer: &'static Offer,
        parameters: Option<Vec<f64>>,
        dimension: Option<usize>,
        matrix: Option<Vec<f64>>,
    ) -> Result<Self, String> {
        let (name, known) = (offer.name, offer.parameters);
        if !offer.has_matrix() && matrix.is_some() {
            return Err("--matrix goes with --system linear only".into());
        }
        if !offer.has_dimension() && dimension.is_some() {
            return Err("--dimension goes with --system linear or lorenz96 only".into());
        }
        if offer.has_matrix() && parameters.is_some() {
            return Err("--parameters: a linear system has a --matrix instead".into());
        }
        if offer.has_matrix() && matrix.is_none() {
            return Err("a linear system needs a --matrix".into());
        }
        let parameters = parameters.unwrap_or_else(|| known.iter().map(|(_, x)| *x).collect());
        let (wanted, given) = (known.len(), parameters.len());
        if given != wanted {
            return Err(format!(
                "--parameters: {name} has {wanted}, and {given} are given"
            ));
        }
        let matrix = matrix.unwrap_or_default();
        let dimension = dimension.unwrap_or(match offer.size {
            Size::Cells(cells) => cells,
            // The one that the matrix would have as a square.
            _ => matrix.len().isqrt(),
        });
        Ok(Self {
            system: (offer.system)(&parameters, dimension, matrix.clone()),
            offer,
            parameters,
            matrix,
        })
    }

    /// Where it starts. A dimension that will be refused has no start.
    pub fn start(&self) -> Vec<f64> {
        let dimension = self.system.dimension().min(MAX_DIMENSION);
        (self.offer.start)(&self.parameters, dimension)
    }

    pub fn title(&self) -> String {
        let mut title = self.offer.name.to_string();
        if self.offer.has_dimension() {
            let _ = write!(title, ", dimension {}", self.system.dimension());
        }
        for ((name, _), x) in self.offer.parameters.iter().zip(&self.parameters) {
            let _ = write!(title, ", {name} {x}");
        }
        title
    }
}
