//! A system, with what is handed over beside it.

use crate::line::Fields;
use crate::values::{bits, list, read_count};
use input::{System, MAX_DIMENSION};
use lyapunov_sys::Arguments;
use std::ops::RangeInclusive;

/// A kind of system, by its number in the C interface.
pub struct Kind {
    /// As it stands in a line; a dimension follows where it has one of its own.
    name: &'static str,
    pub label: &'static str,
    parameters: usize,
    /// The dimensions that are not refused.
    pub dimensions: RangeInclusive<usize>,
}

impl Kind {
    fn has_dimension(&self) -> bool {
        self.dimensions.start() != self.dimensions.end()
    }
}

const fn kind(
    name: &'static str,
    label: &'static str,
    parameters: usize,
    dimensions: RangeInclusive<usize>,
) -> Kind {
    Kind {
        name,
        label,
        parameters,
        dimensions,
    }
}

pub const KINDS: [Kind; 5] = [
    kind("lorenz", ", Lorenz", 3, 3..=3),
    kind("rossler", ", Rossler", 3, 3..=3),
    kind("vdp", ", van der Pol", 1, 2..=2),
    kind("linear", ", linear", 0, 1..=MAX_DIMENSION),
    kind("lorenz96", ", Lorenz 96", 1, 4..=MAX_DIMENSION),
];

/// The kinds whose dimension is handed over.
pub const LINEAR: u64 = 3;
pub const RING: u64 = 4;

/// Which systems are drawn.
#[derive(Clone, Copy, Debug, PartialEq, Eq)]
pub enum Systems {
    /// Those of document 01. The fixed list began with them, and its lines stay.
    Base,
    All,
    /// Those of one kind, by its number. Their size is not refused.
    Of(u64),
}

impl Systems {
    /// The systems of the kind with this name.
    pub fn named(name: &str) -> Result<Self, String> {
        let known = KINDS.iter().position(|kind| kind.name == name);
        let kind = known.ok_or_else(|| format!("no system {name}"))?;
        Ok(Self::Of(kind as u64))
    }

    /// The kind that all of them have, where they have one.
    pub fn kind(self) -> Option<&'static Kind> {
        match self {
            Self::Of(kind) => KINDS.get(kind as usize),
            _ => None,
        }
    }

    /// Every kind that they have.
    pub fn kinds(self) -> &'static [Kind] {
        match self.kind() {
            Some(kind) => std::slice::from_ref(kind),
            None => &KINDS,
        }
    }
}

/// A system, and the arguments that hand it to the library. What it must not read may be anything.
/// A kind that the C interface does not have is a system of dimension 0.
#[derive(Clone, Debug)]
pub struct Circuit {
    pub system: System,
    kind: u64,
    parameters: [f64; 3],
    dimension: usize,
    matrix: Vec<f64>,
}

/// NaNs, and a dimension that would be refused.
pub const UNUSED: Arguments = Arguments {
    kind: 0,
    parameters: [f64::NAN; 3],
    dimension: 17,
    matrix: &[],
};

impl Circuit {
    pub fn of(system: System) -> Self {
        Self::with(system.clone(), Arguments::over(&system, UNUSED))
    }

    /// The system that the arguments mean.
    pub fn of_arguments(arguments: Arguments) -> Self {
        Self::with(arguments.system(), arguments)
    }

    fn with(system: System, arguments: Arguments) -> Self {
        Self {
            system,
            kind: arguments.kind,
            parameters: arguments.parameters,
            dimension: arguments.dimension,
            matrix: arguments.matrix.to_vec(),
        }
    }

    pub fn arguments(&self) -> Arguments<'_> {
        Arguments {
            kind: self.kind,
            parameters: self.parameters,
            dimension: self.dimension,
            matrix: &self.matrix,
        }
    }

    pub fn dimension(&self) -> usize {
        self.system.dimension()
    }

    /// Its kind, where it has one.
    pub fn kind(&self) -> Option<&'static Kind> {
        let kind = usize::try_from(self.kind).ok()?;
        KINDS.get(kind)
    }

    /// The label of its kind, where it has one.
    pub fn label(&self) -> &'static str {
        self.kind().map_or("", |kind| kind.label)
    }

    /// The first failing test of those that the source does not have: 8, 25 and 9.
    pub fn added_refusal(&self) -> Option<u64> {
        match &self.system {
            system if system.dimension() > MAX_DIMENSION => Some(8),
            System::Lorenz96 { cells: 1..=3, .. } => Some(25),
            System::Linear { dimension, matrix } if dimension * dimension != matrix.len() => {
                Some(9)
            }
            _ => None,
        }
    }

    pub fn read(fields: &mut Fields) -> Result<Self, String> {
        let matrix = fields.floats("mat")?;
        Self::read_with(&matrix, fields)
    }

    /// Reads all but the matrix.
    pub fn read_with(matrix: &[f64], fields: &mut Fields) -> Result<Self, String> {
        let text = fields.take("sys")?;
        let (name, number) = match text.split_once(':') {
            Some((name, number)) => (name, Some(read_count(number)?)),
            None => (text, None),
        };
        let given = fields.floats("par")?;
        let known = KINDS.iter().position(|kind| kind.name == name);
        let (kind, dimension) = match (known, number) {
            (Some(at), dimension) if KINDS[at].has_dimension() == dimension.is_some() => {
                (at as u64, dimension)
            }
            (None, Some(kind)) if name == "kind" => (kind, None),
            _ => return Err(format!("no system {text}")),
        };
        let wanted = known.map_or(0, |at| KINDS[at].parameters);
        if given.len() != wanted {
            return Err(format!("{text} with {} parameters", given.len()));
        }
        let mut parameters = UNUSED.parameters;
        parameters[..wanted].copy_from_slice(&given);
        Ok(Self::of_arguments(Arguments {
            kind,
            parameters,
            dimension: dimension.map_or(UNUSED.dimension, |dimension| dimension as usize),
            matrix,
        }))
    }

    /// The same with another matrix.
    pub fn with_matrix(&self, matrix: &[f64]) -> Self {
        Self::of_arguments(Arguments {
            matrix,
            ..self.arguments()
        })
    }

    pub fn written(&self) -> String {
        let numbers = self.written_without_matrix();
        let matrix = list(&self.matrix, ",", bits);
        format!("{numbers} mat={matrix}")
    }

    pub fn written_without_matrix(&self) -> String {
        let (name, count) = match self.kind() {
            Some(kind) if kind.has_dimension() => {
                let name = format!("{}:{}", kind.name, self.dimension);
                (name, kind.parameters)
            }
            Some(kind) => (kind.name.to_string(), kind.parameters),
            None => (format!("kind:{}", self.kind), 0),
        };
        let parameters = list(&self.parameters[..count], ",", bits);
        format!("sys={name} par={parameters}")
    }
}

#[cfg(test)]
mod tests {
    use super::*;
    use crate::line::Line;

    #[test]
    fn circuits_are_read_as_they_are_written() {
        for kind in 0..=KINDS.len() as u64 {
            let circuit = Circuit::of_arguments(Arguments {
                kind,
                parameters: [10.0, f64::INFINITY, -0.0],
                dimension: 2,
                matrix: &[1.0, 2.0],
            });
            let text = format!("step id=A {} -> num=0", circuit.written());
            let mut line = Line::read(&text).unwrap();
            let read = Circuit::read(&mut line.input).unwrap();
            assert_eq!(read.system, circuit.system);
            assert_eq!(read.written(), circuit.written());
            assert_eq!(read.arguments().kind, kind);
            assert_eq!(line.input.finish(), Ok(()));
        }
    }

    #[test]
    fn unknown_systems_are_refused() {
        for text in [
            "step id=A sys=lorenz par=- mat=- -> num=0",
            "step id=A sys=lorenz:3 par=- mat=- -> num=0",
            "step id=A sys=duffing par=- mat=- -> num=0",
            "step id=A sys=linear par=- mat=- -> num=0",
            "step id=A sys=linear:x par=- mat=- -> num=0",
            "step id=A sys=lorenz96:4 par=- mat=- -> num=0",
            "step id=A sys=lorenz96 par=4020000000000000 mat=- -> num=0",
        ] {
            let mut line = Line::read(text).unwrap();
            assert!(Circuit::read(&mut line.input).is_err(), "{text}");
        }
    }

    #[test]
    fn what_is_not_used_cannot_be_read_unnoticed() {
        let van_der_pol = Circuit::of(System::VanDerPol { mu: 1.0 });
        let arguments = van_der_pol.arguments();
        assert!(arguments.parameters[1..].iter().all(|x| x.is_nan()));
        assert_eq!(arguments.dimension, 17);
    }

    #[test]
    fn tests_that_the_source_does_not_have() {
        let ring = |cells| {
            let forcing = 8.0;
            Circuit::of(System::Lorenz96 { cells, forcing }).added_refusal()
        };
        let sizes = [0, 1, 3, 4, 16, 17];
        let added = [None, Some(25), Some(25), None, None, Some(8)];
        assert_eq!(sizes.map(ring), added);
        let (dimension, matrix) = (2, vec![0.0; 3]);
        let linear = Circuit::of(System::Linear { dimension, matrix });
        assert_eq!(linear.added_refusal(), Some(9));
    }

    #[test]
    fn kinds_are_named() {
        assert_eq!(Systems::named("linear"), Ok(Systems::Of(LINEAR)));
        assert_eq!(Systems::named("lorenz96"), Ok(Systems::Of(RING)));
        assert!(Systems::named("duffing").is_err());
    }
}
