//! Why something is refused.

use core::fmt;
use input::Refusal;

/// Makes the enum of refusals from their numbers, cases and words.
macro_rules! refusals {
    (@place $place:ident) => { usize };
    ($($(#[$doc:meta])* $number:literal $name:ident $(($place:ident))? => $words:expr;)*) => {
        /// A refusal. A case holds its place where it has one.
        ///
        /// ```
        /// use field_lyapunov::{BenettinConfig, LyapunovError};
        ///
        /// let error = BenettinConfig::new(3, 0.01, 10, usize::MAX).unwrap_err();
        /// assert_eq!(error, LyapunovError::CountAboveLimit(1));
        /// assert_eq!((error.number(), error.place()), (5, 1));
        /// assert_eq!(error.to_string(), "windows is above 16777216");
        /// ```
        #[derive(Clone, Copy, Debug, PartialEq, Eq, Hash)]
        #[non_exhaustive]
        pub enum LyapunovError {
            $($(#[$doc])* $name $((refusals!(@place $place)))?,)*
        }

        impl LyapunovError {
            /// The number of the refusal, 1 to 29.
            #[must_use]
            pub const fn number(&self) -> u64 {
                match self {
                    $(Self::$name { .. } => $number,)*
                }
            }

            /// The index, direction, count or output that the refusal points at; 0 where it points
            /// at none.
            #[must_use]
            pub const fn place(&self) -> usize {
                match *self {
                    $(Self::$name $(($place))? => 0 $(+ $place)?,)*
                }
            }

            /// The error with this number and place; `None` for a number that is no refusal.
            #[must_use]
            pub const fn from_number(number: u64, place: usize) -> Option<Self> {
                Some(match number {
                    $($number => Self::$name $(({
                        let $place = place;
                        $place
                    }))?,)*
                    _ => return None,
                })
            }
        }

        impl fmt::Display for LyapunovError {
            fn fmt(&self, out: &mut fmt::Formatter<'_>) -> fmt::Result {
                match *self {
                    $(Self::$name $(($place))? => write!(out, "{}", $words),)*
                }
            }
        }
    };
}

refusals! {
    /// 1: no exponents are asked for.
    1 ZeroTopK => "no exponents are asked for";
    /// 2: the step size is not finite, or not above 0.
    2 InvalidStepSize => "the step size is not a finite number above 0";
    /// 3: a window has no steps.
    3 ZeroStepsPerWindow => "a window has no steps";
    /// 4: there are no measured windows.
    4 ZeroWindows => "there are no measured windows";
    /// 5: a count is above [`MAX_COUNT`](crate::MAX_COUNT); the first count that is, in the order
    /// 0 `steps_per_window`, 1 `windows`, 2 `transient_windows`, 3 `steps_per_transient_window`. A
    /// settings form can highlight that field, which the text names too.
    5 CountAboveLimit(place) =>
        format_args!("{} is above {}", count_name(place), crate::MAX_COUNT);
    /// 6: the start time, or the time of a step, is not finite.
    6 InvalidInitialTime => "the start time is not finite";
    /// 7: the dimension is 0.
    7 ZeroDimension => "the dimension is 0";
    /// 8: the dimension is above [`MAX_DIMENSION`](crate::MAX_DIMENSION).
    8 DimensionAboveLimit => "the dimension is above 16";
    /// 9: a linear system's matrix has not as many entries as the square of the dimension.
    9 MatrixMismatch => "the matrix has not dimension times dimension entries";
    /// 10: the state has not as many entries as the dimension.
    10 StateMismatch => "the state has not as many entries as the dimension";
    /// 11: an entry of the start state is not finite; the first such index.
    11 NonFiniteInitialState(place) =>
        format_args!("entry {place} of the start state is not finite");
    /// 12: more exponents are asked for than the dimension.
    12 InvalidExponentCount => "more exponents are asked for than the dimension";
    /// 13: an output is too short: 0 rows (or the orthonormaliser's numbers), 1 exponents, 2 final
    /// state. This crate lends outputs that fit, so from a run it means that there is no memory
    /// for the rows.
    13 OutputTooShort(place) =>
        format_args!("there is too little room for the {}", output_name(place));
    /// 14: a direction collapsed: its squared length is 0 or not finite; the direction.
    14 DegenerateTangent(place) =>
        format_args!("direction {place} collapsed: its length is 0 or not finite");
    /// 15: the duration of a window is not finite.
    15 InvalidWindowDuration => "the duration of a window is not finite";
    /// 16: an entry of the state became not finite; the first such index.
    16 NonFiniteState(place) => format_args!("entry {place} of the state became not finite");
    /// 17: an entry of the directions became not finite; the first such index.
    17 NonFiniteTangent(place) =>
        format_args!("entry {place} of the directions became not finite");
    /// 18: the time became not finite.
    18 InvalidTime => "the time became not finite";
    /// 19: a step's directions have not count times dimension entries, or there are more than
    /// [`MAX_DIMENSION`](crate::MAX_DIMENSION) of them.
    19 TangentMismatch =>
        "the directions have not count times dimension entries, or are more than 16";
    /// 20: there are no exponents.
    20 NoExponents => "there are no exponents";
    /// 21: there are more than [`MAX_EXPONENTS`](crate::MAX_EXPONENTS) exponents.
    21 TooManyExponents => "there are more than 256 exponents";
    /// 22: an exponent is not finite; the first such index.
    22 NonFiniteExponent(place) => format_args!("exponent {place} is not finite");
    /// 23: the number of bytes is not a multiple of 8. Only the program `spectrum` refuses by it.
    23 IncompleteBytes => "the number of bytes is not a multiple of 8";
    /// 24: the logarithm of anything that is not positive, normal and finite.
    24 LogarithmDomain => "no logarithm: not positive, normal and finite";
    /// 25: a ring has 1 to 3 cells. It is tested straight after 8.
    25 TooFewCells => "the ring has fewer than 4 cells";
    /// 26: nothing is kept under the number, on going on or forgetting. It is tested before any
    /// setting.
    26 NoSuchNumber => "nothing is kept under this number";
    /// 27: eight other numbers are kept, on keeping. It is tested before any setting.
    27 StoreFull => "eight other numbers are kept";
    /// 28: eight runs of the dispatcher are unfinished, on hand-in. It is tested before any setting.
    28 DispatcherFull => "eight runs are unfinished";
    /// 29: a warm-up window has no steps, also where there are no warm-up windows. It is tested
    /// straight after 4.
    29 ZeroStepsPerTransientWindow => "a warm-up window has no steps";
}

/// What the library answers, as a `Result`: 0 is no refusal.
pub(crate) fn answered(refusal: Refusal) -> crate::Result<()> {
    if refusal.number == 0 {
        return Ok(());
    }
    match LyapunovError::from_number(refusal.number, refusal.place as usize) {
        Some(error) => Err(error),
        // Proved of the library, whatever it is handed.
        None => unreachable!("the library has no refusal {}", refusal.number),
    }
}

/// The field of the settings at a place of refusal 5. The library has no other place.
fn count_name(place: usize) -> &'static str {
    match place {
        0 => "steps_per_window",
        1 => "windows",
        2 => "transient_windows",
        3 => "steps_per_transient_window",
        _ => "a count",
    }
}

/// The name of the output at a place of refusal 13.
fn output_name(place: usize) -> &'static str {
    match place {
        0 => "rows",
        1 => "exponents",
        _ => "final state",
    }
}

impl std::error::Error for LyapunovError {}

#[cfg(test)]
mod tests {
    use super::*;

    #[test]
    fn numbers_and_places_are_read_back() {
        for number in 1..=29 {
            let error = LyapunovError::from_number(number, 7).unwrap();
            assert_eq!(error.number(), number);
            let placed = [5, 11, 13, 14, 16, 17, 22].contains(&number);
            assert_eq!(error.place(), if placed { 7 } else { 0 });
            assert!(!error.to_string().is_empty());
        }
        assert_eq!(LyapunovError::from_number(0, 0), None);
        assert_eq!(LyapunovError::from_number(30, 0), None);
    }

    #[test]
    fn a_count_is_named_as_its_field() {
        let texts = [0, 1, 2, 3, 4, usize::MAX].map(|place| {
            let error = LyapunovError::CountAboveLimit(place);
            error.to_string()
        });
        assert_eq!(
            texts,
            [
                "steps_per_window is above 16777216",
                "windows is above 16777216",
                "transient_windows is above 16777216",
                "steps_per_transient_window is above 16777216",
                "a count is above 16777216",
                "a count is above 16777216",
            ]
        );
    }

    #[test]
    fn every_error_has_words_of_its_own() {
        let words = |number| LyapunovError::from_number(number, 0).unwrap().to_string();
        let all: std::collections::BTreeSet<String> = (1..=29).map(words).collect();
        assert_eq!(all.len(), 29);
    }
}
