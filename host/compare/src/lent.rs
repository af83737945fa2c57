//! Slices that are lent to the library, with a border on each side.
//!
//! An output's border is a pattern that must stay. The border of a slice that is read is made of
//! NaNs, so that a read past an end shows in the answer.

/// What an output entry holds before a call: a float that no case computes, and no NaN.
pub const FILLING: f64 = f64::from_bits(0x5a5a_5a5a_5a5a_5a5a);

/// Entries on each side.
const BORDER: usize = 4;

pub trait Entry: Copy {
    /// What an output entry holds before the call.
    const FILLING: Self;
    /// What stands around an output.
    const AROUND_OUTPUT: Self;

    fn pattern(self) -> u64;
}

impl Entry for f64 {
    const FILLING: f64 = FILLING;
    const AROUND_OUTPUT: f64 = f64::from_bits(0x6b6b_6b6b_6b6b_6b6b);

    fn pattern(self) -> u64 {
        self.to_bits()
    }
}

impl Entry for u64 {
    const FILLING: u64 = 0x5a5a_5a5a_5a5a_5a5a;
    const AROUND_OUTPUT: u64 = 0x6b6b_6b6b_6b6b_6b6b;

    fn pattern(self) -> u64 {
        self
    }
}

/// What stands around a slice that is read.
const AROUND_INPUT: f64 = f64::from_bits(0x7ff8_6b6b_6b6b_6b6b);

pub struct Lent<T> {
    name: &'static str,
    border: T,
    entries: Vec<T>,
}

impl<T: Entry> Lent<T> {
    /// An output of `length` entries.
    pub fn output(name: &'static str, length: usize) -> Self {
        let mut entries = vec![T::AROUND_OUTPUT; length + 2 * BORDER];
        entries[BORDER..BORDER + length].fill(T::FILLING);
        Self {
            name,
            border: T::AROUND_OUTPUT,
            entries,
        }
    }

    pub fn slice(&self) -> &[T] {
        &self.entries[BORDER..self.entries.len() - BORDER]
    }

    pub fn slice_mut(&mut self) -> &mut [T] {
        let end = self.entries.len() - BORDER;
        &mut self.entries[BORDER..end]
    }

    /// The slice as an array of a fixed length.
    pub fn array<const N: usize>(&self) -> &[T; N] {
        self.slice().try_into().expect("a slice of this length")
    }

    /// The same, to be written.
    pub fn array_mut<const N: usize>(&mut self) -> &mut [T; N] {
        self.slice_mut().try_into().expect("a slice of this length")
    }

    /// The entries after the call, or the name of the slice whose border was written.
    pub fn returned(&self) -> Result<Vec<T>, String> {
        let (before, rest) = self.entries.split_at(BORDER);
        let (entries, after) = rest.split_at(rest.len() - BORDER);
        for (border, side) in [(before, "before"), (after, "after")] {
            let kept = |entry: &T| entry.pattern() == self.border.pattern();
            if !border.iter().all(kept) {
                return Err(format!("memory {side} {} was written", self.name));
            }
        }
        Ok(entries.to_vec())
    }
}

impl Lent<f64> {
    /// A slice that is read, or read and written.
    pub fn input(name: &'static str, values: &[f64]) -> Self {
        let mut entries = vec![AROUND_INPUT; values.len() + 2 * BORDER];
        entries[BORDER..BORDER + values.len()].copy_from_slice(values);
        Self {
            name,
            border: AROUND_INPUT,
            entries,
        }
    }

    /// After the call on a slice that is only read.
    pub fn unchanged(&self, values: &[f64]) -> Result<(), String> {
        let returned = self.returned()?;
        let kept = |(a, b): (&f64, &f64)| a.to_bits() == b.to_bits();
        if returned.iter().zip(values).all(kept) {
            Ok(())
        } else {
            Err(format!("{} was written", self.name))
        }
    }
}

#[cfg(test)]
mod tests {
    use super::*;

    #[test]
    fn an_untouched_output_holds_its_filling() {
        let lent = Lent::<f64>::output("rows", 3);
        assert_eq!(lent.returned(), Ok(vec![FILLING; 3]));
        assert_eq!(Lent::<f64>::output("rows", 0).returned(), Ok(vec![]));
    }

    #[test]
    fn writes_outside_are_seen() {
        let mut lent = Lent::<f64>::output("rows", 2);
        lent.entries[BORDER - 1] = 0.0;
        assert_eq!(
            lent.returned(),
            Err("memory before rows was written".into())
        );
        let mut lent = Lent::<u64>::output("counts", 2);
        lent.entries[BORDER + 2] = 0;
        assert_eq!(
            lent.returned(),
            Err("memory after counts was written".into())
        );
    }

    #[test]
    fn writes_to_an_input_are_seen() {
        let values = [1.0, f64::NAN];
        let mut lent = Lent::input("matrix", &values);
        assert_eq!(lent.unchanged(&values), Ok(()));
        lent.slice_mut()[0] = -1.0;
        assert_eq!(lent.unchanged(&values), Err("matrix was written".into()));
    }
}
