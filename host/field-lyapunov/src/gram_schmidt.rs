//! The orthonormaliser.

use crate::error::answered;
use crate::{memory, LyapunovError, Result};

/// Orthonormalises the directions of length `dimension` that lie one after the other in
/// `tangents`, and answers the logarithms of their lengths.
///
/// Leftover entries stay. On [`LyapunovError::DegenerateTangent`] the directions before the
/// collapsed one are finished, and the collapsed one is cleared of them and not divided.
///
/// ```
/// use field_lyapunov::{modified_gram_schmidt, LyapunovError};
///
/// let mut directions = [2.0, 0.0, 2.0, 3.0];
/// let logarithms = modified_gram_schmidt(&mut directions, 2)?;
/// assert_eq!(directions, [1.0, 0.0, 0.0, 1.0]);
/// assert_eq!(logarithms, [field_lyapunov::ln(2.0)?, field_lyapunov::ln(3.0)?]);
///
/// let mut parallel = [1.0, 0.0, 2.0, 0.0];
/// let refused = modified_gram_schmidt(&mut parallel, 2);
/// assert_eq!(refused, Err(LyapunovError::DegenerateTangent(1)));
/// # Ok::<(), LyapunovError>(())
/// ```
pub fn modified_gram_schmidt(tangents: &mut [f64], dimension: usize) -> Result<Vec<f64>> {
    let count = tangents.len().checked_div(dimension).unwrap_or(0);
    let Some(mut numbers) = memory::floats(2 * count) else {
        return Err(LyapunovError::OutputTooShort(0));
    };
    modified_gram_schmidt_into(tangents, dimension, &mut numbers)?;
    numbers.truncate(count);
    Ok(numbers)
}

/// [`modified_gram_schmidt`] with the numbers written into a slice of at least twice as many
/// floats as there are directions: their logarithms, then their squared lengths.
///
/// ```
/// let mut directions = [0.0, 4.0];
/// let mut numbers = [0.0; 2];
/// field_lyapunov::modified_gram_schmidt_into(&mut directions, 2, &mut numbers)?;
/// assert_eq!(numbers, [field_lyapunov::ln(4.0)?, 16.0]);
/// # Ok::<(), field_lyapunov::LyapunovError>(())
/// ```
pub fn modified_gram_schmidt_into(
    tangents: &mut [f64],
    dimension: usize,
    numbers: &mut [f64],
) -> Result<()> {
    let refusal = lyapunov_sys::modified_gram_schmidt(tangents, dimension, numbers);
    answered(refusal)
}
