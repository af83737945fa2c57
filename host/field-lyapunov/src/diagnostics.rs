//! What is read off a spectrum.

use crate::error::answered;
use crate::Result;

/// The Kaplan-Yorke dimension of 1 to 256 finite exponents, in any order.
///
/// It lies between 0 and the number of exponents. A part of a spectrum has only a dimension in
/// terms of that part.
///
/// ```
/// use field_lyapunov::{kaplan_yorke_dimension, LyapunovError};
///
/// assert_eq!(kaplan_yorke_dimension(&[1.0, 0.0, -2.0]), Ok(2.5));
/// assert_eq!(kaplan_yorke_dimension(&[]), Err(LyapunovError::NoExponents));
/// ```
pub fn kaplan_yorke_dimension(exponents: &[f64]) -> Result<f64> {
    let mut out = 0.0;
    let refusal = lyapunov_sys::kaplan_yorke_dimension(exponents, &mut out);
    answered(refusal).map(|()| out)
}

/// The sum of the exponents above 0, of 1 to 256 finite ones: the spectrum's side of Pesin's
/// identity, in nats a unit of time. Where none is above 0 it is −0.0, as the library's own sum of
/// nothing.
///
/// ```
/// use field_lyapunov::{kolmogorov_sinai_entropy, LyapunovError};
///
/// assert_eq!(kolmogorov_sinai_entropy(&[-1.0, 0.5, 0.25]), Ok(0.75));
/// assert!(kolmogorov_sinai_entropy(&[-1.0, -2.0])?.is_sign_negative());
/// let refused = kolmogorov_sinai_entropy(&[0.0, f64::NAN]);
/// assert_eq!(refused, Err(LyapunovError::NonFiniteExponent(1)));
/// # Ok::<(), LyapunovError>(())
/// ```
pub fn kolmogorov_sinai_entropy(exponents: &[f64]) -> Result<f64> {
    let mut out = 0.0;
    let refusal = lyapunov_sys::kolmogorov_sinai_entropy(exponents, &mut out);
    answered(refusal).map(|()| out)
}
