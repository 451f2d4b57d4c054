//! From a scanned inertia to a mass.

use crate::control::DefaultControl;
use crate::{archive, Refusal};

/// The inverse of a link's 3 by 3 local inertia, both by columns, as a mass has its inverse inertia.
/// [`Body::new`](crate::Body::new) calls it.
///
/// [`Refusal::Number`], [`Refusal::Symmetry`], [`Refusal::Definite`] and [`Refusal::Value`] turn an
/// inertia back, in this order. Before the factor the numbers are divided by the largest of them, so that
/// grams and tonnes do alike; two numbers across the diagonal may then differ by 2^-47.
///
/// ```
/// let inverse = kapitsa::inverse_spd(&[4.0, 0.0, 0.0, 0.0, 1.0, 0.0, 0.0, 0.0, 0.25])?;
/// assert_eq!(inverse, [0.25, 0.0, 0.0, 0.0, 1.0, 0.0, 0.0, 0.0, 4.0]);
/// # Ok::<(), kapitsa::Refusal>(())
/// ```
#[inline(never)]
pub fn inverse_spd(inertia: &[f64; 9]) -> Result<[f64; 9], Refusal> {
    let mut inverse = [0.0; 9];
    let control = DefaultControl::set();
    // SAFETY: each pointer and length is of one array, and the two do not overlap.
    let refusal =
        unsafe { archive::kapitsa_inverse_spd(inertia.as_ptr(), 9, inverse.as_mut_ptr(), 9) };
    drop(control);
    Refusal::judge(refusal).map(|()| inverse)
}
