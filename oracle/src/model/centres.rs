//! Where each link ends up (document 02, d).

use super::algebra::{Mass, scaled};
use crate::job::*;

/// The new centre of each body: its centre plus inverse_mass times its linear impulse, each rounded.
/// A body whose six impulses are all zero keeps its centre's bits.
pub fn moved(job: &Job, masses: &[Mass], impulses: &[f64]) -> Vec<f64> {
    let mut found = job.centres.clone();
    let bodies = masses.iter().zip(impulses.chunks_exact(IMPULSE_NUMBERS));
    for (centre, (mass, six)) in found.chunks_exact_mut(CENTRE_NUMBERS).zip(bodies) {
        if six.iter().any(|value| *value != 0.0) {
            let moves = scaled([six[0], six[1], six[2]], mass.inverse_mass);
            centre.iter_mut().zip(moves).for_each(|(part, by)| *part += by);
        }
    }
    found
}
