//! What a solve presses on a body.

/// What a solve presses on a body: its linear impulse and its angular one.
#[derive(Clone, Copy, Debug, Default, PartialEq)]
pub struct Impulse {
    /// Times the inverse mass, by how much the centre moves, or its speed changes.
    pub linear: [f64; 3],
    /// Times the inverse inertia, by how much the body turns, or its turning changes.
    pub angular: [f64; 3],
}

impl Impulse {
    /// Six numbers each.
    pub(crate) fn each(numbers: &[f64]) -> Vec<Self> {
        let pairs = numbers.as_chunks().0.as_chunks().0;
        pairs.iter().map(|[linear, angular]| Self { linear: *linear, angular: *angular }).collect()
    }
}
