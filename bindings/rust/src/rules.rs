//! Tolerances by kind of joint.

use crate::{Dimension, MAX_KEY};

/// Tolerances by kind of joint, at most [`MAX_RULES`](crate::MAX_RULES), numbered from 0.
///
/// A rule applies to the rows of its dimension whose key is from its first to its last. Each row must be
/// under one rule and no second ([`Refusal::RulesOfRow`](crate::Refusal::RulesOfRow)); keys that no row
/// bears need none, and there rules may overlap.
///
/// ```
/// use kapitsa::{Dimension::*, Rules, MAX_KEY};
///
/// // pins (keys 0 to 9) to a micrometre, other lengths to a tenth of a millimetre, angles to a milliradian
/// let rules = Rules::default()
///     .with(Linear, 0, 9, 1e-6)
///     .with(Linear, 10, MAX_KEY, 1e-4)
///     .with(Angular, 0, MAX_KEY, 1e-3);
/// assert_eq!(rules.len(), 3);
/// ```
#[derive(Clone, Debug, Default, PartialEq)]
pub struct Rules {
    /// Three words a rule: dimension, first key and last key.
    pub words: Vec<u32>,
    /// The tolerance of each, in metres or radians, for velocities in m/s or rad/s.
    pub tolerances: Vec<f64>,
}

impl Rules {
    /// One tolerance for each dimension, over all keys.
    pub fn two(linear: f64, angular: f64) -> Self {
        let first = Self::default().with(Dimension::Linear, 0, MAX_KEY, linear);
        first.with(Dimension::Angular, 0, MAX_KEY, angular)
    }

    /// With one rule more, behind the others.
    pub fn with(mut self, dimension: Dimension, first: u32, last: u32, tolerance: f64) -> Self {
        self.words.extend([dimension as u32, first, last]);
        self.tolerances.push(tolerance);
        self
    }

    /// How many rules there are.
    pub fn len(&self) -> usize {
        self.tolerances.len()
    }

    /// Whether there is none.
    pub fn is_empty(&self) -> bool {
        self.tolerances.is_empty()
    }
}
