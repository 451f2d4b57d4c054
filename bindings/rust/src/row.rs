//! A row of a joint: one direction in which two bodies must not part.

use crate::{Dimension, ROW_NUMBERS};
use std::ops::Neg;

/// How a row's measure moves with its two bodies: with each one's centre, and with its turning.
#[derive(Clone, Copy, Debug, Default, PartialEq)]
pub struct Jacobian {
    /// Along which it moves with body a.
    pub linear_a: [f64; 3],
    /// About which it moves with body a's turning.
    pub angular_a: [f64; 3],
    /// Along which it moves with body b.
    pub linear_b: [f64; 3],
    /// About which it moves with body b's turning.
    pub angular_b: [f64; 3],
}

/// A rigid row, for positions and for velocities. Made by its kind, then told how far it gapes.
///
/// ```
/// use kapitsa::Row;
///
/// // a pin that gapes by 0.2 mm along x, 3 cm off the centre of body a and 4 cm off that of body b
/// let pin = Row::linear([1.0, 0.0, 0.0])
///     .arms([0.0, 0.03, 0.0], [0.0, -0.04, 0.0])
///     .error(2e-4);
/// assert_eq!(pin.numbers()[15], 2e-4);
/// ```
#[derive(Clone, Copy, Debug, PartialEq)]
pub struct Row {
    numbers: [f64; ROW_NUMBERS],
    dimension: Dimension,
    key: u32,
}

impl Row {
    /// A linear row: a point of body a stays on one of body b, along this axis. The points are the two
    /// centres, unless [`arms`](Self::arms) says otherwise.
    pub fn linear(axis: [f64; 3]) -> Self {
        let jacobian =
            Jacobian { linear_a: axis, linear_b: axis.map(f64::neg), ..Jacobian::default() };
        Self::general(Dimension::Linear, jacobian)
    }

    /// An angular row: body a does not turn against body b, about this axis.
    pub fn angular(axis: [f64; 3]) -> Self {
        let jacobian =
            Jacobian { angular_a: axis, angular_b: axis.map(f64::neg), ..Jacobian::default() };
        Self::general(Dimension::Angular, jacobian)
    }

    /// A row of any kind, such as a gear's.
    pub fn general(dimension: Dimension, jacobian: Jacobian) -> Self {
        let mut numbers = [0.0; ROW_NUMBERS];
        numbers[0..3].copy_from_slice(&jacobian.linear_a);
        numbers[3..6].copy_from_slice(&jacobian.angular_a);
        numbers[9..12].copy_from_slice(&jacobian.linear_b);
        numbers[12..15].copy_from_slice(&jacobian.angular_b);
        numbers[20..24].copy_from_slice(&[
            f64::NEG_INFINITY, // min_multiplier
            f64::INFINITY,
            f64::NEG_INFINITY, // min_impulse
            f64::INFINITY,
        ]);
        Self { numbers, dimension, key: 0 }
    }

    /// From each body's centre to the point where the row holds it: turning a body moves that point by
    /// the arm's cross product with the row's axis.
    pub fn arms(mut self, arm_a: [f64; 3], arm_b: [f64; 3]) -> Self {
        let axes = [0, 9].map(|at| [0, 1, 2].map(|k| self.numbers[at + k]));
        self.numbers[3..6].copy_from_slice(&cross(arm_a, axes[0]));
        self.numbers[12..15].copy_from_slice(&cross(arm_b, axes[1]));
        self
    }

    /// By how much the joint gapes, in metres or radians: what body a's side is off body b's along the
    /// axis. A solve for positions closes it; one for velocities is lent residuals instead.
    pub fn error(mut self, error: f64) -> Self {
        self.numbers[15] = error;
        self
    }

    /// The kind of joint that [`Rules`](crate::Rules) tell apart, from 0 to [`MAX_KEY`](crate::MAX_KEY).
    pub fn key(mut self, key: u32) -> Self {
        self.key = key;
        self
    }

    /// The multiplier that it has accumulated in earlier solves.
    pub fn multiplier(mut self, accumulated: f64) -> Self {
        self.numbers[24] = accumulated;
        self
    }

    /// The impulse that it has accumulated in earlier solves for velocities.
    pub fn impulse(mut self, accumulated: f64) -> Self {
        self.numbers[25] = accumulated;
        self
    }

    /// Its numbers, laid out as `kapitsa.h` has them.
    pub fn numbers(&self) -> &[f64; ROW_NUMBERS] {
        &self.numbers
    }

    /// Its words, of the joint of this number between these bodies.
    pub(crate) fn words(&self, a: u32, b: u32, owner: u32) -> [u32; 8] {
        [self.key, self.dimension as u32, a, b, 0, 1, owner, 0]
    }
}

fn cross(u: [f64; 3], v: [f64; 3]) -> [f64; 3] {
    [u[1] * v[2] - u[2] * v[1], u[2] * v[0] - u[0] * v[2], u[0] * v[1] - u[1] * v[0]]
}
