//! A joint: rows between the same two bodies.

use crate::{BodyId, Row};

/// A joint: rows between the same two bodies, under one owner's number. In
/// [`Mode::BlockJacobi`](crate::Mode::BlockJacobi) it has at most six.
///
/// ```
/// use kapitsa::{Body, Joint, Row, Table};
///
/// let mut table = Table::new();
/// let (frame, crank) = (table.add_body(Body::fixed()), table.add_body(Body::point(0.2)));
/// let pin = Joint::between(frame, crank)
///     .row(Row::linear([1.0, 0.0, 0.0]).error(2e-4))
///     .row(Row::linear([0.0, 1.0, 0.0]).error(-1e-4));
/// assert_eq!(table.add_joint(pin), 0..2);
/// ```
#[derive(Clone, Debug, PartialEq)]
pub struct Joint {
    pub(crate) a: BodyId,
    pub(crate) b: BodyId,
    pub(crate) rows: Vec<Row>,
}

impl Joint {
    /// A joint between two bodies, which has no row yet.
    pub fn between(a: BodyId, b: BodyId) -> Self {
        Self { a, b, rows: vec![] }
    }

    /// With one row more.
    pub fn row(mut self, row: Row) -> Self {
        self.rows.push(row);
        self
    }

    /// With a row along each of the three axes: a ball joint. A point of body a stays on one of body b,
    /// `arm_a` and `arm_b` off their centres, and is off it by `gap`.
    pub fn ball(mut self, arm_a: [f64; 3], arm_b: [f64; 3], gap: [f64; 3]) -> Self {
        for (k, error) in gap.into_iter().enumerate() {
            let mut axis = [0.0; 3];
            axis[k] = 1.0;
            self.rows.push(Row::linear(axis).arms(arm_a, arm_b).error(error));
        }
        self
    }
}
