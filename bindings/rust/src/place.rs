//! What a refusal is about.

use crate::slices::{first_refused, first_refused_velocity};
use crate::{BodyId, Refusal, Solver, Table};

/// What a refusal is about: the first that fails its test.
#[derive(Clone, Copy, Debug, PartialEq, Eq, Hash)]
#[non_exhaustive]
pub enum Place {
    /// A row.
    Row(usize),
    /// A body.
    Body(BodyId),
    /// A rule, by its number.
    Rule(usize),
    /// The limit of 0 steps.
    Limit,
}

impl Place {
    /// What the archive tells: what, and which.
    pub(crate) fn of([what, which]: [u32; 2]) -> Option<Self> {
        match what {
            1 => Some(Self::Row(which as usize)),
            2 => Some(Self::Body(BodyId(which))),
            3 => Some(Self::Rule(which as usize)),
            4 => Some(Self::Limit),
            _ => None,
        }
    }
}

impl Solver {
    /// Of a table whose solve was refused so: the first row, body or rule that the refusal is about.
    ///
    /// ```
    /// # use kapitsa::*;
    /// let mut table = Table::new();
    /// let [a, b] = [0; 2].map(|_| table.add_body(Body::fixed()));
    /// table.add_joint(Joint::between(a, b).row(Row::linear([1.0, 0.0, 0.0]).error(1e-3)));
    /// let mut solver = Solver::new(Rules::two(1e-6, 1e-6));
    /// let refusal = solver.solve(&mut table).unwrap_err();
    /// assert_eq!(refusal, Refusal::Immovable);
    /// assert_eq!(solver.first_refused(&table, refusal), Some(Place::Row(0)));
    /// ```
    pub fn first_refused(&self, table: &Table, refusal: Refusal) -> Option<Place> {
        first_refused(table.numbers(), &table.tables(), &self.settings, refusal)
    }

    /// The same of a solve for velocities.
    pub fn first_refused_velocity(
        &self,
        table: &Table,
        residuals: &[f64],
        refusal: Refusal,
    ) -> Option<Place> {
        let tables = table.velocity_tables(residuals);
        first_refused_velocity(table.numbers(), &tables, &self.settings, refusal)
    }
}
