//! The closing check of a table.

use crate::slices::{
    closing_gaps, closing_margins, velocity_closing_gaps, velocity_closing_margins, Judged,
    Measured,
};
use crate::{ByDimension, Refusal, Solver, Table, Verdict};

/// A row, and the smallest tolerance at which it still closes: its measured gap, in metres or radians,
/// of speeds in m/s or rad/s.
#[derive(Clone, Copy, Debug, PartialEq)]
pub struct Margin {
    /// The row.
    pub row: usize,
    /// Its gap as measured, a radius of rounding added: its exact gap is no larger. Judged by it instead
    /// of its own tolerance, the others by their own, the row still closes; by any tolerance from 0 below
    /// it, where it is above 0, the verdict is open.
    pub gap: f64,
}

/// What the closing check measures.
#[derive(Clone, Debug, PartialEq)]
pub struct Checked {
    /// Whether every joint closes. That closed means the exact gap of every row is within its tolerance
    /// is a theorem.
    pub verdict: Verdict,
    /// The measured gap of the linear rows and of the angular ones: no row's exact gap is larger, and it
    /// is the smallest tolerance at which all rows of the dimension close.
    pub gap: ByDimension,
    /// The number of each row's rule.
    pub rule_numbers: Vec<u32>,
    /// Each row's measured gap, closed or open: the smallest tolerance at which it closes.
    pub gaps: Vec<f64>,
    /// Where the verdict is closed, each row with its gap: linear rows before angular ones, the largest
    /// first within each dimension, the lower row first among equals.
    pub margins: Option<Vec<Margin>>,
}

impl Checked {
    /// Whether the verdict is [`Verdict::Closed`].
    pub fn is_closed(&self) -> bool {
        self.verdict == Verdict::Closed
    }

    /// The measured gap of one row, where there is such a row.
    pub fn row_gap(&self, row: usize) -> Option<f64> {
        self.gaps.get(row).copied()
    }

    /// With the gaps that the list has, where there is one.
    fn of((judged, margins): (Judged, Option<Vec<Margin>>), rule_numbers: Vec<u32>) -> Self {
        let mut gaps = vec![0.0; rule_numbers.len()];
        for margin in margins.iter().flatten() {
            gaps[margin.row] = margin.gap;
        }
        Self { verdict: judged.verdict, gap: judged.gap, rule_numbers, gaps, margins }
    }

    /// Where an open check writes each row's gap.
    fn measured(&mut self) -> Measured<'_> {
        Measured { rule_numbers: &mut self.rule_numbers, gaps: &mut self.gaps }
    }
}

impl Solver {
    /// Measures every joint's gap from `solution`, what the multipliers gained since the errors were
    /// measured, and judges each row by its own rule. It knows no mode, limit or shift: whatever solved
    /// the table, closed means what it means.
    ///
    /// ```
    /// # use kapitsa::*;
    /// # fn main() -> Result<(), Refusal> {
    /// let mut table = Table::new();
    /// let [a, b] = [0; 2].map(|_| table.add_body(Body::point(2.0)));
    /// table.add_joint(Joint::between(a, b).row(Row::linear([1.0, 0.0, 0.0]).error(-0.25)));
    /// let mut solver = Solver::new(Rules::two(1e-6, 1e-6));
    /// let scanned = solver.check(&table, &[0.0])?;
    /// assert!(!scanned.is_closed() && scanned.row_gap(0) >= Some(0.25));
    /// let solved = solver.solve(&mut table)?;
    /// let checked = solver.check(&table, &solved.solution)?;
    /// assert!(checked.is_closed());
    /// assert_eq!(checked.row_gap(0), Some(17.0 * f64::EPSILON));
    /// # Ok(())
    /// # }
    /// ```
    pub fn check(&mut self, table: &Table, solution: &[f64]) -> Result<Checked, Refusal> {
        let mut rules = vec![0; table.rows()];
        let (numbers, tables) = (table.numbers(), table.tables());
        let (settings, work) = (&self.settings, &mut self.work);
        let found = closing_margins(numbers, &tables, &settings.rules, solution, &mut rules, work)?;
        let mut checked = Checked::of(found, rules);
        if !checked.is_closed() {
            closing_gaps(numbers, &tables, &settings.rules, solution, checked.measured(), work)?;
        }
        Ok(checked)
    }

    /// The same of speeds: by how much each row, with what its accumulated impulse gained since the
    /// residuals were measured, still misses the speed that it should have.
    pub fn check_velocity(
        &mut self,
        table: &Table,
        residuals: &[f64],
        solution: &[f64],
    ) -> Result<Checked, Refusal> {
        let mut rules = vec![0; table.rows()];
        let (numbers, tables) = (table.numbers(), table.velocity_tables(residuals));
        let (settings, work) = (&self.settings, &mut self.work);
        let found = velocity_closing_margins(
            numbers,
            &tables,
            &settings.rules,
            solution,
            &mut rules,
            work,
        )?;
        let mut checked = Checked::of(found, rules);
        if !checked.is_closed() {
            let to = checked.measured();
            velocity_closing_gaps(numbers, &tables, &settings.rules, solution, to, work)?;
        }
        Ok(checked)
    }
}
