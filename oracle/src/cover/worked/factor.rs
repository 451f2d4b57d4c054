//! The factors of both modes, and what is solved by them.

use super::{Judged, Work, pass, runs, shared};
use crate::cover::slip::Slip;
use crate::model::{Row, Side, cross};
use std::ops::Range;

/// A row's factors, None where the pattern has none; its root of the pivot comes last.
pub type Factors = Vec<Option<f64>>;

/// Rows of one block have one body pair.
fn one_pair(first: &Row, second: &Row) -> bool {
    first.a.body == second.a.body && first.b.body == second.b.body
}

impl Work<'_> {
    /// One rounding for each product that is taken away.
    fn less(&self, from: f64, products: impl Iterator<Item = f64>, backwards: Slip) -> f64 {
        let mut products: Vec<f64> = products.collect();
        if self.is(backwards) {
            products.reverse();
        }
        products.into_iter().fold(from, |left, product| left - product)
    }

    /// A value less the products over common earlier columns.
    fn reduced(&self, value: f64, own: &[Option<f64>], column: &[Option<f64>]) -> f64 {
        let common = own.iter().zip(column).filter_map(|(left, right)| Some((*left)? * (*right)?));
        self.less(value, common, Slip::ProductsDescending)
    }

    fn pivot(&self, value: f64, own: &[Option<f64>]) -> f64 {
        let squares = own.iter().flatten().map(|factor| factor * factor);
        self.less(value, squares, Slip::SquaresDescending)
    }

    pub fn pair_value(&self, low: &Row, high: &Row) -> Option<f64> {
        let other = self.is(Slip::OtherRowFirst);
        let ends = if other { shared(high, low) } else { shared(low, high) };
        let taken = if self.is(Slip::OneSharedBody) { 1 } else { 2 };
        let value =
            |(left, right): (&Side, &Side)| cross(&self.table.masses[left.body], left, right);
        match ends.into_iter().take(taken).map(value).reduce(|sum, one| sum + one) {
            None if self.is(Slip::AbsentAsZero) => Some(0.0),
            Some(value) if value == 0.0 && self.is(Slip::ZeroAsAbsent) => None,
            found => found,
        }
    }

    pub fn cholesky(&self, diagonal: &[f64]) -> Judged<Vec<Factors>> {
        let rows = &self.table.rows;
        let below = |row: usize| rows[..row].iter().map(move |low| (low, &rows[row]));
        let pairs = (0..rows.len()).flat_map(below);
        let few = pairs.filter(|(low, high)| !shared(low, high).is_empty()).count() <= 16_384;
        let values =
            |row: usize| below(row).map(|(low, high)| self.pair_value(low, high)).collect();
        let values: Vec<Factors> = (0..rows.len()).map(values).collect();
        let finite = |row: &Factors| row.iter().flatten().all(|value| value.is_finite());
        pass(10, few || self.is(Slip::CountAfterValues))?;
        pass(12, self.is(Slip::ValuesByRow) || values.iter().all(finite))?;
        pass(10, few)?;
        let mut lower: Vec<Factors> = Vec::new();
        for (values, diagonal) in values.iter().zip(diagonal) {
            pass(12, finite(values))?;
            let mut own = Vec::new();
            for (value, column) in values.iter().zip(&lower) {
                let factor = value.map(|value| self.reduced(value, &own, column) / root(column));
                pass(13, factor.is_none_or(f64::is_finite))?;
                own.push(factor);
            }
            let pivot = self.pivot(*diagonal, &own);
            pass(13, pivot.is_finite() && pivot > f64::MIN_POSITIVE)?;
            own.push(Some(pivot.sqrt()));
            lower.push(own);
        }
        Ok(lower)
    }

    pub fn blocks(&self, diagonal: &[f64]) -> Judged<Vec<Factors>> {
        let rows = &self.table.rows;
        let fits = |run: &Range<usize>| {
            run.len() <= 6 && rows[run.clone()].iter().all(|row| one_pair(row, &rows[run.start]))
        };
        let runs = runs(self.table);
        pass(11, !self.is(Slip::RunsBeforeFactors) || runs.iter().all(fits))?;
        let mut lower = Vec::new();
        for run in runs {
            pass(11, run.len() <= 6 || self.is(Slip::LengthAfterRows))?;
            for row in run.clone() {
                pass(11, row < run.start + 6)?;
                let own = self.block_row(run.start, row, diagonal[row], &lower)?;
                lower.push(own);
            }
        }
        Ok(lower)
    }

    fn block_row(
        &self,
        start: usize,
        row: usize,
        diagonal: f64,
        lower: &[Factors],
    ) -> Judged<Factors> {
        let high = &self.table.rows[row];
        let mut own = vec![None; start];
        for column in start..row {
            let low = &self.table.rows[column];
            pass(11, self.is(Slip::ValueBeforeBodies) || one_pair(low, high))?;
            let value = self.reduced(self.block_value(low, high), &own, &lower[column]);
            pass(12, value.is_finite())?;
            pass(11, one_pair(low, high))?;
            let factor = value / root(&lower[column]);
            pass(13, factor.is_finite())?;
            own.push(Some(factor));
        }
        let found = self.block_value(high, high);
        let replaced = self.is(Slip::ReplacedInBlocks) && found <= f64::MIN_POSITIVE;
        let pivot = self.pivot(if replaced { diagonal } else { found }, &own);
        pass(12, pivot.is_finite())?;
        pass(13, pivot > f64::MIN_POSITIVE)?;
        own.push(Some(pivot.sqrt()));
        Ok(own)
    }

    fn block_value(&self, low: &Row, high: &Row) -> f64 {
        let (first, second) = if self.is(Slip::OtherRowFirst) { (low, high) } else { (high, low) };
        let at = |left: &Side, right: &Side| cross(&self.table.masses[left.body], left, right);
        at(&first.a, &second.a) + at(&first.b, &second.b)
    }

    pub fn both_solves(&self, lower: &[Factors], residual: &[f64]) -> Vec<f64> {
        let mut z = residual.to_vec();
        for row in 0..z.len() {
            let taken = lower[row][..row].iter().zip(&z).filter_map(|(f, z)| Some((*f)? * z));
            z[row] = self.less(z[row], taken, Slip::ForwardDescending) / root(&lower[row]);
        }
        for row in (0..z.len()).rev() {
            let later = lower[row + 1..].iter().zip(&z[row + 1..]);
            let taken = later.filter_map(|(factors, z)| Some(factors[row]? * z));
            z[row] = self.less(z[row], taken, Slip::BackwardDescending) / root(&lower[row]);
        }
        z
    }
}

fn root(factors: &[Option<f64>]) -> f64 {
    factors.last().copied().flatten().expect("a row of factors ends in its root")
}
