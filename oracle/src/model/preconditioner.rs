//! The three modes: diagonal, incomplete Cholesky, block Jacobi.

use super::algebra::{Side, cross};
use super::table::{Row, Table};
use super::{Judged, all_finite, pass};
use crate::job::{BLOCK_JACOBI, INCOMPLETE_CHOLESKY};

const MAX_PAIRS: usize = 16_384;
const MAX_BLOCK_ROWS: usize = 6;

/// A lower triangle: each row's factors by ascending column, and its root of the pivot.
struct Triangle {
    rows: Vec<Vec<(usize, f64)>>,
    roots: Vec<f64>,
}

pub enum Preconditioner {
    Diagonal(Vec<f64>),
    /// Both factored modes end as one lower triangle.
    Factored(Factored),
}

pub struct Factored {
    triangle: Triangle,
    /// The same factors by column, with ascending rows.
    columns: Vec<Vec<(usize, f64)>>,
}

impl Preconditioner {
    pub fn build(mode: u32, shift: f64, table: &Table, diagonal: &[f64]) -> Judged<Self> {
        let triangle = match mode {
            INCOMPLETE_CHOLESKY => incomplete_cholesky(shift, table, diagonal)?,
            BLOCK_JACOBI => block_jacobi(table)?,
            _ => return Ok(Preconditioner::Diagonal(diagonal.to_vec())),
        };
        let mut columns = vec![Vec::new(); triangle.rows.len()];
        for (row, factors) in triangle.rows.iter().enumerate() {
            for &(column, factor) in factors {
                columns[column].push((row, factor));
            }
        }
        Ok(Preconditioner::Factored(Factored { triangle, columns }))
    }

    /// z, solved on `residual`.
    pub fn solve(&self, residual: &[f64]) -> Judged<Vec<f64>> {
        let solved = match self {
            Self::Diagonal(diagonal) => residual.iter().zip(diagonal).map(|(r, d)| r / d).collect(),
            Self::Factored(factored) => factored.solve(residual),
        };
        pass(16, all_finite(&solved))?;
        Ok(solved)
    }
}

impl Factored {
    fn solve(&self, residual: &[f64]) -> Vec<f64> {
        let mut z = residual.to_vec();
        for row in 0..z.len() {
            self.settle(&mut z, row, &self.triangle.rows[row]);
        }
        for row in (0..z.len()).rev() {
            self.settle(&mut z, row, &self.columns[row]);
        }
        z
    }

    fn settle(&self, z: &mut [f64], row: usize, factors: &[(usize, f64)]) {
        for &(other, factor) in factors {
            z[row] -= factor * z[other];
        }
        z[row] /= self.triangle.roots[row];
    }
}

/// The value of two rows that share a body, lower row first; None where they share none.
fn pair_value(table: &Table, low: &Row, high: &Row) -> Option<f64> {
    let mut value = None;
    for left in [&low.a, &low.b] {
        for right in [&high.a, &high.b] {
            if left.body == right.body {
                let one = cross(&table.masses[left.body], left, right);
                value = Some(value.map_or(one, |other: f64| other + one));
            }
        }
    }
    value
}

/// Pairs row > column that share a body, even where the value is zero.
fn pairs(table: &Table) -> Vec<Vec<(usize, f64)>> {
    let of_row = |row: usize| {
        let value = |column: usize| pair_value(table, &table.rows[column], &table.rows[row]);
        (0..row).filter_map(|column| value(column).map(|found| (column, found))).collect()
    };
    (0..table.rows.len()).map(of_row).collect()
}

/// Each pivot starts from diagonal × (1 + shift), both rounded.
fn incomplete_cholesky(shift: f64, table: &Table, diagonal: &[f64]) -> Judged<Triangle> {
    let pattern = pairs(table);
    pass(10, pattern.iter().map(Vec::len).sum::<usize>() <= MAX_PAIRS)?;
    pass(12, pattern.iter().flatten().all(|(_, value)| value.is_finite()))?;
    let mut triangle = Triangle { rows: Vec::new(), roots: Vec::new() };
    let mut current = vec![None; diagonal.len()];
    for (row, entries) in pattern.iter().enumerate() {
        current.fill(None);
        let mut pivot = diagonal[row] * (1.0 + shift);
        for &(column, value) in entries {
            let factor = less_products(value, &triangle.rows[column], &current);
            let factor = factor / triangle.roots[column];
            pass(13, factor.is_finite())?;
            current[column] = Some(factor);
            pivot -= factor * factor;
        }
        pass(13, pivot.is_finite() && pivot > f64::MIN_POSITIVE)?;
        let factors = entries.iter().filter_map(|&(at, _)| current[at].map(|f| (at, f)));
        triangle.rows.push(factors.collect());
        triangle.roots.push(pivot.sqrt());
    }
    Ok(triangle)
}

/// Subtracts products over common earlier columns, ascending.
fn less_products(value: f64, column: &[(usize, f64)], current: &[Option<f64>]) -> f64 {
    let common = column.iter().filter_map(|&(at, factor)| current[at].map(|own| own * factor));
    common.fold(value, |left, product| left - product)
}

/// Runs of equal owner, each factored by itself.
fn block_jacobi(table: &Table) -> Judged<Triangle> {
    let mut triangle = Triangle { rows: Vec::new(), roots: Vec::new() };
    let mut start = 0;
    while start < table.rows.len() {
        let owner = table.rows[start].owner;
        let len = table.rows[start..].iter().take_while(|row| row.owner == owner).count();
        pass(11, len <= MAX_BLOCK_ROWS)?;
        for row in start..start + len {
            block_row(table, start, row, &mut triangle)?;
        }
        start += len;
    }
    Ok(triangle)
}

/// One row of a block: for each column the body pair (11), the value (12), then
/// factor or pivot (13). Values are formed afresh, higher row first.
fn block_row(table: &Table, start: usize, row: usize, triangle: &mut Triangle) -> Judged<()> {
    let high = &table.rows[row];
    let mut factors: Vec<(usize, f64)> = Vec::new();
    for column in start..=row {
        let low = &table.rows[column];
        pass(11, high.a.body == low.a.body && high.b.body == low.b.body)?;
        let at = |left: &Side, right: &Side| cross(&table.masses[left.body], left, right);
        let mut value = at(&high.a, &low.a) + at(&high.b, &low.b);
        for previous in start..column {
            let other = if column == row { &factors } else { &triangle.rows[column] };
            value -= factors[previous - start].1 * other[previous - start].1;
        }
        pass(12, value.is_finite())?;
        if column == row {
            pass(13, value > f64::MIN_POSITIVE)?;
            triangle.roots.push(value.sqrt());
        } else {
            let factor = value / triangle.roots[column];
            pass(13, factor.is_finite())?;
            factors.push((column, factor));
        }
    }
    triangle.rows.push(factors);
    Ok(())
}
