//! The closing check: measured r, radius E, verdict and gap.

use super::algebra::{Mass, Side};
use super::operator;
use super::table::{Row, Table, counts_fit, masses_finite, residuals_finite, words_fit};
use super::{Judged, pass};
use crate::job::*;

/// What a check gives where it is not refused.
pub struct Checked {
    pub closed: bool,
    /// For each dimension the largest rounded |r| + E of its rows, from +0.0 upward.
    pub gap: [f64; 2],
    /// The rule that each row was judged by, and what was found of the row.
    pub rules: Vec<u32>,
    pub measured: Vec<Measured>,
}

/// Verdict and gap, or refusal 3, 4, 27, 28, 6, 20, 7 or 18. The job's limit and mode are not read,
/// its centres by 6 alone.
pub fn closing_check(job: &Job, list: &[f64]) -> Judged<Checked> {
    pass(3, counts_fit(job) && list.len() == job.rows as usize)?;
    pass(4, words_fit(job))?;
    let table = Table::of(job)?;
    pass(6, masses_finite(job))?;
    pass(20, residuals_finite(job))?;
    pass(7, table.rows.iter().all(|row| row.valid))?;
    pass(18, sized(job, &table, list))?;
    let measured = measure(&table, list);
    let within = |(row, found): (usize, &Measured)| found.reach() <= table.tolerance(row);
    let closed = measured.iter().enumerate().all(within);
    let mut gap = [0.0_f64; 2];
    for (row, found) in table.rows.iter().zip(&measured) {
        gap[row.dimension] = gap[row.dimension].max(found.reach());
    }
    Ok(Checked { closed, gap, rules: table.rules, measured })
}

/// As the C functions give it: refusal, 1 where closed, and the bits of both gaps.
pub fn check_words(answer: &Judged<Checked>) -> [u64; 4] {
    match answer {
        Err(number) => [u64::from(*number), 0, 0, 0],
        Ok(Checked { closed, gap: [linear, angular], .. }) => {
            [0, u64::from(*closed), linear.to_bits(), angular.to_bits()]
        }
    }
}

/// What the check finds of a row.
pub struct Measured {
    /// (−error) − value.
    pub r: f64,
    /// E = W × ((n + 16) × 2^-51).
    pub radius: f64,
}

impl Measured {
    /// Rounded |r| + E: the smallest tolerance at which the row closes.
    pub fn reach(&self) -> f64 {
        self.r.abs() + self.radius
    }
}

fn measure(table: &Table, list: &[f64]) -> Vec<Measured> {
    let values = operator::product(table, list);
    let sizes = operator::product(&sizes_of(table), &absolute(list));
    let unit = (table.rows.len() as f64 + 16.0) * two(-51);
    let row = |(row, (value, size)): (&Row, (&f64, &f64))| Measured {
        r: -row.error - value,
        radius: (row.error.abs() + size) * unit,
    };
    table.rows.iter().zip(values.iter().zip(&sizes)).map(row).collect()
}

/// Refusal 18's test: zero, or from 2^-150 to 2^150 in size. Of a velocity job it looks at what stands
/// in the error's place, and not at the error.
fn sized(job: &Job, table: &Table, list: &[f64]) -> bool {
    let bound = two(150);
    let fits = |value: &f64| *value == 0.0 || (1.0 / bound <= value.abs() && value.abs() <= bound);
    let row_fits = |row: &[f64]| {
        row[LINEAR_A..POSITION_ANGULAR_A].iter().all(fits) && row[LINEAR_B..ERROR].iter().all(fits)
    };
    job.numbers.chunks_exact(ROW_NUMBERS).all(row_fits)
        && table.rows.iter().all(|row| fits(&row.error))
        && job.masses.iter().all(fits)
        && list.iter().all(fits)
}

/// The table with every number that the operator reads replaced by its size.
fn sizes_of(table: &Table) -> Table {
    let side = |side: &Side| Side {
        body: side.body,
        linear: side.linear.map(f64::abs),
        angular: side.angular.map(f64::abs),
    };
    let row = |row: &Row| Row { a: side(&row.a), b: side(&row.b), ..*row };
    let mass = |mass: &Mass| Mass {
        inverse_mass: mass.inverse_mass.abs(),
        inverse_inertia: mass.inverse_inertia.map(|row| row.map(f64::abs)),
    };
    table.with(table.rows.iter().map(row).collect(), table.masses.iter().map(mass).collect())
}

fn absolute(list: &[f64]) -> Vec<f64> {
    list.iter().map(|value| value.abs()).collect()
}
