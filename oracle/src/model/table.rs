//! What a job is made of, and the refusals that judge it before the first step.

use super::algebra::{Mass, Side, Vector};
use super::rules::rules_of_rows;
use super::{Judged, all_finite, pass};
use crate::job::*;

pub struct Row {
    pub dimension: usize,
    pub a: Side,
    pub b: Side,
    /// Of a velocity job the negated residual, which stands in the error's place.
    pub error: f64,
    pub owner: u32,
    pub valid: bool,
}

pub struct Table {
    pub rows: Vec<Row>,
    pub masses: Vec<Mass>,
    /// Each row's rule and its tolerance.
    pub rules: Vec<u32>,
    tolerances: Vec<f64>,
}

impl Table {
    /// The table of a job that 3 and 4 let pass; 27 and 28 are judged here.
    pub fn of(job: &Job) -> Judged<Self> {
        let rules = rules_of_rows(job)?;
        let given = job.rules().tolerances;
        let rows = job.numbers.chunks_exact(ROW_NUMBERS).zip(job.words.chunks_exact(ROW_WORDS));
        let rows = rows.zip(errors(job));
        Ok(Self {
            rows: rows.map(|((n, w), error)| row(n, w, error, job.bodies)).collect(),
            masses: job.masses.chunks_exact(MASS_NUMBERS).map(Mass::of).collect(),
            tolerances: rules.iter().map(|rule| given[*rule as usize]).collect(),
            rules,
        })
    }

    pub fn tolerance(&self, row: usize) -> f64 {
        self.tolerances[row]
    }

    /// The same rules over other rows and masses.
    pub fn with(&self, rows: Vec<Row>, masses: Vec<Mass>) -> Self {
        Self { rows, masses, rules: self.rules.clone(), tolerances: self.tolerances.clone() }
    }

    /// Each |residual| is at most its row's tolerance.
    pub fn meets(&self, residual: &[f64]) -> bool {
        let within = |(row, value): (usize, &f64)| value.abs() <= self.tolerance(row);
        residual.iter().enumerate().all(within)
    }
}

/// What the solve starts from and the check measures against, with the sign of an error.
fn errors(job: &Job) -> Vec<f64> {
    match job.kind {
        Kind::Position => job.numbers.chunks_exact(ROW_NUMBERS).map(|row| row[ERROR]).collect(),
        Kind::Velocity => job.residuals.iter().map(|residual| -residual).collect(),
    }
}

fn row(numbers: &[f64], words: &[u32], error: f64, bodies: u32) -> Row {
    let vector = |at: usize| -> Vector { [numbers[at], numbers[at + 1], numbers[at + 2]] };
    let side = |body: usize, linear: usize, angular: usize| Side {
        body: words[body] as usize,
        linear: vector(linear),
        angular: vector(angular),
    };
    Row {
        dimension: words[DIMENSION] as usize,
        a: side(BODY_A, LINEAR_A, ANGULAR_A),
        b: side(BODY_B, LINEAR_B, ANGULAR_B),
        error,
        owner: words[OWNER],
        valid: is_valid(numbers, words, bodies),
    }
}

/// Refusal 7's test: ConstraintRow::is_valid, whose body numbers are below the body count.
fn is_valid(numbers: &[f64], words: &[u32], bodies: u32) -> bool {
    let ordered = |low: usize, high: usize| numbers[low] <= numbers[high];
    words[BODY_A] != words[BODY_B]
        && words[BODY_A] < bodies
        && words[BODY_B] < bodies
        && all_finite(&numbers[LINEAR_A..=DAMPING])
        && numbers[COMPLIANCE] >= 0.0
        && numbers[DAMPING] >= 0.0
        && ordered(MIN_MULTIPLIER, MAX_MULTIPLIER)
        && ordered(MIN_IMPULSE, MAX_IMPULSE)
        && all_finite(&numbers[MULTIPLIER..=CACHED_MASS])
        && numbers[CACHED_MASS] >= 0.0
}

/// Refusals before the first diagonal: those of `opened`, and of a velocity job 7, which all its
/// rows pass first.
pub fn opening(job: &Job) -> Judged<Table> {
    let table = opened(job)?;
    pass(7, job.kind == Kind::Position || table.rows.iter().all(|row| row.valid))?;
    Ok(table)
}

/// Refusals 3, 25, 4, 27, 28, 5, 6 and 20 of a solve, in their order.
pub fn opened(job: &Job) -> Judged<Table> {
    pass(3, job.mode <= BLOCK_JACOBI && counts_fit(job))?;
    pass(25, shift_fits(job.shift))?;
    pass(4, words_fit(job))?;
    let table = Table::of(job)?;
    pass(5, job.rows == 0 || (job.limit != 0 && opens(job)))?;
    pass(6, masses_finite(job))?;
    pass(20, residuals_finite(job))?;
    Ok(table)
}

/// Refusal 3's test, apart from the mode: the counts, and lengths that follow from them, and the
/// rules' own.
pub fn counts_fit(job: &Job) -> bool {
    let (rows, bodies) = (job.rows as usize, job.bodies as usize);
    let lent = match job.kind {
        Kind::Position => job.centres.len() == CENTRE_NUMBERS * bodies,
        Kind::Velocity => job.residuals.len() == rows,
    };
    rows <= 512
        && bodies <= 256
        && job.numbers.len() == ROW_NUMBERS * rows
        && job.words.len() == ROW_WORDS * rows
        && job.masses.len() == MASS_NUMBERS * bodies
        && lent
        && job.rules().fit()
}

/// Refusal 6's test: the ten numbers of each mass, and the three of its centre.
pub fn masses_finite(job: &Job) -> bool {
    all_finite(&job.masses) && all_finite(&job.centres)
}

/// Refusal 20's test of the lent residual; a position job has none.
pub fn residuals_finite(job: &Job) -> bool {
    all_finite(&job.residuals)
}

/// Refusal 25's test: from 0 to 1, −0.0 too, whatever the mode and the rows. No NaN is.
pub fn shift_fits(shift: f64) -> bool {
    (0.0..=1.0).contains(&shift)
}

/// Refusal 4's test.
pub fn words_fit(job: &Job) -> bool {
    job.words.chunks_exact(ROW_WORDS).all(|words| {
        words[KEY] <= 255
            && words[DIMENSION] <= 1
            && words[FORCE_DRIVEN] <= 1
            && words[POSITION_ENABLED] <= 1
            && words[SPARE] == 0
    })
}

/// Neither negative nor NaN nor infinite. −0.0 passes.
pub fn tolerance_fits(tolerance: f64) -> bool {
    (0.0..f64::INFINITY).contains(&tolerance)
}

/// Refusal 26's test of a job file's two tolerances, without rows too.
pub fn tolerances_fit(job: &Job) -> bool {
    job.tolerances.into_iter().all(tolerance_fits)
}

/// The Rust's opening test over all rows (refusal 5).
pub fn opens(job: &Job) -> bool {
    let mut rows = job.numbers.chunks_exact(ROW_NUMBERS).zip(job.words.chunks_exact(ROW_WORDS));
    let [lower, upper] = job.kind.bounds();
    rows.all(|(numbers, words)| {
        (words[POSITION_ENABLED] == 1 || job.kind == Kind::Velocity)
            && words[FORCE_DRIVEN] == 0
            && numbers[COMPLIANCE] == 0.0
            && numbers[DAMPING] == 0.0
            && numbers[lower] == f64::NEG_INFINITY
            && numbers[upper] == f64::INFINITY
    })
}
