//! The jobs that the boundary is tried on.

use kapitsa::{Dimension, Mode, Rules, Settings, MAX_KEY};

#[derive(Clone, Default)]
pub struct Job {
    pub numbers: Vec<f64>,
    pub words: Vec<u32>,
    pub masses: Vec<f64>,
    pub centres: Vec<f64>,
    pub rules: Rules,
    pub shift: f64,
    pub limit: u32,
    /// A velocity job where there are some.
    pub residuals: Option<Vec<f64>>,
}

impl Job {
    pub fn settings(&self, mode: Mode) -> Settings {
        Settings { rules: self.rules.clone(), limit: self.limit, mode, shift: self.shift }
    }

    pub fn row(&mut self, a: u32, b: u32, owner: u32, error: f64) -> &mut [f64] {
        let start = self.numbers.len();
        self.numbers.resize(start + 27, 0.0);
        let row = &mut self.numbers[start..];
        row[0] = 1.0;
        row[9] = -1.0;
        row[15] = error;
        row[20] = f64::NEG_INFINITY;
        row[21] = f64::INFINITY;
        self.words.extend([0, 0, a, b, 0, 1, owner, 0]);
        row
    }

    pub fn mass(&mut self, inverse: f64, inertia: f64) {
        self.masses.extend([inverse, inertia, 0.0, 0.0, 0.0, inertia, 0.0, 0.0, 0.0, inertia]);
        self.centres.extend([0.1, -0.7, 0.3]);
    }
}

/// What makes a job of positions one of the kind that is tried.
pub type Kind = fn(Job) -> Job;

pub fn of_positions(job: Job) -> Job {
    job
}

/// The same job for velocities: -residual in the error's place, any error, position off, and the
/// impulse's bounds infinite instead of the multiplier's.
pub fn of_velocities(mut job: Job) -> Job {
    let mut residuals = vec![];
    for (row, words) in job.numbers.chunks_mut(27).zip(job.words.chunks_mut(8)) {
        residuals.push(-row[15]);
        row[15] = 2f64.powi(664); // 18 would not let it pass
        row[20..24].copy_from_slice(&[0.0, 0.0, f64::NEG_INFINITY, f64::INFINITY]);
        words[5] = 0;
    }
    job.residuals = Some(residuals);
    job
}

/// Document 01's P1, with another error and tolerance.
pub fn p1(error: f64, tolerance: f64) -> Job {
    let mut job = Job { rules: Rules::two(tolerance, tolerance), limit: 50, ..Job::default() };
    job.row(0, 1, 0, error);
    (0..2).for_each(|_| job.mass(0.5, 0.0));
    job
}

/// Three rows of two joints on three bodies, with numbers that nothing divides evenly.
pub fn chain() -> Job {
    let mut job = Job { rules: Rules::two(1e-9, 1e-9), limit: 50, ..Job::default() };
    for (i, (a, error)) in [(0, 0.1), (0, -0.03), (1, 0.07)].into_iter().enumerate() {
        let row = job.row(a, a + 1, a, error);
        row[i] = 0.9;
        row[3] = 0.3;
        row[9 + i] = -0.9;
        row[13 + i % 2] = 0.6;
        job.mass(0.7, 1.1);
    }
    job
}

/// Two rows that say the same but for 2^-28 in one number: mode 1 finds a pivot of 0.
pub fn worn(shift: f64) -> Job {
    let mut job = Job { rules: Rules::two(1e-9, 1e-9), limit: 50, shift, ..Job::default() };
    job.row(0, 1, 0, -0.25);
    job.row(0, 1, 1, -0.25)[1] = 1.0 / 268_435_456.0; // 2^-28
    (0..2).for_each(|_| job.mass(0.5, 0.0));
    job
}

/// The chain, its rows of keys 10, 20 and 30, the last of them angular, under these rules.
pub fn kinds(rules: Rules) -> Job {
    let mut job = Job { rules, ..chain() };
    (0..3).for_each(|row| job.words[8 * row] = 10 * (row as u32 + 1));
    job.words[8 * 2 + 1] = Dimension::Angular as u32;
    job
}

/// A rule for each row, the last row's first, with these tolerances for rows 0 to 2.
pub fn three([first, second, third]: [f64; 3]) -> Rules {
    Rules::default()
        .with(Dimension::Angular, 0, MAX_KEY, third)
        .with(Dimension::Linear, 11, MAX_KEY, second)
        .with(Dimension::Linear, 0, 10, first)
}

/// Rows of these errors and dimensions on the same two bodies, all within tolerance at once.
pub fn rows_of(rows: &[(f64, Dimension)]) -> Job {
    let mut job = Job { rules: Rules::two(2.0, 2.0), limit: 50, ..Job::default() };
    for (row, (error, dimension)) in rows.iter().enumerate() {
        job.row(0, 1, row as u32, *error);
        job.words[8 * row + 1] = *dimension as u32;
    }
    (0..2).for_each(|_| job.mass(0.5, 0.0));
    job
}

/// These rows of a job as one of their own, with all bodies.
pub fn only(job: &Job, rows: &[usize]) -> Job {
    let numbers = rows.iter().flat_map(|row| job.numbers[27 * row..27 * (row + 1)].to_vec());
    let words = rows.iter().flat_map(|row| job.words[8 * row..8 * (row + 1)].to_vec());
    let residuals =
        job.residuals.as_ref().map(|all| rows.iter().map(|row| all[*row]).collect::<Vec<f64>>());
    Job { numbers: numbers.collect(), words: words.collect(), residuals, ..job.clone() }
}
