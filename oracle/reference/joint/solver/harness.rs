//! Calls solve_position_pcg_prepared and solve_velocity_pcg_prepared on document 01's tables of numbers.

pub use super::pcg::operator::Operator;

use super::pcg::{solve_position_pcg_prepared, solve_velocity_pcg_prepared};
use super::{
    ConstraintRow, GeneralizedImpulse, RowDimension, SolverBody, SolverMass, SolverMassCacheStats,
    SolverMassSlot, VelocityPcgScratch,
};
use crate::collision::CollisionError;
use crate::execution::SequentialExecutor;
use crate::joint::JointTolerance;
use crate::rigid_body::RigidBody;
use kapitsa_math::{Mat3, Vec3};

/// What the Rust tells of a solve.
#[derive(Clone, Copy, Debug, PartialEq)]
pub enum Outcome {
    Accepted {
        count: usize,
        converged: bool,
        linear: f64,
        angular: f64,
    },
    /// Ok(None)
    NotAvailable,
    Error(CollisionError),
}

/// A job in the reference's own records, with buffers that stay warm.
pub struct Prepared {
    rows: Vec<ConstraintRow>,
    owners: Vec<usize>,
    slots: Vec<SolverMassSlot>,
    bodies: Vec<SolverBody>,
    scratch: VelocityPcgScratch,
    stats: SolverMassCacheStats,
}

impl Prepared {
    /// `numbers` has 27 doubles a row, `words` 8 u32 a row, `masses` 10 doubles a body, `centres` 3.
    pub fn new(numbers: &[f64], words: &[u32], masses: &[f64], centres: &[f64]) -> Self {
        let of = |mass| SolverBody { body: RigidBody::of(mass) };
        let bodies: Vec<SolverBody> = masses_of(masses, centres).into_iter().map(of).collect();
        Self {
            rows: rows_of(numbers, words),
            owners: words.chunks_exact(8).map(|words| words[6] as usize).collect(),
            slots: vec![SolverMassSlot; bodies.len()],
            bodies,
            scratch: VelocityPcgScratch::new(),
            stats: SolverMassCacheStats::default(),
        }
    }

    pub fn solve(&mut self, limit: usize, tolerances: [f64; 2], cholesky: bool) -> Outcome {
        let result = solve_position_pcg_prepared(
            &mut self.rows,
            &mut self.slots,
            &mut self.bodies,
            limit,
            tolerance(tolerances),
            cholesky,
            &mut self.scratch,
            &mut self.stats,
        );
        match result {
            Ok(Some(found)) => Outcome::Accepted {
                count: found.iterations,
                converged: found.converged,
                linear: found.linear_residual_m,
                angular: found.angular_residual_rad,
            },
            Ok(None) => Outcome::NotAvailable,
            Err(error) => Outcome::Error(error),
        }
    }

    /// Lends the velocity side its residual: `row_velocity` is 0.0 here, so that its residual is the
    /// target velocity, bit for bit. A row whose own target is not finite keeps it, as 7 reads it; and
    /// where the residual is not finite, it is by the velocity that it becomes so, as in the Rust.
    pub fn lend(&mut self, residuals: &[f64]) {
        for (row, residual) in self.rows.iter_mut().zip(residuals) {
            if !residual.is_finite() {
                if let Some(body) = self.bodies.get_mut(row.body_a) {
                    body.body.row_velocity = -residual;
                }
            } else if row.target_velocity.is_finite() {
                row.target_velocity = *residual;
            }
        }
    }

    /// The velocity side with one worker and a fresh scratch.
    pub fn solve_velocity(&mut self, limit: usize, tolerances: [f64; 2], mode: u32) -> Outcome {
        self.scratch.begin_step();
        self.solve_velocity_again(limit, tolerances, mode)
    }

    /// The same with the scratch as the call before left it.
    pub fn solve_velocity_again(
        &mut self,
        limit: usize,
        tolerances: [f64; 2],
        mode: u32,
    ) -> Outcome {
        let result = solve_velocity_pcg_prepared(
            &mut self.rows,
            &self.owners,
            &mut self.bodies,
            limit,
            tolerance(tolerances),
            mode == 1,
            mode == 2,
            &SequentialExecutor,
            1,
            &mut self.scratch,
        );
        match result {
            Ok(Some(found)) => Outcome::Accepted {
                count: found.iterations,
                converged: found.converged,
                linear: found.linear_residual_mps,
                angular: found.angular_residual_radps,
            },
            Ok(None) => Outcome::NotAvailable,
            Err(error) => Outcome::Error(error),
        }
    }

    pub fn multipliers(&self) -> Vec<f64> {
        self.rows.iter().map(|row| row.accumulated_multiplier).collect()
    }

    pub fn accumulated_impulses(&self) -> Vec<f64> {
        self.rows.iter().map(|row| row.accumulated_impulse).collect()
    }

    /// Other masses for the bodies; a scratch that was used keeps its own.
    pub fn exchange_masses(&mut self, masses: &[f64]) {
        for (body, mass) in self.bodies.iter_mut().zip(masses_of(masses, &[])) {
            body.body = RigidBody::of(mass);
        }
    }

    /// Meaningful after an accepted solve with a count above 0.
    pub fn solution(&self) -> &[f64] {
        &self.scratch.solution
    }

    /// What global_velocity_impulse made for every body; meaningful as `solution`.
    pub fn impulses(&self) -> Vec<f64> {
        self.scratch.body_impulses.iter().flat_map(|found| six(*found)).collect()
    }

    /// What was applied to each body; the Rust passes over bodies whose impulse is zero.
    pub fn applied(&self) -> Vec<Option<[f64; 6]>> {
        let applied = self.bodies.iter().map(|body| body.body.applied);
        applied
            .map(|pair| pair.map(|(linear, angular)| six(GeneralizedImpulse { linear, angular })))
            .collect()
    }

    /// Where each body's centre ends up, worked from what was applied to it; None where it overflows.
    pub fn next_centers(&self) -> Vec<Option<[f64; 3]>> {
        let found = self.bodies.iter().map(|body| body.body.next_center());
        found.map(|center| center.map(|center| [center.x, center.y, center.z])).collect()
    }
}

pub(super) fn six(impulse: GeneralizedImpulse) -> [f64; 6] {
    let GeneralizedImpulse { linear: l, angular: a } = impulse;
    [l.x, l.y, l.z, a.x, a.y, a.z]
}

/// The two velocity tolerances are read by the velocity side alone.
fn tolerance([linear, angular]: [f64; 2]) -> JointTolerance {
    JointTolerance {
        linear_m: linear,
        angular_rad: angular,
        velocity_mps: linear,
        angular_velocity_radps: angular,
    }
}

fn vector(numbers: &[f64]) -> Vec3 {
    Vec3::new(numbers[0], numbers[1], numbers[2])
}

/// Where no centres are given, as to a velocity solve, all are 0.
pub(super) fn masses_of(numbers: &[f64], centres: &[f64]) -> Vec<SolverMass> {
    let given = centres.chunks_exact(3).map(vector).chain(std::iter::repeat(Vec3::ZERO));
    numbers.chunks_exact(10).zip(given).map(|(numbers, centre)| mass(numbers, centre)).collect()
}

/// A mass is inverse_mass, then inverse_inertia by columns; no step reads the centre.
fn mass(numbers: &[f64], center: Vec3) -> SolverMass {
    let columns = [vector(&numbers[1..]), vector(&numbers[4..]), vector(&numbers[7..])];
    SolverMass {
        inverse_mass: numbers[0],
        inverse_inertia: Mat3::from_cols(columns[0], columns[1], columns[2]),
        center,
    }
}

pub(super) fn rows_of(numbers: &[f64], words: &[u32]) -> Vec<ConstraintRow> {
    let rows = numbers.chunks_exact(27).zip(words.chunks_exact(8));
    rows.map(|(numbers, words)| row(numbers, words)).collect()
}

/// A row in document 01's order. Words that refusal 4 turns back never get here.
fn row(numbers: &[f64], words: &[u32]) -> ConstraintRow {
    ConstraintRow {
        key: words[0] as u8,
        dimension: if words[1] == 0 { RowDimension::Linear } else { RowDimension::Angular },
        body_a: words[2] as usize,
        body_b: words[3] as usize,
        linear_a: vector(&numbers[0..]),
        angular_a: vector(&numbers[3..]),
        position_angular_a: vector(&numbers[6..]),
        linear_b: vector(&numbers[9..]),
        angular_b: vector(&numbers[12..]),
        error: numbers[15],
        target_velocity: numbers[16],
        force_bias: numbers[17],
        force_driven: words[4] == 1,
        position_enabled: words[5] == 1,
        compliance: numbers[18],
        damping: numbers[19],
        min_multiplier: numbers[20],
        max_multiplier: numbers[21],
        min_impulse: numbers[22],
        max_impulse: numbers[23],
        accumulated_multiplier: numbers[24],
        accumulated_impulse: numbers[25],
        cached_velocity_effective_mass: numbers[26],
    }
}
