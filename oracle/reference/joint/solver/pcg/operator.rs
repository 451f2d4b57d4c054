//! The operator on document 01's tables of numbers. It stands inside pcg.rs's module,
//! whose functions are private.

use super::global_velocity_matrix_vector;
use crate::collision::CollisionError;
use crate::joint::solver::harness::{masses_of, rows_of};
use crate::joint::solver::{ConstraintRow, GeneralizedImpulse, SolverMass};

/// Rows and masses in the reference's own records, with buffers that stay warm.
pub struct Operator {
    rows: Vec<ConstraintRow>,
    masses: Vec<SolverMass>,
    impulses: Vec<GeneralizedImpulse>,
    responses: Vec<GeneralizedImpulse>,
    product: Vec<f64>,
}

impl Operator {
    /// `numbers` has 27 doubles a row, `words` 8 u32 a row, `masses` 10 doubles a body, `centres` 3.
    pub fn new(numbers: &[f64], words: &[u32], masses: &[f64], centres: &[f64]) -> Self {
        let (rows, masses) = (rows_of(numbers, words), masses_of(masses, centres));
        Self {
            impulses: vec![GeneralizedImpulse::default(); masses.len()],
            responses: vec![GeneralizedImpulse::default(); masses.len()],
            product: vec![0.0; rows.len()],
            rows,
            masses,
        }
    }

    pub fn product(&mut self, vector: &[f64]) -> Result<&[f64], CollisionError> {
        global_velocity_matrix_vector(
            &self.rows,
            vector,
            &self.masses,
            &mut self.impulses,
            &mut self.responses,
            &mut self.product,
        )?;
        Ok(&self.product)
    }
}
