//! joint/solver.rs: the items that pcg.rs uses, cut, and pcg.rs, as published
//! (or its copy without timer lines, for the benchmark).

use super::row::{ConstraintRow, RowDimension};
use crate::collision::CollisionError;
use crate::constraint::{SolverBody, SolverBodyAccess};
use crate::execution::StepExecutor;
use crate::rigid_body::solver_mass::{SolverMass, SolverMassCacheStatus, SolverMassSlot};
use kapitsa_math::Vec3;
use pcg::VelocityBlockFactor;

include!(concat!(env!("ORACLE_CUT"), "/solver_items.rs"));

/// Stand-in: the lent residual has all that the bodies do already (document 02, a), so this is 0.0,
/// but where that residual is not finite.
pub(super) fn row_velocity(
    bodies: &[SolverBody],
    row: ConstraintRow,
) -> Result<f64, CollisionError> {
    Ok(bodies.get(row.body_a).map_or(0.0, |body| body.body.row_velocity))
}

mod pcg {
    include!(env!("ORACLE_PCG"));

    pub mod operator;
}

pub mod harness;
