//! Bodies. physics.rs is as published; SolverMass with cross and diagonal is cut, and so is
//! inverse_spd.
//! The rest stands in for bodies and slots: resolving hands out the given mass,
//! applying records the impulse and never fails, every body is Dynamic. Where a body's centre ends
//! up is worked from that impulse, by the two statements that the Rust has for it.

mod physics {
    include!(concat!(env!("KAPITSA_SRC"), "/crates/kapitsa-core/src/rigid_body/physics.rs"));

    pub(super) const DYNAMIC: BodyPhysics =
        BodyPhysics { body_type: BodyType::Dynamic, mass: None };
}

pub use physics::{BodyPhysics, BodyType};

use kapitsa_math::Vec3;
use solver_mass::SolverMass;

#[derive(Clone, Copy, Debug, PartialEq, Eq)]
pub enum BodyError {
    ArithmeticOverflow,
    NonFiniteValue,
    InvalidInertiaTensor,
    BodyMustBeDynamic,
    StaticBodyCannotHaveVelocity,
}

/// A given mass, the impulse that was applied last, and what `row_velocity` gives of rows whose body_a
/// this is.
#[derive(Clone, Copy)]
pub struct RigidBody {
    mass: SolverMass,
    pub(crate) applied: Option<(Vec3, Vec3)>,
    pub(crate) row_velocity: f64,
}

impl RigidBody {
    pub(crate) fn of(mass: SolverMass) -> Self {
        Self { mass, applied: None, row_velocity: 0.0 }
    }
    /// A body that nothing was applied to stays where it is; None where the Rust overflows.
    pub(crate) fn next_center(&self) -> Option<Vec3> {
        match self.applied {
            None => Some(self.mass.center),
            Some((linear, _)) => solver_mass::moved(self.mass, linear).ok(),
        }
    }
    pub(crate) fn physics(&self) -> &'static BodyPhysics {
        &physics::DYNAMIC
    }
    pub(crate) fn apply_constraint_position_impulse_cached(
        &mut self,
        linear: Vec3,
        angular: Vec3,
        _mass: SolverMass,
    ) -> Result<(), BodyError> {
        self.applied = Some((linear, angular));
        Ok(())
    }
    pub(crate) fn apply_constraint_impulse(
        &mut self,
        linear: Vec3,
        angular: Vec3,
    ) -> Result<(), BodyError> {
        self.applied = Some((linear, angular));
        Ok(())
    }
}

pub mod solver_mass {
    use super::{BodyError, RigidBody};
    use crate::collision::CollisionError;
    use kapitsa_math::{CholeskyError, Mat3, Vec3};

    include!(concat!(env!("ORACLE_CUT"), "/inverse_items.rs"));
    include!(concat!(env!("ORACLE_CUT"), "/solver_mass_types.rs"));
    include!(concat!(env!("ORACLE_CUT"), "/solver_mass_methods.rs"));
    include!(concat!(env!("ORACLE_CUT"), "/next_center.rs"));

    pub(super) fn moved(mass: SolverMass, linear: Vec3) -> Result<Vec3, BodyError> {
        next_center(mass, linear)
    }

    impl SolverMass {
        pub(crate) fn from_body(body: &RigidBody) -> Result<Self, CollisionError> {
            Ok(body.mass)
        }
    }

    #[derive(Clone, Copy, Debug)]
    pub struct SolverMassSlot;

    impl SolverMassSlot {
        pub(crate) fn resolve(
            &mut self,
            body: &RigidBody,
        ) -> Result<(SolverMass, SolverMassCacheStatus), CollisionError> {
            Ok((body.mass, SolverMassCacheStatus::Hit))
        }
    }
}
