//! The reference: pcg.rs and what it leans on, in the module tree that it expects.
//!
//! Files marked "as published" are read from KAPITSA_SRC without a change; files
//! marked "cut" hold items cut out verbatim by cut.rs. Written here are only the
//! stand-ins that document 01 allows: bodies, slots and their errors.
#![allow(dead_code, unused_imports)]

/// collision/error.rs, as published.
pub mod collision {
    include!(concat!(env!("KAPITSA_SRC"), "/crates/kapitsa-core/src/collision/error.rs"));
}

/// execution.rs, as published.
pub mod execution {
    include!(concat!(env!("KAPITSA_SRC"), "/crates/kapitsa-core/src/execution.rs"));
}

/// Stand-in: a body's mass properties are not in the published files.
pub mod mass {
    #[derive(Clone, Copy, Debug, PartialEq)]
    pub struct MassProperties;
}

/// Solver bodies: the record and its access, cut; what it hands out, stand-in.
pub mod constraint {
    use crate::rigid_body::{BodyType, RigidBody};
    include!(concat!(env!("ORACLE_CUT"), "/constraint_items.rs"));

    impl SolverBody {
        pub(crate) fn body(&self) -> &RigidBody {
            &self.body
        }
        pub(crate) fn body_mut(&mut self) -> &mut RigidBody {
            &mut self.body
        }
    }
}

pub mod rigid_body;

pub mod joint {
    include!(concat!(env!("ORACLE_CUT"), "/config_items.rs"));

    /// row.rs, as published.
    pub mod row {
        include!(concat!(env!("KAPITSA_SRC"), "/crates/kapitsa-core/src/joint/row.rs"));
    }

    pub mod solver;
}

pub use joint::solver::harness::{Operator, Outcome, Prepared};

/// `inverse_spd` of solver_mass.rs: the inverse, or whether it is an InvalidContact (22 and 23
/// folded) and not an ArithmeticOverflow (21 and 12).
pub fn inverse_spd(matrix: kapitsa_math::Mat3) -> Result<kapitsa_math::Mat3, bool> {
    rigid_body::solver_mass::inverse_spd(matrix)
        .map_err(|error| error == collision::CollisionError::InvalidContact)
}
