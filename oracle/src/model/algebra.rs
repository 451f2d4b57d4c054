//! Sums of products in the order of vector.rs and matrix.rs.

pub type Vector = [f64; 3];

pub fn dot(left: Vector, right: Vector) -> f64 {
    (left[0] * right[0] + left[1] * right[1]) + left[2] * right[2]
}

pub fn scaled(vector: Vector, by: f64) -> Vector {
    vector.map(|value| value * by)
}

/// A body's inverse mass and inverse inertia, the latter by rows.
#[derive(Clone, Copy)]
pub struct Mass {
    pub inverse_mass: f64,
    pub inverse_inertia: [Vector; 3],
}

impl Mass {
    /// Document 01 lists the inertia by columns.
    pub fn of(numbers: &[f64]) -> Self {
        let row = |i: usize| [numbers[1 + i], numbers[4 + i], numbers[7 + i]];
        Self { inverse_mass: numbers[0], inverse_inertia: [row(0), row(1), row(2)] }
    }

    pub fn turned(&self, angular: Vector) -> Vector {
        self.inverse_inertia.map(|row| dot(row, angular))
    }
}

/// One side of a row: its Jacobian at one body.
#[derive(Clone, Copy)]
pub struct Side {
    pub body: usize,
    pub linear: Vector,
    pub angular: Vector,
}

/// SolverMass::cross: left · M⁻¹ right.
pub fn cross(mass: &Mass, left: &Side, right: &Side) -> f64 {
    let turned = mass.turned(right.angular);
    mass.inverse_mass * dot(left.linear, right.linear) + dot(left.angular, turned)
}
