//! The triangle with every inner sum from +0.0, as document 02 c has it: where it and the Rust's
//! have zeros of different signs.

use kapitsa_math::{Cholesky3, Mat3, Vec3};

/// Of a matrix that the Rust factors; the scale is the Rust's.
pub fn triangle(columns: [f64; 9], scale: f64) -> [[f64; 3]; 3] {
    let mut lower = [[0.0; 3]; 3];
    for row in 0..3 {
        for column in 0..=row {
            let mut sum = 0.0;
            for k in 0..column {
                sum += lower[row][k] * lower[column][k];
            }
            let value = columns[3 * column + row] / scale - sum;
            let whole = row == column;
            lower[row][column] = if whole { value.sqrt() } else { value / lower[column][column] };
        }
    }
    lower
}

fn zeros_apart(a: &[f64], b: &[f64]) -> bool {
    let mut apart = false;
    for (x, y) in a.iter().zip(b) {
        assert!(x.to_bits() == y.to_bits() || (*x == 0.0 && *y == 0.0), "{x} is not {y}");
        apart |= x.to_bits() != y.to_bits();
    }
    apart
}

/// A zero of the triangle or the solution has another sign than the Rust's; nothing else differs,
/// and the inverse not even in that.
pub fn shows(columns: [f64; 9], rhs: [f64; 3]) -> bool {
    let Ok(factor) = Mat3::from_cols_array(columns).factor_spd() else {
        return false;
    };
    let (lower, scale) = factor.parts();
    let worked = triangle(columns, scale);
    let port = Cholesky3::of_parts(worked, scale);
    for unit in [Vec3::X, Vec3::Y, Vec3::Z] {
        assert_eq!(bits(factor.solve(unit)), bits(port.solve(unit)));
    }
    let solutions = match (factor.solve(vector(rhs)), port.solve(vector(rhs))) {
        (Ok(a), Ok(b)) => zeros_apart(&[a.x, a.y, a.z], &[b.x, b.y, b.z]),
        (a, b) => {
            assert_eq!(a.err(), b.err());
            false
        }
    };
    zeros_apart(lower.as_flattened(), worked.as_flattened()) | solutions
}

fn vector(v: [f64; 3]) -> Vec3 {
    Vec3::new(v[0], v[1], v[2])
}

fn bits<E>(solution: Result<Vec3, E>) -> Option<[u64; 3]> {
    solution.ok().map(|v| [v.x, v.y, v.z].map(f64::to_bits))
}
