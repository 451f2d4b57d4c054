//! The reference's mathematics, unmodified: vector.rs and matrix.rs as published, and beside them
//! the way to a factor's fields.
#![allow(dead_code)]

mod vector {
    include!(concat!(env!("KAPITSA_SRC"), "/crates/kapitsa-math/src/vector.rs"));
}
mod matrix {
    include!(concat!(env!("KAPITSA_SRC"), "/crates/kapitsa-math/src/matrix.rs"));

    /// The fields of a factor, which are private there: read, and made by any hand.
    impl Cholesky3 {
        pub fn parts(self) -> ([[f64; 3]; 3], f64) {
            (self.lower, self.scale)
        }
        pub fn of_parts(lower: [[f64; 3]; 3], scale: f64) -> Self {
            Self { lower, scale }
        }
    }
}

pub use matrix::{Cholesky3, CholeskyError, Mat3};
pub use vector::Vec3;
