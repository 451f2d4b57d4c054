//! The mass operator J M⁻¹ Jᵀ on a list of numbers, one for each row.

use super::algebra::{dot, scaled};
use super::table::Table;

/// Six numbers a body: rows ascending from +0.0, a before b.
pub fn impulses(table: &Table, list: &[f64]) -> Vec<[f64; 6]> {
    let mut bodies = vec![[0.0; 6]; table.masses.len()];
    for (row, &by) in table.rows.iter().zip(list) {
        for side in [&row.a, &row.b] {
            let [lx, ly, lz] = scaled(side.linear, by);
            let [ax, ay, az] = scaled(side.angular, by);
            let sums = &mut bodies[side.body];
            for (sum, gain) in sums.iter_mut().zip([lx, ly, lz, ax, ay, az]) {
                *sum += gain;
            }
        }
    }
    bodies
}

/// A row's value is ((la + aa) + lb) + ab on the bodies' responses.
pub fn product(table: &Table, list: &[f64]) -> Vec<f64> {
    let answered = |(impulse, mass): (&[f64; 6], &super::algebra::Mass)| {
        let [lx, ly, lz, ax, ay, az] = *impulse;
        (scaled([lx, ly, lz], mass.inverse_mass), mass.turned([ax, ay, az]))
    };
    let responses: Vec<_> = impulses(table, list).iter().zip(&table.masses).map(answered).collect();
    let values = table.rows.iter().map(|row| {
        let (linear_a, angular_a) = responses[row.a.body];
        let (linear_b, angular_b) = responses[row.b.body];
        ((dot(row.a.linear, linear_a) + dot(row.a.angular, angular_a))
            + dot(row.b.linear, linear_b))
            + dot(row.b.angular, angular_b)
    });
    values.collect()
}
