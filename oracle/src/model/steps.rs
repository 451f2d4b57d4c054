//! Step 0 and the recurrence (Hestenes and Stiefel 1952, preconditioned).

use super::algebra::cross;
use super::operator;
use super::preconditioner::Preconditioner;
use super::table::Table;
use super::{Judged, all_finite, pass};

pub struct Begun {
    pub residual: Vec<f64>,
    pub diagonal: Vec<f64>,
}

/// Row by row: 7, 8, 9, and the replaced diagonals.
pub fn begin(table: &Table) -> Judged<Begun> {
    let mut begun = Begun { residual: Vec::new(), diagonal: Vec::new() };
    for (index, row) in table.rows.iter().enumerate() {
        pass(7, row.valid)?;
        let own = |side| cross(&table.masses[side_body(side)], side, side);
        let mut diagonal = own(&row.a) + own(&row.b);
        let mut residual = -row.error;
        pass(8, diagonal.is_finite())?;
        if diagonal <= f64::MIN_POSITIVE {
            // Not "at most": a NaN tolerance is never exceeded.
            let exceeds = residual.abs() > table.tolerance(index);
            pass(9, !exceeds)?;
            (diagonal, residual) = (1.0, 0.0);
        }
        begun.residual.push(residual);
        begun.diagonal.push(diagonal);
    }
    Ok(begun)
}

fn side_body(side: &super::algebra::Side) -> usize {
    side.body
}

pub struct Ended {
    pub solution: Vec<f64>,
    pub residual: Vec<f64>,
    pub count: u32,
    pub flag: bool,
}

/// What a step carries besides solution and residual.
struct Carried {
    direction: Vec<f64>,
    s: f64,
}

/// Steps from step 0, which missed tolerance, to the first that meets it or the limit.
pub fn run(table: &Table, by: &Preconditioner, residual: Vec<f64>, limit: u32) -> Judged<Ended> {
    let direction = by.solve(&residual)?;
    let s = product_of(&residual, &direction)?;
    pass(14, s > f64::MIN_POSITIVE)?;
    let mut carried = Carried { direction, s };
    let solution = vec![0.0; residual.len()];
    let mut ended = Ended { solution, residual, count: 0, flag: false };
    while ended.count < limit {
        advance(table, &carried, &mut ended)?;
        ended.count += 1;
        if table.meets(&ended.residual) {
            ended.flag = true;
            break;
        }
        carried = renew(by, carried, &ended.residual)?;
    }
    Ok(ended)
}

/// Solution gains alpha × direction, residual loses alpha × product.
fn advance(table: &Table, carried: &Carried, ended: &mut Ended) -> Judged<()> {
    let product = operator::product(table, &carried.direction);
    let denominator = product_of(&carried.direction, &product)?;
    pass(15, denominator > f64::MIN_POSITIVE)?;
    let alpha = carried.s / denominator;
    for index in 0..product.len() {
        ended.solution[index] += alpha * carried.direction[index];
        ended.residual[index] -= alpha * product[index];
    }
    let finite = alpha.is_finite() && all_finite(&ended.solution) && all_finite(&ended.residual);
    pass(16, finite)
}

/// z and s made anew; direction becomes z + (new s / old s) × direction.
fn renew(by: &Preconditioner, old: Carried, residual: &[f64]) -> Judged<Carried> {
    let z = by.solve(residual)?;
    let s = product_of(residual, &z)?;
    pass(14, s > f64::MIN_POSITIVE)?;
    let beta = s / old.s;
    let turned = |(z, d): (&f64, &f64)| z + beta * d;
    let direction: Vec<f64> = z.iter().zip(&old.direction).map(turned).collect();
    pass(16, beta.is_finite() && all_finite(&direction))?;
    Ok(Carried { direction, s })
}

fn product_of(left: &[f64], right: &[f64]) -> Judged<f64> {
    let sum = left.iter().zip(right).fold(0.0, |sum, (l, r)| sum + l * r);
    pass(16, sum.is_finite())?;
    Ok(sum)
}
