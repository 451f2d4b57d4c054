//! The solve from its factor on, worked once more with whole triangles, and with a slip where
//! one is asked for. A job whose answer a slip changes holds an implementation to what the
//! slip is about. Without a slip the answer must be the recorded one.

mod factor;

use super::slip::Slip;
use crate::job::{BLOCK_JACOBI, INCOMPLETE_CHOLESKY, Job, Kind, Solved};
use crate::model::{self, Begun, Row, Side, Table, Vector, cross, scaled};
use std::ops::Range;

/// The refusal that turns a job back, and at 16 what is not finite.
#[derive(Clone, Copy)]
pub struct Turned {
    pub refusal: u32,
    pub what: &'static str,
}

type Judged<T> = Result<T, Turned>;

fn pass(refusal: u32, passes: bool) -> Judged<()> {
    if passes { Ok(()) } else { Err(Turned { refusal, what: "" }) }
}

fn finite(what: &'static str, values: &[f64]) -> Judged<()> {
    let passes = values.iter().all(|value| value.is_finite());
    if passes { Ok(()) } else { Err(Turned { refusal: 16, what }) }
}

/// The rows of each run of equal owner.
pub fn runs(table: &Table) -> Vec<Range<usize>> {
    let rows = &table.rows;
    let begins = |&at: &usize| at == 0 || rows[at].owner != rows[at - 1].owner;
    let mut ends: Vec<usize> = (0..rows.len()).filter(begins).collect();
    ends.push(rows.len());
    ends.windows(2).map(|two| two[0]..two[1]).collect()
}

/// The ends of two rows that lie on one body: none, one or two.
pub fn shared<'a>(first: &'a Row, second: &'a Row) -> Vec<(&'a Side, &'a Side)> {
    let with = |left: &'a Side| [&second.a, &second.b].map(|right| (left, right));
    let ends = [&first.a, &first.b].into_iter().flat_map(with);
    ends.filter(|(left, right)| left.body == right.body).collect()
}

/// A row's diagonal before it is replaced.
pub fn diagonal_found(table: &Table, row: &Row) -> f64 {
    let own = |side: &Side| cross(&table.masses[side.body], side, side);
    own(&row.a) + own(&row.b)
}

pub struct Work<'a> {
    pub table: &'a Table,
    pub begun: &'a Begun,
    pub slip: Option<Slip>,
}

impl Work<'_> {
    pub fn solve(&self, job: &Job) -> Judged<Solved> {
        let diagonal = self.diagonal();
        let lower = match job.mode {
            INCOMPLETE_CHOLESKY => Some(self.cholesky(&diagonal)?),
            BLOCK_JACOBI => Some(self.blocks(&diagonal)?),
            _ => None,
        };
        let z = |residual: &[f64]| match &lower {
            Some(lower) => self.both_solves(lower, residual),
            None => residual.iter().zip(&diagonal).map(|(r, d)| r / d).collect(),
        };
        let residual = self.residual();
        if job.kind == Kind::Velocity && self.table.meets(&residual) {
            return Ok(model::at_step_zero(job, self.table, &residual));
        }
        self.steps(job, residual, z)
    }

    fn is(&self, slip: Slip) -> bool {
        self.slip == Some(slip)
    }

    fn diagonal(&self) -> Vec<f64> {
        let kept = |row| self.is(Slip::DiagonalKept).then(|| diagonal_found(self.table, row));
        let rows = self.table.rows.iter().zip(&self.begun.diagonal);
        rows.map(|(row, used)| kept(row).unwrap_or(*used)).collect()
    }

    fn residual(&self) -> Vec<f64> {
        let kept = |row: &Row| self.is(Slip::ResidualKept).then_some(-row.error);
        let rows = self.table.rows.iter().zip(&self.begun.residual);
        rows.map(|(row, used)| kept(row).unwrap_or(*used)).collect()
    }

    fn impulses(&self, list: &[f64]) -> Vec<[f64; 6]> {
        let mut bodies = vec![[0.0; 6]; self.table.masses.len()];
        let mut rows: Vec<(&Row, &f64)> = self.table.rows.iter().zip(list).collect();
        if self.is(Slip::RowsDescending) {
            rows.reverse();
        }
        for (row, by) in rows {
            for side in [&row.a, &row.b] {
                let six = side.linear.iter().chain(&side.angular);
                bodies[side.body].iter_mut().zip(six).for_each(|(sum, part)| *sum += part * by);
            }
        }
        bodies
    }

    /// Part by part; a body without an impulse stays where it is.
    fn centres(&self, job: &Job, impulses: &[f64]) -> Vec<f64> {
        let moved = |(at, old): (usize, &f64)| {
            let (six, part) = (&impulses[6 * (at / 3)..][..6], at % 3);
            let zero = |from: &[f64]| from.iter().all(|value| *value == 0.0);
            let rests = (zero(six) && !self.is(Slip::RestMoves))
                || (zero(&six[..3]) && self.is(Slip::TurningAtRest))
                || (six[part] == 0.0 && self.is(Slip::PartAtRest));
            let by = self.table.masses[at / 3].inverse_mass;
            match rests {
                true => *old,
                false if self.is(Slip::CentreInOneRounding) => by.mul_add(six[part], *old),
                false => by * six[part] + old,
            }
        };
        job.centres.iter().enumerate().map(moved).collect()
    }

    fn dot(&self, left: Vector, right: Vector) -> f64 {
        let [x, y, z] = [0, 1, 2].map(|at| left[at] * right[at]);
        if self.is(Slip::DotsFromTheRight) { x + (y + z) } else { (x + y) + z }
    }

    fn product(&self, impulses: &[[f64; 6]]) -> Vec<f64> {
        let responses = impulses.iter().zip(&self.table.masses).map(|(impulse, mass)| {
            let [lx, ly, lz, ax, ay, az] = *impulse;
            (scaled([lx, ly, lz], mass.inverse_mass), mass.turned([ax, ay, az]))
        });
        let responses: Vec<_> = responses.collect();
        let value = |row: &Row| {
            let sides = [&row.a, &row.b];
            let [first, second] =
                if self.is(Slip::BodyBFirst) { [sides[1], sides[0]] } else { sides };
            let [one, two] = [first, second].map(|side| responses[side.body]);
            let dot = |left, right| self.dot(left, right);
            ((dot(first.linear, one.0) + dot(first.angular, one.1)) + dot(second.linear, two.0))
                + dot(second.angular, two.1)
        };
        self.table.rows.iter().map(value).collect()
    }

    fn steps(
        &self,
        job: &Job,
        mut residual: Vec<f64>,
        solve: impl Fn(&[f64]) -> Vec<f64>,
    ) -> Judged<Solved> {
        let mut solution = vec![0.0; residual.len()];
        let (mut direction, mut s) = renewed(&residual, &solve)?;
        let (mut count, mut flag) = (0, false);
        while count < job.limit {
            let impulses = self.impulses(&direction);
            finite("impulses", &impulses.concat())?;
            let product = self.product(&impulses);
            finite("product", &product)?;
            let denominator = sum(&direction, &product);
            finite("direction · product", &[denominator])?;
            pass(15, denominator > f64::MIN_POSITIVE)?;
            let alpha = s / denominator;
            finite("alpha", &[alpha])?;
            for at in 0..residual.len() {
                solution[at] += alpha * direction[at];
                residual[at] -= alpha * product[at];
            }
            finite("solution", &solution)?;
            finite("residual", &residual)?;
            count += 1;
            flag = self.table.meets(&residual);
            if flag {
                break;
            }
            let (z, new) = renewed(&residual, &solve)?;
            let beta = new / s;
            finite("beta", &[beta])?;
            direction = z.iter().zip(&direction).map(|(z, old)| z + beta * old).collect();
            finite("direction", &direction)?;
            s = new;
        }
        let impulses = self.impulses(&solution).concat();
        let accumulated = job.accumulated().into_iter().zip(&solution);
        let accumulated: Vec<f64> = accumulated.map(|(old, gain)| old + gain).collect();
        let centres = self.centres(job, &impulses);
        let mut last = impulses.iter().chain(&accumulated).chain(&centres);
        pass(17, last.all(|value| value.is_finite()))?;
        let answer = model::answer(self.table, &residual, count, flag);
        let rules = self.table.rules.clone();
        Ok(Solved { answer, solution, accumulated, impulses, centres, rules })
    }
}

/// z, and the residual times it.
fn renewed(residual: &[f64], solve: impl Fn(&[f64]) -> Vec<f64>) -> Judged<(Vec<f64>, f64)> {
    let z = solve(residual);
    finite("z", &z)?;
    let s = sum(residual, &z);
    finite("residual · z", &[s])?;
    pass(14, s > f64::MIN_POSITIVE)?;
    Ok((z, s))
}

fn sum(left: &[f64], right: &[f64]) -> f64 {
    left.iter().zip(right).fold(0.0, |sum, (l, r)| sum + l * r)
}
