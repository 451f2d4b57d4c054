//! What shifts, rules, centres and residuals make of the jobs.

use crate::job::{INCOMPLETE_CHOLESKY, Job, Kind, Solved, same_bits};
use crate::model;

/// What the shifts, the rules and the centres of the jobs come to.
#[derive(Default)]
pub struct Effect {
    shifted: u64,
    changed: u64,
    instead_of_13: u64,
    ruled: u64,
    agreeing: u64,
    by_rules: u64,
    placed: u64,
    moved: u64,
    beyond: u64,
    moving: u64,
    within: u64,
}

impl Effect {
    pub fn add(&mut self, job: &Job, solved: &Solved) {
        self.add_centres(job, solved);
        self.add_velocities(job, solved);
        if job.rules.is_some() && !matches!(solved.answer.refusal(), 3 | 25 | 4 | 27 | 28) {
            let plain = model::solve(&Job { rules: None, ..job.clone() });
            self.ruled += 1;
            self.agreeing += u64::from(model::agreed(job).is_some());
            self.by_rules += u64::from(plain.answer.words() != solved.answer.words());
        }
        if job.shift == 0.0 {
            return;
        }
        self.shifted += 1;
        let refusal = solved.answer.refusal();
        if job.mode != INCOMPLETE_CHOLESKY || matches!(refusal, 3 | 25) {
            return;
        }
        let plain = model::solve(&Job { shift: 0.0, ..job.clone() });
        self.changed += u64::from(!plain.same(solved));
        self.instead_of_13 += u64::from(refusal == 0 && plain.answer.refusal() == 13);
    }

    /// Of jobs that 6 lets pass with a centre other than +0.0.
    fn add_centres(&mut self, job: &Job, solved: &Solved) {
        let refusal = solved.answer.refusal();
        if job.centres.iter().any(|part| part.to_bits() != 0) && !matches!(refusal, 3..=6 | 25..) {
            self.placed += 1;
            self.moved += u64::from(refusal == 0 && !same_bits(&job.centres, &solved.centres));
            let by_centre = refusal == 17 && model::delivered(job).answer.refusal() == 0;
            self.beyond += u64::from(by_centre);
        }
    }

    /// Of velocity jobs that come to their factor, those that it turns back although every residual
    /// is within tolerance.
    fn add_velocities(&mut self, job: &Job, solved: &Solved) {
        if job.kind == Kind::Velocity
            && let Some((table, begun)) = model::at_factor(job)
        {
            let turned = matches!(solved.answer.refusal(), 10..=13);
            self.moving += 1;
            self.within += u64::from(turned && table.meets(&begun.residual));
        }
    }

    pub fn print(&self) {
        if self.moving > 0 {
            println!(
                "velocities: {} jobs come to their factor, {} turned back there within tolerance",
                self.moving, self.within
            );
        }
        if self.placed > 0 {
            println!(
                "centres: {} jobs with centres that 6 lets pass, {} accepted with one moved, {} refused by 17 for a new one alone",
                self.placed, self.moved, self.beyond
            );
        }
        if self.shifted > 0 {
            println!(
                "shifts: {} other than 0, {} with another outcome than at 0, {} accepted instead of 13",
                self.shifted, self.changed, self.instead_of_13
            );
        }
        if self.ruled > 0 {
            println!(
                "rules: {} tables let pass, {} of them agreeing, {} with another answer than at the two tolerances",
                self.ruled, self.agreeing, self.by_rules
            );
        }
    }
}
