//! Which outcomes the jobs of a seed come to, by mode.

use crate::job::{Answer, Job};
use crate::judge::judge;
use std::collections::BTreeMap;

/// An outcome, ordered as document 01 meets it.
#[derive(Clone, Copy, PartialEq, Eq, PartialOrd, Ord)]
pub enum Outcome {
    Refused(u32),
    CountZero,
    FlagZero,
    FlagOne,
}

impl Outcome {
    pub fn of(answer: &Answer) -> Self {
        match *answer {
            Answer::Refused(number) => Outcome::Refused(number),
            Answer::Accepted { count: 0, .. } => Outcome::CountZero,
            Answer::Accepted { flag: false, .. } => Outcome::FlagZero,
            Answer::Accepted { flag: true, .. } => Outcome::FlagOne,
        }
    }

    pub fn name(&self) -> String {
        match self {
            Outcome::Refused(number) => format!("refused {number}"),
            Outcome::CountZero => "count 0".into(),
            Outcome::FlagZero => "flag 0".into(),
            Outcome::FlagOne => "flag 1".into(),
        }
    }
}

#[derive(Default)]
pub struct Tally {
    counts: BTreeMap<Outcome, [u64; 4]>,
    compared: u64,
    disputes: u64,
    jobs: u64,
}

impl Tally {
    pub fn add(&mut self, mode: u32, answer: &Answer) {
        self.counts.entry(Outcome::of(answer)).or_default()[mode.min(3) as usize] += 1;
    }

    /// How many came to an outcome of these, in any mode.
    pub fn count(&self, of: fn(&Outcome) -> bool) -> u64 {
        self.counts
            .iter()
            .filter(|(outcome, _)| of(outcome))
            .map(|(_, by)| by.iter().sum::<u64>())
            .sum()
    }

    pub fn print(&self) {
        println!("{:<12}{:>9}{:>9}{:>9}{:>9}", "outcome", "mode 0", "mode 1", "mode 2", "other");
        for (outcome, [a, b, c, d]) in &self.counts {
            println!("{:<12}{a:>9}{b:>9}{c:>9}{d:>9}", outcome.name());
        }
    }
}

/// Runs the judge over `jobs` jobs, as `draw` has them, and prints what they came to.
pub fn run(jobs: u64, seed: u64, draw: fn(u64, u64) -> Job) -> bool {
    let mut tally = Tally::default();
    for index in 0..jobs {
        let job = draw(seed, index);
        let judged = judge(&job);
        tally.add(job.mode, &judged.solved.answer);
        tally.jobs += 1;
        tally.compared += u64::from(judged.compared);
        if let Some(dispute) = judged.dispute {
            tally.disputes += 1;
            println!("job {index}: {dispute}");
        }
    }
    tally.print();
    println!(
        "{} jobs, {} compared with the reference, {} where the model differs",
        tally.jobs, tally.compared, tally.disputes
    );
    tally.disputes == 0
}
