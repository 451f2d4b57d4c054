//! Which jobs are recorded: those that are not drawn, then drawn ones until each outcome has its
//! share, then drawn ones until `cover` counts enough of each item.

use super::closing_word;
use crate::cover::Cover;
use crate::generator::{self, Sizes};
use crate::job::*;
use crate::judge::{Judged, judge};
use crate::packing::{Entry, centre_bytes, pack};
use crate::tally::{Outcome, Tally};
use std::collections::BTreeMap;

const SEED: u64 = 20;
const CANDIDATES: u64 = 400_000;
const PINS: u64 = 100_000;
/// A position job that was drawn takes at most this many bytes, without its centres, and a velocity
/// job.
const MOST_ENTRY: usize = 1_400;
const MOST_VELOCITY_ENTRY: usize = 900;

/// Why a job is taken: always, while its outcome is wanted, or while `cover` wants what it
/// meets, of centres or of all else.
#[derive(Clone, Copy, PartialEq)]
enum Taken {
    Always,
    ForOutcome,
    ForItem { centred: bool },
}

pub struct List {
    pub entries: Vec<Vec<u8>>,
    pub tally: Tally,
    drawn: BTreeMap<(u32, Outcome), usize>,
    quota: fn(u32, Outcome) -> usize,
}

impl List {
    fn new(quota: fn(u32, Outcome) -> usize) -> Self {
        Self { entries: Vec::new(), drawn: BTreeMap::new(), tally: Tally::default(), quota }
    }
}

/// The answers of the reference, and those by definition.
pub struct Recording {
    pub lists: [List; 2],
    pub cover: Cover,
    most: usize,
}

impl Recording {
    pub fn of_positions() -> Result<Self, String> {
        let lists = [List::new(position_quota), List::new(defined_quota)];
        let cover = Cover::new(Kind::Position);
        let mut recording = Self { lists, cover, most: MOST_ENTRY };
        recording.always(generator::fixed())?;
        let drawn = (0..CANDIDATES).map(|index| generator::job(SEED, index, Sizes::Small));
        for job in drawn.filter(recordable) {
            recording.offer(job, Taken::ForOutcome)?;
        }
        recording.fill(|index| generator::pin(SEED, index), false)?;
        recording.always(generator::fixed_centres())?;
        recording.fill(|index| generator::centred_pin(SEED, index), true)?;
        Ok(recording)
    }

    pub fn of_velocities() -> Result<Self, String> {
        let lists = [List::new(velocity_quota), List::new(defined_velocity_quota)];
        let cover = Cover::new(Kind::Velocity);
        let mut recording = Self { lists, cover, most: MOST_VELOCITY_ENTRY };
        recording.always(generator::fixed_velocities())?;
        let drawn = (0..CANDIDATES).map(|index| generator::moving(SEED, index, Sizes::Small));
        for job in drawn.filter(recordable) {
            recording.offer(job, Taken::ForOutcome)?;
        }
        recording.fill(|index| generator::velocity_pin(SEED, index), false)?;
        Ok(recording)
    }

    fn always(&mut self, jobs: Vec<Job>) -> Result<(), String> {
        jobs.into_iter().try_for_each(|job| self.offer(job, Taken::Always))
    }

    /// Draws until the items are full, those about centres or the others.
    fn fill(&mut self, draw: impl Fn(u64) -> Job, centred: bool) -> Result<(), String> {
        let mut pins = (0..PINS).map(draw).filter(recordable);
        while let (false, Some(job)) = (self.cover.full(centred), pins.next()) {
            self.offer(job, Taken::ForItem { centred })?;
        }
        Ok(())
    }

    fn offer(&mut self, job: Job, taken: Taken) -> Result<(), String> {
        let Judged { solved, compared, dispute } = judge(&job);
        if let Some(dispute) = dispute {
            return Err(format!("the model differs from the reference: {dispute}"));
        }
        let (mode, answer) = (job.mode, solved.answer);
        let list = &mut self.lists[usize::from(!compared)];
        let drawn = list.drawn.entry((mode, Outcome::of(&answer))).or_default();
        if taken == Taken::ForOutcome && *drawn >= (list.quota)(mode, Outcome::of(&answer)) {
            return Ok(());
        }
        let closing = closing_word(&job, &solved);
        let entry = Entry { job, solved, closing };
        let packed = pack(&entry);
        if taken != Taken::Always && packed.len() - centre_bytes(&entry) > self.most {
            return Ok(());
        }
        let met = self.cover.met(&entry.job, &entry.solved)?;
        if let Taken::ForItem { centred } = taken
            && !self.cover.wants(&met, centred)
        {
            return Ok(());
        }
        *drawn += usize::from(taken == Taken::ForOutcome);
        list.tally.add(mode, &answer);
        list.entries.push(packed);
        self.cover.add(&met);
        Ok(())
    }
}

/// Answers of the reference, modes 0 and 1.
fn position_quota(_mode: u32, outcome: Outcome) -> usize {
    match outcome {
        Outcome::FlagZero | Outcome::FlagOne => 150,
        _ => 65,
    }
}

/// Answers by definition alone: mode 2, refusals 3, 4, 6, 10 and 27, and 17 by a new centre.
fn defined_quota(mode: u32, outcome: Outcome) -> usize {
    match (mode, outcome) {
        (BLOCK_JACOBI, Outcome::FlagZero | Outcome::FlagOne) => 45,
        (BLOCK_JACOBI, _) => 25,
        _ => 15,
    }
}

/// Answers of the reference, all modes.
fn velocity_quota(_mode: u32, outcome: Outcome) -> usize {
    match outcome {
        Outcome::FlagZero | Outcome::FlagOne => 70,
        _ => 35,
    }
}

/// Refusals 3, 4, 6, 10, 20 and 27.
fn defined_velocity_quota(mode: u32, _outcome: Outcome) -> usize {
    if mode <= BLOCK_JACOBI { 30 } else { 10 }
}

/// A list says its lengths by its counts, so jobs whose lengths do not fit are left out.
fn recordable(job: &Job) -> bool {
    let (rows, bodies) = (job.rows as usize, job.bodies as usize);
    let (centres, residuals) = match job.kind {
        Kind::Position => (CENTRE_NUMBERS * bodies, 0),
        Kind::Velocity => (0, rows),
    };
    job.numbers.len() == ROW_NUMBERS * rows
        && job.masses.len() == MASS_NUMBERS * bodies
        && job.centres.len() == centres
        && job.residuals.len() == residuals
}
