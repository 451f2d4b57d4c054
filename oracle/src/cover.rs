//! What the recorded jobs meet, counted: `oracle/run record` draws jobs until there are
//! enough of each item, `oracle/run cover` counts them in the lists as they stand.

mod items;
mod slip;
mod speeds;
mod worked;

use crate::job::{Answer, BLOCK_JACOBI, INCOMPLETE_CHOLESKY, Job, Kind, Solved};
use crate::model::{Begun, Table, at_factor, delivered, solve, tolerances_fit};
use items::{Item, items};
use slip::{SLIPS, Slip};
use speeds::Speeds;
use std::collections::BTreeSet;
use worked::{Turned, Work, diagonal_found, runs, shared};

/// A recorded job, taken apart. From `accepted` on it tells of jobs that come to their factor,
/// and of these alone.
#[derive(Default)]
struct Seen {
    mode: u32,
    rows: u32,
    bodies: u32,
    refusal: u32,
    odd_tolerance: bool,
    /// What a job that is refused by 27 would be refused by at tolerance 0.
    else_by: u32,
    /// A tolerance is −0.0, and the job is not refused.
    minus_zero: bool,
    centres: Centres,
    speeds: Speeds,
    accepted: bool,
    changed: Vec<Slip>,
    not_finite: &'static str,
    replaced: bool,
    pairs: Pairs,
    blocks: Vec<usize>,
}

/// What a job has of centres (document 02, d).
#[derive(Default)]
struct Centres {
    /// One is not finite, while all mass numbers are; and what the job would be refused by else.
    odd: bool,
    else_by: u32,
    /// All are +0.0.
    none: bool,
    /// 17 is by a new centre alone.
    turn_back: bool,
    /// One is −0.0, and comes out so with count 0.
    minus_zero_kept: bool,
}

impl Centres {
    fn of(job: &Job, solved: &Solved) -> Self {
        let finite = |values: &[f64]| values.iter().all(|value| value.is_finite());
        let bits = |value: f64| move |other: &f64| other.to_bits() == value.to_bits();
        let refusal = solved.answer.refusal();
        let mut centres = Centres {
            odd: !finite(&job.centres) && finite(&job.masses),
            none: job.centres.iter().all(bits(0.0)),
            turn_back: refusal == 17 && delivered(job).answer.refusal() == 0,
            ..Centres::default()
        };
        if centres.odd && refusal == 6 {
            let plain = Job { centres: vec![0.0; job.centres.len()], ..job.clone() };
            centres.else_by = solve(&plain).answer.refusal();
        }
        let at_once = matches!(solved.answer, Answer::Accepted { count: 0, .. });
        centres.minus_zero_kept = at_once && solved.centres.iter().any(bits(-0.0));
        centres
    }
}

/// Pairs of rows by what they share, in mode 1.
#[derive(Default)]
struct Pairs {
    stored: usize,
    absent: usize,
    zero: usize,
    twice: usize,
}

impl Seen {
    fn of(job: &Job, solved: &Solved) -> Result<Self, String> {
        let refusal = solved.answer.refusal();
        let Job { mode, rows, bodies, .. } = *job;
        let mut seen = Seen { mode, rows, bodies, refusal, ..Seen::default() };
        seen.odd_tolerance = !tolerances_fit(job);
        let minus_zero = |value: &f64| value.to_bits() == (-0.0_f64).to_bits();
        seen.minus_zero = refusal == 0 && job.tolerances.iter().any(minus_zero);
        if refusal == 27 {
            seen.else_by = solve(&Job { tolerances: [0.0; 2], ..job.clone() }).answer.refusal();
        }
        match job.kind {
            Kind::Position => seen.centres = Centres::of(job, solved),
            Kind::Velocity => seen.speeds = Speeds::of(job, solved),
        }
        if let Some((table, begun)) = at_factor(job) {
            seen.at_factor(job, solved, &table, &begun)?;
        }
        Ok(seen)
    }

    fn at_factor(
        &mut self,
        job: &Job,
        solved: &Solved,
        table: &Table,
        begun: &Begun,
    ) -> Result<(), String> {
        let work = |slip| Work { table, begun, slip };
        let plain = work(None).solve(job);
        if !same(&plain, solved) {
            return Err(format!("worked once more, a job is not {:?}", solved.answer));
        }
        self.accepted = plain.is_ok();
        self.speeds.at_factor(self.refusal, table, begun);
        self.not_finite = plain.err().map_or("", |turned| turned.what);
        self.replaced =
            table.rows.iter().any(|row| diagonal_found(table, row) <= f64::MIN_POSITIVE);
        for (slip, _, modes) in SLIPS {
            if modes.contains(&job.mode) && !same(&work(Some(slip)).solve(job), solved) {
                self.changed.push(slip);
            }
        }
        match job.mode {
            INCOMPLETE_CHOLESKY => self.pairs = Pairs::of(&work(None)),
            BLOCK_JACOBI => self.blocks = runs(table).iter().map(|run| run.len()).collect(),
            _ => {}
        }
        Ok(())
    }
}

fn same(found: &Result<Solved, Turned>, wanted: &Solved) -> bool {
    match found {
        Ok(found) => found.same(wanted),
        Err(turned) => turned.refusal == wanted.answer.refusal(),
    }
}

impl Pairs {
    fn of(work: &Work) -> Self {
        let mut pairs = Pairs::default();
        for (at, high) in work.table.rows.iter().enumerate() {
            for low in &work.table.rows[..at] {
                let value = work.pair_value(low, high);
                pairs.stored += usize::from(value.is_some());
                pairs.absent += usize::from(value.is_none());
                pairs.zero += usize::from(value == Some(0.0));
                pairs.twice += usize::from(shared(low, high).len() == 2);
            }
        }
        pairs
    }
}

/// The items, and how many jobs met each.
pub struct Cover {
    items: Vec<Item>,
    counts: Vec<usize>,
}

impl Cover {
    pub fn new(kind: Kind) -> Self {
        let items = items(kind);
        Self { counts: vec![0; items.len()], items }
    }

    /// The items that a job meets.
    pub fn met(&self, job: &Job, solved: &Solved) -> Result<Vec<usize>, String> {
        let seen = Seen::of(job, solved)?;
        let meets = |item: &Item| item.mode == seen.mode && (item.met)(&seen);
        Ok((0..self.items.len()).filter(|&at| meets(&self.items[at])).collect())
    }

    pub fn add(&mut self, met: &[usize]) {
        met.iter().for_each(|&at| self.counts[at] += 1);
    }

    fn short(&self, at: usize) -> bool {
        self.counts[at] < self.items[at].enough
    }

    /// Whether one of these items is short of jobs, of those about centres or of the others.
    pub fn wants(&self, met: &[usize], centred: bool) -> bool {
        met.iter().any(|&at| self.items[at].centred == centred && self.short(at))
    }

    pub fn full(&self, centred: bool) -> bool {
        (0..self.items.len()).all(|at| self.items[at].centred != centred || !self.short(at))
    }

    pub fn complete(&self) -> bool {
        self.full(false) && self.full(true)
    }

    /// A line for each name, with its count in each mode that is asked for.
    pub fn print(&self) {
        println!("mode 0 mode 1 mode 2");
        let mut printed = BTreeSet::new();
        for Item { name, .. } in &self.items {
            if printed.insert(name) {
                let places = (0..self.items.len()).filter(|&at| self.items[at].name == *name);
                self.print_line(name, &places.collect::<Vec<usize>>());
            }
        }
    }

    fn print_line(&self, name: &str, places: &[usize]) {
        let columns = [0, 1, 2].map(|mode| {
            let place = places.iter().find(|&&at| self.items[at].mode == mode);
            place.map_or("-".to_string(), |&at| self.counts[at].to_string())
        });
        let few = if places.iter().any(|&at| self.short(at)) { " (too few)" } else { "" };
        println!("{:>6} {:>6} {:>6} {name}{few}", columns[0], columns[1], columns[2]);
    }
}
