//! Propose, look, then commit.

use crate::control::DefaultControl;
use crate::slices::propose_position;
use crate::{archive, Answer, Impulse, Refusal, Solver, Table, MAX_ROWS, ROW_NUMBERS};

/// A position solve before the rows change: what it answers, and what a commit makes of it. Its memory is
/// its own, so that nobody else can write to it. Dropped, it has changed nothing.
///
/// ```
/// # use kapitsa::*;
/// # fn main() -> Result<(), Refusal> {
/// let mut table = Table::new();
/// let [a, b] = [0.0, 1.0].map(|x| table.add_body(Body::point(1.0).at([x, 0.0, 0.0])));
/// table.add_joint(Joint::between(a, b).row(Row::linear([1.0, 0.0, 0.0]).error(-0.5)));
/// let mut solver = Solver::new(Rules::two(1e-9, 1e-9));
///
/// let mut proposal = solver.propose(&table)?;
/// assert_eq!(proposal.new_centres(), [[0.25, 0.0, 0.0], [0.75, 0.0, 0.0]]);
/// assert_eq!(table.multiplier(0), 0.0); // nothing has changed
/// proposal.commit(&mut table)?;
/// assert_eq!(table.multiplier(0), 0.25);
/// assert_eq!(proposal.commit(&mut table), Err(Refusal::Committed));
/// # Ok(())
/// # }
/// ```
#[derive(Debug)]
pub struct Proposal {
    /// Rows, flag, count and mark.
    pub(crate) words: [u32; 4],
    pub(crate) maxima: [f64; 2],
    pub(crate) solution: Vec<f64>,
    pub(crate) impulses: Vec<f64>,
    pub(crate) new_centres: Vec<f64>,
    pub(crate) rule_numbers: Vec<u32>,
    pub(crate) started: Vec<f64>,
}

impl Proposal {
    /// Memory for one of so many rows and bodies.
    pub(crate) fn of(rows: usize, bodies: usize) -> Self {
        Self {
            words: [0; 4],
            maxima: [0.0; 2],
            solution: vec![0.0; rows],
            impulses: vec![0.0; 6 * bodies],
            new_centres: vec![0.0; 3 * bodies],
            rule_numbers: vec![0; rows],
            started: vec![0.0; rows],
        }
    }

    /// How the solve ended.
    pub fn answer(&self) -> Answer {
        Answer::new(self.words[2], self.words[1], self.maxima)
    }

    /// One a row: what its multiplier will gain.
    pub fn solution(&self) -> &[f64] {
        &self.solution
    }

    /// The impulse of each body.
    pub fn impulses(&self) -> Vec<Impulse> {
        Impulse::each(&self.impulses)
    }

    /// Where each body's centre will end up.
    pub fn new_centres(&self) -> &[[f64; 3]] {
        self.new_centres.as_chunks().0
    }

    /// The number of each row's rule.
    pub fn rule_numbers(&self) -> &[u32] {
        &self.rule_numbers
    }

    /// The accumulated multipliers that it started from, one a row.
    pub fn started(&self) -> &[f64] {
        &self.started
    }

    /// Whether it bears the mark of a commit.
    pub fn is_committed(&self) -> bool {
        self.words[3] != 0
    }

    /// Writes the new multipliers into the table, and marks the proposal; with count 0 they keep their
    /// bits. [`Refusal::Committed`] where it bears the mark already, then [`Refusal::Moved`] where the
    /// rows are not as many as it started from or a multiplier has other bits; neither writes.
    pub fn commit(&mut self, table: &mut Table) -> Result<(), Refusal> {
        self.commit_numbers(table.numbers_mut())
    }

    /// The same on the rows' numbers, [`ROW_NUMBERS`] each.
    #[inline(never)]
    pub fn commit_numbers(&mut self, numbers: &mut [f64]) -> Result<(), Refusal> {
        let rows = (numbers.len() / ROW_NUMBERS).min(MAX_ROWS + 1) as u32;
        let control = DefaultControl::set();
        // SAFETY: each pointer and length is of one slice, and no two of the slices overlap.
        #[rustfmt::skip]
        let refusal = unsafe {
            archive::kapitsa_commit_proposal(
                numbers.as_mut_ptr(), numbers.len(), rows,
                self.words.as_mut_ptr(), self.words.len(),
                self.solution.as_ptr(), self.solution.len(),
                self.started.as_ptr(), self.started.len(),
            )
        };
        drop(control);
        Refusal::judge(refusal)
    }
}

impl Solver {
    /// [`solve`](Self::solve) up to its last step: the table is only read. A refused solve makes no
    /// proposal.
    pub fn propose(&mut self, table: &Table) -> Result<Proposal, Refusal> {
        propose_position(table.numbers(), &table.tables(), &self.settings, &mut self.work)
    }
}
