//! The position solve up to its last step.

use super::solve::solve;
use super::tables::counts;
use super::{Tables, Work};
use crate::control::DefaultControl;
use crate::{archive, Proposal, Refusal, Settings};

/// [`solve_position`](super::solve_position) up to its last step: the rows are only read, and what it
/// would make of them is proposed. It is refused as ever, by [`Refusal::Result`] too, and then makes no
/// proposal.
#[inline(never)]
pub fn propose_position(
    numbers: &[f64],
    tables: &Tables,
    settings: &Settings,
    work: &mut Work,
) -> Result<Proposal, Refusal> {
    let (rows, bodies) = counts(tables.words, tables.masses)?;
    let mut to = Proposal::of(rows, bodies);
    #[rustfmt::skip]
    solve!(
        kapitsa_propose_position, numbers.as_ptr, tables, centres, settings, to, [new_centres],
        [to.words, to.started, to.maxima], work
    );
    Ok(to)
}
