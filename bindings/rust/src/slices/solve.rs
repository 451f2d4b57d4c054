//! The two solves.

use super::tables::counts;
use super::{Tables, VelocityTables, Work};
use crate::control::DefaultControl;
use crate::{archive, Answer, Refusal, Settings};

/// What a solve delivers besides the multipliers, which it writes into the rows.
#[derive(Debug)]
pub struct Delivered<'a> {
    /// One a row: what its multiplier gains.
    pub solution: &'a mut [f64],
    /// Six a body: linear, then angular.
    pub impulses: &'a mut [f64],
    /// Three a body: its centre plus inverse mass times linear impulse; the same bits where its six
    /// impulses are all zero.
    pub new_centres: &'a mut [f64],
    /// One a row: the number of its rule.
    pub rule_numbers: &'a mut [u32],
}

/// What a velocity solve delivers besides the accumulated impulses, which it writes into the rows.
#[derive(Debug)]
pub struct VelocityDelivered<'a> {
    /// One a row: what its accumulated impulse gains.
    pub solution: &'a mut [f64],
    /// Six a body: linear, then angular.
    pub impulses: &'a mut [f64],
    /// One a row: the number of its rule.
    pub rule_numbers: &'a mut [u32],
}

/// A solve of the archive, in the default mode. `$numbers.$pointer` is of the rows' numbers, `$beside` what
/// it reads beside rows, masses and rules, `$moved` what it writes beside the rest, if anything, and
/// `$told` where it puts its answer.
#[rustfmt::skip]
macro_rules! solve {
    ($function:ident, $numbers:ident.$pointer:ident, $tables:ident, $beside:ident, $settings:ident,
     $to:ident, [$($moved:ident)?], [$($told:expr),*], $work:ident) => {{
        let (n, b) = counts($tables.words, $tables.masses)?;
        let crate::Settings { rules, limit, mode, shift } = $settings;
        let work = $work.of_solve(n, b, *mode);
        let control = DefaultControl::set();
        // SAFETY: each pointer and length is of one slice, and what is written overlaps no other.
        let refusal = unsafe {
            archive::$function(
                $numbers.$pointer(), $numbers.len(),
                $tables.words.as_ptr(), $tables.words.len(),
                $tables.masses.as_ptr(), $tables.masses.len(),
                $tables.$beside.as_ptr(), $tables.$beside.len(),
                rules.words.as_ptr(), rules.words.len(),
                rules.tolerances.as_ptr(), rules.tolerances.len(),
                n as u32, b as u32, *limit, *mode as u32, *shift,
                $to.solution.as_mut_ptr(), $to.solution.len(),
                $to.impulses.as_mut_ptr(), $to.impulses.len(),
                $($to.$moved.as_mut_ptr(), $to.$moved.len(),)?
                $to.rule_numbers.as_mut_ptr(), $to.rule_numbers.len(),
                $($told.as_mut_ptr(), $told.len(),)*
                work.jacobians.as_mut_ptr(), work.jacobians.len(),
                work.links.as_mut_ptr(), work.links.len(),
                work.tolerances.as_mut_ptr(), work.tolerances.len(),
                work.diagonal.as_mut_ptr(), work.diagonal.len(),
                work.residual.as_mut_ptr(), work.residual.len(),
                work.pending.as_mut_ptr(), work.pending.len(),
                work.direction.as_mut_ptr(), work.direction.len(),
                work.product.as_mut_ptr(), work.product.len(),
                work.body_impulses.as_mut_ptr(), work.body_impulses.len(),
                work.pattern.as_mut_ptr(), work.pattern.len(),
                work.order.as_mut_ptr(), work.order.len(),
                work.values.as_mut_ptr(), work.values.len(),
            )
        };
        drop(control);
        Refusal::judge(refusal)?
    }};
}

pub(super) use solve;

/// Solves; each row's accumulated multiplier (in `numbers`) and what is delivered are written only where
/// the answer is `Ok`.
#[inline(never)]
pub fn solve_position(
    numbers: &mut [f64],
    tables: &Tables,
    settings: &Settings,
    to: Delivered,
    work: &mut Work,
) -> Result<Answer, Refusal> {
    let (mut counted, mut maxima) = ([0; 2], [0.0; 2]);
    #[rustfmt::skip]
    solve!(
        kapitsa_solve_position, numbers.as_mut_ptr, tables, centres, settings, to, [new_centres],
        [counted, maxima], work
    );
    Ok(Answer::new(counted[0], counted[1], maxima))
}

/// Solves for speeds, as [`solve_position`] for places: of `numbers` each row's accumulated impulse gains
/// its solution number, and nothing else changes. The factor of modes 1 and 2 is built before the
/// tolerance is tested, and may be refused where every residual is within it.
#[inline(never)]
pub fn solve_velocity(
    numbers: &mut [f64],
    tables: &VelocityTables,
    settings: &Settings,
    to: VelocityDelivered,
    work: &mut Work,
) -> Result<Answer, Refusal> {
    let (mut counted, mut maxima) = ([0; 2], [0.0; 2]);
    #[rustfmt::skip]
    solve!(
        kapitsa_solve_velocity, numbers.as_mut_ptr, tables, residuals, settings, to, [],
        [counted, maxima], work
    );
    Ok(Answer::new(counted[0], counted[1], maxima))
}
