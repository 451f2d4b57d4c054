//! The two solves by groups.

use super::tables::counts;
use super::{Delivered, Tables, VelocityDelivered, VelocityTables};
use crate::control::DefaultControl;
use crate::{archive, Answer, Group, Refusal, Settings};

/// What a solve by groups is lent for its groups, of which there are at most as many as rows.
struct GroupMemory {
    /// Each row's group.
    numbers: Vec<u32>,
    /// Three words a group: its refusal or 0, count and flag.
    answers: Vec<u32>,
    /// Two a group, linear and angular.
    maxima: Vec<f64>,
    count: [u32; 1],
}

impl GroupMemory {
    fn of(rows: usize) -> Self {
        let (numbers, answers) = (vec![0; rows], vec![0; 3 * rows]);
        Self { numbers, answers, maxima: vec![0.0; 2 * rows], count: [0] }
    }

    /// Each group by its number.
    fn groups(&self) -> Vec<Group> {
        let told = self.answers.chunks_exact(3).zip(self.maxima.chunks_exact(2));
        let each = (0..self.count[0]).zip(told);
        each.map(|(number, (words, maxima))| {
            let rows = (0..self.numbers.len()).filter(|row| self.numbers[*row] == number);
            let answer = Refusal::judge(words[0])
                .map(|()| Answer::new(words[1], words[2], [maxima[0], maxima[1]]));
            Group { rows: rows.collect(), answer }
        })
        .collect()
    }
}

/// A solve by groups of the archive, in the default mode; what it tells of the groups. `$beside` and
/// `$moved` are as in `solve!`. Its work memory is on the stack.
#[rustfmt::skip]
macro_rules! solve_by_groups {
    ($function:ident, $numbers:ident, $tables:ident, $beside:ident, $settings:ident, $to:ident,
     [$($moved:ident)?]) => {{
        let (n, b) = counts($tables.words, $tables.masses)?;
        let Settings { rules, limit, mode, shift } = $settings;
        let mut memory = GroupMemory::of(n);
        let control = DefaultControl::set();
        // SAFETY: each pointer and length is of one slice, and what is written overlaps no other.
        let refusal = unsafe {
            archive::$function(
                $numbers.as_mut_ptr(), $numbers.len(),
                $tables.words.as_ptr(), $tables.words.len(),
                $tables.masses.as_ptr(), $tables.masses.len(),
                $tables.$beside.as_ptr(), $tables.$beside.len(),
                rules.words.as_ptr(), rules.words.len(),
                rules.tolerances.as_ptr(), rules.tolerances.len(),
                n as u32, b as u32, *limit, *mode as u32, *shift,
                $to.solution.as_mut_ptr(), $to.solution.len(),
                $to.impulses.as_mut_ptr(), $to.impulses.len(),
                $($to.$moved.as_mut_ptr(), $to.$moved.len(),)?
                $to.rule_numbers.as_mut_ptr(), $to.rule_numbers.len(),
                memory.numbers.as_mut_ptr(), memory.numbers.len(),
                memory.answers.as_mut_ptr(), memory.answers.len(),
                memory.maxima.as_mut_ptr(), memory.maxima.len(),
                memory.count.as_mut_ptr(), memory.count.len(),
            )
        };
        drop(control);
        Refusal::judge(refusal)?;
        memory.groups()
    }};
}

/// Solves each mechanism on a bench by itself: the groups, by their lowest row. `Err` where 3, 25, 4, 27,
/// 28, 6 or 7 turns the whole table back, and then nothing is written; else each group has its own
/// answer, or a refusal, by which all its numbers stay as they were. A body of mass numbers zero, or in
/// no row, gets impulses of +0.0, and keeps its centre. Takes some 600 KB of stack.
#[inline(never)]
pub fn solve_groups(
    numbers: &mut [f64],
    tables: &Tables,
    settings: &Settings,
    to: Delivered,
) -> Result<Vec<Group>, Refusal> {
    #[rustfmt::skip]
    let groups = solve_by_groups!(
        kapitsa_solve_groups, numbers, tables, centres, settings, to, [new_centres]
    );
    Ok(groups)
}

/// The same of speeds: [`solve_velocity`](super::solve_velocity) by groups, with 20 between 6 and 7.
#[inline(never)]
pub fn solve_velocity_groups(
    numbers: &mut [f64],
    tables: &VelocityTables,
    settings: &Settings,
    to: VelocityDelivered,
) -> Result<Vec<Group>, Refusal> {
    #[rustfmt::skip]
    let groups = solve_by_groups!(
        kapitsa_solve_velocity_groups, numbers, tables, residuals, settings, to, []
    );
    Ok(groups)
}
