//! Several mechanisms on one bench.

use crate::slices::{solve_groups, solve_velocity_groups};
use crate::solved::Lent;
use crate::{Answer, Impulse, Refusal, Solver, Table};

/// Rows that share a body, directly or through further rows: one of several mechanisms on a bench. It is
/// answered or refused as a table of its rows alone, in their order, with all bodies.
#[derive(Clone, Debug, PartialEq)]
pub struct Group {
    /// Its rows, ascending.
    pub rows: Vec<usize>,
    /// How its solve ended, or why it was refused: then all its numbers stay as they were.
    pub answer: Result<Answer, Refusal>,
}

/// What a solve by groups delivers besides the multipliers, or accumulated impulses, which it writes into
/// the table.
#[derive(Clone, Debug, PartialEq)]
pub struct GroupsSolved {
    /// The groups, by their lowest row.
    pub groups: Vec<Group>,
    /// One a row: what its multiplier, or accumulated impulse, gained; 0 in a refused group.
    pub solution: Vec<f64>,
    /// The impulse of each body; none in a refused group, on a body that stands and on one in no row.
    pub impulses: Vec<Impulse>,
    /// Where each body's centre ends up: where it was, in a refused group. Of velocities none.
    pub new_centres: Vec<[f64; 3]>,
    /// The number of each row's rule; none in a refused group.
    pub rule_numbers: Vec<Option<u32>>,
}

/// Stands where a rule's number is not written: there are fewer rules.
const NO_RULE: u32 = u32::MAX;

impl GroupsSolved {
    fn of(groups: Vec<Group>, to: Lent) -> Self {
        let rule = |number: &u32| (*number != NO_RULE).then_some(*number);
        Self {
            groups,
            impulses: Impulse::each(&to.impulses),
            solution: to.solution,
            new_centres: to.new_centres,
            rule_numbers: to.rule_numbers.iter().map(rule).collect(),
        }
    }
}

impl Solver {
    /// Solves each mechanism on a bench by itself. A body whose ten mass numbers are all zero, such as a
    /// frame that stands, joins nothing. `Err` where the whole table is turned back, by 3, 25, 4, 27,
    /// 28, 6 or 7, and then nothing is written; else each group has its own answer. Takes some 600 KB of
    /// stack: give a thread that calls it a megabyte.
    ///
    /// ```
    /// # use kapitsa::*;
    /// # fn main() -> Result<(), Refusal> {
    /// let mut bench = Table::new();
    /// let frame = bench.add_body(Body::fixed());
    /// for error in [1e-4, -2e-4] {
    ///     let clock = bench.add_body(Body::point(0.5));
    ///     bench.add_joint(Joint::between(frame, clock).row(Row::linear([1.0, 0.0, 0.0]).error(error)));
    /// }
    /// let solved = Solver::new(Rules::two(1e-9, 1e-9)).solve_groups(&mut bench)?;
    /// assert_eq!(solved.groups.len(), 2);
    /// assert!(solved.groups[1].answer?.converged);
    /// # Ok(())
    /// # }
    /// ```
    pub fn solve_groups(&mut self, table: &mut Table) -> Result<GroupsSolved, Refusal> {
        let mut to = untouched(table);
        let (numbers, tables) = table.split();
        let groups = solve_groups(numbers, &tables, &self.settings, to.delivered())?;
        Ok(GroupsSolved::of(groups, to))
    }

    /// The same of speeds; [`Refusal::Speed`] turns the whole table back between 6 and 7.
    pub fn solve_velocity_groups(
        &mut self,
        table: &mut Table,
        residuals: &[f64],
    ) -> Result<GroupsSolved, Refusal> {
        let mut to = Lent { new_centres: vec![], ..untouched(table) };
        let (numbers, tables) = table.velocity_split(residuals);
        let lent = to.velocity_delivered();
        let groups = solve_velocity_groups(numbers, &tables, &self.settings, lent)?;
        Ok(GroupsSolved::of(groups, to))
    }
}

/// What a refused group leaves: nothing gained, nothing pressed on, every centre where it is.
fn untouched(table: &Table) -> Lent {
    let mut to = Lent::of(table.rows(), table.bodies());
    to.new_centres.as_flattened_mut().copy_from_slice(table.tables().centres);
    to.rule_numbers.fill(NO_RULE);
    to
}
