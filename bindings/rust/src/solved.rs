//! The two solves of a table.

use crate::slices::{solve_position, solve_velocity, Delivered, VelocityDelivered};
use crate::{Answer, Impulse, Refusal, Solver, Table};

/// What a solve for positions delivers besides the multipliers, which it writes into the table.
#[derive(Clone, Debug, PartialEq)]
pub struct Solved {
    /// How it ended.
    pub answer: Answer,
    /// One a row: what its multiplier gained. A check takes it.
    pub solution: Vec<f64>,
    /// The impulse of each body.
    pub impulses: Vec<Impulse>,
    /// Where each body's centre ends up: its centre plus inverse mass times linear impulse.
    pub new_centres: Vec<[f64; 3]>,
    /// The number of each row's rule.
    pub rule_numbers: Vec<u32>,
}

/// What a solve for velocities delivers besides the accumulated impulses, which it writes into the table.
#[derive(Clone, Debug, PartialEq)]
pub struct VelocitySolved {
    /// How it ended.
    pub answer: Answer,
    /// One a row: what its accumulated impulse gained. A check takes it.
    pub solution: Vec<f64>,
    /// The impulse of each body, of which the caller makes new speeds: linear speed plus inverse mass
    /// times linear impulse, turning plus inverse inertia times angular impulse.
    pub impulses: Vec<Impulse>,
    /// The number of each row's rule.
    pub rule_numbers: Vec<u32>,
}

/// Memory that a solve writes into, for so many rows and bodies.
pub(crate) struct Lent {
    pub(crate) solution: Vec<f64>,
    pub(crate) impulses: Vec<f64>,
    pub(crate) new_centres: Vec<[f64; 3]>,
    pub(crate) rule_numbers: Vec<u32>,
}

impl Lent {
    pub(crate) fn of(rows: usize, bodies: usize) -> Self {
        Self {
            solution: vec![0.0; rows],
            impulses: vec![0.0; 6 * bodies],
            new_centres: vec![[0.0; 3]; bodies],
            rule_numbers: vec![0; rows],
        }
    }

    pub(crate) fn delivered(&mut self) -> Delivered<'_> {
        Delivered {
            solution: &mut self.solution,
            impulses: &mut self.impulses,
            new_centres: self.new_centres.as_flattened_mut(),
            rule_numbers: &mut self.rule_numbers,
        }
    }

    pub(crate) fn velocity_delivered(&mut self) -> VelocityDelivered<'_> {
        let Self { solution, impulses, rule_numbers, .. } = self;
        VelocityDelivered { solution, impulses, rule_numbers }
    }
}

impl Solver {
    /// Solves for positions: the multipliers by which the joints of the table close. Nothing is written
    /// where it is refused.
    ///
    /// ```
    /// # use kapitsa::*;
    /// # fn main() -> Result<(), Refusal> {
    /// let mut table = Table::new();
    /// let [a, b] = [1.0, 2.0].map(|x| table.add_body(Body::point(2.0).at([x, 0.0, 0.0])));
    /// table.add_joint(Joint::between(a, b).row(Row::linear([1.0, 0.0, 0.0]).error(-0.25)));
    /// let solved = Solver::new(Rules::two(1e-6, 1e-6)).solve(&mut table)?;
    /// assert!(solved.answer.converged);
    /// assert_eq!(solved.new_centres, [[1.125, 0.0, 0.0], [1.875, 0.0, 0.0]]);
    /// # Ok(())
    /// # }
    /// ```
    pub fn solve(&mut self, table: &mut Table) -> Result<Solved, Refusal> {
        let mut to = Lent::of(table.rows(), table.bodies());
        let (numbers, tables) = table.split();
        let answer =
            solve_position(numbers, &tables, &self.settings, to.delivered(), &mut self.work)?;
        let impulses = Impulse::each(&to.impulses);
        let Lent { solution, new_centres, rule_numbers, .. } = to;
        Ok(Solved { answer, solution, impulses, new_centres, rule_numbers })
    }

    /// Solves for velocities: the impulses by which every row of the table has the speed that it should
    /// have. `residuals` has for each row that speed less the one that it has, in m/s or rad/s. Nothing
    /// is written where it is refused.
    ///
    /// ```
    /// # use kapitsa::*;
    /// # fn main() -> Result<(), Refusal> {
    /// let mut table = Table::new();
    /// let [a, b] = [0; 2].map(|_| table.add_body(Body::point(2.0)));
    /// table.add_joint(Joint::between(a, b).row(Row::linear([1.0, 0.0, 0.0])));
    /// let speeds = [[-0.25, 0.0, 0.0, 0.0, 0.0, 0.0], [0.0; 6]]; // a runs away from b
    /// let residuals = [0.0 - table.row_speed(0, &speeds)];
    /// let mut solver = Solver::new(Rules::two(1e-6, 1e-6));
    /// let solved = solver.solve_velocity(&mut table, &residuals)?;
    /// assert_eq!(solved.impulses[0].linear, [0.25, 0.0, 0.0]);
    /// assert!(solver.check_velocity(&table, &residuals, &solved.solution)?.is_closed());
    /// # Ok(())
    /// # }
    /// ```
    pub fn solve_velocity(
        &mut self,
        table: &mut Table,
        residuals: &[f64],
    ) -> Result<VelocitySolved, Refusal> {
        let mut to = Lent::of(table.rows(), table.bodies());
        let (numbers, tables) = table.velocity_split(residuals);
        let lent = to.velocity_delivered();
        let answer = solve_velocity(numbers, &tables, &self.settings, lent, &mut self.work)?;
        let impulses = Impulse::each(&to.impulses);
        let Lent { solution, rule_numbers, .. } = to;
        Ok(VelocitySolved { answer, solution, impulses, rule_numbers })
    }
}
