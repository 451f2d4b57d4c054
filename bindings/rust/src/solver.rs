//! A solver: what it is told, and memory that it keeps.

use crate::slices::Work;
use crate::{Mode, Rules, Settings};

/// What solves and checks tables: settings, and work memory that is kept from call to call.
///
/// It has no state beside them: the same table gets the same answer, bit for bit, whatever was solved
/// before, on any thread and in any floating-point mode of the processor.
///
/// ```
/// use kapitsa::{Mode, Rules, Solver};
///
/// let solver = Solver::new(Rules::two(1e-6, 1e-6)).mode(Mode::IncompleteCholesky).limit(50);
/// assert_eq!(solver.settings().limit, 50);
/// ```
#[derive(Clone, Debug)]
pub struct Solver {
    pub(crate) settings: Settings,
    pub(crate) work: Work,
}

impl Solver {
    /// With these tolerances; at most 100 steps, [`Mode::Diagonal`], no shift.
    pub fn new(rules: Rules) -> Self {
        Settings::new(rules).into()
    }

    /// With another preconditioner.
    pub fn mode(mut self, mode: Mode) -> Self {
        self.settings.mode = mode;
        self
    }

    /// With at most so many steps.
    pub fn limit(mut self, limit: u32) -> Self {
        self.settings.limit = limit;
        self
    }

    /// With a shift of the pivots, from 0 to 1; see [`Settings::shift`].
    pub fn shift(mut self, shift: f64) -> Self {
        self.settings.shift = shift;
        self
    }

    /// What it is told.
    pub fn settings(&self) -> &Settings {
        &self.settings
    }

    /// What it is told, to be changed.
    pub fn settings_mut(&mut self) -> &mut Settings {
        &mut self.settings
    }
}

impl From<Settings> for Solver {
    fn from(settings: Settings) -> Self {
        Self { settings, work: Work::default() }
    }
}
