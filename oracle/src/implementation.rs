//! An implementation under test: its C functions for one kind of job, out of a shared library. It may
//! lack the solve, and may tell whether its work memory is cleared.

use crate::job::{Job, Kind, Rules};
use crate::library::Library;
use crate::model::Bench;
use std::ffi::{c_int, c_void};

#[rustfmt::skip]
type SolvePosition = unsafe extern "C" fn(
    *mut f64, usize, *const u32, usize, *const f64, usize, *const f64, usize,
    *const u32, usize, *const f64, usize, u32, u32, u32, u32, f64,
    *mut f64, usize, *mut f64, usize, *mut f64, usize, *mut u32, usize, *mut u64, usize,
);
/// Residuals in the centres' place, and no new centres.
#[rustfmt::skip]
type SolveVelocity = unsafe extern "C" fn(
    *mut f64, usize, *const u32, usize, *const f64, usize, *const f64, usize,
    *const u32, usize, *const f64, usize, u32, u32, u32, u32, f64,
    *mut f64, usize, *mut f64, usize, *mut u32, usize, *mut u64, usize,
);
/// Of both kinds: the check of speeds takes residuals in the centres' place.
#[rustfmt::skip]
type Close = unsafe extern "C" fn(
    *const f64, usize, *const u32, usize, *const f64, usize, *const f64, usize,
    *const u32, usize, *const f64, usize, u32, u32,
    *const f64, usize, *mut u32, usize, *mut u64, usize,
);

/// The same with its list: rows, and beside each its number.
#[rustfmt::skip]
type Margins = unsafe extern "C" fn(
    *const f64, usize, *const u32, usize, *const f64, usize, *const f64, usize,
    *const u32, usize, *const f64, usize, u32, u32,
    *const f64, usize, *mut u32, usize, *mut u32, usize, *mut f64, usize, *mut u64, usize,
);

/// By groups: in place of the answer, what is told of each group; then how many there are.
#[rustfmt::skip]
type GroupPositions = unsafe extern "C" fn(
    *mut f64, usize, *const u32, usize, *const f64, usize, *const f64, usize,
    *const u32, usize, *const f64, usize, u32, u32, u32, u32, f64,
    *mut f64, usize, *mut f64, usize, *mut f64, usize, *mut u32, usize,
    *mut u32, usize, *mut u32, usize, *mut f64, usize, *mut u32, usize, *mut u64, usize,
);
#[rustfmt::skip]
type GroupVelocities = unsafe extern "C" fn(
    *mut f64, usize, *const u32, usize, *const f64, usize, *const f64, usize,
    *const u32, usize, *const f64, usize, u32, u32, u32, u32, f64,
    *mut f64, usize, *mut f64, usize, *mut u32, usize,
    *mut u32, usize, *mut u32, usize, *mut f64, usize, *mut u32, usize, *mut u64, usize,
);

type Cleared = unsafe extern "C" fn() -> c_int;

/// Carves the work memory for these rows, bodies and mode.
type Lend = unsafe extern "C" fn(u32, u32, u32);

#[derive(Clone, Copy)]
enum Solve {
    Position(SolvePosition),
    Velocity(SolveVelocity),
}

impl Solve {
    fn of(kind: Kind, found: *mut c_void) -> Self {
        match kind {
            Kind::Position => Self::Position(unsafe { std::mem::transmute(found) }),
            Kind::Velocity => Self::Velocity(unsafe { std::mem::transmute(found) }),
        }
    }
}

#[derive(Clone, Copy)]
enum Groups {
    Position(GroupPositions),
    Velocity(GroupVelocities),
}

impl Groups {
    fn of(kind: Kind, found: *mut c_void) -> Self {
        match kind {
            Kind::Position => Self::Position(unsafe { std::mem::transmute(found) }),
            Kind::Velocity => Self::Velocity(unsafe { std::mem::transmute(found) }),
        }
    }
}

/// What a solve is lent to write into, besides the rows. A velocity solve writes no centres.
#[derive(Clone)]
pub struct Outputs {
    pub solution: Vec<f64>,
    pub impulses: Vec<f64>,
    pub centres: Vec<f64>,
    pub rule_numbers: Vec<u32>,
}

/// What a check with its list is lent to write into.
pub struct CheckOutputs {
    pub rule_numbers: Vec<u32>,
    pub margin_rows: Vec<u32>,
    pub margins: Vec<f64>,
}

pub struct Implementation {
    solve: Option<Solve>,
    groups: Option<Groups>,
    close: Close,
    margins: Margins,
    cleared: Option<Cleared>,
    lend: Option<Lend>,
}

/// The functions that solve, solve by groups, check, and check with a list.
fn names(kind: Kind) -> [&'static str; 4] {
    match kind {
        Kind::Position => [
            "oracle_solve_position",
            "oracle_solve_groups",
            "oracle_closing_check",
            "oracle_closing_margins",
        ],
        Kind::Velocity => [
            "oracle_solve_velocity",
            "oracle_solve_velocity_groups",
            "oracle_velocity_closing_check",
            "oracle_velocity_closing_margins",
        ],
    }
}

/// What is lent in the place of the centres.
fn lent(job: &Job) -> &[f64] {
    match job.kind {
        Kind::Position => &job.centres,
        Kind::Velocity => &job.residuals,
    }
}

impl Implementation {
    pub fn open(path: &str, kind: Kind) -> Result<Self, String> {
        let library = Library::open(path)?;
        let [solve, groups, close, margins] = names(kind);
        let close = library.function(close)?;
        let margins = library.function(margins)?;
        Ok(Self {
            solve: library.function(solve).ok().map(|found| Solve::of(kind, found)),
            groups: library.function(groups).ok().map(|found| Groups::of(kind, found)),
            close: unsafe { std::mem::transmute::<*mut c_void, Close>(close) },
            margins: unsafe { std::mem::transmute::<*mut c_void, Margins>(margins) },
            cleared: library
                .function("oracle_work_cleared")
                .ok()
                .map(|found| unsafe { std::mem::transmute::<*mut c_void, Cleared>(found) }),
            lend: None,
        })
    }

    /// The same, solving over work memory that `lend` carves once, where the library can.
    pub fn open_timed(path: &str, kind: Kind) -> Result<Self, String> {
        let (library, own) = (Library::open(path)?, Self::open(path, kind)?);
        let name = match kind {
            Kind::Position => "oracle_time_position",
            Kind::Velocity => "oracle_time_velocity",
        };
        let (Ok(solve), Ok(lend)) = (library.function(name), library.function("oracle_lend")) else {
            return Ok(own);
        };
        let lend = unsafe { std::mem::transmute::<*mut c_void, Lend>(lend) };
        Ok(Self { solve: Some(Solve::of(kind, solve)), lend: Some(lend), ..own })
    }

    /// Before the first solve of a job's size and mode.
    pub fn lend(&self, job: &Job) {
        if let Some(lend) = self.lend {
            unsafe { lend(job.rows, job.bodies, job.mode) }
        }
    }

    pub fn solves(&self) -> bool {
        self.solve.is_some()
    }

    pub fn groups(&self) -> bool {
        self.groups.is_some()
    }

    /// Whether the work memory is +0.0; true where the implementation does not tell.
    pub fn cleared(&self) -> bool {
        self.cleared.is_none_or(|cleared| unsafe { cleared() } != 0)
    }

    #[rustfmt::skip]
    /// Writes into the job's numbers and the outputs as the function does.
    pub fn solve(&self, job: &mut Job, rules: &Rules, to: &mut Outputs) -> [u64; 5] {
        let mut answer = [u64::MAX; 5];
        let (lent, lent_len) = (lent(job).as_ptr(), lent(job).len());
        let Outputs { solution, impulses, centres, rule_numbers } = to;
        match self.solve.expect("the implementation solves") {
            Solve::Position(solve) => unsafe {
                solve(
                    job.numbers.as_mut_ptr(), job.numbers.len(),
                    job.words.as_ptr(), job.words.len(),
                    job.masses.as_ptr(), job.masses.len(),
                    lent, lent_len,
                    rules.words.as_ptr(), rules.words.len(),
                    rules.tolerances.as_ptr(), rules.tolerances.len(),
                    job.rows, job.bodies, job.limit, job.mode, job.shift,
                    solution.as_mut_ptr(), solution.len(),
                    impulses.as_mut_ptr(), impulses.len(),
                    centres.as_mut_ptr(), centres.len(),
                    rule_numbers.as_mut_ptr(), rule_numbers.len(),
                    answer.as_mut_ptr(), answer.len(),
                );
            },
            Solve::Velocity(solve) => unsafe {
                solve(
                    job.numbers.as_mut_ptr(), job.numbers.len(),
                    job.words.as_ptr(), job.words.len(),
                    job.masses.as_ptr(), job.masses.len(),
                    lent, lent_len,
                    rules.words.as_ptr(), rules.words.len(),
                    rules.tolerances.as_ptr(), rules.tolerances.len(),
                    job.rows, job.bodies, job.limit, job.mode, job.shift,
                    solution.as_mut_ptr(), solution.len(),
                    impulses.as_mut_ptr(), impulses.len(),
                    rule_numbers.as_mut_ptr(), rule_numbers.len(),
                    answer.as_mut_ptr(), answer.len(),
                );
            },
        }
        answer
    }

    #[rustfmt::skip]
    /// The whole table's refusal or 0; writes into what is lent, the rows' numbers too, as the function
    /// does.
    pub fn solve_groups(&self, job: &Job, rules: &Rules, to: &mut Bench) -> u64 {
        let mut answer = [u64::MAX];
        let (lent, lent_len) = (lent(job).as_ptr(), lent(job).len());
        match self.groups.expect("the implementation solves by groups") {
            Groups::Position(solve) => unsafe {
                solve(
                    to.numbers.as_mut_ptr(), to.numbers.len(),
                    job.words.as_ptr(), job.words.len(),
                    job.masses.as_ptr(), job.masses.len(),
                    lent, lent_len,
                    rules.words.as_ptr(), rules.words.len(),
                    rules.tolerances.as_ptr(), rules.tolerances.len(),
                    job.rows, job.bodies, job.limit, job.mode, job.shift,
                    to.solution.as_mut_ptr(), to.solution.len(),
                    to.impulses.as_mut_ptr(), to.impulses.len(),
                    to.centres.as_mut_ptr(), to.centres.len(),
                    to.rule_numbers.as_mut_ptr(), to.rule_numbers.len(),
                    to.group_numbers.as_mut_ptr(), to.group_numbers.len(),
                    to.group_answers.as_mut_ptr(), to.group_answers.len(),
                    to.group_maxima.as_mut_ptr(), to.group_maxima.len(),
                    to.group_count.as_mut_ptr(), to.group_count.len(),
                    answer.as_mut_ptr(), answer.len(),
                );
            },
            Groups::Velocity(solve) => unsafe {
                solve(
                    to.numbers.as_mut_ptr(), to.numbers.len(),
                    job.words.as_ptr(), job.words.len(),
                    job.masses.as_ptr(), job.masses.len(),
                    lent, lent_len,
                    rules.words.as_ptr(), rules.words.len(),
                    rules.tolerances.as_ptr(), rules.tolerances.len(),
                    job.rows, job.bodies, job.limit, job.mode, job.shift,
                    to.solution.as_mut_ptr(), to.solution.len(),
                    to.impulses.as_mut_ptr(), to.impulses.len(),
                    to.rule_numbers.as_mut_ptr(), to.rule_numbers.len(),
                    to.group_numbers.as_mut_ptr(), to.group_numbers.len(),
                    to.group_answers.as_mut_ptr(), to.group_answers.len(),
                    to.group_maxima.as_mut_ptr(), to.group_maxima.len(),
                    to.group_count.as_mut_ptr(), to.group_count.len(),
                    answer.as_mut_ptr(), answer.len(),
                );
            },
        }
        answer[0]
    }

    #[rustfmt::skip]
    /// Refusal, 1 where closed, and the bits of both gaps; rule numbers as the function writes them.
    pub fn close(&self, job: &Job, rules: &Rules, list: &[f64], numbers: &mut [u32]) -> [u64; 4] {
        let mut answer = [u64::MAX; 4];
        unsafe {
            (self.close)(
                job.numbers.as_ptr(), job.numbers.len(),
                job.words.as_ptr(), job.words.len(),
                job.masses.as_ptr(), job.masses.len(),
                lent(job).as_ptr(), lent(job).len(),
                rules.words.as_ptr(), rules.words.len(),
                rules.tolerances.as_ptr(), rules.tolerances.len(), job.rows, job.bodies,
                list.as_ptr(), list.len(),
                numbers.as_mut_ptr(), numbers.len(),
                answer.as_mut_ptr(), answer.len(),
            );
        }
        answer
    }

    #[rustfmt::skip]
    /// The same with its list, which is written as the function does.
    pub fn margins(
        &self, job: &Job, rules: &Rules, list: &[f64], to: &mut CheckOutputs,
    ) -> [u64; 4] {
        let mut answer = [u64::MAX; 4];
        unsafe {
            (self.margins)(
                job.numbers.as_ptr(), job.numbers.len(),
                job.words.as_ptr(), job.words.len(),
                job.masses.as_ptr(), job.masses.len(),
                lent(job).as_ptr(), lent(job).len(),
                rules.words.as_ptr(), rules.words.len(),
                rules.tolerances.as_ptr(), rules.tolerances.len(), job.rows, job.bodies,
                list.as_ptr(), list.len(),
                to.rule_numbers.as_mut_ptr(), to.rule_numbers.len(),
                to.margin_rows.as_mut_ptr(), to.margin_rows.len(),
                to.margins.as_mut_ptr(), to.margins.len(),
                answer.as_mut_ptr(), answer.len(),
            );
        }
        answer
    }
}
