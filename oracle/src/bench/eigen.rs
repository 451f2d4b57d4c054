//! Times of Eigen's conjugate gradients, which a programmer would pick, beside the reference's and an
//! implementation's solve of the same job. What each of the three delivers differs: see docs/SPEED.md.

use super::{FAMILIES, Solve, implemented, mechanism, short, times, untimed};
use crate::implementation::Implementation;
use crate::job::*;
use crate::library::Library;
use std::hint::black_box;

type EigenSolve = unsafe extern "C" fn(
    *const f64,
    *const u32,
    *const f64,
    u32,
    u32,
    f64,
    u32,
    u32,
    *mut f64,
) -> u32;

const HEAD: &str = "| job | rows | mode | steps | its steps | largest residual of it | untimed min | port min | Eigen min | median | port / Eigen |";

/// Eigen's function on one job.
#[derive(Clone, Copy)]
struct Eigen(EigenSolve);

impl Eigen {
    fn open(path: &str) -> Result<Self, String> {
        let library = Box::leak(Box::new(Library::open(path)?));
        Ok(Self(unsafe { std::mem::transmute::<_, EigenSolve>(library.function("eigen_solve")?) }))
    }

    fn solve(self, job: &Job, solution: &mut [f64]) -> u32 {
        assert_eq!(solution.len(), job.rows as usize);
        let (numbers, words) = (job.numbers.as_ptr(), job.words.as_ptr());
        let [tolerance, _] = job.tolerances;
        unsafe {
            (self.0)(
                numbers,
                words,
                job.masses.as_ptr(),
                job.rows,
                job.bodies,
                tolerance,
                job.limit,
                job.mode,
                solution.as_mut_ptr(),
            )
        }
    }
}

/// The largest |error + value| of a solution, by the reference's operator.
fn left(job: &Job, solution: &[f64]) -> Result<f64, String> {
    let mut operator =
        reference::Operator::new(&job.numbers, &job.words, &job.masses, &job.centres);
    let product = operator.product(solution).map_err(|error| format!("{error:?}"))?;
    let errors = job.numbers.chunks_exact(ROW_NUMBERS).map(|row| row[ERROR]);
    Ok(errors.zip(product).map(|(error, value)| (error + value).abs()).fold(0.0, f64::max))
}

fn print_row(label: &str, job: &Job, own: &Implementation, eigen: Eigen) -> Result<(), String> {
    let [_, count, ..] = crate::model::solve(job).answer.words();
    let mut solution = vec![0.0; job.rows as usize];
    let steps = eigen.solve(job, &mut solution);
    let residual = left(job, &solution)?;
    let solves: Vec<Solve> = vec![
        untimed(job),
        implemented(own, job),
        Box::new(move || {
            black_box(eigen.solve(black_box(job), &mut solution));
        }),
    ];
    let found = times(solves);
    let [rust, port, theirs] = [0, 1, 2].map(|place| found[place]);
    println!(
        "| {label} | {} | {} | {count} | {steps} | {residual:.1e} | {} | {} | {} | {} | {:.2} |",
        job.rows,
        job.mode,
        short(rust.minimum),
        short(port.minimum),
        short(theirs.minimum),
        short(theirs.median),
        port.minimum / theirs.minimum
    );
    Ok(())
}

/// Positions in modes 0 and 1.
pub fn table(library: &str, eigen: &str) -> Result<bool, String> {
    let own = Implementation::open(library, Kind::Position)?;
    let eigen = Eigen::open(eigen)?;
    println!("{HEAD}\n|{}", "---|".repeat(HEAD.matches('|').count() - 1));
    for mode in [0, INCOMPLETE_CHOLESKY] {
        for (name, shape, joints, rows_a_joint) in FAMILIES {
            let job = mechanism(shape, joints, rows_a_joint, mode);
            print_row(&format!("{name} {joints}×{rows_a_joint}"), &job, &own, eigen)?;
        }
    }
    Ok(true)
}
