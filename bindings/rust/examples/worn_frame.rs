//! A worn frame, as bindings/c/examples/worn_frame.c has it: nine parts in a chain, the first fixed, each
//! joint scanned from both sides, so that its two rows say almost the same. Mode 1 turns it back by 13; a
//! small shift lets it pass, and the closing check, which knows no shift, says of each result whether the
//! joints are closed.

use kapitsa::{Body, Joint, Mode, Refusal, Row, Rules, Solver, Table};

const GAPS: [f64; 8] = [3e-4, -2e-4, 5e-4, 1e-4, -4e-4, 2.5e-4, -1e-4, 3.5e-4];
const ASIDE: f64 = 1.0 / 268_435_456.0; // 2^-28

fn frame() -> Table {
    let mut table = Table::new();
    let mut last = table.add_body(Body::fixed());
    for (joint, gap) in GAPS.into_iter().enumerate() {
        let inverse_mass = 0.5 + 0.25 * (joint % 3) as f64;
        let place = [0.1 * (joint + 1) as f64, 0.0, 0.0]; // a part every ten centimetres
        let next = table.add_body(Body::from_inverse(inverse_mass, &[0.0; 9]).at(place));
        let sides = [0.0, ASIDE].map(|aside| Row::linear([1.0, aside, 0.0]).error(gap));
        table.add_joint(Joint::between(last, next).row(sides[0]).row(sides[1]));
        last = next;
    }
    table
}

/// How many steps the solve takes; the joints are then closed.
fn steps(mode: Mode, shift: f64) -> Result<u32, Refusal> {
    let mut table = frame();
    let mut solver = Solver::new(Rules::two(1e-9, 1e-9)).mode(mode).shift(shift);
    let solved = solver.solve(&mut table)?;
    let checked = solver.check(&table, &solved.solution)?;
    let (count, gap) = (solved.answer.iterations, checked.gap.linear);
    println!("{mode:?}, shift {shift:e}: count {count}, {:?}, gap {gap:e}", checked.verdict);
    assert!(solved.answer.converged && checked.is_closed());
    Ok(count)
}

fn main() {
    let cholesky = Mode::IncompleteCholesky;
    assert_eq!(steps(Mode::Diagonal, 0.0), Ok(8));
    assert_eq!(steps(cholesky, 0.0), Err(Refusal::Pivot));
    assert_eq!(steps(cholesky, 1.0 / 1_048_576.0), Ok(2)); // 2^-20
    assert_eq!(steps(cholesky, 1.5), Err(Refusal::Shift));
}
