//! What would open the joint.

use crate::calls::*;
use crate::jobs::*;
use kapitsa::slices::Work;
use kapitsa::{Dimension, Mode, Rules, Verdict};

/// The list's order, and that a row alone closes by its number, and opens by the double below.
fn margins_of(of: Kind) {
    use Dimension::{Angular, Linear};
    let mut work = Work::default();
    let rows = [
        (0.25, Angular),
        (-0.5, Linear),
        (1.0, Linear),
        (-0.25, Angular),
        (0.5, Linear),
        (-0.0, Linear),
    ];
    // Without multipliers a number is the error's size and (n + 16) · 2^-51 of it: here 44 units.
    let number = |row: usize| match f64::to_bits(rows[row].0) << 1 >> 1 {
        0 => (row, 0),
        bits => (row, bits + 44),
    };
    let job = of(rows_of(&rows));
    for mode in ALL {
        let found = outcome(&job, mode, &mut work);
        let order = [2, 1, 4, 5, 0, 3].map(number);
        expect(found.margins == Some(order.to_vec()), "the list's order");
    }
    let none =
        outcome(&of(Job { rules: Rules::two(1.0, 1.0), ..Job::default() }), ALL[0], &mut work);
    expect(none.margins == Some(vec![]), "the list of no rows");
    let job = of(kinds(Rules::two(1e-9, 1e-9)));
    let plain = outcome(&job, Mode::Diagonal, &mut work);
    let solution: Vec<f64> =
        plain.numbers[81..84].iter().map(|bits| f64::from_bits(*bits)).collect();
    let list = plain.margins.expect("the chain is closed");
    for (row, number) in &list {
        let own = f64::from_bits(*number);
        for (tolerance, closes) in [(own, true), (own.next_down(), false), (0.0, false)] {
            let mut tolerances = [1e-9; 3];
            tolerances[*row] = tolerance;
            let job = Job { rules: three(tolerances), ..job.clone() };
            let (told, found) = listed(&job, &solution, &mut [KEPT; 3], &mut work);
            let verdict = if closes { Verdict::Closed } else { Verdict::Open };
            expect(told.is_ok_and(|(found, _)| found == verdict), "a row alone");
            expect(found == closes.then(|| list.clone()), "the same list, or none");
        }
    }
}

#[test]
fn margins_of_positions() {
    margins_of(of_positions);
}

#[test]
fn margins_of_velocities() {
    margins_of(of_velocities);
}
