//! Document 01's P1: two bodies, one row; solved, then checked, and where each body ends up.

use kapitsa::{Body, Joint, Refusal, Row, Rules, Solver, Table};

const CENTRES: [[f64; 3]; 2] = [[1.0, 0.5, 0.0], [2.0, 0.5, 0.0]];

fn main() -> Result<(), Refusal> {
    let mut table = Table::new();
    let [a, b] = CENTRES.map(|centre| table.add_body(Body::point(2.0).at(centre)));
    table.add_joint(Joint::between(a, b).row(Row::linear([1.0, 0.0, 0.0]).error(-0.25)));
    let mut solver = Solver::new(Rules::two(0.001, 0.001)).limit(4);
    let solved = solver.solve(&mut table)?;
    let checked = solver.check(&table, &solved.solution)?;
    println!("count {}, flag {}", solved.answer.iterations, u32::from(solved.answer.converged));
    println!("multiplier {}, {:?}", table.multiplier(0), checked.verdict);
    println!("gap at most {:e}, {:e}", checked.gap.linear, checked.gap.angular);
    for (body, (from, to)) in CENTRES.iter().zip(&solved.new_centres).enumerate() {
        println!("body {body} from {from:?} to {to:?}");
    }
    assert_eq!((solved.answer.iterations, solved.answer.converged), (1, true));
    assert!(checked.is_closed());
    assert_eq!(checked.rule_numbers, [0]);
    assert_eq!(solved.new_centres, [[1.125, 0.5, 0.0], [1.875, 0.5, 0.0]]);
    assert_eq!((checked.gap.linear, checked.gap.angular), (17.0 * f64::EPSILON, 0.0));
    Ok(())
}
