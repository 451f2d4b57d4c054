//! A first program: two links and one joint, which gapes by a quarter of a metre; solved, then checked.

use kapitsa::{Body, Joint, Refusal, Row, Rules, Solver, Table};

fn main() -> Result<(), Refusal> {
    let mut table = Table::new();
    let crank = table.add_body(Body::point(2.0)); // kilograms
    let rocker = table.add_body(Body::point(2.0));
    let pin = Row::linear([1.0, 0.0, 0.0]).error(-0.25); // along x, in metres
    table.add_joint(Joint::between(crank, rocker).row(pin));

    let mut solver = Solver::new(Rules::two(1e-6, 1e-6)); // a micrometre, a microradian
    let solved = solver.solve(&mut table)?;
    let checked = solver.check(&table, &solved.solution)?;
    println!("{:?}, gap at most {:e} m", checked.verdict, checked.gap.linear);

    // A joint between a link and itself is no joint: what a refusal says, and what to do.
    let mut odd = Table::new();
    let link = odd.add_body(Body::point(2.0));
    odd.add_joint(Joint::between(link, link).row(pin));
    if let Err(refusal) = solver.solve(&mut odd) {
        println!("{refusal:#}");
    }
    Ok(())
}
