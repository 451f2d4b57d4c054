//! Document 02, l: a curator looks at the impulses before the rows change. One proposal is dropped, which
//! changes nothing, and another, from a tighter tolerance, is committed.

use kapitsa::{Body, Joint, Proposal, Refusal, Row, Rules, Solver, Table};

/// Three links in a line, a pin between each two; they gape by 0.5 and 0.125.
fn links() -> Table {
    let mut table = Table::new();
    let links = [0.0, 1.0, 2.0].map(|x| table.add_body(Body::point(1.0).at([x, 0.0, 0.0])));
    for (pair, error) in links.windows(2).zip([-0.5, -0.125]) {
        let pin = Row::linear([1.0, 0.0, 0.0]).error(error);
        table.add_joint(Joint::between(pair[0], pair[1]).row(pin));
    }
    table
}

fn look(which: &str, proposal: &Proposal) {
    let answer = proposal.answer();
    let (count, flag) = (answer.iterations, u32::from(answer.converged));
    println!("{which}: count {count}, flag {flag}, largest residual {}", answer.residual.linear);
    let each = proposal.impulses().into_iter().zip(proposal.new_centres());
    for (link, (impulse, to)) in each.enumerate() {
        println!("  link {link}: impulse {}, from {link} to {}", impulse.linear[0], to[0]);
    }
}

fn main() -> Result<(), Refusal> {
    let mut table = links();
    let dropped = Solver::new(Rules::two(0.25, 0.25)).limit(1).propose(&table)?;
    look("dropped", &dropped);
    drop(dropped);
    println!("multipliers {}, {}", table.multiplier(0), table.multiplier(1));

    let mut kept = Solver::new(Rules::two(1e-9, 1e-9)).limit(8).propose(&table)?;
    look("committed", &kept);
    kept.commit(&mut table)?;
    println!("multipliers {}, {}", table.multiplier(0), table.multiplier(1));
    assert_eq!([table.multiplier(0), table.multiplier(1)], kept.solution());
    let again = kept.commit(&mut table);
    println!("once more: {}", again.unwrap_err());
    assert_eq!(again, Err(Refusal::Committed));
    Ok(())
}
