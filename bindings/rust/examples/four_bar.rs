//! A four-bar linkage in a plane, as samples/four_bar_centres.job has it: frame, crank, coupler and
//! rocker, each scanned a little off its place, so that the four pins gape by fractions of a millimetre.
//! The numbers are those that the job program prints of that file, bit for bit.

use kapitsa::{Body, BodyId, Joint, Margin, Mode, Refusal, Row, Rules, Solver, Table};

/// The pins: on the frame, at the crank's end, at the rocker's, and on the frame again.
const PINS: [[f64; 2]; 4] = [[0.0, 0.0], [0.06, 0.08], [0.32, 0.19], [0.30, 0.0]];
/// Of crank, coupler and rocker: metres and kilograms.
const LINKS: [(f64, f64); 3] = [(0.1, 0.2), (0.282, 0.5), (0.191, 0.35)];
/// How far each part was scanned off its true place, the frame first.
const SCANS: [[f64; 2]; 4] = [[0.0, 0.0], [2.1e-4, -1.3e-4], [-1.7e-4, 0.9e-4], [0.6e-4, 2.4e-4]];

/// Where a point of a part was seen.
fn seen(part: usize, point: [f64; 2]) -> [f64; 3] {
    [point[0] + SCANS[part][0], point[1] + SCANS[part][1], 0.0]
}

fn minus(u: [f64; 3], v: [f64; 3]) -> [f64; 3] {
    [0, 1, 2].map(|k| u[k] - v[k])
}

/// A slender rod between two pins, turning in the plane alone.
fn link(part: usize, (length, kilograms): (f64, f64)) -> Body {
    let [from, to] = [PINS[part - 1], PINS[part]];
    let middle = [0, 1].map(|k| (from[k] + to[k]) / 2.0);
    let mut inverse_inertia = [0.0; 9];
    inverse_inertia[8] = 12.0 / (kilograms * length * length);
    Body::from_inverse(1.0 / kilograms, &inverse_inertia).at(seen(part, middle))
}

fn linkage() -> (Table, Vec<BodyId>) {
    let mut table = Table::new();
    let mut parts = vec![table.add_body(Body::fixed().at([0.15, 0.0, 0.0]))];
    for (part, of) in LINKS.into_iter().enumerate() {
        parts.push(table.add_body(link(part + 1, of)));
    }
    for (pin, point) in PINS.into_iter().enumerate() {
        let (a, b) = (pin, (pin + 1) % 4);
        let [at_a, at_b] = [a, b].map(|part| seen(part, point));
        let [arm_a, arm_b] =
            [(a, at_a), (b, at_b)].map(|(part, at)| minus(at, table.centre(parts[part])));
        let gap = minus(at_a, at_b);
        let row = |axis, error| Row::linear(axis).arms(arm_a, arm_b).error(error);
        table.add_joint(
            Joint::between(parts[a], parts[b])
                .row(row([1.0, 0.0, 0.0], gap[0]))
                .row(row([0.0, 1.0, 0.0], gap[1])),
        );
    }
    (table, parts)
}

fn main() -> Result<(), Refusal> {
    let (mut table, parts) = linkage();
    let mut solver = Solver::new(Rules::two(1e-9, 1e-9)).mode(Mode::IncompleteCholesky).limit(32);
    let scanned = solver.check(&table, &[0.0; 8])?;
    println!("as scanned: {:?}, gap at most {:.3e} m", scanned.verdict, scanned.gap.linear);
    let solved = solver.solve(&mut table)?;
    println!("count {}, flag {}", solved.answer.iterations, u32::from(solved.answer.converged));
    let checked = solver.check(&table, &solved.solution)?;
    println!("as solved: {:?}, gap at most {:.3e} m", checked.verdict, checked.gap.linear);
    for Margin { row, gap } in checked.margins.iter().flatten() {
        println!("  row {row} closes down to {gap:.3e} m");
    }
    for (part, name) in parts.iter().zip(["frame", "crank", "coupler", "rocker"]) {
        let [x, y, _] = solved.new_centres[part.index()];
        println!("{name} ends up at {x:.6}, {y:.6}");
    }
    assert!(!scanned.is_closed() && checked.is_closed());
    // README.md, "Reading a sheet" and "How near a closed sheet was"
    assert_eq!(checked.gap.linear.to_bits(), 0x3c735277655046ec);
    assert_eq!(checked.row_gap(6).map(f64::to_bits), Some(0x3c5a5aa320592eb1));
    let ends = solved.new_centres[1].map(f64::to_bits);
    assert_eq!(ends, [0x3f9eacc4a857cb3c, 0x3fa47f3640df13ca, 0]);
    Ok(())
}
