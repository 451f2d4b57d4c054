//! A four-bar linkage in motion, as bindings/c/examples/moving_linkage.c has it: frame, crank, coupler and
//! rocker, each filmed by itself, so that by their recorded speeds the pins would come apart. Solved for
//! speeds at which they do not, and checked before and after, with the list of how near each row was to
//! opening.

use kapitsa::{
    Body, Checked, Dimension, Impulse, Joint, Margin, Mode, Refusal, Row, Rules, Solver, Table,
};

/// Where the part's centre lies, its mass and length, and its recorded speed: m/s and rad/s.
struct Part {
    name: &'static str,
    centre: [f64; 2],
    kilograms: f64,
    length: f64,
    speed: [f64; 3],
}

#[rustfmt::skip]
const PARTS: [Part; 4] = [
    // it stands
    Part { name: "frame", centre: [0.15, 0.0], kilograms: 0.0, length: 0.0, speed: [0.0; 3] },
    Part { name: "crank", centre: [0.03, 0.04], kilograms: 0.2, length: 0.1, speed: [-0.39, 0.31, 9.9] },
    Part { name: "coupler", centre: [0.19, 0.135], kilograms: 0.5, length: 0.282, speed: [-0.70, 0.33, -2.1] },
    Part { name: "rocker", centre: [0.31, 0.095], kilograms: 0.35, length: 0.191, speed: [-0.28, 0.03, 3.05] },
];

/// The two parts of each pin, and where it is.
const PINS: [(usize, usize, [f64; 2]); 4] =
    [(0, 1, [0.0, 0.0]), (1, 2, [0.06, 0.08]), (2, 3, [0.32, 0.19]), (3, 0, [0.30, 0.0])];

const TACHOMETER: f64 = 10.0; // rad/s, of the crank against the frame
const ROWS: usize = 2 * PINS.len() + 1;

impl Part {
    /// A slender rod that turns in the plane alone.
    fn body(&self) -> Body {
        if self.kilograms == 0.0 {
            return Body::fixed();
        }
        let mut inverse_inertia = [0.0; 9];
        inverse_inertia[8] = 12.0 / (self.kilograms * self.length * self.length);
        Body::from_inverse(1.0 / self.kilograms, &inverse_inertia)
    }

    /// Its speed after an impulse: three numbers of the centre, three of turning.
    fn speed(&self, impulse: &Impulse) -> [f64; 6] {
        let [x, y, turning] = self.speed;
        let body = self.body();
        let mass = body.mass_numbers();
        let [push_x, push_y, _] = impulse.linear.map(|part| mass[0] * part);
        [x + push_x, y + push_y, 0.0, 0.0, 0.0, turning + mass[9] * impulse.angular[2]]
    }
}

/// From a part's centre to a point.
fn arm(part: usize, at: [f64; 2]) -> [f64; 3] {
    let centre = PARTS[part].centre;
    [at[0] - centre[0], at[1] - centre[1], 0.0]
}

fn linkage() -> Table {
    let mut table = Table::new();
    let parts = PARTS.map(|part| table.add_body(part.body()));
    for (a, b, at) in PINS {
        let row = |axis| Row::linear(axis).arms(arm(a, at), arm(b, at));
        table.add_joint(
            Joint::between(parts[a], parts[b]).row(row([1.0, 0.0, 0.0])).row(row([0.0, 1.0, 0.0])),
        );
    }
    table.add_joint(Joint::between(parts[1], parts[0]).row(Row::angular([0.0, 0.0, 1.0])));
    table
}

/// The speed that each row should have: pins hold, and the crank turns as its tachometer says.
fn wanted(row: usize) -> f64 {
    if row == ROWS - 1 {
        TACHOMETER
    } else {
        0.0
    }
}

/// Whether every row's speed is within its tolerance, and how far it is off at most; where all are, with
/// the list of what would open it.
fn tell(when: &str, checked: &Checked) {
    let (linear, angular) = (checked.gap.linear, checked.gap.angular);
    println!("{when}: {:?}, off by at most {linear:.2e} m/s, {angular:.2e} rad/s", checked.verdict);
    for Margin { row, gap } in checked.margins.iter().flatten() {
        let (dimension, [a, b], what) = match PINS.get(row / 2) {
            Some((a, b, _)) => (Dimension::Linear, [*a, *b], ["x", "y"][row % 2]),
            None => (Dimension::Angular, [1, 0], "turning"),
        };
        let unit = if dimension == Dimension::Linear { "m/s" } else { "rad/s" };
        println!("  {} and {}, {what}: down to {gap:.2e} {unit}", PARTS[a].name, PARTS[b].name);
    }
}

fn main() -> Result<(), Refusal> {
    let mut table = linkage();
    let recorded = PARTS.map(|part| part.speed(&Impulse::default()));
    let residuals: Vec<f64> =
        (0..ROWS).map(|row| wanted(row) - table.row_speed(row, &recorded)).collect();
    let mut solver = Solver::new(Rules::two(1e-9, 1e-9)).mode(Mode::IncompleteCholesky).limit(32);
    let before = solver.check_velocity(&table, &residuals, &[0.0; ROWS])?;
    tell("as recorded", &before);
    let solved = solver.solve_velocity(&mut table, &residuals)?;
    println!("count {}, flag {}", solved.answer.iterations, u32::from(solved.answer.converged));
    let after = solver.check_velocity(&table, &residuals, &solved.solution)?;
    tell("as solved", &after);
    let speeds: Vec<[f64; 6]> =
        PARTS.iter().zip(&solved.impulses).map(|(part, impulse)| part.speed(impulse)).collect();
    for (Part { name, speed, .. }, to) in PARTS.iter().zip(&speeds).skip(1) {
        println!("{name}: from {speed:?} to [{:.4}, {:.4}, {:.4}]", to[0], to[1], to[5]);
    }
    assert!(!before.is_closed() && after.is_closed());
    let misses = |row| (table.row_speed(row, &speeds) - wanted(row)).abs() < 1e-9;
    assert!((0..ROWS).all(misses), "the pins hold, and the crank turns");
    Ok(())
}
