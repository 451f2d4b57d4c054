//! Matrices and right-hand sides: one thing each, and drawn by seed and index.

use crate::generator::doubles::{ODD, Style, double};
use crate::job::two;
use crate::random::Random;

pub enum Case {
    /// By columns, with a right-hand side.
    Matrix([f64; 9], [f64; 3]),
    /// A factor's rows and scale, with a right-hand side.
    ByHand([f64; 9], f64, [f64; 3]),
}

const SMALLEST: f64 = f64::from_bits(1);
const TOLERANCE: f64 = 32.0 * f64::EPSILON;
const ONES: [f64; 3] = [1.0, 1.0, 1.0];
/// Places by columns below the diagonal, and above it.
const BELOW: [usize; 3] = [1, 2, 5];
const ABOVE: [usize; 3] = [3, 6, 7];
const DIAGONAL: [usize; 3] = [0, 4, 8];

fn diagonal(values: [f64; 3]) -> [f64; 9] {
    let mut columns = [0.0; 9];
    DIAGONAL.iter().zip(values).for_each(|(&at, value)| columns[at] = value);
    columns
}

/// Both numbers of a pair.
fn with_pair(mut columns: [f64; 9], pair: usize, value: f64) -> [f64; 9] {
    columns[BELOW[pair]] = value;
    columns[ABOVE[pair]] = value;
    columns
}

/// Zeros of either sign, pivots that are zero or the smallest above, and pivots that overflow.
fn pivots() -> Vec<[f64; 9]> {
    let mut list = vec![[0.0; 9], [-0.0; 9], diagonal([-0.0; 3])];
    for at in 0..3 {
        for value in [0.0, -0.0, SMALLEST, -SMALLEST, two(-1073), f64::MIN_POSITIVE, -1.0] {
            let mut values = ONES;
            values[at] = value;
            list.push(diagonal(values));
        }
        // A quotient whose square overflows: its pivot is -infinity.
        let small = with_pair(diagonal([SMALLEST, 1.0, 1.0]), at, 1.0);
        list.extend([small, with_pair(small, (at + 1) % 3, 0.5)]);
    }
    for a in [1.0, 0.5, 0.75, two(-20), two(-510), two(-537), 1.0 - two(-52)] {
        let square: f64 = a * a;
        for value in [square.next_down(), square, square.next_up()] {
            for pair in 0..3 {
                let mut columns = with_pair(diagonal(ONES), pair, a);
                columns[DIAGONAL[[1, 2, 2][pair]]] = value;
                list.push(columns);
            }
        }
    }
    list
}

/// Differences of exactly 32 epsilons and beside it, on each pair and both sides.
fn asymmetries() -> Vec<[f64; 9]> {
    let mut list = Vec::new();
    for pair in 0..3 {
        for places in [[BELOW, ABOVE], [ABOVE, BELOW]] {
            for base in [0.5, -0.5, 0.0, two(-30)] {
                let far: f64 = base + TOLERANCE;
                for value in [far.next_down(), far, far.next_up(), base - TOLERANCE] {
                    let mut columns = with_pair(diagonal(ONES), pair, base);
                    columns[places[0][pair]] = value;
                    list.push(columns);
                    list.push(columns.map(|number| number * two(-900)));
                }
            }
        }
    }
    // 22 before 23, and 21 before both
    let mut indefinite = diagonal([1.0, -1.0, 1.0]);
    indefinite[1] = 1.0;
    let mut odd = indefinite;
    odd[8] = f64::NAN;
    list.extend([indefinite, odd]);
    list
}

/// Scales on both sides of 2^-1024, the smallest and the largest.
fn scales() -> Vec<[f64; 9]> {
    let limit = two(-1024);
    let around = [limit.next_down(), limit, limit.next_up(), two(-1023), SMALLEST, f64::MAX];
    let mut list: Vec<[f64; 9]> = around.iter().map(|&scale| diagonal([scale; 3])).collect();
    for scale in around {
        let mut columns = with_pair(diagonal([scale; 3]), 0, scale * 0.5);
        columns[8] = scale * 0.25;
        list.push(columns);
    }
    list.push(diagonal([1.0, 1.0, SMALLEST]));
    list.push(diagonal([f64::MAX, SMALLEST, f64::MAX]));
    list
}

/// Every place, not finite.
fn odd_places() -> Vec<[f64; 9]> {
    let mut list = Vec::new();
    for at in 0..9 {
        for value in [f64::NAN, f64::INFINITY, f64::NEG_INFINITY] {
            let mut columns = diagonal(ONES);
            columns[at] = value;
            list.push(columns);
        }
    }
    list
}

pub fn fixed() -> Vec<Case> {
    let lists = [pivots(), asymmetries(), scales(), odd_places()];
    let mut list: Vec<Case> = lists
        .into_iter()
        .flatten()
        .map(|columns| Case::Matrix(columns, [1.0, -2.0, 3.0]))
        .collect();
    // -0.0 below and above the diagonal, where the Rust's sum shows
    for pair in 0..3 {
        let columns = with_pair(diagonal(ONES), pair, -0.0);
        for rhs in [[1.0, -0.0, 0.0], [-0.0, -0.0, -0.0], [-1.0, 0.0, -0.0], ONES] {
            list.push(Case::Matrix(columns, rhs));
        }
    }
    for at in 0..3 {
        for value in ODD {
            let mut rhs = ONES;
            rhs[at] = value;
            list.push(Case::Matrix(diagonal([0.5; 3]), rhs));
            list.push(Case::Matrix(diagonal([two(-1000); 3]), rhs));
        }
    }
    list
}

/// A symmetric product of a drawn matrix with itself, of this rank, in the Rust's own rounding.
fn product(style: Style, rank: usize, random: &mut Random) -> [f64; 9] {
    let rows: [[f64; 3]; 3] =
        std::array::from_fn(|_| std::array::from_fn(|_| double(style, random)));
    std::array::from_fn(|at| (0..rank).map(|k| rows[at % 3][k] * rows[at / 3][k]).sum())
}

/// A box of these half sides and masses, turned about an axis: what a scan gives.
fn turned_box(random: &mut Random) -> [f64; 9] {
    let [a, b, c] = [0; 3].map(|_| 0.01 + random.unit());
    let mass = 10.0 * random.unit() + 0.001;
    let values = [b * b + c * c, a * a + c * c, a * a + b * b].map(|sum| mass * sum / 3.0);
    let angle = random.unit() * 6.3;
    let (s, t) = (angle.sin(), angle.cos());
    let turn = [[t, -s, 0.0], [s, t, 0.0], [0.0, 0.0, 1.0]];
    let mut columns = std::array::from_fn(|at| {
        (0..3).map(|k| turn[at % 3][k] * values[k] * turn[at / 3][k]).sum()
    });
    if random.chance(50) {
        BELOW.iter().zip(ABOVE).for_each(|(&low, high)| columns[high] = columns[low]);
    }
    columns
}

fn any_bits(random: &mut Random) -> f64 {
    f64::from_bits(random.next())
}

fn mirrored(mut columns: [f64; 9]) -> [f64; 9] {
    BELOW.iter().zip(ABOVE).for_each(|(&low, high)| columns[high] = columns[low]);
    columns
}

/// Near the smallest above zero: pivots that cancel in all but their last bits.
fn thin(random: &mut Random) -> [f64; 9] {
    let mut columns = product(random.pick(&[Style::Short, Style::Plain]), 2, random);
    let at = random.pick(&DIAGONAL);
    for _ in 0..random.below(4) {
        columns[at] = columns[at].next_up();
    }
    columns
}

fn drawn_matrix(random: &mut Random) -> [f64; 9] {
    let style = random.pick(&Style::MOSTLY_MILD);
    let mut columns = match random.below(12) {
        0..=2 => product(style, 3, random),
        3 | 4 => turned_box(random),
        5 => product(style, 1 + random.below(2), random),
        6 => thin(random),
        7 => diagonal([0; 3].map(|_| double(Style::Extreme, random).abs())),
        8 => mirrored([0; 9].map(|_| double(style, random))),
        9 => mirrored([0; 9].map(|_| any_bits(random))),
        10 => {
            let strong = 4.0 + random.unit();
            let mut columns = mirrored([0; 9].map(|_| double(Style::Plain, random)));
            DIAGONAL.iter().for_each(|&at| columns[at] = strong);
            columns
        }
        _ => [0; 9].map(|_| double(style, random)),
    };
    if random.chance(15) {
        let scale = two(random.between(-1074, 900));
        columns = columns.map(|number| number * scale);
    }
    if random.chance(12) {
        spoil(&mut columns, random);
    }
    columns
}

/// One number changed: odd, a zero of either sign, or off by about the tolerance.
fn spoil(columns: &mut [f64; 9], random: &mut Random) {
    let pair = random.below(3);
    match random.below(6) {
        0 => columns[random.below(9)] = random.pick(&ODD),
        1 | 2 => {
            columns[BELOW[pair]] = random.pick(&[0.0, -0.0]);
            columns[ABOVE[pair]] = random.pick(&[0.0, -0.0]);
        }
        _ => {
            let scale = columns.iter().fold(0.0, |largest: f64, number| largest.max(number.abs()));
            let units = f64::from(random.between(28, 36));
            columns[ABOVE[pair]] =
                columns[BELOW[pair]] + random.sign() * scale * units * f64::EPSILON;
        }
    }
}

fn right_hand_side(random: &mut Random) -> [f64; 3] {
    match random.below(10) {
        0 => random.pick(&[[1.0, 0.0, 0.0], [0.0, 1.0, 0.0], [0.0, 0.0, 1.0]]),
        1 => [0; 3].map(|_| random.pick(&[0.0, -0.0, 1.0, -1.0])),
        2 => [0; 3].map(|_| random.pick(&ODD)),
        3 => [0; 3].map(|_| any_bits(random)),
        4 | 5 => [0; 3].map(|_| double(Style::Extreme, random)),
        _ => [0; 3].map(|_| double(Style::Plain, random)),
    }
}

/// A factor by any hand: any numbers, zeros on the diagonal, a scale of any kind.
fn by_hand(random: &mut Random) -> Case {
    let style = random.pick(&Style::MOSTLY_MILD);
    let mut rows = [0; 9].map(|_| double(style, random));
    if random.chance(30) {
        let at = random.below(9);
        rows[at] = random.pick(&ODD);
    }
    let scale = if random.chance(30) { random.pick(&ODD) } else { double(style, random) };
    Case::ByHand(rows, scale, right_hand_side(random))
}

/// Every sixth is a factor by hand.
pub fn drawn(seed: u64, index: u64) -> Case {
    let mut random = Random::of(seed, index);
    if index % 6 == 5 {
        return by_hand(&mut random);
    }
    let columns = drawn_matrix(&mut random);
    Case::Matrix(columns, right_hand_side(&mut random))
}
