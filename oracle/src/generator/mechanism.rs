//! Mechanisms: which bodies are joined, by which rows, with which masses.

use super::doubles::{Style, double, positive};
use crate::job::*;
use crate::random::Random;

#[derive(Clone, Copy, PartialEq)]
pub enum Shape {
    Chain,
    Loop,
    Tree,
    /// All joints share one body.
    Star,
    /// All joints join the same two bodies.
    Pair,
    Scattered,
}

impl Shape {
    pub const ALL: [Shape; 6] =
        [Shape::Chain, Shape::Loop, Shape::Tree, Shape::Star, Shape::Pair, Shape::Scattered];
}

#[derive(Clone, Copy)]
pub struct Plan {
    pub shape: Shape,
    pub joints: usize,
    pub rows_a_joint: usize,
    pub style: Style,
}

const MAX_BODIES: usize = 256;
const MAX_ROWS: usize = 512;

/// The bodies of each joint, and how many bodies there are.
pub fn joined(shape: Shape, joints: usize, random: &mut Random) -> (Vec<(u32, u32)>, usize) {
    let wrapped = |joint: usize, bodies: usize| (joint % bodies, (joint + 1) % bodies);
    let bodies = match shape {
        Shape::Chain | Shape::Tree | Shape::Star => joints + 1,
        Shape::Loop => joints.max(2),
        Shape::Pair => 2,
        Shape::Scattered => 2 + random.below(joints + 1),
    };
    let bodies = bodies.min(MAX_BODIES);
    let of_joint = |joint: usize| match shape {
        Shape::Chain if joint + 1 < bodies => (joint, joint + 1),
        Shape::Chain | Shape::Loop => wrapped(joint, bodies),
        Shape::Tree if joint + 1 < bodies => (random.below(joint + 1), joint + 1),
        Shape::Star => (0, 1 + joint % (bodies - 1)),
        Shape::Pair => (0, 1),
        Shape::Tree | Shape::Scattered => {
            let first = random.below(bodies);
            (first, (first + 1 + random.below(bodies - 1)) % bodies)
        }
    };
    let pairs = (0..joints).map(of_joint);
    (pairs.map(|(a, b)| (a as u32, b as u32)).collect(), bodies)
}

pub fn build(plan: &Plan, random: &mut Random) -> Job {
    let mut job = Job::default();
    let (joints, bodies) = joined(plan.shape, plan.joints, random);
    let bystanders = usize::from(random.chance(10));
    masses(&mut job, (bodies + bystanders).min(MAX_BODIES), plan.style, random);
    let free = random.chance(25);
    for (owner, &(a, b)) in joints.iter().enumerate() {
        let (a, b) = if random.chance(15) { (b, a) } else { (a, b) };
        for _ in 0..plan.rows_a_joint {
            if (job.rows as usize) < MAX_ROWS {
                let row = job.push_row(a, b);
                job.set_word(row, OWNER, owner as u32);
                jacobian(&mut job, row, plan.style, free, random);
            }
        }
    }
    if random.chance(15) {
        unread(&mut job, random);
    }
    job
}

/// A linear row along an axis with arms, an angular row about it, or twelve free numbers.
fn jacobian(job: &mut Job, row: usize, style: Style, free: bool, random: &mut Random) {
    let mut vector = || [0; 3].map(|_| double(style, random));
    let (axis, arm_a, arm_b) = (vector(), vector(), vector());
    let negated = axis.map(|value| -value);
    let angular = random.chance(30);
    if free {
        let twelve = [LINEAR_A, ANGULAR_A, LINEAR_B, ANGULAR_B];
        twelve.iter().for_each(|&at| job.set(row, at, &[0; 3].map(|_| double(style, random))));
    } else if angular {
        job.set(row, ANGULAR_A, &axis);
        job.set(row, ANGULAR_B, &negated);
    } else {
        job.set(row, LINEAR_A, &axis);
        job.set(row, ANGULAR_A, &crossed(arm_a, axis));
        job.set(row, LINEAR_B, &negated);
        job.set(row, ANGULAR_B, &crossed(arm_b, negated));
    }
    job.set_word(row, DIMENSION, u32::from(angular));
    job.set_word(row, KEY, random.below(256) as u32);
    let error = if style == Style::Extreme { Style::Wide } else { style };
    job.set(row, ERROR, &[double(error, random)]);
}

fn crossed(left: [f64; 3], right: [f64; 3]) -> [f64; 3] {
    let part = |i: usize, j: usize| left[i] * right[j] - left[j] * right[i];
    // Overflow in an arm would only make an invalid row; extreme arms are cut to 0.
    [part(1, 2), part(2, 0), part(0, 1)].map(|value| if value.is_finite() { value } else { 0.0 })
}

fn masses(job: &mut Job, bodies: usize, style: Style, random: &mut Random) {
    let skewed = random.chance(20);
    let dense = skewed || random.chance(40);
    for _ in 0..bodies {
        let diagonal = [0; 3].map(|_| positive(style, random));
        job.push_mass(positive(style, random), diagonal);
        if dense {
            let at = job.masses.len() - 9;
            couple(&mut job.masses[at..], skewed, random);
        }
    }
}

/// Fills the off-diagonal numbers of an inertia, alike across the diagonal unless skewed.
fn couple(columns: &mut [f64], skewed: bool, random: &mut Random) {
    for (i, j) in [(0, 1), (0, 2), (1, 2)] {
        let size = columns[4 * i].abs().min(columns[4 * j].abs()) * 0.25;
        columns[3 * i + j] = size * random.sign();
        columns[3 * j + i] = if skewed { -columns[3 * i + j] } else { columns[3 * i + j] };
    }
}

/// Valid doubles where the answer reads none (but 7 and the multiplier do).
fn unread(job: &mut Job, random: &mut Random) {
    for row in 0..job.rows as usize {
        for at in [POSITION_ANGULAR_A, TARGET_VELOCITY, FORCE_BIAS, MULTIPLIER, ACCUMULATED_IMPULSE]
        {
            job.set(row, at, &[double(Style::Short, random)]);
        }
        job.set(row, CACHED_MASS, &[double(Style::Short, random).abs()]);
        job.set(row, COMPLIANCE, &[random.pick(&[0.0, -0.0]), random.pick(&[0.0, -0.0])]);
        if random.chance(50) {
            job.set(row, MIN_IMPULSE, &[-1.0, random.pick(&[-1.0, 0.0, 7.5])]);
        }
    }
}
