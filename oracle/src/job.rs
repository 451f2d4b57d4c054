//! A job as lent memory: document 01's tables, its answers, and their numbers.

pub const ROW_NUMBERS: usize = 27;
pub const ROW_WORDS: usize = 8;
pub const MASS_NUMBERS: usize = 10;
pub const CENTRE_NUMBERS: usize = 3;
pub const IMPULSE_NUMBERS: usize = 6;

/// Places of a row's doubles.
pub const LINEAR_A: usize = 0;
pub const ANGULAR_A: usize = 3;
pub const POSITION_ANGULAR_A: usize = 6;
pub const LINEAR_B: usize = 9;
pub const ANGULAR_B: usize = 12;
pub const ERROR: usize = 15;
pub const TARGET_VELOCITY: usize = 16;
pub const FORCE_BIAS: usize = 17;
pub const COMPLIANCE: usize = 18;
pub const DAMPING: usize = 19;
pub const MIN_MULTIPLIER: usize = 20;
pub const MAX_MULTIPLIER: usize = 21;
pub const MIN_IMPULSE: usize = 22;
pub const MAX_IMPULSE: usize = 23;
pub const MULTIPLIER: usize = 24;
pub const ACCUMULATED_IMPULSE: usize = 25;
pub const CACHED_MASS: usize = 26;

/// Places of a row's words.
pub const KEY: usize = 0;
pub const DIMENSION: usize = 1;
pub const BODY_A: usize = 2;
pub const BODY_B: usize = 3;
pub const FORCE_DRIVEN: usize = 4;
pub const POSITION_ENABLED: usize = 5;
pub const OWNER: usize = 6;
pub const SPARE: usize = 7;

/// Modes of the preconditioner above 0, the diagonal.
pub const INCOMPLETE_CHOLESKY: u32 = 1;
pub const BLOCK_JACOBI: u32 = 2;

/// Three words a rule: dimension, first key, last key.
pub const RULE_WORDS: usize = 3;
pub const MOST_RULES: usize = 64;
pub const MOST_KEY: u32 = 255;

/// A table of rules as it is lent (document 02, k): words, and one tolerance a rule.
#[derive(Clone, Debug, Default)]
pub struct Rules {
    pub words: Vec<u32>,
    pub tolerances: Vec<f64>,
}

impl Rules {
    /// The job program's: each tolerance over all keys of its dimension.
    pub fn two([linear, angular]: [f64; 2]) -> Self {
        let mut rules = Self::default();
        rules.push(0, 0, MOST_KEY, linear);
        rules.push(1, 0, MOST_KEY, angular);
        rules
    }

    pub fn push(&mut self, dimension: u32, first: u32, last: u32, tolerance: f64) {
        self.words.extend([dimension, first, last]);
        self.tolerances.push(tolerance);
    }

    /// Refusal 3's test: at most 64 rules, three words for each tolerance.
    pub fn fit(&self) -> bool {
        self.tolerances.len() <= MOST_RULES
            && self.words.len() == RULE_WORDS * self.tolerances.len()
    }

    /// Dimension, first key, last key and tolerance of each rule.
    pub fn each(&self) -> impl Iterator<Item = ([u32; 3], f64)> {
        let words = self.words.chunks_exact(RULE_WORDS).map(|rule| [rule[0], rule[1], rule[2]]);
        words.zip(self.tolerances.iter().copied())
    }
}

/// What is solved: where the links are, or how they move (document 02, a).
#[derive(Clone, Copy, Debug, Default, PartialEq)]
pub enum Kind {
    #[default]
    Position,
    Velocity,
}

impl Kind {
    /// The number of a row that gains its solution.
    pub fn gains(self) -> usize {
        match self {
            Kind::Position => MULTIPLIER,
            Kind::Velocity => ACCUMULATED_IMPULSE,
        }
    }

    /// The two bounds that the opening test reads, the lower one and the upper one.
    pub fn bounds(self) -> [usize; 2] {
        match self {
            Kind::Position => [MIN_MULTIPLIER, MAX_MULTIPLIER],
            Kind::Velocity => [MIN_IMPULSE, MAX_IMPULSE],
        }
    }
}

#[derive(Clone, Default)]
pub struct Job {
    pub kind: Kind,
    pub numbers: Vec<f64>,
    pub words: Vec<u32>,
    pub masses: Vec<f64>,
    /// Where each body's centre lies (document 02, d): +0.0 where nobody says. A velocity job has none.
    pub centres: Vec<f64>,
    /// The lent residual of a velocity job, one number a row; a position job has none.
    pub residuals: Vec<f64>,
    pub tolerances: [f64; 2],
    /// What a solve and a check are given; without one, the two tolerances as two rules. No job
    /// file has one.
    pub rules: Option<Rules>,
    pub rows: u32,
    pub bodies: u32,
    pub limit: u32,
    pub mode: u32,
    /// Mode 1 starts each pivot from diagonal × (1 + shift). No job file has one: it is 0 there.
    pub shift: f64,
    /// Of a job file: 1 where its masses have their centres, 104 bytes each, 0 where they have none.
    pub spare: u32,
}

impl Job {
    /// A row that only asks for its position: everything not named is 0, bounds are infinite.
    pub fn push_row(&mut self, body_a: u32, body_b: u32) -> usize {
        let mut numbers = [0.0; ROW_NUMBERS];
        (numbers[MIN_MULTIPLIER], numbers[MAX_MULTIPLIER]) = (f64::NEG_INFINITY, f64::INFINITY);
        (numbers[MIN_IMPULSE], numbers[MAX_IMPULSE]) = (f64::NEG_INFINITY, f64::INFINITY);
        self.numbers.extend(numbers);
        self.words.extend([0, 0, body_a, body_b, 0, 1, self.rows, 0]);
        self.rows += 1;
        self.rows as usize - 1
    }

    /// A body whose inertia has this diagonal, at the origin.
    pub fn push_mass(&mut self, inverse_mass: f64, inertia: [f64; 3]) {
        let [x, y, z] = inertia;
        self.masses.extend([inverse_mass, x, 0.0, 0.0, 0.0, y, 0.0, 0.0, 0.0, z]);
        self.centres.extend([0.0; CENTRE_NUMBERS]);
        self.bodies += 1;
    }

    pub fn rules(&self) -> Rules {
        self.rules.clone().unwrap_or_else(|| Rules::two(self.tolerances))
    }

    pub fn number(&self, row: usize, place: usize) -> f64 {
        self.numbers[ROW_NUMBERS * row + place]
    }

    pub fn set(&mut self, row: usize, place: usize, values: &[f64]) {
        let at = ROW_NUMBERS * row + place;
        self.numbers[at..at + values.len()].copy_from_slice(values);
    }

    pub fn word(&self, row: usize, place: usize) -> u32 {
        self.words[ROW_WORDS * row + place]
    }

    pub fn set_word(&mut self, row: usize, place: usize, value: u32) {
        self.words[ROW_WORDS * row + place] = value;
    }

    /// What gains the solution: multipliers, or accumulated impulses.
    pub fn accumulated(&self) -> Vec<f64> {
        self.numbers.chunks_exact(ROW_NUMBERS).map(|row| row[self.kind.gains()]).collect()
    }
}

#[derive(Clone, Copy, Debug, PartialEq)]
pub enum Answer {
    Accepted { flag: bool, count: u32, linear: f64, angular: f64 },
    Refused(u32),
}

impl Answer {
    pub fn refusal(&self) -> u32 {
        match *self {
            Answer::Refused(number) => number,
            Answer::Accepted { .. } => 0,
        }
    }

    /// As the C functions give it: refusal, count, flag, and the bits of both maxima.
    pub fn words(&self) -> [u64; 5] {
        match *self {
            Answer::Refused(number) => [number.into(), 0, 0, 0, 0],
            Answer::Accepted { flag, count, linear, angular } => {
                [0, count.into(), flag.into(), linear.to_bits(), angular.to_bits()]
            }
        }
    }
}

/// An answer and, where it is accepted, all that is delivered with it.
#[derive(Clone)]
pub struct Solved {
    pub answer: Answer,
    pub solution: Vec<f64>,
    /// The multipliers, or the accumulated impulses, as they become.
    pub accumulated: Vec<f64>,
    pub impulses: Vec<f64>,
    /// Where each body's centre ends up; nothing of a velocity job.
    pub centres: Vec<f64>,
    /// The rule that each row was judged by.
    pub rules: Vec<u32>,
}

impl Solved {
    pub fn refused(number: u32) -> Self {
        Self {
            answer: Answer::Refused(number),
            solution: Vec::new(),
            accumulated: Vec::new(),
            impulses: Vec::new(),
            centres: Vec::new(),
            rules: Vec::new(),
        }
    }

    /// Answer and delivery have equal bits.
    pub fn same(&self, other: &Solved) -> bool {
        self.answer.words() == other.answer.words()
            && same_bits(&self.solution, &other.solution)
            && same_bits(&self.accumulated, &other.accumulated)
            && same_bits(&self.impulses, &other.impulses)
            && same_bits(&self.centres, &other.centres)
            && self.rules == other.rules
    }
}

pub fn same_bits(left: &[f64], right: &[f64]) -> bool {
    let bits = |(l, r): (&f64, &f64)| l.to_bits() == r.to_bits();
    left.len() == right.len() && left.iter().zip(right).all(bits)
}

/// 2^exponent, subnormal ones too.
pub fn two(exponent: i32) -> f64 {
    if exponent >= -1022 {
        f64::from_bits(((exponent + 1023) as u64) << 52)
    } else {
        f64::from_bits(1 << (exponent + 1074))
    }
}
