//! A table: bodies, and the rows of the joints between them.

use crate::slices::{Tables, VelocityTables};
use crate::{Body, BodyId, Joint, MASS_NUMBERS, ROW_NUMBERS, ROW_WORDS};
use std::ops::Range;

/// Bodies and the joints between them. A solve borrows it and writes the multipliers, a check only reads
/// it.
///
/// ```
/// use kapitsa::{Body, Joint, Row, Table};
///
/// let mut table = Table::new();
/// let bodies = [0.0, 1.0].map(|x| table.add_body(Body::point(2.0).at([x, 0.0, 0.0])));
/// let rows = table.add_joint(
///     Joint::between(bodies[0], bodies[1]).row(Row::linear([1.0, 0.0, 0.0]).error(-0.25)),
/// );
/// assert_eq!((table.bodies(), table.rows(), rows), (2, 1, 0..1));
/// ```
#[derive(Clone, Debug, Default, PartialEq)]
pub struct Table {
    numbers: Vec<f64>,
    words: Vec<u32>,
    masses: Vec<f64>,
    centres: Vec<f64>,
    joints: u32,
}

impl Table {
    /// No body and no row.
    pub fn new() -> Self {
        Self::default()
    }

    /// Adds a body; joints name it by what is returned.
    pub fn add_body(&mut self, body: Body) -> BodyId {
        let id = BodyId(self.bodies() as u32);
        self.masses.extend(body.mass_numbers());
        self.centres.extend(body.centre());
        id
    }

    /// Adds a joint's rows behind the others; which rows they are.
    pub fn add_joint(&mut self, joint: Joint) -> Range<usize> {
        let first = self.rows();
        for row in &joint.rows {
            self.numbers.extend(row.numbers());
            self.words.extend(row.words(joint.a.0, joint.b.0, self.joints));
        }
        self.joints += 1;
        first..self.rows()
    }

    /// How many rows there are.
    pub fn rows(&self) -> usize {
        self.words.len() / ROW_WORDS
    }

    /// How many bodies there are.
    pub fn bodies(&self) -> usize {
        self.masses.len() / MASS_NUMBERS
    }

    /// The multiplier that a row has accumulated.
    ///
    /// # Panics
    ///
    /// Where there is no such row.
    pub fn multiplier(&self, row: usize) -> f64 {
        self.row(row)[24]
    }

    /// The impulse that a row has accumulated in solves for velocities.
    ///
    /// # Panics
    ///
    /// Where there is no such row.
    pub fn impulse(&self, row: usize) -> f64 {
        self.row(row)[25]
    }

    /// Where the centre of a body lies.
    ///
    /// # Panics
    ///
    /// Where there is no such body.
    pub fn centre(&self, body: BodyId) -> [f64; 3] {
        self.centres.as_chunks().0[body.index()]
    }

    /// The speed of a row where its two bodies have these: three numbers of the centre and three of turning,
    /// for each body of the table. The residual of a row is the speed that it should have less this.
    ///
    /// # Panics
    ///
    /// Where there is no such row, or no speed of one of its bodies.
    pub fn row_speed(&self, row: usize, speeds: &[[f64; 6]]) -> f64 {
        let (numbers, words) = (self.row(row), &self.words[ROW_WORDS * row..]);
        let of = |body: u32, from: usize| -> f64 {
            let speeds = speeds[body as usize].iter();
            numbers[from..from + 6].iter().zip(speeds).map(|(number, speed)| number * speed).sum()
        };
        of(words[2], 0) + of(words[3], 9)
    }

    /// The rows' numbers, [`ROW_NUMBERS`] each, as [`slices`](crate::slices) take them.
    pub fn numbers(&self) -> &[f64] {
        &self.numbers
    }

    /// The rows' numbers, to be written to.
    pub fn numbers_mut(&mut self) -> &mut [f64] {
        &mut self.numbers
    }

    /// The rest, as [`slices`](crate::slices) take it.
    pub fn tables(&self) -> Tables<'_> {
        Tables { words: &self.words, masses: &self.masses, centres: &self.centres }
    }

    /// The rest for velocities.
    pub fn velocity_tables<'a>(&'a self, residuals: &'a [f64]) -> VelocityTables<'a> {
        VelocityTables { words: &self.words, masses: &self.masses, residuals }
    }

    /// The rows' numbers, to be written to, and the rest.
    pub fn split(&mut self) -> (&mut [f64], Tables<'_>) {
        let Self { numbers, words, masses, centres, .. } = self;
        (numbers, Tables { words, masses, centres })
    }

    /// The same for velocities.
    pub fn velocity_split<'a>(
        &'a mut self,
        residuals: &'a [f64],
    ) -> (&'a mut [f64], VelocityTables<'a>) {
        let Self { numbers, words, masses, .. } = self;
        (numbers, VelocityTables { words, masses, residuals })
    }

    fn row(&self, row: usize) -> &[f64; ROW_NUMBERS] {
        &self.numbers.as_chunks().0[row]
    }
}
