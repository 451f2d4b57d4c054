//! A body: a link of a mechanism.

use crate::{inverse_spd, Refusal, MASS_NUMBERS};

/// A body: its inverse mass and inverse inertia, and where its centre lies.
///
/// ```
/// use kapitsa::Body;
///
/// let inertia = [2e-4, 0.0, 0.0, 0.0, 2e-4, 0.0, 0.0, 0.0, 4e-4]; // kg m², by columns
/// let wheel = Body::new(0.12, &inertia)?.at([0.05, 0.03, 0.0]);
/// let frame = Body::fixed();
/// assert_eq!(frame.mass_numbers(), &[0.0; 10]);
/// # Ok::<(), kapitsa::Refusal>(())
/// ```
#[derive(Clone, Copy, Debug, PartialEq)]
pub struct Body {
    mass: [f64; MASS_NUMBERS],
    centre: [f64; 3],
}

/// A body of a [`Table`](crate::Table).
#[derive(Clone, Copy, Debug, PartialEq, Eq, PartialOrd, Ord, Hash)]
pub struct BodyId(pub(crate) u32);

impl BodyId {
    /// Its place among the bodies, from 0.
    pub fn index(self) -> usize {
        self.0 as usize
    }
}

impl Body {
    /// A body of this mass, in kilograms, and this inertia about its centre, in kg m², by columns. Its
    /// axes are the bench's; of a turned link the caller turns the inertia. It is refused as
    /// [`inverse_spd`] refuses it; a mass of 0 is refused by the solve ([`Refusal::Mass`]).
    pub fn new(kilograms: f64, inertia: &[f64; 9]) -> Result<Self, Refusal> {
        Ok(Self::from_inverse(1.0 / kilograms, &inverse_spd(inertia)?))
    }

    /// A body of this mass that does not turn: its inverse inertia is 0.
    pub fn point(kilograms: f64) -> Self {
        Self::from_inverse(1.0 / kilograms, &[0.0; 9])
    }

    /// A body that stands, such as a frame: ten zeros. It is pressed on and does not move, and by groups
    /// it joins nothing.
    pub fn fixed() -> Self {
        Self::from_inverse(0.0, &[0.0; 9])
    }

    /// A body by its inverse mass and its inverse inertia, by columns.
    pub fn from_inverse(inverse_mass: f64, inverse_inertia: &[f64; 9]) -> Self {
        let mut mass = [inverse_mass; MASS_NUMBERS];
        mass[1..].copy_from_slice(inverse_inertia);
        Self { mass, centre: [0.0; 3] }
    }

    /// Where its centre lies, in metres; at the origin where nothing is said.
    pub fn at(mut self, centre: [f64; 3]) -> Self {
        self.centre = centre;
        self
    }

    /// Its inverse mass, and its inverse inertia by columns.
    pub fn mass_numbers(&self) -> &[f64; MASS_NUMBERS] {
        &self.mass
    }

    /// Where its centre lies.
    pub fn centre(&self) -> [f64; 3] {
        self.centre
    }
}
