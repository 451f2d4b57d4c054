//! Refusals as errors: what a call that answers nothing says.

#[rustfmt::skip]
mod numbers;

pub use numbers::Refusal;
use std::error::Error;
use std::fmt;

impl Refusal {
    /// Its number in the table of refusals.
    ///
    /// ```
    /// # use kapitsa::Refusal;
    /// assert_eq!(Refusal::Pivot.number(), 13);
    /// ```
    pub const fn number(self) -> u32 {
        self as u32
    }

    /// The refusal of this number, if there is one.
    ///
    /// ```
    /// # use kapitsa::Refusal;
    /// assert_eq!(Refusal::from_number(13), Some(Refusal::Pivot));
    /// assert_eq!(Refusal::from_number(0), None);
    /// ```
    pub fn from_number(number: u32) -> Option<Self> {
        Self::ALL.iter().copied().find(|refusal| refusal.number() == number)
    }

    /// What a call of the archive returned.
    pub(crate) fn judge(number: u32) -> Result<(), Self> {
        match number {
            0 => Ok(()),
            _ => Err(Self::from_number(number).expect("the archive answers 0 or a refusal")),
        }
    }
}

/// Its number and its words; `{:#}` adds what to do.
///
/// ```
/// # use kapitsa::Refusal;
/// assert_eq!(Refusal::Shift.to_string(), "refused by 25: The shift is not finite, below 0 or above 1.");
/// assert!(format!("{:#}", Refusal::Shift).ends_with(" Give a shift from 0 to 1."));
/// ```
impl fmt::Display for Refusal {
    fn fmt(&self, to: &mut fmt::Formatter) -> fmt::Result {
        write!(to, "refused by {}: {}", self.number(), self.text())?;
        if to.alternate() {
            write!(to, " {}", self.advice())?;
        }
        Ok(())
    }
}

impl Error for Refusal {}
