use crate::ffi;
use std::fmt;

/// Why a call said no: a number of the table in `docs/RULES.md`, and the place it points at.
#[derive(Debug, Clone, Copy, PartialEq, Eq)]
pub struct Refusal {
    /// The number, from 1.
    pub number: u32,
    /// The place, counted from 0, where the table returns one.
    pub place: Option<usize>,
}

/// An answer, or the refusal.
pub type Result<T> = std::result::Result<T, Refusal>;

impl Refusal {
    /// What the first two fields of a flat answer say: accepted, or the refusal.
    pub(crate) fn judge(number: u32, place: usize) -> Result<()> {
        if number == 0 {
            return Ok(());
        }
        let place = (place != ffi::NOWHERE).then_some(place);
        Err(Refusal { number, place })
    }
}

impl fmt::Display for Refusal {
    fn fmt(&self, f: &mut fmt::Formatter<'_>) -> fmt::Result {
        match self.place {
            Some(place) => write!(f, "refused {} at {place}", self.number),
            None => write!(f, "refused {}", self.number),
        }
    }
}

impl std::error::Error for Refusal {}
