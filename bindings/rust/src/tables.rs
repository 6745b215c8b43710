//! The library's own calls on pair tables and bracket text, over memory that the caller lends.
//!
//! A pair table is 16-bit numbers, one a position: its partner, or [`UNPAIRED`]. Texts and tables
//! have 0 to 4,096 positions. A refused call leaves what it was lent as it came, and what a buffer
//! has beyond the need is never changed.
//!
//! ```
//! use yukemasop::tables;
//!
//! let mut pairs = [0; 3];
//! assert_eq!(tables::from_dot_bracket(b"(.)", &mut pairs), Ok(3));
//! assert_eq!(pairs, [2, tables::UNPAIRED, 0]);
//! ```

use crate::{ffi, Refusal, Result};

/// The entry of an unpaired position.
pub const UNPAIRED: u16 = 65535;

pub(crate) fn judged(answer: ffi::Answer) -> Result<usize> {
    Refusal::judge(answer.number, answer.place)?;
    Ok(answer.value)
}

/// Bracket text into a pair table; gives the number of positions.
///
/// # Errors
///
/// 3; 5 or 6 at the first offending place; 7 at the leftmost `(` that is never closed; 4.
pub fn from_dot_bracket(text: &[u8], pairs: &mut [u16]) -> Result<usize> {
    // SAFETY: both slices are whole, and the borrow checker keeps them apart.
    judged(unsafe {
        ffi::ykm_from_dot_bracket(text.as_ptr(), text.len(), pairs.as_mut_ptr(), pairs.len())
    })
}

/// A pair table into bracket text; gives the number of positions.
///
/// # Errors
///
/// 3; 8 at the lowest unsound place; 4.
pub fn to_dot_bracket(pairs: &[u16], text: &mut [u8]) -> Result<usize> {
    // SAFETY: both slices are whole, and the borrow checker keeps them apart.
    judged(unsafe {
        ffi::ykm_to_dot_bracket(pairs.as_ptr(), pairs.len(), text.as_mut_ptr(), text.len())
    })
}

/// The pairs i < j by rising i, as i, j, i, j, ..; gives their number.
///
/// # Errors
///
/// 3; 8; 4 if `out` is shorter than twice the number of pairs.
pub fn base_pairs(pairs: &[u16], out: &mut [u16]) -> Result<usize> {
    // SAFETY: both slices are whole, and the borrow checker keeps them apart.
    judged(unsafe { ffi::ykm_base_pairs(pairs.as_ptr(), pairs.len(), out.as_mut_ptr(), out.len()) })
}

/// Whether position `i` is paired; a place outside isn't.
///
/// # Errors
///
/// 3; 8.
pub fn is_paired(pairs: &[u16], i: usize) -> Result<bool> {
    // SAFETY: the slice is whole.
    Ok(judged(unsafe { ffi::ykm_is_paired(pairs.as_ptr(), pairs.len(), i) })? != 0)
}

/// The partner of position `i`, if it has one; a place outside has none.
///
/// # Errors
///
/// 3; 8.
pub fn partner(pairs: &[u16], i: usize) -> Result<Option<usize>> {
    // SAFETY: the slice is whole.
    let partner = judged(unsafe { ffi::ykm_partner(pairs.as_ptr(), pairs.len(), i) })?;
    Ok((partner != ffi::NOWHERE).then_some(partner))
}

/// The number of pairs.
///
/// # Errors
///
/// 3; 8.
pub fn num_pairs(pairs: &[u16]) -> Result<usize> {
    // SAFETY: the slice is whole.
    judged(unsafe { ffi::ykm_num_pairs(pairs.as_ptr(), pairs.len()) })
}

/// The pairs that are in one table and not in the other.
///
/// # Errors
///
/// 3; 9; 8, the first table before the second.
pub fn base_pair_distance(a: &[u16], b: &[u16]) -> Result<usize> {
    // SAFETY: both slices are whole, and neither is written to.
    judged(unsafe { ffi::ykm_base_pair_distance(a.as_ptr(), a.len(), b.as_ptr(), b.len()) })
}

/// The sum of the absolute differences of the mountain heights.
///
/// # Errors
///
/// 3; 9; 8, the first table before the second.
pub fn mountain_distance(a: &[u16], b: &[u16]) -> Result<usize> {
    // SAFETY: both slices are whole, and neither is written to.
    judged(unsafe { ffi::ykm_mountain_distance(a.as_ptr(), a.len(), b.as_ptr(), b.len()) })
}
