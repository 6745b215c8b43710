//! The library's own folds, over memory that the caller lends.
//!
//! A sequence to fold has 1 to 256 bases. A fold table is a triangle: the cell of the span from i to
//! j, both included, stands at j(j+1)/2 + i. A refused call leaves what it was lent as it came, and
//! what a buffer has beyond the need is never changed; nothing needs clearing between calls.
//!
//! ```
//! use yukemasop::{folds, tables::UNPAIRED};
//!
//! let (mut bases, mut cells, mut pairs) = ([0; 8], [0; folds::cells_of(8)], [0; 8]);
//! let (record, count) = folds::nussinov(b"ggggcccc", 3, &mut bases, &mut cells, &mut pairs).unwrap();
//! assert_eq!((record.length, record.gap, count), (8, 3, 2));
//! assert_eq!(&bases, b"GGGGCCCC");
//! assert_eq!(pairs, [UNPAIRED, 7, 6, UNPAIRED, UNPAIRED, UNPAIRED, 2, 1]);
//! ```
//!
//! Edits are lent the record, the kept letters and the cells that a fold or the edit before left. They
//! bring the two buffers to what a fold of the edited sequence writes, keep the gap, and give the new
//! record and count; the structure is asked for by [`traceback`]. An edit that is refused gives no record,
//! and the one that it was lent still holds. [`Editor`](crate::Editor) does all this by itself.
//!
//! ```
//! use yukemasop::folds;
//!
//! let (mut bases, mut cells, mut pairs) = ([0; 10], [0; folds::cells_of(10)], [0; 10]);
//! let (record, _) = folds::nussinov(b"GGGAAACCC", 3, &mut bases, &mut cells, &mut pairs).unwrap();
//! let (record, count) = folds::replace(record, &mut bases, &mut cells, 8, b'a').unwrap();
//! assert_eq!((record.length, count), (9, 2));
//! let (record, count) = folds::add(record, &mut bases, &mut cells, b'C').unwrap();
//! assert_eq!((record.length, count), (10, 3));
//! assert_eq!(&bases, b"GGGAAACCAC");
//! ```

use crate::{ffi, tables, Refusal, Result};

/// The most bases of a sequence to fold.
pub(crate) const LIMIT: usize = 256;

/// What a fold leaves to edits.
#[derive(Debug, Clone, Copy, PartialEq, Eq)]
pub struct Record {
    /// The number of bases.
    pub length: usize,
    /// What `j - i` of each pair is greater than.
    pub gap: usize,
}

impl Record {
    fn lent(self) -> ffi::Record {
        let Record { length, gap } = self;
        ffi::Record { length, gap }
    }
}

fn judged(counted: ffi::Counted) -> Result<(Record, usize)> {
    Refusal::judge(counted.number, counted.place)?;
    let ffi::Record { length, gap } = counted.record;
    Ok((Record { length, gap }, counted.count))
}

/// The number of cells that `n` bases use, for any `n` that can be folded.
pub const fn cells_of(n: usize) -> usize {
    n * (n + 1) / 2
}

/// The greatest number of pairs, with the kept letters, the fold table and the structure's pair
/// table; gives the record and that number. The gap is any number.
///
/// # Errors
///
/// 3; 1; 2 at the first byte that is no base; 4 if `bases` or `pairs` is shorter than the
/// sequence, or `cells` than [`cells_of`] its length.
///
/// ```
/// use yukemasop::{folds, tables};
///
/// let (mut bases, mut cells, mut pairs) = ([0; 9], [0; folds::cells_of(9)], [0; 9]);
/// let (_, count) = folds::nussinov(b"GGGAAACCC", 3, &mut bases, &mut cells, &mut pairs).unwrap();
/// // The span from 0 to 8 is the whole strand.
/// assert_eq!((count, cells[8 * 9 / 2 + 0]), (3, 3));
/// let mut text = [0; 9];
/// tables::to_dot_bracket(&pairs, &mut text).unwrap();
/// assert_eq!(&text, b"(((...)))");
/// ```
pub fn nussinov(
    seq: &[u8],
    gap: usize,
    bases: &mut [u8],
    cells: &mut [u16],
    pairs: &mut [u16],
) -> Result<(Record, usize)> {
    // SAFETY: the four slices are whole, and the borrow checker keeps them apart.
    judged(unsafe {
        ffi::ykm_nussinov(
            seq.as_ptr(),
            seq.len(),
            gap,
            bases.as_mut_ptr(),
            bases.len(),
            cells.as_mut_ptr(),
            cells.len(),
            pairs.as_mut_ptr(),
            pairs.len(),
        )
    })
}

/// What a cell of the energy tables holds that has no structure of its kind.
pub const NO_STRUCTURE: i32 = 1_000_000_000;

/// The least energy in thousandths of kcal/mol, with the kept letters, the three tables and the
/// structure's pair table. Of each span the tables hold the least energy with its two ends paired, of
/// any structure, and as one or more arms of a many-armed loop; [`NO_STRUCTURE`] where there is none.
///
/// # Errors
///
/// 3; 1; 2 at the first byte that is no base; 4 if `bases` or `pairs` is shorter than the
/// sequence, or one of the tables than [`cells_of`] its length.
///
/// ```
/// use yukemasop::folds::{self, cells_of};
///
/// let (mut bases, mut pairs) = ([0; 10], [0; 10]);
/// let [mut paired, mut any, mut arms] = [[0; cells_of(10)]; 3];
/// let energy = folds::zuker_mfe(b"GGGAAAACCC", &mut bases, &mut paired, &mut any, &mut arms, &mut pairs);
/// assert_eq!(energy, Ok(-1800));
/// assert_eq!(&pairs[..3], &[9, 8, 7]);
/// // The span from 0 to 9 is the whole strand; the one from 0 to 3 has no pair.
/// assert_eq!((any[9 * 10 / 2], paired[3 * 4 / 2]), (-1800, folds::NO_STRUCTURE));
/// ```
pub fn zuker_mfe(
    seq: &[u8],
    bases: &mut [u8],
    paired: &mut [i32],
    any: &mut [i32],
    arms: &mut [i32],
    pairs: &mut [u16],
) -> Result<i32> {
    // SAFETY: the six slices are whole, and the borrow checker keeps them apart.
    let least = unsafe {
        ffi::ykm_zuker_mfe(
            seq.as_ptr(),
            seq.len(),
            bases.as_mut_ptr(),
            bases.len(),
            paired.as_mut_ptr(),
            paired.len(),
            any.as_mut_ptr(),
            any.len(),
            arms.as_mut_ptr(),
            arms.len(),
            pairs.as_mut_ptr(),
            pairs.len(),
        )
    };
    Refusal::judge(least.number, least.place)?;
    Ok(least.energy)
}

/// Replaces the base at `position` by that of `byte`; gives the record and the count. Of the used cells it
/// writes those of the spans that hold the position.
///
/// # Errors
///
/// 11 if the record's length is 0 or above 256; 4 if `bases` or `cells` is too short for it; 11 if a kept
/// letter isn't A, C, G or U in upper case, or a used cell is above half its span's length; 10 if `position`
/// is outside; 2 at place 0 if `byte` is no base.
///
/// ```
/// use yukemasop::folds;
///
/// let (mut bases, mut cells) = ([0; 2], [0; folds::cells_of(2)]);
/// let (record, count) = folds::nussinov(b"GA", 0, &mut bases, &mut cells, &mut [0; 2]).unwrap();
/// assert_eq!(count, 0);
/// assert_eq!(folds::replace(record, &mut bases, &mut cells, 1, b't'), Ok((record, 1)));
/// assert_eq!(&bases, b"GU");
/// let refusal = folds::replace(record, &mut bases, &mut cells, 2, b'A').unwrap_err();
/// assert_eq!(refusal.to_string(), "refused 10");
/// ```
pub fn replace(
    record: Record,
    bases: &mut [u8],
    cells: &mut [u16],
    position: usize,
    byte: u8,
) -> Result<(Record, usize)> {
    // SAFETY: both slices are whole, and the borrow checker keeps them apart.
    judged(unsafe {
        ffi::ykm_replace(
            record.lent(),
            bases.as_mut_ptr(),
            bases.len(),
            cells.as_mut_ptr(),
            cells.len(),
            position,
            byte,
        )
    })
}

/// Adds the base of `byte` behind the last; gives the record and the count. It writes the new end's letter
/// and cells.
///
/// # Errors
///
/// 11, 4, 11 as [`replace`]; 2 at place 0 if `byte` is no base; 3 if there are 256 bases; 4 if `bases` or
/// `cells` has no room for one more.
///
/// ```
/// use yukemasop::folds;
///
/// let (mut bases, mut cells) = ([0; 2], [0; folds::cells_of(2)]);
/// let (record, _) = folds::nussinov(b"G", 0, &mut bases, &mut cells, &mut [0]).unwrap();
/// let (record, count) = folds::add(record, &mut bases, &mut cells, b'c').unwrap();
/// assert_eq!((record.length, count), (2, 1));
/// let refusal = folds::add(record, &mut bases, &mut cells, b'c').unwrap_err();
/// assert_eq!(refusal.to_string(), "refused 4");
/// ```
pub fn add(
    record: Record,
    bases: &mut [u8],
    cells: &mut [u16],
    byte: u8,
) -> Result<(Record, usize)> {
    // SAFETY: both slices are whole, and the borrow checker keeps them apart.
    judged(unsafe {
        ffi::ykm_add(
            record.lent(),
            bases.as_mut_ptr(),
            bases.len(),
            cells.as_mut_ptr(),
            cells.len(),
            byte,
        )
    })
}

/// Erases the last base; gives the record and the count. It writes nothing: the lost end stays as spare
/// memory.
///
/// # Errors
///
/// 11, 4, 11 as [`replace`]; 1 if there is one base.
///
/// ```
/// use yukemasop::folds;
///
/// let (mut bases, mut cells) = ([0; 2], [0; folds::cells_of(2)]);
/// let (record, _) = folds::nussinov(b"GC", 0, &mut bases, &mut cells, &mut [0; 2]).unwrap();
/// let (record, count) = folds::erase(record, &bases, &cells).unwrap();
/// assert_eq!((record.length, count), (1, 0));
/// assert_eq!(folds::erase(record, &bases, &cells).unwrap_err().to_string(), "refused 1");
/// ```
pub fn erase(record: Record, bases: &[u8], cells: &[u16]) -> Result<(Record, usize)> {
    // SAFETY: both slices are whole, and neither is written to.
    judged(unsafe {
        ffi::ykm_erase(
            record.lent(),
            bases.as_ptr(),
            bases.len(),
            cells.as_ptr(),
            cells.len(),
        )
    })
}

/// The structure that the cells lead to, the fold's where they are as a fold or an edit left them; gives the
/// count, the cell of the whole span, which is then the number of its pairs.
///
/// # Errors
///
/// 11, 4, 11 as [`replace`]; 4 if `pairs` is shorter than the sequence.
///
/// ```
/// use yukemasop::{folds, tables::UNPAIRED};
///
/// let (mut bases, mut cells, mut pairs) = ([0; 3], [0; folds::cells_of(3)], [0; 3]);
/// let (record, _) = folds::nussinov(b"GAC", 0, &mut bases, &mut cells, &mut pairs).unwrap();
/// let (record, _) = folds::replace(record, &mut bases, &mut cells, 1, b'C').unwrap();
/// assert_eq!(folds::traceback(record, &bases, &cells, &mut pairs), Ok(1));
/// assert_eq!(pairs, [2, UNPAIRED, 0]);
/// ```
pub fn traceback(record: Record, bases: &[u8], cells: &[u16], pairs: &mut [u16]) -> Result<usize> {
    // SAFETY: the three slices are whole, and only the last is written to.
    tables::judged(unsafe {
        ffi::ykm_traceback(
            record.lent(),
            bases.as_ptr(),
            bases.len(),
            cells.as_ptr(),
            cells.len(),
            pairs.as_mut_ptr(),
            pairs.len(),
        )
    })
}
