use crate::{ffi, Refusal, Result};

/// The letter that is kept of a byte: a A, c C, g G, u U, t T become A C G U U.
///
/// # Errors
///
/// Refusal 2 at place 0, if the byte is no base.
///
/// ```
/// assert_eq!(yukemasop::read_base(b'g'), Ok(b'G'));
/// assert_eq!(yukemasop::read_base(b'N').unwrap_err().to_string(), "refused 2 at 0");
/// ```
pub fn read_base(byte: u8) -> Result<u8> {
    // SAFETY: any byte is taken.
    let base = unsafe { ffi::ykm_read_base(byte) };
    Refusal::judge(base.number, base.place)?;
    Ok(base.letter)
}

/// Whether two kept letters pair: AU UA GC CG GU UG, and no other bytes.
pub fn can_pair(a: u8, b: u8) -> bool {
    // SAFETY: any bytes are taken.
    unsafe { ffi::ykm_can_pair(a, b) }
}

/// The number of a pair in the order AU UA GC CG GU UG, from 0, if the bytes pair.
pub fn pair_index(a: u8, b: u8) -> Option<usize> {
    // SAFETY: any bytes are taken.
    let index = unsafe { ffi::ykm_pair_index(a, b) };
    (index != ffi::NO_PAIR).then_some(index)
}
