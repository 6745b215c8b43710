//! Every byte and every pair of bytes.

use crate::Found;
use original::rna_structure::doors;

/// What no base is refused with.
const NO_BASE: yukemasop::Refusal = yukemasop::Refusal {
    number: 2,
    place: Some(0),
};

pub fn compare() -> Found {
    for byte in 0..=u8::MAX {
        let theirs = doors::normalize_rna(&[byte]).map(|kept| kept[0]);
        let ours = yukemasop::read_base(byte);
        if ours != theirs.clone().map_err(|_| NO_BASE) {
            return Err(format!(
                "byte {byte} is read as {ours:?}, by the original as {theirs:?}"
            ));
        }
        for other in 0..=u8::MAX {
            let ours = (
                yukemasop::can_pair(byte, other),
                yukemasop::pair_index(byte, other),
            );
            let theirs = (doors::can_pair(byte, other), doors::pair_index(byte, other));
            if ours != theirs {
                return Err(format!(
                    "bytes {byte} and {other} pair as {ours:?}, in the original as {theirs:?}"
                ));
            }
        }
    }
    Ok("bases: 256 bytes and 65,536 pairs of bytes".to_string())
}
