//! The fold of least energy, made anew each time, against the original's on the same strands.

use crate::{growing, time};
use original::rna_structure as theirs;
use std::time::Duration;
use yukemasop::folds::{self, cells_of};

/// The times of one fold of the strand: the original's and ours.
fn folded(seq: &[u8]) -> [Duration; 2] {
    // The buffers are not cleared between calls: every call writes all of them.
    let n = seq.len();
    let (mut bases, mut pairs) = (vec![0; n], vec![0; n]);
    let [mut paired, mut any, mut arms] = [(); 3].map(|()| vec![0; cells_of(n)]);
    [
        time(|| theirs::zuker_mfe(seq).is_ok()),
        time(|| {
            folds::zuker_mfe(
                seq,
                &mut bases,
                &mut paired,
                &mut any,
                &mut arms,
                &mut pairs,
            )
        }),
    ]
}

pub fn measure() {
    growing::measure("zuker_mfe", "folds::zuker_mfe", folded);
}
