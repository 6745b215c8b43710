//! The fold that counts pairs, made anew each time, against the original's on the same strands.

use crate::{growing, time};
use original::rna_structure as theirs;
use std::time::Duration;
use yukemasop::folds;

/// The gap of the original's example.
const GAP: usize = 3;

/// The times of one fold of the strand: the original's and ours.
fn folded(seq: &[u8]) -> [Duration; 2] {
    // The buffers are not cleared between calls: every call writes all of them.
    let (mut bases, mut pairs) = (vec![0; seq.len()], vec![0; seq.len()]);
    let mut cells = vec![0; folds::cells_of(seq.len())];
    [
        time(|| theirs::nussinov(seq, GAP).is_ok()),
        time(|| folds::nussinov(seq, GAP, &mut bases, &mut cells, &mut pairs)),
    ]
}

pub fn measure() {
    growing::measure("nussinov", "folds::nussinov", folded);
}
