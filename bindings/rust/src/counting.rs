use crate::{folds, Result, RnaSecondaryStructure};

/// What [`nussinov`] finds, with the fields of the original's type of that name.
#[derive(Debug, Clone)]
pub struct NussinovResult {
    /// A structure with that many pairs.
    pub structure: RnaSecondaryStructure,
    /// The greatest number of pairs.
    pub max_pairs: usize,
}

/// The greatest number of pairs that don't cross, each one of the six and with `j - i` greater than
/// `min_loop_size`, and a structure that has it: the original's.
///
/// # Errors
///
/// 3 if there are more than 256 bases; 1 if there is none; 2 at the first byte that is no base.
///
/// ```
/// use yukemasop::nussinov;
///
/// let result = nussinov(b"GGGGCCCC", 3).unwrap();
/// assert!(result.max_pairs >= 2);
///
/// let result = nussinov(b"GGGAAACCC", 3).unwrap();
/// assert_eq!(result.max_pairs, 3);
/// assert_eq!(result.structure.to_dot_bracket(), "(((...)))");
///
/// assert_eq!(nussinov(b"GGN", 3).unwrap_err().to_string(), "refused 2 at 2");
/// ```
pub fn nussinov(seq: &[u8], min_loop_size: usize) -> Result<NussinovResult> {
    // A longer sequence is refused whatever is lent, so it gets no larger buffers.
    let n = seq.len().min(folds::LIMIT);
    let (mut bases, mut cells, mut pairs) = (vec![0; n], vec![0; folds::cells_of(n)], vec![0; n]);
    let (_, max_pairs) = folds::nussinov(seq, min_loop_size, &mut bases, &mut cells, &mut pairs)?;
    Ok(NussinovResult {
        structure: RnaSecondaryStructure::from_table(&pairs),
        max_pairs,
    })
}
