use crate::{folds, Result, RnaSecondaryStructure};

/// What [`zuker_mfe`] finds, with the fields of the original's type of that name.
#[derive(Debug, Clone)]
pub struct MfeResult {
    /// A structure with that energy.
    pub structure: RnaSecondaryStructure,
    /// The least energy in kcal/mol: a whole number of thousandths, never above 0.
    pub energy: f64,
}

/// The least energy that any structure of the sequence has, and a structure that has it: the
/// original's, in whole thousandths.
///
/// # Errors
///
/// 3 if there are more than 256 bases; 1 if there is none; 2 at the first byte that is no base.
///
/// ```
/// use yukemasop::zuker_mfe;
///
/// let result = zuker_mfe(b"GGGAAACCC").unwrap();
/// assert!(result.energy <= 0.0);
/// assert_eq!(result.energy, -1.2);
/// assert_eq!(result.structure.to_dot_bracket(), "(((...)))");
///
/// assert_eq!(zuker_mfe(b"").unwrap_err().to_string(), "refused 1");
/// ```
pub fn zuker_mfe(seq: &[u8]) -> Result<MfeResult> {
    // A longer sequence is refused whatever is lent, so it gets no larger buffers.
    let n = seq.len().min(folds::LIMIT);
    let (mut bases, mut pairs) = (vec![0; n], vec![0; n]);
    let mut tables = vec![0; 3 * folds::cells_of(n)];
    let (paired, others) = tables.split_at_mut(folds::cells_of(n));
    let (any, arms) = others.split_at_mut(folds::cells_of(n));
    let thousandths = folds::zuker_mfe(seq, &mut bases, paired, any, arms, &mut pairs)?;
    Ok(MfeResult {
        structure: RnaSecondaryStructure::from_table(&pairs),
        energy: f64::from(thousandths) / 1000.0,
    })
}
