use crate::{tables, Result};

/// An RNA secondary structure, with the fields and methods of the original's type of that name.
///
/// The fields are open, so a structure can be made that is unsound or has more than 4,096
/// positions. [`check`](Self::check) says so by its refusal; the other methods, which have no
/// room for one in their answers, panic with it.
///
/// ```
/// use yukemasop::RnaSecondaryStructure;
///
/// let s = RnaSecondaryStructure::from_dot_bracket("..((..))..").unwrap();
/// assert_eq!(s.to_dot_bracket(), "..((..))..");
/// assert_eq!(s.base_pairs(), [(2, 7), (3, 6)]);
/// ```
#[derive(Debug, Clone, PartialEq, Eq)]
pub struct RnaSecondaryStructure {
    /// Pair table: `pairs[i] = Some(j)` if position `i` is paired with `j`.
    pub pairs: Vec<Option<usize>>,
    /// The number of positions.
    pub length: usize,
}

impl RnaSecondaryStructure {
    /// Reads bracket text.
    ///
    /// # Errors
    ///
    /// 3; 5 or 6 at the first offending place; 7 at the leftmost `(` that is never closed.
    /// Places are counted in bytes.
    ///
    /// ```
    /// use yukemasop::RnaSecondaryStructure;
    ///
    /// let s = RnaSecondaryStructure::from_dot_bracket("(((...)))").unwrap();
    /// assert_eq!(s.num_pairs(), 3);
    /// assert_eq!(RnaSecondaryStructure::from_dot_bracket("(.x").unwrap_err().to_string(), "refused 6 at 2");
    /// ```
    pub fn from_dot_bracket(s: &str) -> Result<Self> {
        let mut table = vec![0; s.len()];
        tables::from_dot_bracket(s.as_bytes(), &mut table)?;
        Ok(Self::from_table(&table))
    }

    /// Whether the structure is one that the calls take.
    ///
    /// # Errors
    ///
    /// 3 if it has more than 4,096 positions, 8 if it is unsound.
    pub fn check(&self) -> Result<()> {
        tables::num_pairs(&self.table()).map(|_| ())
    }

    /// The bracket text.
    ///
    /// # Panics
    ///
    /// If [`check`](Self::check) refuses.
    pub fn to_dot_bracket(&self) -> String {
        let table = self.table();
        let mut text = vec![0; table.len()];
        expect(tables::to_dot_bracket(&table, &mut text));
        String::from_utf8(text).expect("brackets and dots are ASCII")
    }

    /// The pairs `(i, j)` with `i < j`, sorted.
    ///
    /// # Panics
    ///
    /// If [`check`](Self::check) refuses.
    pub fn base_pairs(&self) -> Vec<(usize, usize)> {
        let table = self.table();
        let mut out = vec![0; table.len()];
        let pairs = expect(tables::base_pairs(&table, &mut out));
        out[..2 * pairs]
            .chunks(2)
            .map(|pair| (pair[0].into(), pair[1].into()))
            .collect()
    }

    /// Whether position `i` is paired; a place outside isn't.
    ///
    /// # Panics
    ///
    /// If [`check`](Self::check) refuses.
    pub fn is_paired(&self, i: usize) -> bool {
        expect(tables::is_paired(&self.table(), i))
    }

    /// The partner of position `i`, if it has one; a place outside has none.
    ///
    /// # Panics
    ///
    /// If [`check`](Self::check) refuses.
    pub fn partner(&self, i: usize) -> Option<usize> {
        expect(tables::partner(&self.table(), i))
    }

    /// The number of pairs.
    ///
    /// # Panics
    ///
    /// If [`check`](Self::check) refuses.
    pub fn num_pairs(&self) -> usize {
        expect(tables::num_pairs(&self.table()))
    }

    /// From the form that is lent.
    pub(crate) fn from_table(table: &[u16]) -> Self {
        let partner = |&entry: &u16| (entry != tables::UNPAIRED).then_some(entry.into());
        Self {
            pairs: table.iter().map(partner).collect(),
            length: table.len(),
        }
    }

    /// The lent form. A partner too large for 16 bits becomes a number that is no position, so
    /// that it is refused at its place.
    fn table(&self) -> Vec<u16> {
        let entry = |&partner: &Option<usize>| match partner {
            None => tables::UNPAIRED,
            Some(j) => u16::try_from(j)
                .unwrap_or(tables::UNPAIRED)
                .min(tables::UNPAIRED - 1),
        };
        self.pairs.iter().map(entry).collect()
    }
}

fn expect<T>(answer: Result<T>) -> T {
    answer.unwrap_or_else(|refusal| panic!("no structure that the calls take: {refusal}"))
}

/// The pairs that are in one structure and not in the other.
///
/// # Errors
///
/// 3; 9 if the lengths differ; 8, the first structure before the second.
///
/// ```
/// use yukemasop::{base_pair_distance, RnaSecondaryStructure};
///
/// let a = RnaSecondaryStructure::from_dot_bracket("(((...)))").unwrap();
/// let b = RnaSecondaryStructure::from_dot_bracket("((...))..").unwrap();
/// assert_eq!(base_pair_distance(&a, &b), Ok(5));
/// ```
pub fn base_pair_distance(a: &RnaSecondaryStructure, b: &RnaSecondaryStructure) -> Result<usize> {
    tables::base_pair_distance(&a.table(), &b.table())
}

/// The sum of the absolute differences of the mountain heights: a whole number, in the
/// original's type.
///
/// # Errors
///
/// As [`base_pair_distance`].
///
/// ```
/// use yukemasop::{mountain_distance, RnaSecondaryStructure};
///
/// let a = RnaSecondaryStructure::from_dot_bracket("(((...)))").unwrap();
/// let b = RnaSecondaryStructure::from_dot_bracket("((...))..").unwrap();
/// assert_eq!(mountain_distance(&a, &b), Ok(8.0));
/// ```
pub fn mountain_distance(a: &RnaSecondaryStructure, b: &RnaSecondaryStructure) -> Result<f64> {
    tables::mountain_distance(&a.table(), &b.table()).map(|distance| distance as f64)
}
