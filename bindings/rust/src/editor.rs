//! A sequence that is edited base by base, with its pair count kept.

use crate::{folds, Result, RnaSecondaryStructure};
use std::fmt;

/// A sequence of 1 to 256 bases, and the greatest number of its pairs, kept through edits.
///
/// After every edit, count and structure are those of [`nussinov`](crate::nussinov) on the sequence as it
/// then is, but an edit does less than a fold: [`replace`](Self::replace) counts anew only the spans that
/// hold the position, and [`add`](Self::add) only those that end at the new base. An edit that is refused
/// changes nothing.
///
/// ```
/// use yukemasop::Editor;
///
/// let mut editor = Editor::new(b"GGGAAACCC", 3).unwrap();
/// assert_eq!(editor.count(), 3);
///
/// assert_eq!(editor.replace(8, b'A'), Ok(2));
/// assert_eq!(editor.structure().to_dot_bracket(), ".((...)).");
///
/// assert_eq!(editor.add(b'C'), Ok(3));
/// assert_eq!(editor.structure().to_dot_bracket(), "(((...)).)");
/// assert_eq!(editor.sequence(), b"GGGAAACCAC");
///
/// assert_eq!(editor.add(b'N').unwrap_err().to_string(), "refused 2 at 0");
/// assert_eq!(editor.count(), 3);
/// ```
#[derive(Clone)]
pub struct Editor {
    record: folds::Record,
    count: usize,
    bases: Vec<u8>,
    cells: Vec<u16>,
}

impl Editor {
    /// Folds a sequence, to edit it from there.
    ///
    /// # Errors
    ///
    /// 3 if there are more than 256 bases; 1 if there is none; 2 at the first byte that is no base.
    pub fn new(seq: &[u8], min_loop_size: usize) -> Result<Editor> {
        let mut bases = vec![0; folds::LIMIT];
        let mut cells = vec![0; folds::cells_of(folds::LIMIT)];
        let mut pairs = vec![0; folds::LIMIT];
        let (record, count) =
            folds::nussinov(seq, min_loop_size, &mut bases, &mut cells, &mut pairs)?;
        Ok(Editor {
            record,
            count,
            bases,
            cells,
        })
    }

    /// Replaces the base at `position` by that of `byte`; gives the count.
    ///
    /// # Errors
    ///
    /// 10 if `position` is outside; 2 at place 0 if `byte` is no base.
    ///
    /// ```
    /// let mut editor = yukemasop::Editor::new(b"GA", 0).unwrap();
    /// assert_eq!(editor.replace(1, b'c'), Ok(1));
    /// assert_eq!(editor.replace(2, b'c').unwrap_err().to_string(), "refused 10");
    /// ```
    pub fn replace(&mut self, position: usize, byte: u8) -> Result<usize> {
        let edited = folds::replace(
            self.record,
            &mut self.bases,
            &mut self.cells,
            position,
            byte,
        );
        self.take(edited)
    }

    /// Adds the base of `byte` behind the last; gives the count.
    ///
    /// # Errors
    ///
    /// 2 at place 0 if `byte` is no base; 3 if there are 256 bases.
    ///
    /// ```
    /// let mut editor = yukemasop::Editor::new(&[b'a'; 255], 3).unwrap();
    /// assert_eq!(editor.add(b'u'), Ok(1));
    /// assert_eq!(editor.add(b'u').unwrap_err().to_string(), "refused 3");
    /// ```
    pub fn add(&mut self, byte: u8) -> Result<usize> {
        let edited = folds::add(self.record, &mut self.bases, &mut self.cells, byte);
        self.take(edited)
    }

    /// Erases the last base; gives the count.
    ///
    /// # Errors
    ///
    /// 1 if there is one base.
    ///
    /// ```
    /// let mut editor = yukemasop::Editor::new(b"GC", 0).unwrap();
    /// assert_eq!(editor.erase(), Ok(0));
    /// assert_eq!(editor.erase().unwrap_err().to_string(), "refused 1");
    /// assert_eq!(editor.sequence(), b"G");
    /// ```
    pub fn erase(&mut self) -> Result<usize> {
        self.take(folds::erase(self.record, &self.bases, &self.cells))
    }

    /// The greatest number of pairs.
    pub fn count(&self) -> usize {
        self.count
    }

    /// The bases, kept as A, C, G and U.
    pub fn sequence(&self) -> &[u8] {
        &self.bases[..self.record.length]
    }

    /// The structure, traced anew at each call.
    pub fn structure(&self) -> RnaSecondaryStructure {
        let mut pairs = vec![0; self.record.length];
        folds::traceback(self.record, &self.bases, &self.cells, &mut pairs)
            .expect("only folds and edits wrote the memory");
        RnaSecondaryStructure::from_table(&pairs)
    }

    /// Keeps what an accepted edit gives.
    fn take(&mut self, edited: Result<(folds::Record, usize)>) -> Result<usize> {
        (self.record, self.count) = edited?;
        Ok(self.count)
    }
}

impl fmt::Debug for Editor {
    fn fmt(&self, f: &mut fmt::Formatter<'_>) -> fmt::Result {
        // The cells would hide the rest.
        f.debug_struct("Editor")
            .field("sequence", &String::from_utf8_lossy(self.sequence()))
            .field("min_loop_size", &self.record.gap)
            .field("count", &self.count)
            .finish_non_exhaustive()
    }
}
