//! A second reading of docs/RULES.md for text, tables, folds and edits, written to be plain and not to be quick.

use yukemasop::folds::Record;
use yukemasop::tables::UNPAIRED;
use yukemasop::Refusal;

/// The most positions of a structure.
pub const LIMIT: usize = 4096;

/// The most bases of a sequence to fold.
pub const LONGEST: usize = 256;

pub fn refusal(number: u32, place: Option<usize>) -> Refusal {
    Refusal { number, place }
}

/// The place of the `)` that closes the `(` at `i`, if there is one.
fn close_of(text: &[u8], i: usize) -> Option<usize> {
    let mut open = 0usize;
    for (k, byte) in text.iter().enumerate().skip(i) {
        match byte {
            b'(' => open += 1,
            b')' => open -= 1,
            _ => {}
        }
        if open == 0 {
            return Some(k);
        }
    }
    None
}

/// What bracket text is due with so much room: its pair table, or the refusal.
pub fn parse(text: &[u8], room: usize) -> Result<Vec<u16>, Refusal> {
    if text.len() > LIMIT {
        return Err(refusal(3, None));
    }
    let mut open = 0usize;
    for (k, byte) in text.iter().enumerate() {
        match byte {
            b'(' => open += 1,
            b')' if open == 0 => return Err(refusal(5, Some(k))),
            b')' => open -= 1,
            b'.' => {}
            _ => return Err(refusal(6, Some(k))),
        }
    }
    let mut table = vec![UNPAIRED; text.len()];
    for i in 0..text.len() {
        if text[i] == b'(' {
            let j = close_of(text, i).ok_or(refusal(7, Some(i)))?;
            table[i] = j as u16;
            table[j] = i as u16;
        }
    }
    if room < text.len() {
        return Err(refusal(4, None));
    }
    Ok(table)
}

/// Where a table is unsound, if it is.
pub fn unsound(table: &[u16]) -> Option<usize> {
    let named = |k: usize| {
        let partner = table[k];
        partner == UNPAIRED
            || table
                .get(usize::from(partner))
                .is_some_and(|&back| usize::from(back) == k && usize::from(partner) != k)
    };
    if let Some(k) = (0..table.len()).find(|&k| !named(k)) {
        return Some(k);
    }
    let pairs: Vec<(usize, usize)> = pairs(table);
    let crosses = |&(a, b): &(usize, usize), &(c, d): &(usize, usize)| a < c && c < b && b < d;
    pairs
        .iter()
        .find(|p| pairs.iter().any(|q| crosses(p, q) || crosses(q, p)))
        .map(|p| p.0)
}

/// The pairs of a table whose entries name each other, by rising opening position.
pub fn pairs(table: &[u16]) -> Vec<(usize, usize)> {
    let entries = table.iter().map(|&entry| usize::from(entry)).enumerate();
    entries
        .filter(|&(i, j)| j != usize::from(UNPAIRED) && i < j)
        .collect()
}

/// What a call on one table is due: nothing, or the refusal.
pub fn judge(table: &[u16]) -> Result<(), Refusal> {
    if table.len() > LIMIT {
        return Err(refusal(3, None));
    }
    match unsound(table) {
        Some(place) => Err(refusal(8, Some(place))),
        None => Ok(()),
    }
}

/// What a call on two tables is due.
pub fn judge_both(a: &[u16], b: &[u16]) -> Result<(), Refusal> {
    if a.len() > LIMIT || b.len() > LIMIT {
        return Err(refusal(3, None));
    }
    if a.len() != b.len() {
        return Err(refusal(9, None));
    }
    judge(a)?;
    judge(b)
}

/// The room that a fold needs for the bases, the cells and the pairs of `n` bases.
pub fn need(n: usize) -> [usize; 3] {
    [n, n * (n + 1) / 2, n]
}

/// The letter that is kept of a byte, if it is a base.
pub fn kept(byte: u8) -> Option<u8> {
    match byte {
        b'a' | b'A' => Some(b'A'),
        b'c' | b'C' => Some(b'C'),
        b'g' | b'G' => Some(b'G'),
        b'u' | b'U' | b't' | b'T' => Some(b'U'),
        _ => None,
    }
}

/// What a fold with so much room is due: the kept letters, or the refusal.
pub fn read(seq: &[u8], room: [usize; 3]) -> Result<Vec<u8>, Refusal> {
    if seq.len() > LONGEST {
        return Err(refusal(3, None));
    }
    if seq.is_empty() {
        return Err(refusal(1, None));
    }
    let mut letters = Vec::new();
    for (k, &byte) in seq.iter().enumerate() {
        letters.push(kept(byte).ok_or(refusal(2, Some(k)))?);
    }
    let need = need(seq.len());
    if (0..3).any(|which| room[which] < need[which]) {
        return Err(refusal(4, None));
    }
    Ok(letters)
}

/// What the cell rule gives for the span from i to j, out of the cells as they stand.
fn ruled(
    cell: impl Fn(usize, usize) -> u16,
    letters: &[u8],
    gap: usize,
    i: usize,
    j: usize,
) -> u16 {
    if i == j {
        return 0;
    }
    let mut best = cell(i + 1, j).max(cell(i, j - 1));
    if pair(letters[i], letters[j]) && j - i > gap {
        let inner = if j - i == 1 { 0 } else { cell(i + 1, j - 1) };
        best = best.max(inner + 1);
    }
    for k in i + 1..j {
        best = best.max(cell(i, k) + cell(k + 1, j));
    }
    best
}

/// The fold table of kept letters: filled n by n, row i and column j, and then laid out.
pub fn cells(letters: &[u8], gap: usize) -> Vec<u16> {
    let n = letters.len();
    let mut cell = vec![vec![0u16; n]; n];
    for i in (0..n).rev() {
        for j in i + 1..n {
            cell[i][j] = ruled(|i, j| cell[i][j], letters, gap, i, j);
        }
    }
    let mut laid_out = vec![0; n * (n + 1) / 2];
    for j in 0..n {
        for i in 0..=j {
            laid_out[place(i, j)] = cell[i][j];
        }
    }
    laid_out
}

/// Where the cell of the span from i to j stands.
pub fn place(i: usize, j: usize) -> usize {
    j * (j + 1) / 2 + i
}

/// Whether two kept letters are one of the six pairs.
fn pair(a: u8, b: u8) -> bool {
    [b"AU", b"UA", b"GC", b"CG", b"GU", b"UG"].contains(&&[a, b])
}

/// What edits and the traceback are lent, with the record.
#[derive(Clone)]
pub struct Held {
    pub record: Record,
    pub bases: Vec<u8>,
    pub cells: Vec<u16>,
}

/// An edit with what is given to it.
#[derive(Clone, Copy, Debug)]
pub enum Edit {
    Replace(usize, u8),
    Add(u8),
    Erase,
}

impl Held {
    /// What every call from a record is due before its own checks.
    fn believed(&self) -> Result<(), Refusal> {
        let n = self.record.length;
        if n == 0 || n > LONGEST {
            return Err(refusal(11, None));
        }
        if self.short_of(n) {
            return Err(refusal(4, None));
        }
        let letters = self.bases[..n].iter().all(|byte| b"ACGU".contains(byte));
        let below = |j: usize| (0..=j).all(|i| self.cells[place(i, j)] <= most(i, j));
        if !letters || !(0..n).all(below) {
            return Err(refusal(11, None));
        }
        Ok(())
    }

    /// Whether there is no room for `n` bases and their cells.
    fn short_of(&self, n: usize) -> bool {
        let [bases, cells, _] = need(n);
        self.bases.len() < bases || self.cells.len() < cells
    }

    /// What an edit is due: nothing, or the refusal.
    pub fn judge(&self, edit: Edit) -> Result<(), Refusal> {
        self.believed()?;
        let n = self.record.length;
        match edit {
            Edit::Replace(position, _) if position >= n => Err(refusal(10, None)),
            Edit::Replace(_, byte) | Edit::Add(byte) if kept(byte).is_none() => {
                Err(refusal(2, Some(0)))
            }
            Edit::Add(_) if n == LONGEST => Err(refusal(3, None)),
            Edit::Add(_) if self.short_of(n + 1) => Err(refusal(4, None)),
            Edit::Erase if n == 1 => Err(refusal(1, None)),
            _ => Ok(()),
        }
    }

    /// Makes an edit and gives the count, or the refusal.
    pub fn edit(&mut self, edit: Edit) -> Result<usize, Refusal> {
        self.judge(edit)?;
        match edit {
            Edit::Replace(position, byte) => self.write(position, byte),
            Edit::Add(byte) => {
                self.record.length += 1;
                self.write(self.record.length - 1, byte);
            }
            Edit::Erase => self.record.length -= 1,
        }
        Ok(self.cell(0, self.record.length - 1).into())
    }

    /// The base at `position`, and the spans that hold it from short to long, so that each is read only when it is written.
    fn write(&mut self, position: usize, byte: u8) {
        self.bases[position] = kept(byte).expect("it was judged");
        for length in 1..=self.record.length {
            for i in 0..=self.record.length - length {
                let j = i + length - 1;
                if i <= position && position <= j {
                    let cell = |i, j| self.cell(i, j);
                    self.cells[place(i, j)] = ruled(cell, &self.bases, self.record.gap, i, j);
                }
            }
        }
    }

    fn cell(&self, i: usize, j: usize) -> u16 {
        self.cells[place(i, j)]
    }

    /// Writes the structure that the choices lead to and gives the count, which is the cell of the whole span, or the refusal.
    pub fn traceback(&self, table: &mut [u16]) -> Result<usize, Refusal> {
        self.believed()?;
        let n = self.record.length;
        if table.len() < n {
            return Err(refusal(4, None));
        }
        table[..n].fill(UNPAIRED);
        // Spans from i up to, but not including, the second number: an empty one has a name too.
        let mut waiting = vec![(0, n)];
        while let Some((i, end)) = waiting.pop() {
            if end - i < 2 {
                continue;
            }
            let j = end - 1;
            let value = self.cell(i, j);
            let inner = if j - i == 1 {
                0
            } else {
                self.cell(i + 1, j - 1)
            };
            let allowed = pair(self.bases[i], self.bases[j]) && j - i > self.record.gap;
            let split = |&k: &usize| self.cell(i, k) + self.cell(k + 1, j) == value;
            if self.cell(i + 1, j) == value {
                waiting.push((i + 1, end));
            } else if allowed && inner + 1 == value {
                table[i] = j as u16;
                table[j] = i as u16;
                waiting.push((i + 1, j));
            } else if let Some(k) = (i + 1..j).find(split) {
                waiting.extend([(i, k + 1), (k + 1, end)]);
            } else {
                waiting.push((i, j));
            }
        }
        Ok(self.cell(0, n - 1).into())
    }
}

/// The most that a cell can hold and be believed: half its span's length.
pub fn most(i: usize, j: usize) -> u16 {
    let length = j - i + 1;
    (length / 2) as u16
}
