//! A second reading of docs/RULES.md for what loops cost, written to be plain: figures in tenths as
//! printed there, the term of long loops by a logarithm, inner pairs by looking at every position.

use crate::slow;
use original::rna_structure::doors;

const HAIRPIN: [i32; 28] = [
    54, 56, 57, 54, 56, 57, 54, 56, 57, 58, 59, 59, 60, 61, 61, 62, 62, 63, 63, 63, 64, 64, 64, 65,
    65, 65, 65, 66,
];
const BULGE: [i32; 30] = [
    38, 28, 32, 36, 40, 44, 46, 47, 48, 49, 50, 51, 52, 53, 54, 54, 55, 55, 56, 56, 57, 57, 58, 58,
    58, 59, 59, 59, 60, 60,
];
const INTERNAL: [i32; 29] = [
    0, 0, 11, 20, 20, 21, 23, 24, 25, 26, 27, 28, 29, 29, 30, 31, 31, 32, 32, 33, 33, 34, 34, 34,
    35, 35, 35, 36, 36,
];
const STACK: [[i32; 6]; 6] = [
    [-9, -11, -22, -21, -6, -14],
    [-13, -9, -24, -21, -10, -7],
    [-24, -21, -33, -24, -15, -15],
    [-21, -21, -24, -34, -14, -21],
    [-13, -10, -25, -15, -5, -13],
    [-10, -7, -15, -15, -3, -5],
];

/// The six pairs, in the order of the stack figures.
pub const PAIRS: [[u8; 2]; 6] = [*b"AU", *b"UA", *b"GC", *b"CG", *b"GU", *b"UG"];

/// The longest side of a bulge or an internal loop.
pub const LONGEST_SIDE: usize = 29;

/// A loop's kind, with its sizes.
#[derive(Debug, Clone, Copy, PartialEq, Eq)]
pub enum Kind {
    Hairpin(usize),
    Stack,
    Bulge(usize),
    Internal(usize, usize),
    Many(usize),
}

/// One loop of a structure: where it opens, its kind, and its charge in thousandths.
#[derive(Debug, Clone, Copy, PartialEq, Eq)]
pub struct Entry {
    pub place: usize,
    pub kind: Kind,
    pub charge: i32,
}

/// The number of a pair in the order of the stack figures, if it is one of the six.
fn pair(a: u8, b: u8) -> Option<usize> {
    PAIRS.iter().position(|&pair| pair == [a, b])
}

/// Whether i and j may close a loop.
pub fn may_close(bases: &[u8], i: usize, j: usize) -> bool {
    pair(bases[i], bases[j]).is_some() && i + 4 <= j
}

/// The figure of a size in a table that begins at the size `first`, in thousandths.
fn sized(table: &[i32], first: usize, size: usize) -> i32 {
    if size <= 30 {
        return 100 * table[size - first];
    }
    let term = 1000.0 * 1.75 * 0.001987 * 310.15 * (size as f64 / 30.0).ln();
    100 * table[30 - first] + term.round() as i32
}

/// What the hairpin of i and j costs.
pub fn hairpin(bases: &[u8], i: usize, j: usize) -> i32 {
    let size = j - i - 1;
    let purines = [bases[i + 1], bases[j - 1]]
        .iter()
        .filter(|base| b"AG".contains(base))
        .count();
    let mismatch = if size >= 4 { -400 * purines as i32 } else { 0 };
    sized(&HAIRPIN, 3, size) + mismatch
}

/// The kind of a loop with one inner pair by its sides alone, and what it costs by that.
pub fn own(bases: &[u8], (i, j): (usize, usize), (x, y): (usize, usize)) -> (Kind, i32) {
    let stack = || {
        let outer = pair(bases[i], bases[j]).expect("a pair of the six");
        let inner = pair(bases[x], bases[y]).expect("a pair of the six");
        100 * STACK[outer][inner]
    };
    match (x - i - 1, j - y - 1) {
        (0, 0) => (Kind::Stack, stack()),
        (0, 1) | (1, 0) => (Kind::Bulge(1), sized(&BULGE, 1, 1) + stack()),
        (0, size) | (size, 0) => (Kind::Bulge(size), sized(&BULGE, 1, size)),
        (left, right) => {
            let slant = (3 * left.abs_diff(right)).min(30) as i32;
            let figure = sized(&INTERNAL, 2, left + right) + 100 * slant;
            (Kind::Internal(left, right), figure)
        }
    }
}

fn many(arms: usize) -> i32 {
    3400 + 400 + 400 * arms as i32
}

/// The pairs straight inside i and j.
fn inner(table: &[u16], i: usize, j: usize) -> Vec<(usize, usize)> {
    let inside: Vec<(usize, usize)> = slow::pairs(table)
        .into_iter()
        .filter(|&(x, y)| i < x && y < j)
        .collect();
    let covered = |&(x, y): &(usize, usize)| inside.iter().any(|&(a, b)| a < x && y < b);
    inside
        .iter()
        .copied()
        .filter(|pair| !covered(pair))
        .collect()
}

/// The loop that i and j close.
fn entry(bases: &[u8], table: &[u16], i: usize, j: usize) -> Entry {
    let of = |(kind, charge)| Entry {
        place: i,
        kind,
        charge,
    };
    match inner(table, i, j)[..] {
        [] => of((Kind::Hairpin(j - i - 1), hairpin(bases, i, j))),
        [(x, y)] => {
            if x - i - 1 > LONGEST_SIDE || j - y - 1 > LONGEST_SIDE {
                return of((Kind::Many(1), many(1)));
            }
            let (kind, charge) = own(bases, (i, j), (x, y));
            if charge <= many(1) {
                of((kind, charge))
            } else {
                of((Kind::Many(1), many(1)))
            }
        }
        ref several => of((Kind::Many(several.len()), many(several.len()))),
    }
}

/// Every loop of a sound table whose pairs may close loops, by rising place.
pub fn account(bases: &[u8], table: &[u16]) -> Vec<Entry> {
    let pairs = slow::pairs(table);
    pairs
        .iter()
        .map(|&(i, j)| entry(bases, table, i, j))
        .collect()
}

/// The energy of such a table.
pub fn energy(bases: &[u8], table: &[u16]) -> i32 {
    account(bases, table).iter().map(|entry| entry.charge).sum()
}

/// The first opening place whose pair may not close a loop, if there is one.
pub fn barred(bases: &[u8], table: &[u16]) -> Option<usize> {
    let pairs = slow::pairs(table);
    pairs
        .iter()
        .find(|&&(i, j)| !may_close(bases, i, j))
        .map(|&(i, _)| i)
}

/// The original's own figure of a loop, in thousandths, where one of its functions gives it.
pub fn by_the_original(bases: &[u8], table: &[u16], i: usize) -> Option<i32> {
    let j = usize::from(table[i]);
    let energy = match inner(table, i, j)[..] {
        [] => doors::hairpin_energy(bases, i, j),
        [(x, y)] if x == i + 1 && y + 1 == j => {
            doors::stacking_energy(bases[i], bases[j], bases[x], bases[y])
        }
        [(x, y)] => doors::internal_loop_energy(bases, i, j, x, y),
        _ => return None,
    };
    Some((1000.0 * energy).round() as i32)
}

/// What an entry's own figure is, before the many-armed one is preferred to it.
pub fn own_figure(bases: &[u8], table: &[u16], i: usize) -> Option<i32> {
    let j = usize::from(table[i]);
    match inner(table, i, j)[..] {
        [] => Some(hairpin(bases, i, j)),
        [inside] => Some(own(bases, (i, j), inside).1),
        _ => None,
    }
}
