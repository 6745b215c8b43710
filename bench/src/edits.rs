//! Edits at the longest sequence, against a fold made anew: ours, and the original's, which has no edits.

use crate::time;
use original::rna_structure as theirs;
use std::time::Duration;
use strands::{strand, Random, Temper};
use yukemasop::folds::{self, Record};

/// The gap of the original's example.
const GAP: usize = 3;

/// The number of bases after each edit.
const LENGTH: usize = 256;

/// A folded sequence to edit.
struct Folded {
    record: Record,
    bases: Vec<u8>,
    cells: Vec<u16>,
}

impl Folded {
    fn new(seq: &[u8]) -> Folded {
        let (mut bases, mut pairs) = (vec![0; LENGTH], vec![0; LENGTH]);
        let mut cells = vec![0; folds::cells_of(LENGTH)];
        let (record, _) = folds::nussinov(seq, GAP, &mut bases, &mut cells, &mut pairs)
            .expect("a strand of that length is accepted");
        Folded {
            record,
            bases,
            cells,
        }
    }

    /// The time of one replace; the letters take turns, so that every call has something to change.
    fn replace(&mut self, position: usize) -> Duration {
        let mut letters = b"AG".iter().cycle();
        time(|| {
            let &letter = letters.next().expect("it never ends");
            folds::replace(
                self.record,
                &mut self.bases,
                &mut self.cells,
                position,
                letter,
            )
        })
    }

    /// The time of one add; the record is not kept, so that every call adds at the same end.
    fn add(&mut self) -> Duration {
        let mut letters = b"AG".iter().cycle();
        time(|| {
            let &letter = letters.next().expect("it never ends");
            folds::add(self.record, &mut self.bases, &mut self.cells, letter)
        })
    }
}

/// The times of one fold of the strand: the original's and ours.
fn refolded(seq: &[u8]) -> [Duration; 2] {
    let (mut bases, mut pairs) = (vec![0; LENGTH], vec![0; LENGTH]);
    let mut cells = vec![0; folds::cells_of(LENGTH)];
    [
        time(|| theirs::nussinov(seq, GAP).is_ok()),
        time(|| folds::nussinov(seq, GAP, &mut bases, &mut cells, &mut pairs)),
    ]
}

pub fn measure() {
    println!("| strand of 256 bases | original, nussinov | folds::nussinov | edit | time | ratio to the original | to folds::nussinov |");
    println!("|---|---|---|---|---|---|---|");
    let mut random = Random::new(1);
    for temper in Temper::ALL {
        let seq = strand(&mut random, temper, LENGTH);
        let [original, fold] = refolded(&seq);
        let mut whole = Folded::new(&seq);
        let mut shorter = Folded::new(&seq[..LENGTH - 1]);
        let edits = [
            ("replace, first", whole.replace(0)),
            ("replace, middle", whole.replace(LENGTH / 2)),
            ("replace, last", whole.replace(LENGTH - 1)),
            ("add", shorter.add()),
        ];
        for (edit, took) in edits {
            let ratio = |to: Duration| to.as_secs_f64() / took.as_secs_f64();
            println!(
                "| {temper:?} | {original:?} | {fold:?} | {edit} | {took:?} | {:.2} | {:.2} |",
                ratio(original),
                ratio(fold),
            );
        }
    }
}
