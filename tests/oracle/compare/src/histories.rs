//! Histories of edits: after each edit, accepted or refused, a fold made anew of the sequence spelled so far.

use crate::counting::{alike, shown, spelled, the_originals, NO_BASES};
use crate::same;
use crate::slow::{self, Edit, Held};
use strands::{spell, strand, Random, Spelling, Temper};
use yukemasop::folds::{self, Record};
use yukemasop::tables::UNPAIRED;

/// How often the original folds the sequence too: it takes longer.
const ORIGINAL_EVERY: usize = 20;

/// How much was compared.
#[derive(Default)]
pub struct Tally {
    pub accepted: usize,
    pub refused: usize,
    pub folds: usize,
    pub originals: usize,
}

impl Tally {
    pub fn edits(&self) -> usize {
        self.accepted + self.refused
    }
}

impl std::fmt::Display for Tally {
    fn fmt(&self, f: &mut std::fmt::Formatter<'_>) -> std::fmt::Result {
        write!(
            f,
            "histories of {} edits ({} accepted, {} refused), {} fresh folds, {} by the original",
            self.edits(),
            self.accepted,
            self.refused,
            self.folds,
            self.originals
        )
    }
}

/// Histories of so many edits in all; `progress` is called after each edit.
pub fn compare(
    random: &mut Random,
    edits: usize,
    mut progress: impl FnMut(&Tally),
) -> Result<Tally, String> {
    let mut tally = Tally::default();
    // The first goes the whole way, so that both limits are met in every run that is not tiny.
    let mut whole = true;
    while tally.edits() < edits {
        let (mut history, plan) = History::begin(random, whole)?;
        whole = random.below(2000) == 0;
        for weights in plan {
            if tally.edits() == edits {
                break;
            }
            history.step(random, weights, &mut tally)?;
            progress(&tally);
        }
    }
    Ok(tally)
}

/// How often a history replaces, adds and erases.
type Weights = [usize; 3];

/// A sequence being edited.
struct History {
    /// As it would be typed.
    seq: Vec<u8>,
    temper: Temper,
    held: Held,
}

/// A fold made anew, in memory of its own.
struct Fresh {
    record: Record,
    count: usize,
    bases: Vec<u8>,
    cells: Vec<u16>,
    pairs: Vec<u16>,
}

impl Fresh {
    fn fold(seq: &[u8], gap: usize) -> Result<Fresh, String> {
        let [bases, cells, pairs] = slow::need(seq.len());
        let (mut bases, mut cells, mut pairs) = (vec![0; bases], vec![0; cells], vec![0; pairs]);
        let (record, count) = folds::nussinov(seq, gap, &mut bases, &mut cells, &mut pairs)
            .map_err(|refusal| format!("the fold of {}: {refusal}", shown(seq, gap)))?;
        Ok(Fresh {
            record,
            count,
            bases,
            cells,
            pairs,
        })
    }
}

impl History {
    /// A fold to start from, and the weights of the edits to come: mostly of short strands, some up to the limit.
    fn begin(random: &mut Random, whole: bool) -> Result<(History, Vec<Weights>), String> {
        let mood = random.pick(&[[1, 1, 1], [1, 1, 1], [6, 1, 1], [2, 6, 1], [2, 1, 6]]);
        let (start, most, plan) = match random.below(400) {
            _ if whole => {
                let up = vec![[0, 1, 0]; slow::LONGEST + 40];
                let down = vec![[0, 0, 1]; slow::LONGEST + 4];
                let plan = [up, vec![[1, 0, 0]; 8], down].concat();
                (1, slow::LONGEST + 2, plan)
            }
            0 | 1 => {
                let start = slow::LONGEST - random.below(20);
                (start, slow::LONGEST + random.below(3), vec![mood; 24])
            }
            2..=5 => {
                let start = 1 + random.below(slow::LONGEST);
                (start, slow::LONGEST.min(start + 12), vec![mood; 12])
            }
            6..=25 => {
                let start = 1 + random.below(90);
                (start, start + random.below(30), vec![mood; 24])
            }
            26..=125 => (1 + random.below(3), 1 + random.below(8), vec![mood; 16]),
            _ => {
                let start = 1 + random.below(24);
                (start, start + random.below(16), vec![mood; 40])
            }
        };
        let most = most.max(start);
        let seq = spelled(random, start);
        let gap = random.pick(&[0, 1, 2, 3, 3, 3, 4, 5, 6, 12, usize::MAX]);
        let mut bases: Vec<u8> = (0..most).map(|_| random.draw() as u8).collect();
        let room = slow::place(0, most) + random.below(3);
        let mut cells: Vec<u16> = (0..room).map(|_| random.draw() as u16).collect();
        let mut pairs = vec![UNPAIRED; start];
        let (record, _) = folds::nussinov(&seq, gap, &mut bases, &mut cells, &mut pairs)
            .map_err(|refusal| format!("the fold of {}: {refusal}", shown(&seq, gap)))?;
        let history = History {
            seq,
            temper: random.pick(&Temper::ALL),
            held: Held {
                record,
                bases,
                cells,
            },
        };
        Ok((history, plan))
    }

    /// One edit and everything that is compared after it.
    fn step(
        &mut self,
        random: &mut Random,
        weights: Weights,
        tally: &mut Tally,
    ) -> Result<(), String> {
        let edit = some_edit(random, self.seq.len(), self.temper, weights);
        let before = self.held.clone();
        let gap = before.record.gap;
        let what = format!(
            "{edit:?} in a history at {} in room {} and {}",
            shown(&self.seq, gap),
            before.bases.len(),
            before.cells.len()
        );
        let judged = before.judge(edit);
        let answer = made(&mut self.held, edit);
        match judged {
            Ok(()) => {
                tally.accepted += 1;
                spell_edit(&mut self.seq, edit);
            }
            Err(_) => {
                tally.refused += 1;
                self.left(&before)
                    .map_err(|difference| format!("refused memory after {what}, {difference}"))?;
            }
        }
        let fresh = Fresh::fold(&self.seq, gap)?;
        tally.folds += 1;
        same(&what, answer, judged.map(|()| fresh.count))?;
        same(&what, self.held.record, fresh.record)?;
        // What a fold made anew has, and around it the memory as it was before the call.
        let mut due = before;
        due.bases[..fresh.bases.len()].copy_from_slice(&fresh.bases);
        due.cells[..fresh.cells.len()].copy_from_slice(&fresh.cells);
        self.left(&due)
            .map_err(|difference| format!("memory after {what}, {difference}"))?;
        self.traced(random, &fresh)
            .map_err(|difference| format!("traceback after {what}, {difference}"))?;
        if tally.edits().is_multiple_of(ORIGINAL_EVERY) {
            tally.originals += 1;
            let original = the_originals(&self.seq, gap)?;
            let entry = |partner: &Option<usize>| partner.map_or(UNPAIRED, |j| j as u16);
            let pairs: Vec<u16> = original.structure.pairs.iter().map(entry).collect();
            same(&what, fresh.count, original.max_pairs)?;
            same(&what, fresh.pairs, pairs)?;
        }
        Ok(())
    }

    /// The structure from the record, with room to spare or just enough.
    fn traced(&self, random: &mut Random, fresh: &Fresh) -> Result<(), String> {
        let room = fresh.pairs.len() + random.below(3);
        let mut pairs: Vec<u16> = (0..room).map(|_| random.draw() as u16).collect();
        let mut due = pairs.clone();
        due[..fresh.pairs.len()].copy_from_slice(&fresh.pairs);
        let Held {
            record,
            bases,
            cells,
        } = &self.held;
        let answer = folds::traceback(*record, bases, cells, &mut pairs);
        same("the number of pairs", answer, Ok(fresh.count))?;
        alike("pairs", &pairs, &due)
    }

    fn left(&self, due: &Held) -> Result<(), String> {
        alike("bases", &self.held.bases, &due.bases)?;
        alike("cells", &self.held.cells, &due.cells)
    }
}

/// Makes an edit by the library; a refused one keeps the record.
pub fn made(held: &mut Held, edit: Edit) -> yukemasop::Result<usize> {
    let Held {
        record,
        bases,
        cells,
    } = held;
    let (after, count) = match edit {
        Edit::Replace(position, byte) => folds::replace(*record, bases, cells, position, byte),
        Edit::Add(byte) => folds::add(*record, bases, cells, byte),
        Edit::Erase => folds::erase(*record, bases, cells),
    }?;
    *record = after;
    Ok(count)
}

/// What an accepted edit makes of the sequence as it is typed.
pub fn spell_edit(seq: &mut Vec<u8>, edit: Edit) {
    match edit {
        Edit::Replace(position, byte) => seq[position] = byte,
        Edit::Add(byte) => seq.push(byte),
        Edit::Erase => seq.truncate(seq.len() - 1),
    }
}

/// An edit of `n` bases, now and then with a byte that is no base or a position outside.
pub fn some_edit(random: &mut Random, n: usize, temper: Temper, weights: Weights) -> Edit {
    let byte = match random.below(24) {
        0 => random.pick(&NO_BASES),
        1 => random.below(256) as u8,
        _ => {
            let base = strand(random, temper, 1);
            spell(random, Spelling::Mixed, &base)[0]
        }
    };
    let [replace, add, erase] = weights;
    match random.below(replace + add + erase) {
        draw if draw < replace => {
            let position = match random.below(12) {
                0 => n + random.pick(&[0, 0, 1, 1 << 16, 1 << 32]),
                1 => usize::MAX,
                2 => 0,
                3 => n - 1,
                _ => random.below(n),
            };
            Edit::Replace(position, byte)
        }
        draw if draw < replace + add => Edit::Add(byte),
        _ => Edit::Erase,
    }
}
