//! Edits and the traceback from a record, accepted and refused, with the memory before and after; then histories.

use crate::counting::{alike, shown, spelled, the_originals, GAPS, NO_BASES};
use crate::histories::{self, made};
use crate::slow::{self, refusal, Edit, Held};
use crate::{same, Found};
use strands::{strand, Random, Temper};
use yukemasop::folds::{self, Record};
use yukemasop::tables::UNPAIRED;
use yukemasop::Editor;
use yukemasop::Refusal;

/// Bytes that are bases, and yet are never kept so.
const NOT_KEPT: [u8; 6] = *b"acgutT";

/// Lengths that no record has: none, just too many, and such that 8, 16 or 32 bits lose.
const NO_LENGTHS: [usize; 8] = [
    0,
    257,
    258,
    512,
    1 << 16,
    (1 << 16) + 9,
    (1 << 32) + 9,
    usize::MAX,
];

pub fn compare(random: &mut Random, size: usize) -> Found {
    let mut calls = Calls::default();
    calls.bench_sheet(random)?;
    calls.no_lengths(random)?;
    calls.short_buffers(random)?;
    calls.no_letters(random)?;
    calls.bounds(random)?;
    calls.own_checks(random)?;
    calls.editor(random)?;
    for _ in 0..size {
        let held = believable(random);
        calls.each(random, &held)?;
        let held = damaged(random, held);
        calls.any(random, &held)?;
    }
    let compared = histories::compare(random, 20 * size, |_| {})?;
    Ok(format!(
        "edits: {} made and {} traced from any believable table, {} refused; {compared}",
        calls.made, calls.traced, calls.refused
    ))
}

/// How much was compared.
#[derive(Default)]
struct Calls {
    made: usize,
    traced: usize,
    refused: usize,
}

impl Calls {
    /// An edit of any memory: the answer, the record and the memory by the slow reading.
    fn edit(&mut self, held: &Held, edit: Edit) -> Result<(), String> {
        let (mut ours, mut due) = (held.clone(), held.clone());
        let answer = made(&mut ours, edit);
        let what = format!("{edit:?} of {}", told(held));
        same(&what, answer, due.edit(edit))?;
        same(&format!("the record of {what}"), ours.record, due.record)?;
        alike("bases", &ours.bases, &due.bases)
            .and_then(|()| alike("cells", &ours.cells, &due.cells))
            .map_err(|difference| format!("memory after {what}, {difference}"))?;
        match answer {
            Ok(_) => self.made += 1,
            Err(_) => self.refused += 1,
        }
        Ok(())
    }

    /// The traceback of any memory into so much room, by the slow reading.
    fn trace(&mut self, random: &mut Random, held: &Held, room: usize) -> Result<(), String> {
        let mut ours: Vec<u16> = (0..room).map(|_| random.draw() as u16).collect();
        let mut due = ours.clone();
        let answer = folds::traceback(held.record, &held.bases, &held.cells, &mut ours);
        let what = format!("traceback into {room} of {}", told(held));
        same(&what, answer, held.traceback(&mut due))?;
        alike("pairs", &ours, &due)
            .map_err(|difference| format!("memory after {what}, {difference}"))?;
        match answer {
            Ok(_) => self.traced += 1,
            Err(_) => self.refused += 1,
        }
        Ok(())
    }

    /// An edit that must be refused so.
    fn refused(&mut self, held: &Held, edit: Edit, due: Refusal) -> Result<(), String> {
        let what = format!("the slow reading of {edit:?} of {}", told(held));
        same(&what, held.judge(edit), Err(due))?;
        self.edit(held, edit)
    }

    /// Memory from which every call must be refused so, whatever is wrong with its own arguments.
    fn all_refused(
        &mut self,
        random: &mut Random,
        held: &Held,
        due: Refusal,
    ) -> Result<(), String> {
        for edit in [
            Edit::Replace(0, b'A'),
            Edit::Replace(0, b'N'),
            Edit::Replace(usize::MAX, b'A'),
            Edit::Replace(usize::MAX, b'N'),
            Edit::Add(b'C'),
            Edit::Add(b'N'),
            Edit::Erase,
        ] {
            self.refused(held, edit, due)?;
        }
        for room in [0, 260] {
            let what = format!("the slow reading of the traceback of {}", told(held));
            same(&what, held.traceback(&mut vec![0; room]), Err(due))?;
            self.trace(random, held, room)?;
        }
        Ok(())
    }

    /// Memory from which every call must be accepted, but for an add at the limit and an erase of one base.
    fn all_accepted(&mut self, random: &mut Random, held: &Held) -> Result<(), String> {
        let n = held.record.length;
        same(
            "the slow reading",
            held.judge(Edit::Replace(0, b'A')),
            Ok(()),
        )?;
        let add = match n {
            slow::LONGEST => Err(refusal(3, None)),
            _ => Ok(()),
        };
        same("the slow reading", held.judge(Edit::Add(b'A')), add)?;
        let erase = match n {
            1 => Err(refusal(1, None)),
            _ => Ok(()),
        };
        same("the slow reading", held.judge(Edit::Erase), erase)?;
        self.each(random, held)
    }

    /// Each edit and the traceback, with arguments that are right.
    fn each(&mut self, random: &mut Random, held: &Held) -> Result<(), String> {
        let n = held.record.length;
        for position in [0, n - 1, random.below(n)] {
            self.edit(held, Edit::Replace(position, random.pick(b"ACGUacgutT")))?;
        }
        self.edit(held, Edit::Add(random.pick(b"ACGUacgutT")))?;
        self.edit(held, Edit::Erase)?;
        self.trace(random, held, n)?;
        self.trace(random, held, n + 3)
    }

    /// Each call, with any arguments.
    fn any(&mut self, random: &mut Random, held: &Held) -> Result<(), String> {
        let byte = |random: &mut Random| match random.below(3) {
            0 => random.below(256) as u8,
            _ => random.pick(b"ACGUacgutT"),
        };
        let near = held.record.length.min(300);
        let edit = Edit::Replace(random.below(near + 2), byte(random));
        self.edit(held, edit)?;
        self.edit(held, Edit::Add(byte(random)))?;
        self.edit(held, Edit::Erase)?;
        let room = random.below(2 * near + 2);
        self.trace(random, held, room)
    }

    /// The lines on edits and their limit that the bench sheet has.
    fn bench_sheet(&mut self, random: &mut Random) -> Result<(), String> {
        let mut held = folded(random, b"GGGAAACCC", 3, [13, 60])?;
        let mut editor = Editor::new(b"GGGAAACCC", 3).map_err(|refusal| refusal.to_string())?;
        let lines = [
            (Edit::Replace(8, b'A'), 2, ".((...))."),
            (Edit::Add(b'C'), 3, "(((...)).)"),
        ];
        for (edit, count, text) in lines {
            self.edit(&held, edit)?;
            same(
                "an edit of the bench sheet",
                made(&mut held, edit),
                Ok(count),
            )?;
            self.trace(random, &held, text.len())?;
            let ours = edited(&mut editor, edit).map(|count| (count, editor.structure()));
            let due = yukemasop::RnaSecondaryStructure::from_dot_bracket(text)
                .map(|structure| (count, structure));
            same("an edit of the bench sheet in the editor", ours, due)?;
        }
        let longest = spelled(random, slow::LONGEST);
        for room in [slow::LONGEST, slow::LONGEST + 1] {
            let held = folded(random, &longest, 3, [room, slow::place(0, room)])?;
            self.refused(&held, Edit::Add(b'A'), refusal(3, None))?;
        }
        let one = folded(random, b"g", 3, [4, 10])?;
        self.refused(&one, Edit::Erase, refusal(1, None))
    }

    /// Records of no bases or too many, with memory that is right, short, or wrong as well: 11 before 4.
    fn no_lengths(&mut self, random: &mut Random) -> Result<(), String> {
        let longest = spelled(random, slow::LONGEST);
        let right = folded(random, &longest, 3, [260, slow::place(0, 260)])?;
        let mut wrong = right.clone();
        wrong.bases.fill(b'N');
        wrong.cells.fill(u16::MAX);
        for held in [right, wrong] {
            for length in NO_LENGTHS {
                for [bases, cells] in [[260, slow::place(0, 260)], [256, 32896], [9, 45], [0, 0]] {
                    let held = Held {
                        record: Record { length, gap: 3 },
                        bases: held.bases[..bases].to_vec(),
                        cells: held.cells[..cells].to_vec(),
                    };
                    self.all_refused(random, &held, refusal(11, None))?;
                }
            }
        }
        Ok(())
    }

    /// Bases, cells or both one short of the present length, with contents that are right or wrong as well: 4 before 11.
    fn short_buffers(&mut self, random: &mut Random) -> Result<(), String> {
        for length in [1, 2, 9, 40, slow::LONGEST] {
            let seq = spelled(random, length);
            let [bases, cells, _] = slow::need(length);
            let right = folded(random, &seq, 3, [bases + 3, cells + 3])?;
            let mut wrong = right.clone();
            wrong.bases[0] = b'N';
            wrong.cells[0] = 1;
            self.all_refused(random, &wrong, refusal(11, None))?;
            for held in [right, wrong] {
                for [bases, cells] in [
                    [bases - 1, cells + 3],
                    [bases + 3, cells - 1],
                    [bases - 1, cells - 1],
                    [0, cells],
                    [bases, 0],
                ] {
                    let mut short = held.clone();
                    short.bases.truncate(bases);
                    short.cells.truncate(cells);
                    self.all_refused(random, &short, refusal(4, None))?;
                }
            }
        }
        Ok(())
    }

    /// Bytes that are never kept, at every place or some: 11 before each call's own checks. As spare memory they may stand.
    fn no_letters(&mut self, random: &mut Random) -> Result<(), String> {
        for length in [1, 2, 9, 40, slow::LONGEST] {
            let seq = spelled(random, length);
            let right = folded(random, &seq, 3, [length + 2, slow::place(0, length + 2)])?;
            for place in 0..=length {
                // The longest at every place with every byte would only take long.
                let few = length > 9;
                if few && place % 16 > 0 && place + 1 < length {
                    continue;
                }
                for (k, byte) in NO_BASES.into_iter().chain(NOT_KEPT).enumerate() {
                    if few && k % 6 != place / 16 % 6 {
                        continue;
                    }
                    let mut held = right.clone();
                    held.bases[place] = byte;
                    if place < length {
                        self.all_refused(random, &held, refusal(11, None))?;
                    } else {
                        self.all_accepted(random, &held)?;
                    }
                }
            }
        }
        Ok(())
    }

    /// Cells just at half their span and above it, one by one and all together; spare cells hold any number.
    fn bounds(&mut self, random: &mut Random) -> Result<(), String> {
        for length in [1, 2, 3, 9, 40, slow::LONGEST] {
            let seq = spelled(random, length);
            let gap = random.pick(&GAPS);
            let right = folded(random, &seq, gap, [length + 2, slow::place(0, length + 2)])?;
            let last = length - 1;
            let mut spans = vec![
                (0, 0),
                (0, last),
                (last, last),
                (0, last / 2),
                (last / 2, last),
            ];
            for _ in 0..4 {
                let j = random.below(length);
                spans.push((random.below(j + 1), j));
            }
            for (i, j) in spans {
                let mut held = right.clone();
                held.cells[slow::place(i, j)] = slow::most(i, j);
                self.all_accepted(random, &held)?;
                for above in [slow::most(i, j) + 1, 256, 1 << 15, u16::MAX] {
                    held.cells[slow::place(i, j)] = above;
                    self.all_refused(random, &held, refusal(11, None))?;
                }
            }
            let mut full = right.clone();
            for j in 0..length {
                for i in 0..=j {
                    full.cells[slow::place(i, j)] = slow::most(i, j);
                }
            }
            full.cells[slow::place(0, length)..].fill(u16::MAX);
            self.all_accepted(random, &full)?;
        }
        Ok(())
    }

    /// Each call's own checks, alone and with the next ones wrong as well.
    fn own_checks(&mut self, random: &mut Random) -> Result<(), String> {
        let [no_base, no_place] = [refusal(2, Some(0)), refusal(10, None)];
        let [too_long, no_room] = [refusal(3, None), refusal(4, None)];
        for length in [1, 2, 9, 40, slow::LONGEST] {
            let seq = spelled(random, length);
            let [bases, cells, _] = slow::need(length);
            let tight = folded(random, &seq, 3, [bases, cells])?;
            let loose = folded(random, &seq, 3, [bases + 3, cells + length + 4])?;
            for held in [&tight, &loose] {
                // 10 before 2.
                for position in [0, 1, 1 << 16, 1 << 32].map(|past| length + past) {
                    for byte in [b'A', b'N'] {
                        self.refused(held, Edit::Replace(position, byte), no_place)?;
                    }
                }
                // 2 before 3 and 4.
                for byte in NO_BASES {
                    self.refused(held, Edit::Replace(length - 1, byte), no_base)?;
                    self.refused(held, Edit::Add(byte), no_base)?;
                }
                for room in [0, length - 1, length, length + 3] {
                    self.trace(random, held, room)?;
                }
            }
            // 3 before 4.
            let at_limit = length == slow::LONGEST;
            let due = if at_limit { too_long } else { no_room };
            for [bases, cells] in [
                [bases, cells],
                [bases, cells + length + 1],
                [bases + 1, cells],
                [bases + 1, cells + length],
            ] {
                let mut held = loose.clone();
                held.bases.truncate(bases);
                held.cells.truncate(cells);
                self.refused(&held, Edit::Add(b'A'), due)?;
            }
            let mut held = loose.clone();
            held.bases.truncate(bases + 1);
            held.cells.truncate(cells + length + 1);
            self.all_accepted(random, &held)?;
        }
        Ok(())
    }

    /// The type that owns its memory: after each edit, by the original's fold of the sequence.
    fn editor(&mut self, random: &mut Random) -> Result<(), String> {
        for length in [1, 12, 253] {
            let mut letters = strand(random, Temper::GcRich, length);
            let mut editor = Editor::new(&letters, 3).map_err(|refusal| refusal.to_string())?;
            for _ in 0..40 {
                let edit = histories::some_edit(random, letters.len(), Temper::GcRich, [2, 3, 2]);
                let what = format!("{edit:?} of the editor on {}", shown(&letters, 3));
                let judged = roomy(&letters).judge(edit);
                let answer = edited(&mut editor, edit);
                if judged.is_ok() {
                    histories::spell_edit(&mut letters, edit);
                    letters = slow::read(&letters, slow::need(letters.len()))
                        .map_err(|refusal| format!("{what} spells what is {refusal}"))?;
                }
                let due = the_originals(&letters, 3)?;
                same(&what, answer, judged.map(|()| due.max_pairs))?;
                same(&what, editor.count(), due.max_pairs)?;
                same(&what, editor.sequence(), &letters)?;
                same(&what, editor.structure().pairs, due.structure.pairs)?;
            }
        }
        Ok(())
    }
}

/// Room as the editor has, for the slow reading to judge an edit by; any believed cells will do.
fn roomy(letters: &[u8]) -> Held {
    let [bases, cells, _] = slow::need(slow::LONGEST);
    let mut held = Held {
        record: Record {
            length: letters.len(),
            gap: 3,
        },
        bases: vec![0; bases],
        cells: vec![0; cells],
    };
    held.bases[..letters.len()].copy_from_slice(letters);
    held
}

fn edited(editor: &mut Editor, edit: Edit) -> yukemasop::Result<usize> {
    match edit {
        Edit::Replace(position, byte) => editor.replace(position, byte),
        Edit::Add(byte) => editor.add(byte),
        Edit::Erase => editor.erase(),
    }
}

/// What is held, without the cells of long sequences: a message should stay readable.
fn told(held: &Held) -> String {
    let n = held.record.length;
    let letters = &held.bases[..n.min(held.bases.len())];
    let cells = &held.cells[..slow::place(0, n.min(24)).min(held.cells.len())];
    format!(
        "{} of length {n} in room {} and {}, cells {cells:?}",
        shown(letters, held.record.gap),
        held.bases.len(),
        held.cells.len(),
    )
}

/// A strand folded into so much room for bases and cells, with junk in what is beyond the need.
fn folded(random: &mut Random, seq: &[u8], gap: usize, room: [usize; 2]) -> Result<Held, String> {
    let mut bases: Vec<u8> = (0..room[0]).map(|_| random.draw() as u8).collect();
    let mut cells: Vec<u16> = (0..room[1]).map(|_| random.draw() as u16).collect();
    let mut pairs = vec![UNPAIRED; seq.len()];
    let (record, _) = folds::nussinov(seq, gap, &mut bases, &mut cells, &mut pairs)
        .map_err(|refusal| format!("the fold of {}: {refusal}", shown(seq, gap)))?;
    Ok(Held {
        record,
        bases,
        cells,
    })
}

/// Kept letters with cells that are believed and mostly wrong, and mostly with room for one base more.
fn believable(random: &mut Random) -> Held {
    let most = random.pick(&[4, 9, 9, 24, 24, 24, 24, 60, 60, slow::LONGEST]);
    let length = 1 + random.below(most);
    let temper = random.pick(&Temper::ALL);
    let letters = strand(random, temper, length);
    let gap = random.pick(&GAPS);
    let right = slow::cells(&letters, gap);
    let mood = random.below(5);
    let mut bases: Vec<u8> = (0..length + random.below(4))
        .map(|_| random.draw() as u8)
        .collect();
    let room = slow::place(0, length + random.below(3)) + random.below(3);
    let mut cells: Vec<u16> = (0..room).map(|_| random.draw() as u16).collect();
    bases[..length].copy_from_slice(&letters);
    for j in 0..length {
        for i in 0..=j {
            let most = slow::most(i, j);
            let any = random.below(usize::from(most) + 1) as u16;
            let place = slow::place(i, j);
            cells[place] = match mood {
                0 => 0,
                1 => most,
                2 => any,
                // A few numbers only, so that the choices of the traceback reach the value often.
                3 => any.min(2),
                _ if random.below(8) == 0 => any,
                _ => right[place],
            };
        }
    }
    Held {
        record: Record { length, gap },
        bases,
        cells,
    }
}

/// The same with none to three things wrong.
fn damaged(random: &mut Random, mut held: Held) -> Held {
    let n = held.record.length;
    for _ in 0..random.below(4) {
        match random.below(6) {
            0 => held.record.length = random.pick(&NO_LENGTHS),
            1 => held.record.length = random.below(slow::LONGEST + 2),
            2 => held.bases.truncate(n - random.below(2)),
            3 => held.cells.truncate(slow::place(0, n) - random.below(2)),
            4 if !held.bases.is_empty() => {
                let at = random.below(held.bases.len());
                held.bases[at] = random.below(256) as u8;
            }
            _ if !held.cells.is_empty() => {
                let at = random.below(held.cells.len());
                held.cells[at] += u16::from(held.cells[at] < u16::MAX);
            }
            _ => {}
        }
    }
    held
}
