//! The fold that counts pairs, accepted and refused, with the memory before and after.

use crate::slow::{self, refusal};
use crate::{same, Found};
use original::rna_structure as theirs;
use std::collections::VecDeque;
use strands::{spell, strand, Random, Spelling, Temper};
use yukemasop::folds::{self, Record};
use yukemasop::tables::UNPAIRED;
use yukemasop::Refusal;

/// Gaps around the usual one, around the longest strand, and such that 16 or 32 bits or a sum lose.
pub const GAPS: [usize; 12] = [
    0,
    1,
    2,
    3,
    4,
    5,
    6,
    255,
    256,
    (1 << 16) + 3,
    (1 << 32) + 3,
    usize::MAX,
];

/// Bytes that are no base: letters, signs beside the letters, and bases with the highest bit set.
pub const NO_BASES: [u8; 12] = *b"NnIX.@` \0\xC1\xF5\xFF";

pub fn compare(random: &mut Random, size: usize) -> Found {
    let mut calls = Calls::default();
    calls.bench_sheet(random)?;
    calls.all_short_strands(random)?;
    calls.every_length(random)?;
    calls.no_bases(random)?;
    calls.short_buffers(random)?;
    calls.limits(random)?;
    for _ in 0..size {
        let seq = some_strand(random);
        let gap = random.pick(&GAPS);
        calls.strand(random, &seq, gap)?;
        let seq = damaged(random, &seq);
        let room = some_room(random, seq.len());
        calls.call(random, &seq, gap, room)?;
    }
    Ok(format!(
        "counting: {} strands, {} calls refused",
        calls.strands, calls.refused
    ))
}

/// How much was compared.
#[derive(Default)]
struct Calls {
    strands: usize,
    refused: usize,
}

/// The three buffers that a fold is lent.
#[derive(Clone)]
struct Lent {
    bases: Vec<u8>,
    cells: Vec<u16>,
    pairs: Vec<u16>,
}

impl Lent {
    /// Junk: any numbers, or small ones that could pass for cells.
    fn junk(random: &mut Random, room: [usize; 3]) -> Lent {
        let bound = random.pick(&[1 << 16, 4]);
        let mut number = |_| random.below(bound) as u16;
        Lent {
            bases: (0..room[0]).map(|k| number(k) as u8).collect(),
            cells: (0..room[1]).map(&mut number).collect(),
            pairs: (0..room[2]).map(&mut number).collect(),
        }
    }

    /// What an accepted fold leaves in it.
    fn write(&mut self, letters: &[u8], gap: usize, structure: &theirs::RnaSecondaryStructure) {
        let entry = |partner: &Option<usize>| partner.map_or(UNPAIRED, |j| j as u16);
        let pairs: Vec<u16> = structure.pairs.iter().map(entry).collect();
        let cells = slow::cells(letters, gap);
        self.bases[..letters.len()].copy_from_slice(letters);
        self.cells[..cells.len()].copy_from_slice(&cells);
        self.pairs[..pairs.len()].copy_from_slice(&pairs);
    }

    /// The first difference from the memory that is due.
    fn differs(&self, due: &Lent) -> Result<(), String> {
        alike("bases", &self.bases, &due.bases)?;
        alike("cells", &self.cells, &due.cells)?;
        alike("pairs", &self.pairs, &due.pairs)
    }
}

/// Memory of one length, by its first difference: a whole fold table in a message would hide the place.
pub fn alike<T: PartialEq + std::fmt::Debug>(
    what: &str,
    ours: &[T],
    due: &[T],
) -> Result<(), String> {
    match (0..due.len()).find(|&k| ours[k] != due[k]) {
        Some(k) => same(&format!("place {k} of the {what}"), &ours[k], &due[k]),
        None => Ok(()),
    }
}

pub fn shown(seq: &[u8], gap: usize) -> String {
    format!("{:?} with gap {gap}", String::from_utf8_lossy(seq))
}

impl Calls {
    /// An accepted strand: with room to spare, and by the call that has the original's name and shape.
    fn strand(&mut self, random: &mut Random, seq: &[u8], gap: usize) -> Result<(), String> {
        self.call(random, seq, gap, slow::need(seq.len()).map(|room| room + 3))?;
        let original = the_originals(seq, gap)?;
        let ours = yukemasop::nussinov(seq, gap).map(|found| {
            (
                found.max_pairs,
                found.structure.length,
                found.structure.pairs,
            )
        });
        let due = original.structure;
        same(
            &format!("structure of {}", shown(seq, gap)),
            ours,
            Ok((original.max_pairs, due.length, due.pairs)),
        )
    }

    /// Any input with any room: the answer by the original or the refusal by the slow reading, and the memory.
    fn call(
        &mut self,
        random: &mut Random,
        seq: &[u8],
        gap: usize,
        room: [usize; 3],
    ) -> Result<(), String> {
        let mut lent = Lent::junk(random, room);
        let mut left = lent.clone();
        let due = match slow::read(seq, room) {
            Err(refusal) => {
                self.refused += 1;
                Err(refusal)
            }
            Ok(letters) => {
                self.strands += 1;
                let original = the_originals(seq, gap)?;
                left.write(&letters, gap, &original.structure);
                let length = seq.len();
                Ok((Record { length, gap }, original.max_pairs))
            }
        };
        let ours = folds::nussinov(seq, gap, &mut lent.bases, &mut lent.cells, &mut lent.pairs);
        let input = format!("{} in room {room:?}", shown(seq, gap));
        same(&input, ours, due)?;
        lent.differs(&left)
            .map_err(|difference| format!("memory after {input}, {difference}"))
    }

    /// A call that must be refused so.
    fn refused(
        &mut self,
        random: &mut Random,
        seq: &[u8],
        room: [usize; 3],
        due: Refusal,
    ) -> Result<(), String> {
        let what = format!("the slow reading of {} in room {room:?}", shown(seq, 3));
        same(&what, slow::read(seq, room).err(), Some(due))?;
        self.call(random, seq, 3, room)?;
        // The call of the original's shape lends itself enough.
        if due.number == 4 {
            return Ok(());
        }
        let what = format!("nussinov of {}", shown(seq, 3));
        same(&what, yukemasop::nussinov(seq, 3).err(), Some(due))
    }

    /// The lines on counts that the bench sheet has.
    fn bench_sheet(&mut self, random: &mut Random) -> Result<(), String> {
        let lines: [(&[u8], usize, usize, &str); 7] = [
            (b"A", 3, 0, "."),
            (b"GC", 0, 1, "()"),
            (b"GC", 1, 0, ".."),
            (b"GGGGCCCC", 3, 2, ".((...))"),
            (b"GGGAAACCC", 3, 3, "(((...)))"),
            (b"GGGAAACCA", 3, 2, ".((...))."),
            (b"GGGAAACCAC", 3, 3, "(((...)).)"),
        ];
        for (seq, gap, count, text) in lines {
            self.strand(random, seq, gap)?;
            let ours = yukemasop::nussinov(seq, gap)
                .map(|found| (found.max_pairs, found.structure.to_dot_bracket()));
            same(
                "a line of the bench sheet",
                ours,
                Ok((count, text.to_string())),
            )?;
        }
        Ok(())
    }

    /// Every strand over A, C, G and U: with gaps 0 and 3 to length 7, with gaps 1 and 2 to length 5.
    fn all_short_strands(&mut self, random: &mut Random) -> Result<(), String> {
        let grown = |seq: &[u8]| b"ACGU".map(|base| [seq, &[base]].concat());
        let mut waiting = VecDeque::from(grown(b""));
        while let Some(seq) = waiting.pop_front() {
            let gaps: &[usize] = if seq.len() <= 5 {
                &[0, 1, 2, 3]
            } else {
                &[0, 3]
            };
            for &gap in gaps {
                self.strand(random, &seq, gap)?;
            }
            if seq.len() < 7 {
                waiting.extend(grown(&seq));
            }
        }
        Ok(())
    }

    /// Every length that is accepted, once.
    fn every_length(&mut self, random: &mut Random) -> Result<(), String> {
        for length in 1..=slow::LONGEST {
            let seq = spelled(random, length);
            let gap = random.pick(&GAPS);
            self.strand(random, &seq, gap)?;
        }
        Ok(())
    }

    /// Bytes that are no base at every place, alone and with others behind, whatever room there is.
    fn no_bases(&mut self, random: &mut Random) -> Result<(), String> {
        for length in [1, 2, 9, 40, slow::LONGEST] {
            let seq = spelled(random, length);
            for place in 0..length {
                // All kinds at every place of the longest would only take long.
                let some = [NO_BASES[place % NO_BASES.len()]];
                let kinds = if length > 40 { &some[..] } else { &NO_BASES };
                for &byte in kinds {
                    let mut bad = seq.clone();
                    bad[place] = byte;
                    let due = refusal(2, Some(place));
                    self.refused(random, &bad, slow::need(length), due)?;
                    bad[place..].fill(byte);
                    self.refused(random, &bad, [0; 3], due)?;
                }
            }
        }
        Ok(())
    }

    /// One, two or all three buffers one short, with the others just enough or with room to spare.
    fn short_buffers(&mut self, random: &mut Random) -> Result<(), String> {
        for length in [1, 2, 3, 9, 40, slow::LONGEST] {
            let seq = spelled(random, length);
            for short in 1..8 {
                for spare in [0, 3] {
                    let mut room = slow::need(length);
                    for (which, room) in room.iter_mut().enumerate() {
                        if short >> which & 1 == 1 {
                            *room -= 1;
                        } else {
                            *room += spare;
                        }
                    }
                    self.refused(random, &seq, room, refusal(4, None))?;
                }
            }
            self.refused(random, &seq, [0; 3], refusal(4, None))?;
        }
        Ok(())
    }

    /// 256 bases are accepted, in just enough room; none is refused as 1 and more as 3, whatever else is wrong.
    fn limits(&mut self, random: &mut Random) -> Result<(), String> {
        let longest = slow::need(slow::LONGEST);
        for temper in Temper::ALL {
            let seq = strand(random, temper, slow::LONGEST);
            same(
                "the slow reading of 256 bases",
                slow::read(&seq, longest).err(),
                None,
            )?;
            self.call(random, &seq, 3, longest)?;
        }
        for room in [[0; 3], [3; 3], longest] {
            self.refused(random, b"", room, refusal(1, None))?;
        }
        // In 16 bits the last two are no base and one.
        for length in [257, 258, 512, 1 << 16, (1 << 16) + 1] {
            let enough = slow::need(257).map(|room| room + 3);
            for room in [enough, longest, [0; 3]] {
                let seq = spelled(random, length);
                self.refused(random, &seq, room, refusal(3, None))?;
                self.refused(random, &vec![b'N'; length], room, refusal(3, None))?;
            }
        }
        Ok(())
    }
}

pub fn the_originals(seq: &[u8], gap: usize) -> Result<theirs::NussinovResult, String> {
    theirs::nussinov(seq, gap)
        .map_err(|error| format!("the original on {}: {error:?}", shown(seq, gap)))
}

/// A strand of any temper and spelling.
pub fn spelled(random: &mut Random, length: usize) -> Vec<u8> {
    let temper = random.pick(&Temper::ALL);
    let plain = strand(random, temper, length);
    let spelling = random.pick(&Spelling::ALL);
    spell(random, spelling, &plain)
}

/// Mostly short, sometimes up to the limit.
fn some_strand(random: &mut Random) -> Vec<u8> {
    let most = random.pick(&[60, 60, 60, 60, 60, 60, 60, 60, 120, slow::LONGEST]);
    let length = 1 + random.below(most);
    spelled(random, length)
}

/// The strand as it is, or with one to three bytes changed to any.
pub fn damaged(random: &mut Random, seq: &[u8]) -> Vec<u8> {
    let mut seq = seq.to_vec();
    for _ in 0..random.below(4) {
        let at = random.below(seq.len());
        seq[at] = random.below(256) as u8;
    }
    seq
}

/// Room that is mostly enough for each buffer, and else one short or none.
fn some_room(random: &mut Random, n: usize) -> [usize; 3] {
    slow::need(n).map(|room| match random.below(8) {
        0 => room - 1,
        1 => 0,
        spare => room + spare - 2,
    })
}
