//! The least-energy fold, accepted and refused, with the memory before and after: against the
//! original, a plain second fill of the three tables, and an enumeration of all candidates.

use crate::charges::{self, LONGEST_SIDE};
use crate::counting::{alike, damaged, spelled, NO_BASES};
use crate::slow::{self, refusal};
use crate::{same, Found};
use original::rna_structure as theirs;
use strands::{strand, Random, Temper};
use yukemasop::folds::{self, cells_of, NO_STRUCTURE};
use yukemasop::tables::UNPAIRED;
use yukemasop::Refusal;

/// To this length the original's sums are exact enough for its structure to be ours.
const EQUAL_TO: usize = 32;

/// Room for the bases, the three tables and the pairs.
type Room = [usize; 5];

fn need(n: usize) -> Room {
    [n, cells_of(n), cells_of(n), cells_of(n), n]
}

/// What a sequence is due in so much room: its letters, or the refusal.
fn read(seq: &[u8], [bases, paired, any, arms, pairs]: Room) -> Result<Vec<u8>, Refusal> {
    slow::read(seq, [bases, paired.min(any).min(arms), pairs])
}

pub fn compare(random: &mut Random, size: usize) -> Found {
    let mut calls = Calls::default();
    calls.bench_sheet(random)?;
    calls.ties(random)?;
    calls.all_candidates()?;
    calls.shorter(random, 20 * size)?;
    calls.longer(random, (3 * size).div_ceil(10))?;
    calls.no_bases(random)?;
    calls.short_buffers(random)?;
    calls.limits(random)?;
    for _ in 0..size {
        let length = 1 + random.below(40);
        let seq = spelled(random, length);
        let seq = damaged(random, &seq);
        let room = need(seq.len()).map(|room| match random.below(16) {
            0 => room - 1,
            1 => 0,
            spare => room + spare - 2,
        });
        calls.call(random, &seq, room)?;
    }
    Ok(calls.to_string())
}

/// How much was compared.
#[derive(Default)]
struct Calls {
    enumerated: usize,
    equal: usize,
    near: usize,
    /// By how many thousandths an energy was apart from the original's, at most.
    apart: f64,
    refused: usize,
}

impl std::fmt::Display for Calls {
    fn fmt(&self, f: &mut std::fmt::Formatter) -> std::fmt::Result {
        write!(
            f,
            "energies: {} strands by all their candidates, {} to length {EQUAL_TO} by the original, {} longer ones ({:.3} thousandths apart at most), {} calls refused",
            self.enumerated, self.equal, self.near, self.apart, self.refused
        )
    }
}

/// The five buffers that a fold is lent.
#[derive(Clone)]
struct Lent {
    bases: Vec<u8>,
    tables: [Vec<i32>; 3],
    pairs: Vec<u16>,
}

impl Lent {
    /// Junk: any numbers, or such as could pass for cells.
    fn junk(random: &mut Random, [bases, paired, any, arms, pairs]: Room) -> Lent {
        let wild = random.below(2) == 0;
        let mut number = || match (wild, random.below(4)) {
            (true, _) => random.draw() as i32,
            (false, 0) => NO_STRUCTURE,
            (false, _) => random.below(4000) as i32 - 2000,
        };
        let mut table = |room| (0..room).map(|_| number()).collect();
        let tables = [table(paired), table(any), table(arms)];
        Lent {
            bases: (0..bases).map(|_| random.draw() as u8).collect(),
            tables,
            pairs: (0..pairs).map(|_| random.draw() as u16).collect(),
        }
    }

    fn fold(&mut self, seq: &[u8]) -> yukemasop::Result<i32> {
        let [paired, any, arms] = &mut self.tables;
        folds::zuker_mfe(seq, &mut self.bases, paired, any, arms, &mut self.pairs)
    }

    /// The first difference from the memory that is due, the pairs of the first n apart.
    fn differs(&self, due: &Lent, n: usize) -> Result<(), String> {
        alike("bases", &self.bases, &due.bases)?;
        for (which, what) in ["paired", "any", "arms"].iter().enumerate() {
            alike(what, &self.tables[which], &due.tables[which])?;
        }
        alike("pairs behind", &self.pairs[n..], &due.pairs[n..])
    }
}

fn shown(seq: &[u8]) -> String {
    format!("{:?}", String::from_utf8_lossy(seq))
}

/// The three tables by the rules, one cell after the other.
fn tables(bases: &[u8]) -> [Vec<i32>; 3] {
    let n = bases.len();
    let mut tables = [(); 3].map(|()| vec![NO_STRUCTURE; cells_of(n)]);
    for j in 0..n {
        for i in (0..=j).rev() {
            let [paired, any, arms] = &mut tables;
            let at = |i: usize, j: usize| j * (j + 1) / 2 + i;
            let sum = |a: i32, b: i32| {
                if a.max(b) == NO_STRUCTURE {
                    NO_STRUCTURE
                } else {
                    a + b
                }
            };
            let closed = if charges::may_close(bases, i, j) {
                let inner = (i + 1..j)
                    .flat_map(|x| (x + 1..j).map(move |y| (x, y)))
                    .filter(|&(x, y)| {
                        x - i - 1 <= LONGEST_SIDE
                            && j - y - 1 <= LONGEST_SIDE
                            && charges::may_close(bases, x, y)
                    });
                inner
                    .map(|(x, y)| sum(paired[at(x, y)], charges::own(bases, (i, j), (x, y)).1))
                    .chain([
                        charges::hairpin(bases, i, j),
                        sum(arms[at(i + 1, j - 1)], 3800),
                    ])
                    .min()
                    .expect("a hairpin at least")
            } else {
                NO_STRUCTURE
            };
            paired[at(i, j)] = closed;
            let of = |table: &[i32], first: i32| {
                let ends = if i < j {
                    vec![table[at(i + 1, j)], table[at(i, j - 1)]]
                } else {
                    vec![]
                };
                let splits = (i..j).map(|k| sum(table[at(i, k)], table[at(k + 1, j)]));
                splits
                    .chain(ends)
                    .chain([first])
                    .min()
                    .expect("the first at least")
            };
            any[at(i, j)] = of(any, closed.min(0));
            arms[at(i, j)] = of(arms, sum(closed, 400));
        }
    }
    tables
}

/// Every candidate of the positions from i to before j, added to what stands before.
fn candidates(bases: &[u8], i: usize, j: usize, before: &[u16]) -> Vec<Vec<u16>> {
    if i >= j {
        return vec![before.to_vec()];
    }
    let mut found = candidates(bases, i + 1, j, before);
    for k in i + 1..j {
        if charges::may_close(bases, i, k) {
            let mut joined = before.to_vec();
            (joined[i], joined[k]) = (k as u16, i as u16);
            for inside in candidates(bases, i + 1, k, &joined) {
                found.extend(candidates(bases, k + 1, j, &inside));
            }
        }
    }
    found
}

fn the_originals(seq: &[u8]) -> Result<theirs::MfeResult, String> {
    theirs::zuker_mfe(seq).map_err(|error| format!("the original on {}: {error:?}", shown(seq)))
}

/// The original's structure as a pair table.
fn table_of(structure: &theirs::RnaSecondaryStructure) -> Vec<u16> {
    let entry = |partner: &Option<usize>| partner.map_or(UNPAIRED, |j| j as u16);
    structure.pairs.iter().map(entry).collect()
}

impl Calls {
    /// Any input with any room: the answer by the original or the refusal by the slow reading, and the memory.
    fn call(&mut self, random: &mut Random, seq: &[u8], room: Room) -> Result<(), String> {
        let mut lent = Lent::junk(random, room);
        let mut left = lent.clone();
        let ours = lent.fold(seq);
        let input = format!("{} in room {room:?}", shown(seq));
        let in_memory = |difference| format!("memory after {input}, {difference}");
        let letters = match read(seq, room) {
            Err(refusal) => {
                self.refused += 1;
                same(&input, ours, Err(refusal))?;
                return lent.differs(&left, 0).map_err(in_memory);
            }
            Ok(letters) => letters,
        };
        let n = letters.len();
        left.bases[..n].copy_from_slice(&letters);
        for (table, due) in left.tables.iter_mut().zip(tables(&letters)) {
            table[..due.len()].copy_from_slice(&due);
        }
        lent.differs(&left, n).map_err(in_memory)?;
        let energy = ours.map_err(|refusal| format!("{input}: {refusal}"))?;
        self.judge(&letters, energy, &lent.pairs[..n])
            .map_err(|difference| format!("{input}: {difference}"))
    }

    /// An energy and its structure, by the second reading and by the original.
    fn judge(&mut self, letters: &[u8], energy: i32, pairs: &[u16]) -> Result<(), String> {
        let n = letters.len();
        same("a sound table", slow::unsound(pairs), None)?;
        same("a barred pair", charges::barred(letters, pairs), None)?;
        same(
            "the structure's own energy",
            charges::energy(letters, pairs),
            energy,
        )?;
        let original = the_originals(letters)?;
        let its = table_of(&original.structure);
        let exact = 1000.0 * original.energy;
        if n <= EQUAL_TO {
            self.equal += 1;
            same("energy", energy, exact.round() as i32)?;
            return same("pairs", pairs, &its[..]);
        }
        self.near += 1;
        let most = (n / 31) as i32;
        let apart = (f64::from(energy) - exact).abs();
        self.apart = self.apart.max(apart);
        if apart > f64::from(most) + 1e-6 {
            return Err(format!(
                "energy {energy}, the original's {exact}, more than {most} apart"
            ));
        }
        let its_energy = charges::energy(letters, &its);
        if its_energy < energy || its_energy > energy + most {
            return Err(format!(
                "energy {energy}, the original's structure by our rules {its_energy}"
            ));
        }
        Ok(())
    }

    /// A strand with room to spare, and by the call that has the original's name and shape.
    fn strand(&mut self, random: &mut Random, seq: &[u8]) -> Result<(), String> {
        self.call(random, seq, need(seq.len()).map(|room| room + 3))?;
        let mut lent = Lent::junk(random, need(seq.len()));
        let energy = lent
            .fold(seq)
            .map(|energy| (f64::from(energy) / 1000.0, lent.pairs));
        let ours = yukemasop::zuker_mfe(seq)
            .map(|found| (found.energy, found.structure.pairs))
            .map(|(energy, pairs)| {
                (
                    energy,
                    pairs
                        .iter()
                        .map(|p| p.map_or(UNPAIRED, |j| j as u16))
                        .collect(),
                )
            });
        same(&format!("zuker_mfe of {}", shown(seq)), ours, energy)
    }

    /// A call that must be refused so.
    fn refused(
        &mut self,
        random: &mut Random,
        seq: &[u8],
        room: Room,
        due: Refusal,
    ) -> Result<(), String> {
        let what = format!("the slow reading of {} in room {room:?}", shown(seq));
        same(&what, read(seq, room).err(), Some(due))?;
        self.call(random, seq, room)?;
        if due.number == 4 {
            return Ok(());
        }
        let what = format!("zuker_mfe of {}", shown(seq));
        same(&what, yukemasop::zuker_mfe(seq).err(), Some(due))
    }

    fn line(
        &mut self,
        random: &mut Random,
        seq: &[u8],
        energy: i32,
        text: &str,
    ) -> Result<(), String> {
        self.strand(random, seq)?;
        let ours =
            yukemasop::zuker_mfe(seq).map(|found| (found.energy, found.structure.to_dot_bracket()));
        same(
            &format!("a line on {}", shown(seq)),
            ours,
            Ok((f64::from(energy) / 1000.0, text.to_string())),
        )
    }

    /// The lines on energies that the bench sheet has, and the shortest strands.
    fn bench_sheet(&mut self, random: &mut Random) -> Result<(), String> {
        self.line(random, b"GGAAACC", 0, ".......")?;
        self.line(random, b"GGGAAACCC", -1200, "(((...)))")?;
        self.line(random, b"GGGAAAACCC", -1800, "(((....)))")?;
        self.line(
            random,
            b"GGGAAAAAAGGGAAACCCCCC",
            -3600,
            "(((......(((...))))))",
        )?;
        for seq in [&b"G"[..], b"GC", b"GAC", b"GAAC"] {
            self.line(random, seq, 0, &".".repeat(seq.len()))?;
        }
        Ok(())
    }

    /// Strands with several structures of the least energy, which only the order of choices tells apart.
    fn ties(&mut self, random: &mut Random) -> Result<(), String> {
        self.line(random, b"CGGGGCCCGGCC", -300, "...(((...)))")?;
        for seq in [
            &b"UGGCGGCGCCCGGC"[..],
            b"GGGGAAAACCCCGGGGAAAACCCC",
            b"GGGAAACCCAGGGAAACCC",
        ] {
            self.strand(random, seq)?;
        }
        Ok(())
    }

    /// Every strand to length 9 over two letters that pair, and to length 7 over all four: no candidate is cheaper.
    fn all_candidates(&mut self) -> Result<(), String> {
        for (letters, longest) in [(&b"GC"[..], 9), (b"AU", 9), (b"GU", 9), (b"ACGU", 7)] {
            let mut strands: Vec<Vec<u8>> = vec![vec![]];
            for _ in 0..longest {
                strands = strands
                    .iter()
                    .flat_map(|seq| {
                        letters
                            .iter()
                            .map(move |&base| [&seq[..], &[base]].concat())
                    })
                    .collect();
                for seq in &strands {
                    self.by_all_candidates(seq)?;
                }
            }
        }
        // Longer ones that have many.
        for seq in [
            &b"GGGGAAACCCC"[..],
            b"GCGCGCAAAGCGC",
            b"GGGAAAUCCUAUCC",
            b"GUGUGUGUGUGUGU",
        ] {
            self.by_all_candidates(seq)?;
        }
        Ok(())
    }

    fn by_all_candidates(&mut self, seq: &[u8]) -> Result<(), String> {
        self.enumerated += 1;
        let open = vec![UNPAIRED; seq.len()];
        let least = candidates(seq, 0, seq.len(), &open)
            .iter()
            .map(|table| charges::energy(seq, table))
            .min();
        let ours = yukemasop::zuker_mfe(seq).map(|found| (1000.0 * found.energy).round() as i32);
        same(
            &format!("the least of all candidates of {}", shown(seq)),
            ours.ok(),
            least,
        )
    }

    /// Every length to 32 and so many strands of each temper.
    fn shorter(&mut self, random: &mut Random, count: usize) -> Result<(), String> {
        for round in 0..count {
            let temper = Temper::ALL[round % Temper::ALL.len()];
            let length = 1 + round / Temper::ALL.len() % EQUAL_TO;
            let seq = strand(random, temper, length);
            let ours = yukemasop::zuker_mfe(&seq)
                .map_err(|refusal| format!("{}: {refusal}", shown(&seq)))?;
            let pairs = ours
                .structure
                .pairs
                .iter()
                .map(|p| p.map_or(UNPAIRED, |j| j as u16));
            self.judge(
                &seq,
                (1000.0 * ours.energy).round() as i32,
                &pairs.collect::<Vec<u16>>(),
            )
            .map_err(|difference| format!("{}: {difference}", shown(&seq)))?;
        }
        for length in 1..=EQUAL_TO {
            let seq = spelled(random, length);
            self.strand(random, &seq)?;
        }
        Ok(())
    }

    /// Strands from 33 to 256 bases.
    fn longer(&mut self, random: &mut Random, count: usize) -> Result<(), String> {
        for round in 0..count {
            let temper = Temper::ALL[round % Temper::ALL.len()];
            let length = EQUAL_TO + 1 + random.below(slow::LONGEST - EQUAL_TO);
            let seq = strand(random, temper, length);
            let mut lent = Lent::junk(random, need(length));
            let energy = lent
                .fold(&seq)
                .map_err(|refusal| format!("{}: {refusal}", shown(&seq)))?;
            self.judge(&seq, energy, &lent.pairs)
                .map_err(|difference| format!("{}: {difference}", shown(&seq)))?;
        }
        // The whole memory of some, by the second fill.
        for length in [33, 47, 64, 90] {
            let seq = spelled(random, length);
            self.strand(random, &seq)?;
        }
        Ok(())
    }

    /// Bytes that are no base, at some places, whatever room there is.
    fn no_bases(&mut self, random: &mut Random) -> Result<(), String> {
        for length in [1, 2, 9, 40, slow::LONGEST] {
            let seq = spelled(random, length);
            for place in [0, length / 2, length - 1] {
                for &byte in &NO_BASES {
                    let mut bad = seq.clone();
                    bad[place..].fill(byte);
                    for room in [need(length), [0; 5]] {
                        self.refused(random, &bad, room, refusal(2, Some(place)))?;
                    }
                }
            }
        }
        Ok(())
    }

    /// Some or all of the five buffers one short, with the others just enough or with room to spare.
    fn short_buffers(&mut self, random: &mut Random) -> Result<(), String> {
        for length in [1, 2, 9, 40] {
            let seq = spelled(random, length);
            for short in 1..32 {
                let mut room = need(length);
                for (which, room) in room.iter_mut().enumerate() {
                    if short >> which & 1 == 1 {
                        *room -= 1;
                    } else {
                        *room += random.below(2);
                    }
                }
                self.refused(random, &seq, room, refusal(4, None))?;
            }
        }
        Ok(())
    }

    /// 256 bases are accepted, in just enough room; none is refused as 1 and more as 3, whatever else is wrong.
    fn limits(&mut self, random: &mut Random) -> Result<(), String> {
        let longest = need(slow::LONGEST);
        let seq = strand(random, Temper::GcRich, slow::LONGEST);
        let mut lent = Lent::junk(random, longest);
        let energy = lent
            .fold(&seq)
            .map_err(|refusal| format!("256 bases: {refusal}"))?;
        self.judge(&seq, energy, &lent.pairs)?;
        for which in 0..5 {
            let mut room = longest;
            room[which] -= 1;
            self.refused(random, &seq, room, refusal(4, None))?;
        }
        for room in [[0; 5], [3; 5]] {
            self.refused(random, b"", room, refusal(1, None))?;
        }
        for length in [257, 512, 1 << 16, (1 << 16) + 1] {
            let seq = spelled(random, length);
            self.refused(random, &seq, need(257), refusal(3, None))?;
            self.refused(random, &vec![b'N'; length], [0; 5], refusal(3, None))?;
        }
        Ok(())
    }
}
