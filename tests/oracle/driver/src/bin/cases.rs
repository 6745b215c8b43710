//! Writes the fixed list of cases, lines "GAP SEQ", that `answers` reads.

use std::io::{self, BufWriter, Write};
use strands::{spell, strand, Random, Spelling, Temper};

/// Changing this, or the order of any draw, changes the whole list.
const SEED: u64 = 1980;

const BENCH_SHEET: [(u64, &str); 10] = [
    (3, "A"),
    (0, "GC"),
    (1, "GC"),
    (3, "GGGGCCCC"),
    (3, "GGAAACC"),
    (3, "GGGAAACCC"),
    (3, "GGGAAAACCC"),
    (3, "GGGAAAAAAGGGAAACCCCCC"),
    (3, "GGGAAACCA"),
    (3, "GGGAAACCAC"),
];

/// Strands that the original folds into loops of two, three and four inner pairs, which random strands rarely have,
/// and two with several structures of the least energy.
const CHOSEN: [(u64, &str); 10] = [
    (3, "GCGGGCCAAAGGCCGGGGAAACCCACGC"),
    (3, "CGGGGCCAAAGGCCAGGGGAAACCCCCCG"),
    (0, "GCCAGUCCAAAGGACACCGAAAACGGGGC"),
    (3, "GGCCCGAAAACGGACGCGAAACGCGGAGCGAAAGCUCGCC"),
    (3, "GGGGAGGGAAACCCCCGGCAACGGCGCGAAACGCGACCCC"),
    (3, "GCCGGGGGAAACCCCAGUCCAAAGGACAGCCGAAAGGCAGGC"),
    (4, "CGCGAGCGCAAAGCGCGGGAAAACCCGGACAAAGUCCAGACCAAAAGGUCACGCG"),
    (
        3,
        "GGCAGGGGAAACCCCAAGAGCGCAAGCUCACCGGAAAACCGGGUCCAAAGGACGCC",
    ),
    (3, "CGGGGCCCGGCC"),
    (3, "UGGCGGCGCCCGGC"),
];

/// The gap 3 stands here often because it is the usual one.
const GAPS: [u64; 17] = [3, 3, 3, 3, 3, 3, 3, 3, 3, 0, 1, 2, 4, 5, 6, 255, u64::MAX];

const SPELLINGS: [Spelling; 8] = [
    Spelling::Upper,
    Spelling::Upper,
    Spelling::Upper,
    Spelling::Upper,
    Spelling::Upper,
    Spelling::Lower,
    Spelling::Mixed,
    Spelling::Thymine,
];

fn main() -> io::Result<()> {
    let mut out = BufWriter::new(io::stdout().lock());
    for (gap, seq) in BENCH_SHEET.into_iter().chain(CHOSEN) {
        writeln!(out, "{gap} {seq}")?;
    }
    let mut random = Random::new(SEED);
    let short = (1..=90).flat_map(|length| [length; 22]);
    let long = [255, 256].into_iter().flat_map(|length| [length; 10]);
    for (length, temper) in short.chain(long).zip(Temper::ALL.into_iter().cycle()) {
        let gap = random.pick(&GAPS);
        let spelling = random.pick(&SPELLINGS);
        let plain = strand(&mut random, temper, length);
        write!(out, "{gap} ")?;
        out.write_all(&spell(&mut random, spelling, &plain))?;
        writeln!(out)?;
    }
    out.flush()
}
