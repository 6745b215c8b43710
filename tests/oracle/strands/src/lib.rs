//! Random strands of several tempers, the same on every run and every machine for one seed.

/// A source of random numbers (splitmix64), wholly given by its seed.
#[derive(Debug, Clone)]
pub struct Random(u64);

impl Random {
    /// Starts the sequence of numbers that belongs to `seed`.
    pub fn new(seed: u64) -> Self {
        Random(seed)
    }

    /// The next number, any of the 2^64.
    pub fn draw(&mut self) -> u64 {
        self.0 = self.0.wrapping_add(0x9e37_79b9_7f4a_7c15);
        let z = (self.0 ^ (self.0 >> 30)).wrapping_mul(0xbf58_476d_1ce4_e5b9);
        let z = (z ^ (z >> 27)).wrapping_mul(0x94d0_49bb_1331_11eb);
        z ^ (z >> 31)
    }

    /// A number from 0 to `bound` - 1; `bound` is at least 1.
    pub fn below(&mut self, bound: usize) -> usize {
        // The remainder's slight lean to small numbers doesn't matter for bounds this small.
        (self.draw() % bound as u64) as usize
    }

    /// One of `from`, which isn't empty; an entry that stands twice comes twice as often.
    pub fn pick<T: Copy>(&mut self, from: &[T]) -> T {
        from[self.below(from.len())]
    }
}

/// What a strand is mostly made of.
#[derive(Debug, Clone, Copy, PartialEq, Eq)]
pub enum Temper {
    /// All four bases alike.
    Uniform,
    /// Mostly G and C: many strong pairs.
    GcRich,
    /// Mostly G and U: many weak pairs and many ties.
    GuRich,
    /// Mostly A: few pairs.
    ARich,
    /// A short stem around one long loop of nearly only A.
    LongHairpin,
}

impl Temper {
    pub const ALL: [Temper; 5] = [
        Temper::Uniform,
        Temper::GcRich,
        Temper::GuRich,
        Temper::ARich,
        Temper::LongHairpin,
    ];
}

/// A strand of `length` bases, spelled in upper-case A, C, G and U.
pub fn strand(random: &mut Random, temper: Temper, length: usize) -> Vec<u8> {
    match temper {
        Temper::Uniform => drawn(random, b"ACGU", length),
        Temper::GcRich => drawn(random, b"GGGCCCAU", length),
        Temper::GuRich => drawn(random, b"GGGUUUAC", length),
        Temper::ARich => drawn(random, b"AAAAACGU", length),
        Temper::LongHairpin => long_hairpin(random, length),
    }
}

fn drawn(random: &mut Random, from: &[u8], length: usize) -> Vec<u8> {
    (0..length).map(|_| random.pick(from)).collect()
}

fn long_hairpin(random: &mut Random, length: usize) -> Vec<u8> {
    // A third at most for each side, so that a short strand keeps a loop too.
    let stem = (3 + random.below(5)).min(length / 3);
    let left = drawn(random, b"GGGCCCAU", stem);
    let inside = drawn(random, b"AAAAAAAAAAAAACGU", length - 2 * stem);
    let right = left.iter().rev().map(|&base| complement(base));
    let mut strand = left.clone();
    strand.extend(inside);
    strand.extend(right);
    strand
}

fn complement(base: u8) -> u8 {
    match base {
        b'A' => b'U',
        b'C' => b'G',
        b'G' => b'C',
        _ => b'A',
    }
}

/// The ways to write one and the same strand.
#[derive(Debug, Clone, Copy, PartialEq, Eq)]
pub enum Spelling {
    Upper,
    Lower,
    /// Each base in either case, and each U as U or T.
    Mixed,
    /// Upper case with T in place of U.
    Thymine,
}

impl Spelling {
    pub const ALL: [Spelling; 4] = [
        Spelling::Upper,
        Spelling::Lower,
        Spelling::Mixed,
        Spelling::Thymine,
    ];
}

/// Writes an upper-case strand of A, C, G and U in another spelling.
pub fn spell(random: &mut Random, spelling: Spelling, strand: &[u8]) -> Vec<u8> {
    let with_t = |base: u8| if base == b'U' { b'T' } else { base };
    let letter = |&base: &u8| match spelling {
        Spelling::Upper => base,
        Spelling::Lower => base.to_ascii_lowercase(),
        Spelling::Mixed => {
            let base = random.pick(&[base, with_t(base)]);
            random.pick(&[base, base.to_ascii_lowercase()])
        }
        Spelling::Thymine => with_t(base),
    };
    strand.iter().map(letter).collect()
}

#[cfg(test)]
mod tests {
    use super::*;

    #[test]
    fn strands_have_the_length_asked_for_and_only_bases() {
        let mut random = Random::new(1);
        for temper in Temper::ALL {
            for length in 0..300 {
                let strand = strand(&mut random, temper, length);
                assert_eq!(strand.len(), length);
                assert!(strand.iter().all(|base| b"ACGU".contains(base)));
            }
        }
    }

    #[test]
    fn a_spelling_is_the_same_strand() {
        let mut random = Random::new(2);
        let plain = strand(&mut random, Temper::Uniform, 300);
        for spelling in Spelling::ALL {
            let spelled = spell(&mut random, spelling, &plain).to_ascii_uppercase();
            let same = |(&s, &p): (&u8, &u8)| s == p || (s == b'T' && p == b'U');
            assert!(spelled.iter().zip(&plain).all(same));
        }
    }
}
