//! Compares Yukemasop with the original, call by call: `compare [SEED [SIZE]]`.
//!
//! `tests/compare` builds and runs it. It ends at the first difference, with the input that shows
//! it and status 1. SIZE is the number of rounds of random cases; what is exhaustive is run in full.
//! `compare soak SEED EDITS`, which `tests/soak` runs, has histories of edits alone.

mod bases;
mod charges;
mod counting;
mod edits;
mod energies;
mod histories;
mod loops;
mod slow;
mod structures;

use std::process::ExitCode;
use strands::Random;

/// What a part of the comparison found: a sentence on what was compared, or the first difference.
type Found = Result<String, String>;

fn same<T: PartialEq + std::fmt::Debug>(what: &str, ours: T, due: T) -> Result<(), String> {
    if ours == due {
        return Ok(());
    }
    Err(format!("{what}: Yukemasop {ours:?}, due {due:?}"))
}

/// Prints what a part found; whether there was no difference.
fn tell(found: Found) -> bool {
    match &found {
        Ok(compared) => println!("{compared}: no difference"),
        Err(difference) => println!("a difference: {difference}"),
    }
    found.is_ok()
}

fn soak(random: &mut Random, edits: usize) -> Found {
    let progress = |tally: &histories::Tally| {
        if tally.edits().is_multiple_of(100_000) {
            println!("{} edits so far, {} refused", tally.edits(), tally.refused);
        }
    };
    histories::compare(random, edits, progress).map(|tally| tally.to_string())
}

fn main() -> ExitCode {
    let words: Vec<String> = std::env::args().skip(1).collect();
    let (soaking, words) = match words.split_first() {
        Some((word, others)) if word == "soak" => (true, others),
        _ => (false, &words[..]),
    };
    let numbers: Result<Vec<u64>, _> = words.iter().map(|word| word.parse()).collect();
    let numbers = numbers.unwrap_or_default();
    if numbers.len() < words.len() || soaking && numbers.len() != 2 {
        eprintln!("compare takes a seed and a size, or `soak`, a seed and a number of edits.");
        return ExitCode::from(2);
    }
    let seed = numbers.first().copied().unwrap_or(1);
    let size = numbers.get(1).copied().unwrap_or(1000) as usize;
    let mut random = Random::new(seed);
    if soaking {
        println!("seed {seed}, {size} edits");
        return ExitCode::from(u8::from(!tell(soak(&mut random, size))));
    }
    println!("seed {seed}, size {size}");
    let parts: [fn(&mut Random, usize) -> Found; 6] = [
        |_, _| bases::compare(),
        structures::compare,
        counting::compare,
        edits::compare,
        loops::compare,
        energies::compare,
    ];
    let passed = parts.iter().all(|part| tell(part(&mut random, size)));
    ExitCode::from(u8::from(!passed))
}
