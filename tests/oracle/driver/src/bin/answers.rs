//! Reads lines "GAP SEQ" and writes "GAP SEQ COUNT BRACKETS ENERGY BRACKETS" as the original has it.

use cyanea_core::CyaneaError;
use original::rna_structure::{nussinov, zuker_mfe};
use std::io::{self, BufRead, BufWriter, Write};
use std::process::ExitCode;

fn main() -> ExitCode {
    match run() {
        Ok(()) => ExitCode::SUCCESS,
        Err(sentence) => {
            eprintln!("{sentence}");
            ExitCode::from(2)
        }
    }
}

fn run() -> Result<(), String> {
    let unwritten = |e| format!("The answers can't be written: {e}.");
    let mut out = BufWriter::new(io::stdout().lock());
    for (line, number) in io::stdin().lock().lines().zip(1..) {
        let line = line.map_err(|e| format!("Line {number} can't be read: {e}."))?;
        let answer = answer(&line).map_err(|why| format!("Line {number} {why}."))?;
        writeln!(out, "{answer}").map_err(unwritten)?;
    }
    out.flush().map_err(unwritten)
}

fn answer(line: &str) -> Result<String, String> {
    let (gap, seq) = line
        .split_once(' ')
        .ok_or("isn't a gap, one space and a sequence")?;
    let gap: usize = gap
        .parse()
        .map_err(|_| format!("has the gap {gap:?}, which isn't a whole number of 64 bits"))?;
    let count = nussinov(seq.as_bytes(), gap).map_err(refusal)?;
    let fold = zuker_mfe(seq.as_bytes()).map_err(refusal)?;
    Ok(format!(
        "{gap} {seq} {} {} {} {}",
        count.max_pairs,
        count.structure.to_dot_bracket(),
        three_decimals(fold.energy),
        fold.structure.to_dot_bracket()
    ))
}

fn refusal(error: CyaneaError) -> String {
    let (CyaneaError::Parse(why) | CyaneaError::InvalidInput(why)) = error;
    format!("is refused by the original: {why}")
}

/// Rounds to a whole number of thousandths first, so that a tiny negative isn't "-0.000".
fn three_decimals(energy: f64) -> String {
    let thousandths = (energy * 1000.0).round() as i64;
    let sign = if thousandths < 0 { "-" } else { "" };
    let size = thousandths.unsigned_abs();
    format!("{sign}{}.{:03}", size / 1000, size % 1000)
}

#[cfg(test)]
mod tests {
    use super::*;

    #[test]
    fn energies_have_three_decimals_and_no_negative_zero() {
        assert_eq!(three_decimals(-1.2), "-1.200");
        assert_eq!(three_decimals(-0.05), "-0.050");
        assert_eq!(three_decimals(-0.0004), "0.000");
        assert_eq!(three_decimals(-0.0), "0.000");
        assert_eq!(three_decimals(-12.3456), "-12.346");
    }

    #[test]
    fn bad_lines_are_refused() {
        for line in ["", "3", "3 ", "x GC", "-1 GC", "3  GC", "3 GC ", "3 GXC"] {
            assert!(answer(line).is_err(), "{line:?}");
        }
    }
}
