//! Bracket text to pair table, and the soundness check, against the original's parse of the same text.

use crate::time;
use original::rna_structure::RnaSecondaryStructure;
use yukemasop::tables;

/// One stem of nested pairs, or hairpins of one base side by side.
fn text(deep: bool, length: usize) -> String {
    if deep {
        return "(".repeat(length / 2) + &")".repeat(length / 2);
    }
    "(.).".repeat(length / 4)
}

pub fn measure() {
    println!("| text | positions | original, parse | from_dot_bracket | ratio | soundness check | ratio |");
    println!("|---|---|---|---|---|---|---|");
    for deep in [true, false] {
        for length in [1024, 4096] {
            let text = text(deep, length);
            // The table is not cleared between calls: every call writes all of it.
            let mut table = vec![0; length];
            let original = time(|| RnaSecondaryStructure::from_dot_bracket(&text).is_ok());
            let parse = time(|| tables::from_dot_bracket(text.as_bytes(), &mut table));
            let check = time(|| tables::num_pairs(&table));
            let ratio = |ours: std::time::Duration| original.as_secs_f64() / ours.as_secs_f64();
            println!(
                "| {} | {length} | {original:?} | {parse:?} | {:.2} | {check:?} | {:.2} |",
                if deep { "nested" } else { "flat" },
                ratio(parse),
                ratio(check),
            );
        }
    }
}
