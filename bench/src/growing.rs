//! A fold of ours against the original's, on the same strands of growing length.

use std::time::Duration;
use strands::{strand, Random, Temper};

fn ratio(of: Duration, to: Duration) -> f64 {
    of.as_secs_f64() / to.as_secs_f64()
}

/// Prints the times of two folds with their ratio, and how both grow; `folded` gives the original's time and ours.
pub fn measure(original: &str, fold: &str, folded: impl Fn(&[u8]) -> [Duration; 2]) {
    println!("| strand | bases | original, {original} | {fold} | ratio |");
    println!("|---|---|---|---|---|");
    let mut random = Random::new(1);
    let mut growths = Vec::new();
    for temper in Temper::ALL {
        let times = [64, 128, 256].map(|length| {
            let [its, ours] = folded(&strand(&mut random, temper, length));
            println!(
                "| {temper:?} | {length} | {its:?} | {ours:?} | {:.2} |",
                ratio(its, ours)
            );
            [its, ours]
        });
        let [_, half, whole] = times;
        growths.push((temper, ratio(whole[0], half[0]), ratio(whole[1], half[1])));
    }
    println!();
    println!("| strand | growth from 128 to 256 bases, original | {fold} |");
    println!("|---|---|---|");
    for (temper, its, ours) in growths {
        println!("| {temper:?} | {its:.2} | {ours:.2} |");
    }
}
