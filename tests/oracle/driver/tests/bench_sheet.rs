//! The bench sheet's lines of the list of answers, against the figures typed from the sheet.

/// Gap, strand, count, brackets, energy, brackets; `_` where the sheet says nothing.
const SHEET: [&str; 10] = [
    "3 A 0 . _ _",
    "0 GC 1 () _ _",
    "1 GC 0 .. _ _",
    "3 GGGGCCCC 2 .((...)) _ _",
    "3 GGAAACC _ _ 0.000 .......",
    "3 GGGAAACCC 3 (((...))) -1.200 (((...)))",
    "3 GGGAAAACCC _ _ -1.800 (((....)))",
    "3 GGGAAAAAAGGGAAACCCCCC _ _ -3.600 (((......(((...))))))",
    "3 GGGAAACCA 2 .((...)). _ _",
    "3 GGGAAACCAC 3 (((...)).) _ _",
];

#[test]
fn the_list_starts_with_the_bench_sheet() {
    let mut answers = include_str!("../../../../crates/replay/data/answers.txt").lines();
    for expected in SHEET {
        let answer = answers.next().unwrap_or_default();
        let same = |(a, e): (&str, &str)| e == "_" || a == e;
        assert_eq!(answer.split(' ').count(), 6, "{answer}");
        assert!(
            answer.split(' ').zip(expected.split(' ')).all(same),
            "{answer} but the sheet has {expected}"
        );
    }
}
