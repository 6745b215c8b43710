//! What structures cost: the program `loops`, which charges by the proved crate, against a second
//! reading of the rules, and that reading against the original's own loop functions.

use crate::charges::{self, Entry, Kind, PAIRS};
use crate::{same, slow, Found};
use std::io::Write;
use std::process::{Command, Stdio};
use strands::Random;

/// The most that the program reads at once.
const ROOM: usize = 65_536;

/// The longest strand that is charged.
const LONGEST: usize = 256;

/// A strand and its brackets.
struct Case {
    bases: Vec<u8>,
    brackets: Vec<u8>,
}

impl Case {
    fn line(&self) -> Vec<u8> {
        [&self.bases[..], b" ", &self.brackets, b"\n"].concat()
    }

    fn table(&self) -> Vec<u16> {
        slow::parse(&self.brackets, self.brackets.len()).expect("brackets that match")
    }
}

/// A strand that spells the structure: each pair one of `pairs`, each other base one of the four.
fn spelled(random: &mut Random, brackets: Vec<u8>, pairs: &[[u8; 2]]) -> Case {
    let mut bases: Vec<u8> = brackets.iter().map(|_| random.pick(b"ACGU")).collect();
    let table = slow::parse(&brackets, brackets.len()).expect("brackets that match");
    for (i, j) in slow::pairs(&table) {
        [bases[i], bases[j]] = random.pick(pairs);
    }
    Case { bases, brackets }
}

fn dots(n: usize) -> Vec<u8> {
    vec![b'.'; n]
}

fn closed(inside: Vec<u8>) -> Vec<u8> {
    [&b"("[..], &inside, b")"].concat()
}

/// A loop with one inner pair, around a hairpin of three.
fn sides(left: usize, right: usize) -> Vec<u8> {
    closed([dots(left), closed(dots(3)), dots(right)].concat())
}

fn arms(random: &mut Random, count: usize) -> Vec<u8> {
    let mut inside = dots(random.below(3));
    for _ in 0..count {
        inside.extend(closed(dots(3 + random.below(3))));
        inside.extend(dots(random.below(3)));
    }
    closed(inside)
}

/// Every size and every pair of sides, each with each pair of the six outside and inside it.
fn systematic(random: &mut Random) -> Vec<Case> {
    let mut shapes: Vec<Vec<u8>> = (3..LONGEST - 1).map(|size| closed(dots(size))).collect();
    for left in 0..=charges::LONGEST_SIDE + 3 {
        shapes.extend((0..=charges::LONGEST_SIDE + 3).map(|right| sides(left, right)));
    }
    shapes.extend([(0, 60), (60, 0), (1, 120), (120, 120)].map(|(l, r)| sides(l, r)));
    shapes.extend((2..=40).map(|count| arms(random, count)));
    shapes.retain(|shape| shape.len() <= LONGEST);
    let mut cases: Vec<Case> = Vec::new();
    for shape in shapes {
        // The smallest loops with every two pairs, the others with some.
        let rounds = if shape.len() <= 8 { 200 } else { 4 };
        cases.extend((0..rounds).map(|_| spelled(random, shape.clone(), &PAIRS)));
    }
    cases
}

/// A structure of at most `room` positions: loops of every kind inside each other.
fn grown(random: &mut Random, room: usize) -> Vec<u8> {
    if room < 12 {
        return closed(dots(3 + random.below(3)));
    }
    let short = [0, 0, 0, 1, 1, 2, 5, 6];
    match random.below(8) {
        0 => closed(dots(3 + random.below(room - 5))),
        1..=3 => {
            let (left, right) = (random.pick(&short), random.pick(&short));
            let inside = grown(random, room.saturating_sub(left + right + 2));
            closed([dots(left), inside, dots(right)].concat())
        }
        4 => {
            let (left, right) = (
                random.below(33).min(room / 3),
                random.below(33).min(room / 3),
            );
            let inside = grown(random, room.saturating_sub(left + right + 2));
            closed([dots(left), inside, dots(right)].concat())
        }
        _ => {
            let count = (2 + random.below(7)).min(room / 6).max(1);
            let parts: Vec<u8> = (0..count)
                .flat_map(|_| [grown(random, (room - 2) / count), dots(random.below(2))].concat())
                .collect();
            closed(parts)
        }
    }
}

/// A random structure that fits, spelled by pairs of the six, or now and then by any two bases.
fn random_case(random: &mut Random) -> Case {
    let any: Vec<[u8; 2]> = b"ACGU"
        .iter()
        .flat_map(|&a| b"ACGU".map(|b| [a, b]))
        .collect();
    loop {
        let room = 5 + random.below(LONGEST - 4);
        let brackets = [
            dots(random.below(4)),
            grown(random, room),
            dots(random.below(4)),
        ]
        .concat();
        if brackets.len() > LONGEST {
            continue;
        }
        let pairs = if random.below(10) == 0 {
            &any[..]
        } else {
            &PAIRS
        };
        return spelled(random, brackets, pairs);
    }
}

fn kind_text(kind: Kind) -> String {
    match kind {
        Kind::Hairpin(size) => format!("hairpin {size}"),
        Kind::Stack => "stack".to_string(),
        Kind::Bulge(size) => format!("bulge {size}"),
        Kind::Internal(left, right) => format!("internal {left} {right}"),
        Kind::Many(arms) => format!("many {arms}"),
    }
}

/// The line that the program is due.
fn due(case: &Case) -> String {
    let table = case.table();
    if let Some(place) = charges::barred(&case.bases, &table) {
        return format!("barred {place}");
    }
    let entries = charges::account(&case.bases, &table);
    let total = charges::energy(&case.bases, &table);
    let text = |entry: &Entry| {
        format!(
            "{} {} {}, ",
            entry.place,
            kind_text(entry.kind),
            entry.charge
        )
    };
    entries
        .iter()
        .map(text)
        .chain([total.to_string()])
        .collect()
}

/// What the program writes for so many bytes of lines.
fn ask(lines: &[u8]) -> Result<String, String> {
    let words =
        std::env::var("YUKEMASOP_LOOPS").map_err(|_| "YUKEMASOP_LOOPS isn't set".to_string())?;
    let mut words = words.split(' ');
    let mut child = Command::new(words.next().unwrap_or_default())
        .args(words)
        .stdin(Stdio::piped())
        .stdout(Stdio::piped())
        .spawn()
        .map_err(|error| format!("the program `loops`: {error}"))?;
    let mut input = child.stdin.take().expect("a piped input");
    let lines = lines.to_vec();
    let writer = std::thread::spawn(move || input.write_all(&lines));
    let output = child
        .wait_with_output()
        .map_err(|error| error.to_string())?;
    writer
        .join()
        .expect("the writer ends")
        .map_err(|error| error.to_string())?;
    String::from_utf8(output.stdout).map_err(|error| error.to_string())
}

/// The program against the second reading, as many cases at a time as it reads.
fn by_the_program(cases: &[Case]) -> Result<(), String> {
    let mut rest = cases;
    while !rest.is_empty() {
        let mut lines: Vec<u8> = Vec::new();
        let mut count = 0;
        while count < rest.len() && lines.len() + rest[count].line().len() <= ROOM {
            lines.extend(rest[count].line());
            count += 1;
        }
        let answers = ask(&lines)?;
        let answers: Vec<&str> = answers.lines().collect();
        same("lines answered", answers.len(), count)?;
        for (case, answer) in rest[..count].iter().zip(answers) {
            let what = String::from_utf8_lossy(&case.line()).trim_end().to_string();
            same(&what, answer, &due(case))?;
        }
        rest = &rest[count..];
    }
    Ok(())
}

/// The second reading's own figures against the original's loop functions; how many were compared.
fn by_the_original(cases: &[Case]) -> Result<usize, String> {
    let mut compared = 0;
    for case in cases {
        let table = case.table();
        if charges::barred(&case.bases, &table).is_some() {
            continue;
        }
        for (i, _) in slow::pairs(&table) {
            let Some(original) = charges::by_the_original(&case.bases, &table, i) else {
                continue;
            };
            let ours = charges::own_figure(&case.bases, &table, i);
            let what = || String::from_utf8_lossy(&case.line()).trim_end().to_string();
            same(&format!("{} loop at {i}", what()), ours, Some(original))?;
            compared += 1;
        }
    }
    Ok(compared)
}

pub fn compare(random: &mut Random, size: usize) -> Found {
    let mut cases = systematic(random);
    cases.extend((0..4 * size).map(|_| random_case(random)));
    by_the_program(&cases)?;
    let figures = by_the_original(&cases)?;
    Ok(format!(
        "{} structures charged loop by loop, {figures} loops by the original's own functions",
        cases.len()
    ))
}
