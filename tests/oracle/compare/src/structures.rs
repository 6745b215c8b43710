//! Bracket text, pair tables, queries and distances, accepted and refused, with the memory before and after.

use crate::slow::{self, refusal};
use crate::{same, Found};
use original::rna_structure as theirs;
use std::collections::VecDeque;
use strands::Random;
use yukemasop::tables::{self, UNPAIRED};
use yukemasop::Refusal;

/// What stands in lent memory before a call, so that a write shows.
const FILL: u16 = 0xBEEF;

pub fn compare(random: &mut Random, size: usize) -> Found {
    let mut calls = Calls::default();
    calls.all_short_texts()?;
    calls.all_short_tables()?;
    calls.limits()?;
    calls.bench_sheet()?;
    for _ in 0..size {
        let length = some_length(random);
        let text = balanced(random, length);
        calls.text(&text)?;
        calls.text(&damaged(random, &text))?;
        calls.text(&noise(random, length.min(300)))?;
        let table = slow::parse(&text, length).expect("balanced text is accepted");
        let other =
            slow::parse(&balanced(random, length), length).expect("balanced text is accepted");
        calls.sound(&table, &other)?;
        calls.tables(&hurt(random, &table), &other)?;
        calls.tables(&hurt(random, &table), &hurt(random, &other))?;
        calls.tables(&table, &table[..length - length.min(1)])?;
    }
    Ok(format!(
        "structures: {} texts, {} tables, {} pairs of tables, {} of all these refused",
        calls.texts, calls.tables, calls.couples, calls.refused
    ))
}

/// How much was compared.
#[derive(Default)]
struct Calls {
    texts: usize,
    tables: usize,
    couples: usize,
    refused: usize,
}

impl Calls {
    /// A text, with room to spare and one position short.
    fn text(&mut self, text: &[u8]) -> Result<(), String> {
        self.texts += 1;
        let shown = String::from_utf8_lossy(text);
        for room in [text.len() + 3, text.len(), text.len().saturating_sub(1)] {
            let due = slow::parse(text, room);
            let mut memory = vec![FILL; room];
            let ours = tables::from_dot_bracket(text, &mut memory);
            same(
                &format!("text {shown:?}"),
                ours,
                due.clone().map(|table| table.len()),
            )?;
            let mut left = due.unwrap_or_default();
            left.resize(room, FILL);
            same(&format!("memory after text {shown:?}"), memory, left)?;
            self.refused += usize::from(ours.is_err());
        }
        if text.is_ascii() && text.len() <= slow::LIMIT {
            self.text_of_the_original(std::str::from_utf8(text).expect("ASCII is UTF-8"))?;
        }
        Ok(())
    }

    fn text_of_the_original(&self, text: &str) -> Result<(), String> {
        let ours = yukemasop::RnaSecondaryStructure::from_dot_bracket(text);
        let original = theirs::RnaSecondaryStructure::from_dot_bracket(text);
        let ours = ours.ok().map(|structure| structure.pairs);
        same(
            &format!("text {text:?} and the original"),
            ours,
            original.ok().map(|structure| structure.pairs),
        )
    }

    /// Two tables that may be unsound: every call, by the slow reading.
    fn tables(&mut self, a: &[u16], b: &[u16]) -> Result<(), String> {
        self.table(a)?;
        self.couples += 1;
        let due = slow::judge_both(a, b);
        self.refused += usize::from(due.is_err());
        let measured = (
            tables::base_pair_distance(a, b),
            tables::mountain_distance(a, b),
        );
        same(
            &format!("distances of {a:?} and {b:?}"),
            (measured.0.map(drop), measured.1.map(drop)),
            (due, due),
        )
    }

    /// One table: every call on it, with room to spare, just enough and one short.
    fn table(&mut self, table: &[u16]) -> Result<(), String> {
        self.tables += 1;
        let judged = slow::judge(table);
        self.refused += usize::from(judged.is_err());
        let pairs = slow::pairs(table);
        same(
            &format!("pairs of {table:?}"),
            tables::num_pairs(table),
            judged.map(|()| pairs.len()),
        )?;
        for i in [
            0,
            table.len() / 2,
            table.len().saturating_sub(1),
            table.len(),
            usize::MAX,
        ] {
            let partner = table
                .get(i)
                .filter(|&&entry| entry != UNPAIRED)
                .map(|&entry| usize::from(entry));
            same(
                &format!("partner of {i} in {table:?}"),
                tables::partner(table, i),
                judged.map(|()| partner),
            )?;
            same(
                &format!("is {i} paired in {table:?}"),
                tables::is_paired(table, i),
                judged.map(|()| partner.is_some()),
            )?;
        }
        let glyph = |(k, &entry): (usize, &u16)| match usize::from(entry) {
            _ if entry == UNPAIRED => b'.',
            partner if k < partner => b'(',
            _ => b')',
        };
        let text: Vec<u8> = table.iter().enumerate().map(glyph).collect();
        written(
            table,
            &text,
            table.len(),
            judged,
            0xEE,
            tables::to_dot_bracket,
        )?;
        let listed: Vec<u16> = pairs
            .iter()
            .flat_map(|&(i, j)| [i as u16, j as u16])
            .collect();
        written(
            table,
            &listed,
            pairs.len(),
            judged,
            FILL,
            tables::base_pairs,
        )
    }

    /// Two sound tables of one length: every call, by the original.
    fn sound(&mut self, a: &[u16], b: &[u16]) -> Result<(), String> {
        self.tables(a, b)?;
        let (ours, other) = (our_structure(a), our_structure(b));
        let (original, original_other) = (their_structure(&ours), their_structure(&other));
        same(
            "text of a table",
            ours.to_dot_bracket(),
            original.to_dot_bracket(),
        )?;
        same("pairs of a table", ours.base_pairs(), original.base_pairs())?;
        same("number of pairs", ours.num_pairs(), original.num_pairs())?;
        for i in [
            0,
            a.len() / 3,
            a.len().saturating_sub(1),
            a.len(),
            a.len() + 1,
        ] {
            same("partner", ours.partner(i), original.partner(i))?;
            same("is paired", ours.is_paired(i), original.is_paired(i))?;
        }
        let distance = theirs::base_pair_distance(&original, &original_other).ok();
        same(
            "base pair distance",
            yukemasop::base_pair_distance(&ours, &other).ok(),
            distance,
        )?;
        let distance = theirs::mountain_distance(&original, &original_other).ok();
        same(
            "mountain distance",
            yukemasop::mountain_distance(&ours, &other).ok(),
            distance,
        )
    }

    /// Every text over `(`, `)`, `.` and `x` to length 8.
    fn all_short_texts(&mut self) -> Result<(), String> {
        let mut waiting = VecDeque::from([Vec::new()]);
        while let Some(text) = waiting.pop_front() {
            self.text(&text)?;
            if text.len() < 8 {
                waiting.extend(b"().x".iter().map(|&byte| [&text[..], &[byte]].concat()));
            }
        }
        Ok(())
    }

    /// Every table to length 5 whose entries are a position, one past the end, or unpaired.
    fn all_short_tables(&mut self) -> Result<(), String> {
        for length in 0..=5u16 {
            let choices: Vec<u16> = (0..=length).chain([UNPAIRED]).collect();
            let mut waiting = VecDeque::from([Vec::new()]);
            while let Some(table) = waiting.pop_front() {
                if table.len() < usize::from(length) {
                    waiting.extend(choices.iter().map(|&entry| [&table[..], &[entry]].concat()));
                } else {
                    self.tables(&table, &table)?;
                }
            }
        }
        Ok(())
    }

    /// 4,096 positions are accepted and 4,097 refused as 3, whatever else is wrong with them.
    fn limits(&mut self) -> Result<(), String> {
        for extra in [0, 1] {
            let length = slow::LIMIT + extra;
            let mut nest = vec![b'('; length / 2];
            nest.resize(length - length / 2, b'.');
            nest.resize(length, b')');
            for text in [
                nest,
                vec![b'.'; length],
                vec![b'x'; length],
                vec![b'('; length],
            ] {
                self.text(&text)?;
            }
            self.tables(&vec![UNPAIRED; length], &vec![UNPAIRED; length])?;
            self.tables(&vec![UNPAIRED; length], &[UNPAIRED])?;
            self.tables(&vec![7; length], &vec![UNPAIRED; length])?;
        }
        let long = vec![UNPAIRED; slow::LIMIT + 1];
        same(
            "4,097 positions",
            tables::num_pairs(&long),
            Err(refusal(3, None)),
        )?;
        same("4,096 positions", tables::num_pairs(&long[1..]), Ok(0))
    }

    /// The lines on text and distances that the bench sheet has.
    fn bench_sheet(&mut self) -> Result<(), String> {
        let lines: [(&[u8], yukemasop::Result<usize>); 4] = [
            (b"", Ok(0)),
            (b")(", Err(refusal(5, Some(0)))),
            (b"(.x", Err(refusal(6, Some(2)))),
            (b".(()", Err(refusal(7, Some(1)))),
        ];
        for (text, due) in lines {
            same(
                "a line of the bench sheet",
                tables::from_dot_bracket(text, &mut [0; 4]),
                due,
            )?;
        }
        let a = slow::parse(b"(((...)))", 9).expect("it is balanced");
        let b = slow::parse(b"((...))..", 9).expect("it is balanced");
        same(
            "base pair distance of the bench sheet",
            tables::base_pair_distance(&a, &b),
            Ok(5),
        )?;
        same(
            "mountain distance of the bench sheet",
            tables::mountain_distance(&a, &b),
            Ok(8),
        )
    }
}

/// A call that writes what is `due` and answers `number`: with room to spare, just enough, and one short.
fn written<T: Copy + PartialEq + std::fmt::Debug>(
    table: &[u16],
    due: &[T],
    number: usize,
    judged: Result<(), Refusal>,
    fill: T,
    call: impl Fn(&[u16], &mut [T]) -> yukemasop::Result<usize>,
) -> Result<(), String> {
    for room in [due.len() + 3, due.len(), due.len().saturating_sub(1)] {
        let answer = match judged {
            Err(refusal) => Err(refusal),
            Ok(()) if room < due.len() => Err(refusal(4, None)),
            Ok(()) => Ok(number),
        };
        let mut left = if answer.is_ok() {
            due.to_vec()
        } else {
            Vec::new()
        };
        left.resize(room, fill);
        let mut memory = vec![fill; room];
        same(
            &format!("what is written of {table:?}"),
            call(table, &mut memory),
            answer,
        )?;
        same(&format!("memory after {table:?}"), memory, left)?;
    }
    Ok(())
}

fn our_structure(table: &[u16]) -> yukemasop::RnaSecondaryStructure {
    let pairs = table
        .iter()
        .map(|&entry| (entry != UNPAIRED).then_some(entry.into()))
        .collect();
    yukemasop::RnaSecondaryStructure {
        pairs,
        length: table.len(),
    }
}

fn their_structure(ours: &yukemasop::RnaSecondaryStructure) -> theirs::RnaSecondaryStructure {
    theirs::RnaSecondaryStructure {
        pairs: ours.pairs.clone(),
        length: ours.length,
    }
}

/// Mostly short, sometimes up to the limit.
fn some_length(random: &mut Random) -> usize {
    match random.below(20) {
        0 => random.below(slow::LIMIT + 1),
        1..=4 => random.below(400),
        _ => random.below(40),
    }
}

/// Balanced bracket text of that length, flat or deep.
fn balanced(random: &mut Random, length: usize) -> Vec<u8> {
    let depth_wanted = 1 + random.below(length + 1);
    let mut text = Vec::with_capacity(length);
    let mut open = 0;
    while text.len() < length {
        let left = length - text.len();
        let byte = match random.below(3) {
            _ if open == left => b')',
            0 if open < depth_wanted && open + 1 < left => b'(',
            1 if open > 0 => b')',
            _ => b'.',
        };
        match byte {
            b'(' => open += 1,
            b')' => open -= 1,
            _ => {}
        }
        text.push(byte);
    }
    text
}

/// The text with one to three bytes changed, mostly to brackets.
fn damaged(random: &mut Random, text: &[u8]) -> Vec<u8> {
    let mut text = text.to_vec();
    for _ in 0..=random.below(3) {
        if !text.is_empty() {
            let at = random.below(text.len());
            text[at] = b"().(x\xC3"[random.below(6)];
        }
    }
    text
}

/// Any bytes, with brackets among them.
fn noise(random: &mut Random, length: usize) -> Vec<u8> {
    (0..length)
        .map(|_| {
            if random.below(8) == 0 {
                random.below(256) as u8
            } else {
                b"().."[random.below(4)]
            }
        })
        .collect()
}

/// The table with one to three entries changed, or two pairs made to cross.
fn hurt(random: &mut Random, table: &[u16]) -> Vec<u16> {
    let mut table = table.to_vec();
    let pairs = slow::pairs(&table);
    if random.below(2) == 0 && pairs.len() >= 2 {
        let (a, b) = pairs[random.below(pairs.len())];
        let (c, d) = pairs[random.below(pairs.len())];
        if a != c {
            // The four positions pair first with third and second with fourth: entries name each other, and cross.
            let mut ends = [a, b, c, d];
            ends.sort_unstable();
            for (i, j) in [(ends[0], ends[2]), (ends[1], ends[3])] {
                table[i] = j as u16;
                table[j] = i as u16;
            }
            return table;
        }
    }
    for _ in 0..=random.below(3) {
        if !table.is_empty() {
            let at = random.below(table.len());
            table[at] = match random.below(4) {
                0 => UNPAIRED,
                1 => random.below(65536) as u16,
                2 => at as u16,
                _ => random.below(table.len()) as u16,
            };
        }
    }
    table
}
