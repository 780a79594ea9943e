//! The corpus of texts: those with a stated answer first, then drawn ones.

use super::{number, tally, write, Corpus};
use crate::calls;
use crate::cases::texts;
use crate::generate::Random;
use crate::inputs::texts::{any_actions, FAR_TOO_LONG, SORTS};
use crate::text::OUTPUT;

/// A text and what is lent beside it, with the reference's answer, as the library gives it, and sheet.
pub struct Record {
    pub name: String,
    pub output: usize,
    pub actions: Vec<u16>,
    pub text: Vec<u8>,
    pub answer: u64,
    pub sheet: Vec<u8>,
}

fn record(name: String, output: usize, actions: Vec<u16>, text: Vec<u8>) -> Record {
    let mut sheet = vec![0; output];
    let answer = calls::read_text(&text, &actions, &mut sheet);
    let [number, length, ..] = calls::fields(answer);
    sheet.truncate(if number == 0 { length as usize } else { 0 });
    Record { name, output, actions, text, answer, sheet }
}

/// The longest drawn text that is kept, and the longest output.
const LONGEST: usize = 1025;
const LONGEST_OUTPUT: usize = 400;

pub fn all() -> Vec<Record> {
    let stated = texts::all().into_iter();
    let mut all: Vec<Record> = stated.map(|case| record(case.name, case.output, case.actions, case.text)).collect();
    let mut random = Random(9);
    for sort in SORTS.iter().filter(|sort| sort.name != FAR_TOO_LONG) {
        for _ in 0..sort.share {
            let drawn = std::iter::repeat_with(|| (sort.draw)(&mut random)).find(|text| text.len() <= LONGEST);
            let text = drawn.expect("a short one");
            let actions = any_actions(&mut random);
            let output = match random.below(20) {
                0 => OUTPUT - 1,
                1..=3 => OUTPUT + random.below(LONGEST_OUTPUT - OUTPUT + 1),
                _ => OUTPUT,
            };
            all.push(record(sort.name.into(), output, actions, text));
        }
    }
    all
}

pub fn corpus(records: &[Record]) -> Corpus {
    let block = |record: &Record| {
        let actions = record.actions.iter().flat_map(|set| set.to_le_bytes()).collect();
        let answer = [&record.answer.to_le_bytes()[..], &record.sheet].concat();
        [record.name.clone().into_bytes(), number(record.output).to_vec(), actions, record.text.clone(), answer]
    };
    let blocks: Vec<[Vec<u8>; 5]> = records.iter().map(block).collect();
    let stdout = format!(
        "texts {}\nanswers{}\ndisagreements 0\n",
        records.len(),
        tally(records.iter().map(|record| record.answer as u8)),
    );
    Corpus { program: "text_cases", stdin: write(&blocks), stdout }
}
