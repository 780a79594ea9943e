//! The corpus of lists of actions: those with a stated answer first, then drawn ones.

use super::{number, tally, write, Corpus};
use crate::calls::{self, VALUES, WORK};
use crate::cases::denials::{self, DenialCase};
use crate::cases::Lent;
use crate::generate::Random;
use crate::inputs::lists::{any_list, List};

/// A sheet and a list, with the reference's answer, as the library gives it, and what the place holds then.
pub struct Record {
    pub name: String,
    pub lent: Lent,
    pub sheet: Vec<u8>,
    pub before: usize,
    pub rest: Vec<u8>,
    pub answer: [u8; 4],
    pub place: u64,
}

/// What the place holds before a call.
pub const FRESH: u64 = 170;

fn record(name: String, lent: Lent, sheet: Vec<u8>, before: usize, rest: Vec<u8>) -> Record {
    let short = |area, length: usize| if lent == area { length - 1 } else { length };
    let mut place = [FRESH];
    let mut work = vec![0; short(Lent::ShortWork, WORK)];
    let mut values = vec![0; short(Lent::ShortValues, VALUES)];
    let list = [vec![0; before], rest.clone()].concat();
    let lent_place = &mut place[..short(Lent::ShortOutput, 1)];
    let answer = calls::bytes(calls::explain(&sheet, &list, lent_place, &mut work, &mut values));
    Record { name, lent, sheet, before, rest, answer, place: place[0] }
}

/// All lists, and the longest drawn sheet that is kept.
const LISTS: usize = 325;
const LONGEST: usize = 250;

pub fn all() -> Vec<Record> {
    let stated = denials::all().into_iter();
    let mut all: Vec<Record> = stated
        .map(|DenialCase { name, lent, sheet, before, rest, .. }| record(name, lent, sheet, before, rest))
        .collect();
    let mut random = Random(15);
    while all.len() < LISTS {
        let List { sort, sheet, list } = any_list(&mut random);
        if sheet.len() <= LONGEST {
            all.push(record(sort.into(), Lent::Whole, sheet, 0, list));
        }
    }
    all
}

pub fn corpus(records: &[Record]) -> Corpus {
    let block = |record: &Record| {
        let call = [&[record.lent as u8][..], &number(record.before)].concat();
        let answer = [&record.answer[..], &record.place.to_le_bytes()].concat();
        [record.name.clone().into_bytes(), call, record.sheet.clone(), record.rest.clone(), answer]
    };
    let blocks: Vec<[Vec<u8>; 5]> = records.iter().map(block).collect();
    let stdout = format!(
        "lists {}\nanswers{}\ndisagreements 0\n",
        records.len(),
        tally(records.iter().map(|record| record.answer[0])),
    );
    Corpus { program: "explain_cases", stdin: write(&blocks), stdout }
}
